"""The libraries that the toolchain's gate proved in this checkout. A copy of the same sources is lent them, so that
only the program is proved again."""
import os
import shutil
from typing import Any

from dev import edits_kept
from nfs4tools.processes import TOP


class Libraries:
    """The libraries of the checkout, and what they were built from."""

    def __init__(self) -> None:
        kit, self.toolchain = edits_kept.toolchain()
        self.sums = edits_kept.Sums(kit)
        self.crates = self.crates_of(TOP)

    def crates_of(self, top: str) -> dict[str, Any]:
        return {crate.name: crate for crate in self.toolchain.crates_below(top)}

    def mark(self) -> None:
        """Says of each library that `rt ci` has just left here from which sources it was built."""
        for crate in self.crates.values():
            if os.path.isdir(crate.rlib):
                edits_kept.mark(crate, self.sums)

    def is_of(self, crate: Any) -> bool:
        """Whether the library that stands here was built from the sources of this crate of a copy."""
        here = self.crates.get(crate.name)
        return (
            here is not None
            and edits_kept.sum_of_crate(here) == edits_kept.sum_of_crate(crate)
            and bool(edits_kept.is_built(here, self.sums))
        )

    def lend(self, room: str, program: str) -> bool:
        """Lends a copy of the sources all libraries below the program, if all of them stand here: whether it did."""
        lent = [crate for name, crate in self.crates_of(room).items() if name != program]
        if not all(self.is_of(crate) for crate in lent):
            return False
        for crate in lent:
            shutil.copytree(self.crates[crate.name].rlib, crate.rlib)
            # The toolchain takes a library for built if this is what it was built from.
            with open(os.path.join(os.path.dirname(crate.rlib), "stamp"), "w", encoding="utf-8") as stamp:
                stamp.write(crate.stamp())
        return True
