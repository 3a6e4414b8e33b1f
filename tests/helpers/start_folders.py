"""Folders from which `./start` serves with the server that a test wants: the tests run the commands of the pages and
the samples as they are, and which server answers depends on the folder alone."""
import os

from nfs4tools.processes import TOP

# What a folder hasn't of the repository: git's own, the release, and what was built.
LEFT_OUT = {".git", "dist", "out"}


def room_for(folder: str, program: str | None) -> str:
    """Gives the folder all that stands at the top of the repository. There `start` finds this program, as one that was
    built without a proof, or nothing but the model."""
    for name in sorted(set(os.listdir(TOP)) - LEFT_OUT):
        os.symlink(os.path.join(TOP, name), os.path.join(folder, name))
    if program is not None:
        built = os.path.join(folder, "out/unproved")
        os.makedirs(built)
        os.symlink(program, os.path.join(built, "nfs4state"))
    return folder


def is_named(said: str, program: str | None) -> bool:
    """Whether `start` says that this program serves, or the model."""
    return ("start: the independent model" if program is None else "start: nfs4state ") in said
