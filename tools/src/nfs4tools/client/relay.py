"""A relay in a process of one's own, for suites of tests."""
from collections.abc import Sequence
from typing import Any, Self

from nfs4tools.between.outcomes import Case
from nfs4tools.between.reading import rule_of
from nfs4tools.between.relay import Between
from nfs4tools.between.reports import Result, fields
from nfs4tools.between.rules import Rule
from nfs4tools.client.replies import ClientError
from nfs4tools.model.tcp import listen
from nfs4tools.trace.watching import Watcher


class RelayError(ClientError):
    """A relay's run wasn't right: a line has WRONG, a rule was never met, or no call passed. The text has all lines."""


class Relay:
    """A relay before the server at this address, by threads of this process. A rule is a `Rule`, or its text.

    `lines` is what it has told so far, and `faults` has each fault with its outcomes. At the end of its `with` block, or
    by `end`, a run that wasn't right is a RelayError. `is_strict` is --strict, and `may_be_idle` is --no-calls. A
    `watcher` sees what passes, with the callbacks, which come through the relay then."""

    def __init__(
        self,
        to: tuple[str, int],
        *rules: "Rule | str",
        lease: int = 90,
        seed: int = 0,
        is_strict: bool = False,
        may_be_idle: bool = False,
        watcher: Watcher | None = None,
    ) -> None:
        self.lines: list[str] = []
        given = [rule_of(rule) if isinstance(rule, str) else rule for rule in rules]
        self.between = Between(given, lease, watcher, seed, self.lines.append)
        self.is_strict, self.may_be_idle, self.has_ended = is_strict, may_be_idle, False
        self.listener = listen("127.0.0.1:0")
        self.host, self.port = self.listener.getsockname()[:2]
        self.between.listen(self.listener, to)

    def __enter__(self) -> Self:
        return self

    def __exit__(self, kind: type[BaseException] | None, *_: Any) -> None:
        """Ends the run; if the test has failed, without looking at how."""
        try:
            if kind is None:
                self.end()
        finally:
            self.close()

    @property
    def address(self) -> tuple[str, int]:
        return self.host, self.port

    @property
    def faults(self) -> Sequence[Case]:
        """The faults that were done so far."""
        return list(self.between.tale.cases)

    @property
    def result(self) -> Result:
        return Result(self.between.tale, None, self.is_strict, self.may_be_idle)

    def report(self) -> dict[str, Any]:
        """The fields of docs/between.schema.json."""
        return fields(self.result)

    def end(self) -> None:
        """Ends the run, once the clients have ended their connections; or RelayError."""
        self.close()
        if not self.result.is_right:
            raise RelayError("\n".join(self.lines))

    def close(self) -> None:
        """Ends the run, and looks at nothing."""
        if self.has_ended:
            return
        self.has_ended = True
        self.between.settle(self.listener, is_left=True)
        self.between.end()
        self.between.close()
