"""Each allocation of memory is refused in turn to the server's program while it audits the file of a journal, and while
it writes one.

An audit has to say what it says without a refusal, or that it has no memory. A file that a run leaves has to be the
model's, after the same replies. It leaves none only if the allocation was refused before the run began, and says why
then. There memory also runs out for good: all allocations after the refused one are refused, too. And after the end of
the input nothing is allocated at all, however long the journal is."""
import pytest

from helpers.expecting_client import Wrong
from helpers.journal_cases import file_of, sample, small
from helpers.refused_allocations import (
    BEFORE,
    JOURNALED,
    LONG,
    REFUSALS,
    allocations_in,
    journal_after,
    model_row,
    named_row,
    shown,
)
from nfs4tools.journal.journal import journal_bytes, verdict
from nfs4tools.program import ending_of, ending_of_once, without_reason

pytestmark = pytest.mark.needs("nfs4state")

FILES = {
    "whole": lambda: journal_bytes(sample()),
    "cut": lambda: journal_bytes(sample())[:-4],
    "unlawful": lambda: file_of([*small().entries, small().entries[0]]),
}
SINCE = pytest.mark.parametrize("since", [False, True], ids=["one", "all after it"])


@pytest.mark.parametrize("name", FILES)
def test_audit(name, program, memory, add_up):
    data = FILES[name]()
    path, wanted = program.file_of(data), ending_of(verdict(data))

    def is_refused(allocation):
        refusal = memory.refusal(allocation)
        status, output, errors = program.run(["audit", path], environment=refusal.environment)
        ending, was_refused = (status, output, without_reason(path, errors)), refusal.took_place()
        assert ending == wanted or was_refused and ending == (1, b"", b"fault: no memory\n"), f"allocation {allocation}"
        return was_refused

    allocations = allocations_in(is_refused)
    assert allocations
    add_up(allocations, "allocations")


@SINCE
@pytest.mark.parametrize("number", range(len(JOURNALED) + 1))
def test_once(number, since, program, memory, add_up):
    """A run that writes the row's journal."""
    row = named_row(number)

    def is_refused(allocation):
        refusal = memory.refusal(allocation, since)
        (status, output, errors), data = program.once(row, refusal.environment)
        when = refusal.when()
        is_undisturbed = (status, errors) == ending_of_once(row)[::2]
        is_refusal = when is not None and status == 1 and errors in REFUSALS
        is_left_out = data is None and when == BEFORE and status == 1
        if not (is_undisturbed or is_refusal) or not (is_left_out or data == journal_after(row, output)):
            raise Wrong(
                f"{row.name}, where allocation {allocation} is refused: status {status}, {errors}, {output.hex()}, and "
                f"the file {shown(data)}"
            )
        return when is not None

    allocations = allocations_in(is_refused)
    assert allocations
    add_up(allocations, "allocations")


# After the end of the input, where nothing is allocated.


@pytest.mark.parametrize("name", LONG)
def test_end(name, program, memory):
    """A run ends as it should, and leaves its journal."""
    row, refusal = model_row(name, *LONG[name]), memory.refusal_at_end()
    ending, data = program.once(row, refusal.environment)
    assert not refusal.took_place()
    assert ending == ending_of_once(row)
    assert data == journal_after(row, ending[1])
