"""Journals: the model's beside their rules, and the built program beside the model.

Of each row the model makes the journal, which has to be lawful, to be read as it was written, and to be shown in words
that spell it. With one word of one answer changed it has to be wrong at just that entry, or no journal: each word of
the journals whose answers are short, and some words of the others, drawn with a fixed seed. Besides there are files
that are no journals, each with the reason, lists of nodes, and entries that can't follow. The program has to say of
each of these files what the model says, and to write the model's file where `once` can carry the row."""
import itertools
import random

import pytest

from helpers.expecting_client import expect, some
from helpers.journal_cases import NOT_JOURNAL, beginnings, file_of, sample, sample_for_clients, small, written_out
from helpers.journal_cases_broken import BROKEN, all_answers, other_lengths, whole_files
from helpers.row_journals import ROW_FILES, journal_of, rows_of
from helpers.verdict_cases import verdicts
from nfs4tools.journal.entries import ARGUMENT_BYTES, Call, Expire, NotJournal, RESTS, answer_bytes, entry_bytes
from nfs4tools.journal.journal import audit, head_bytes, journal_bytes, read_journal, verdict
from nfs4tools.journal.words import answer_words, line_of, operation_words
from nfs4tools.model.server import STATEFUL_BY_PROFILE
from nfs4tools.model.tree import Node, Refused, Tree, tree_of
from nfs4tools.program import can_run_once, ending_of
from nfs4tools.rows import words as rows
from nfs4tools.send.servers import is_refused
from nfs4tools.wire import KNOWN_STATUSES, Opnum, Status, u32

# Of a journal whose answers have at most so many words, each is changed; of any other, so many.
SHORT, DRAWN = 30, 3
# The statuses of SETATTR that it has in the samples; each other one, which has the same form, it never has.
OF_SETATTR = {
    Status.OK,
    Status.NOFILEHANDLE,
    Status.ISDIR,
    Status.INVAL,
    Status.FBIG,
    Status.ROFS,
    Status.BAD_STATEID,
    Status.ATTRNOTSUPP,
    Status.BADXDR,
}
NEVER = {(Opnum.SETATTR, status) for status in KNOWN_STATUSES - OF_SETATTR}


def expect_audit(program, name, data):
    """The program says of a file what the model says."""
    expect(f"an audit of {name}", program.audit(data), ending_of(verdict(data)))


# The journals of rows.


def lawful(journal):
    return True, f"lawful: {len(journal.entries)} entries"


def expect_round(journal):
    """A journal that the model made is lawful, and read and shown as it is."""
    data = journal_bytes(journal)
    expect("the verdict", verdict(data), lawful(journal))
    expect("what is written when it was read", journal_bytes(read_journal(data)), data)
    expect_words(journal)


def expect_words(journal):
    """The lines of entries have words that spell the bytes of the entry."""
    for entry in calls_of(journal):
        head = u32(entry.opnum) + ARGUMENT_BYTES[entry.opnum](entry.arguments)
        spelled = rows.spelled(operation_words(entry, True)), rows.spelled(answer_words(entry.answer, True))
        expect(f"the words of {line_of(entry, journal.tree)}", spelled, (head, answer_bytes(entry.answer)))


def calls_of(journal):
    return [entry for entry in journal.entries if isinstance(entry, Call)]


def answer_places(journal):
    """The place in the file of each word of each answer, with the entry's number."""
    places, at = [], len(head_bytes(journal)) + 4
    for number, entry in enumerate(journal.entries):
        at += len(entry_bytes(entry))
        length = len(answer_bytes(entry.answer)) if isinstance(entry, Call) else 0
        places += [(number, place) for place in range(at - length, at, 4)]
    return places


def with_other_word(data, place, draw):
    word = int.from_bytes(data[place : place + 4], "big")
    others = {(word + 1) % 2**32, (word - 1) % 2**32, word ^ 1 << draw.randrange(32), draw.getrandbits(32)} - {word}
    return data[:place] + u32(draw.choice(sorted(others))) + data[place + 4 :]


def changed(journal, draw):
    """For words of answers: the entry's number, and the file with that word changed."""
    data, places = journal_bytes(journal), answer_places(journal)
    for number, place in places if len(places) <= SHORT else draw.sample(places, DRAWN):
        yield number, with_other_word(data, place, draw)


@pytest.mark.parametrize("file", ROW_FILES)
def test_rows(file, program, add_up):
    draw = random.Random(1)
    for row in rows_of(file):
        journal = journal_of(row)
        if can_run_once(row):
            expect(f"how {row.name} runs", program.wrong_once(row, journal and journal_bytes(journal)), None)
            add_up(1, "rows whose journals the program writes")
        expect(f"whether {row.name} has no journal", journal is None, is_refused(row))
        if journal is None:
            continue
        expect_round(journal)
        expect_audit(program, row.name, journal_bytes(journal))
        add_up(1, "journals")
        add_up(len(journal.entries), "entries")
        others = list(changed(journal, draw))
        expect(f"whether words of {row.name} are changed", bool(others), bool(calls_of(journal)))
        for number, data in others:
            name, said = f"{row.name}: a word changed in entry {number}", verdict(data)
            assert said in ((False, NOT_JOURNAL), (False, f"fault: wrong answer at entry {number}")), name
            expect_audit(program, name, data)
            add_up(1, "no journals" if said[1] == NOT_JOURNAL else "wrong answers")


# Files and lists of nodes.


def reason_of(data):
    """Why the file is no journal, or None where it is one."""
    try:
        read_journal(data)
    except NotJournal as wrong:
        return str(wrong)
    return None


@pytest.mark.parametrize("broken", BROKEN, ids=lambda it: it.__name__)
def test_broken(broken, program, add_up):
    for name, data, reason in some(broken()):
        expect(f"the reason of {name}", reason_of(data), reason)
        expect_audit(program, name, data)
        add_up(1, "files that are no journals")


def test_written_out(program):
    for data, words in some(written_out()):
        expect("what is written", data, bytes.fromhex(words))
        expect_audit(program, "a file written out", data)


def test_whole_files(program, add_up):
    for name, data in some(whole_files()):
        expect(f"the reason of {name}", reason_of(data), None)
        journal = read_journal(data)
        expect_words(journal)
        expect(f"{name}, when it was read", journal_bytes(journal), data)
        expect_audit(program, name, data)
        add_up(1, "files")


def node_lists():
    """All lists of at most three nodes by two names, and whether some document gives them."""
    paths = ["/".join(names) for depth in (1, 2, 3) for names in itertools.product("ab", repeat=depth)]
    documents = (
        (chosen[:first_file], chosen[first_file:])
        for chosen in at_most_three(paths)
        for first_file in range(len(chosen) + 1)
    )
    given = {nodes_given(*document) for document in documents}
    nodes = [
        Node(parent, name, is_file, b"") for parent in range(4) for name in (b"a", b"b") for is_file in (False, True)
    ]
    return [(found, found in given) for found in at_most_three(nodes)]


def at_most_three(choices):
    """All lists of up to three of these."""
    return itertools.chain(*(itertools.product(choices, repeat=count) for count in range(4)))


def nodes_given(directories, files):
    """The nodes beside the root of a document with these paths, or None where it is refused."""
    tree = Tree("")
    try:
        tree.add_all(directories, [(path, b"") for path in files])
    except Refused:
        return None
    return tuple(tree.nodes[1:])


def is_taken(nodes):
    try:
        tree_of(nodes, Tree("").policy)
    except Refused:
        return False
    return True


@pytest.mark.parametrize("part", range(2))
def test_node_lists(part, program, add_up):
    for nodes, is_given in node_lists()[part::2]:
        expect(f"whether the nodes {nodes} are taken", is_taken(nodes), is_given)
        wanted = (True, "lawful: 0 entries") if is_given else (False, NOT_JOURNAL)
        expect(f"an audit of the nodes {nodes}", program.audit(file_of([], nodes)), ending_of(wanted))
        add_up(1, "lists")


# What is said of a journal.


def test_verdicts(program, add_up):
    for name, data, line in some(verdicts()):
        expect(name, verdict(data)[1], line)
        expect_audit(program, name, data)
        add_up(1, "verdicts")


def test_limit():
    data = file_of(small().entries + [Expire(1, 100, 191)])
    for limit, line in (
        (4, "lawful: 4 entries"),
        (3, "fault: wrong answer at entry 3"),
        (2, "fault: wrong answer at entry 2"),
    ):
        expect(f"a limit of {limit} entries", verdict(data, limit)[1], line)


def test_other_lengths(program, add_up):
    for name, data in some(other_lengths()):
        expect(f"whether {name} is lawful", verdict(data)[0], False)
        expect_audit(program, name, data)
        add_up(1, "files")


def test_answers(program, add_up):
    for name, data in some(all_answers()):
        expect_audit(program, name, data)
        add_up(1, "answers")


def test_beginnings(program):
    for name, data in some(beginnings()):
        expect_audit(program, name, data)


SAMPLES = {"sample": sample, "sample for clients": sample_for_clients}


def test_samples():
    """They have all that there is, and are lawful."""
    missing = {key for key in RESTS if key[0] in ARGUMENT_BYTES} - NEVER
    for make in SAMPLES.values():
        journal = make()
        expect_round(journal)
        expect("an audit's journal", audit(journal).journal(), journal)
        missing -= {(call.answer.number, call.answer.status) for call in calls_of(journal)}
    expect("what the samples miss", missing, set())
    expect("the operations that have bytes", set(ARGUMENT_BYTES), set.union(*STATEFUL_BY_PROFILE.values()))


@pytest.mark.parametrize("name", SAMPLES)
def test_other_words(name, program, add_up):
    """Each word of a sample as another one."""
    data, draw = journal_bytes(SAMPLES[name]()), random.Random(2)
    for place in range(0, len(data), 4):
        expect_audit(program, f"another word at {place}", with_other_word(data, place, draw))
        add_up(1, "words")
