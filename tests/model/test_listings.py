"""Random directories, each listed by the model from cookie 0, and then each time from the last entry's cookie, with
maxcounts of which each lets a child in. Each child comes once, by rising numbers, with what GETATTR says of it; no
answer is longer than it may be, or has left out a child that would have fitted; and the end is told where no child is
left, and nowhere before. With one byte less than the first entry needs it is TOOSMALL."""
import random

import pytest

from helpers.expecting_client import expect
from nfs4tools import wire
from nfs4tools.model.attributes import FIRST_COOKIE
from nfs4tools.model.operations.readdir import LISTING_LIMIT, NO_VERIFIER
from nfs4tools.model.server import Server
from nfs4tools.model.state_parts import Result
from nfs4tools.model.tree import DIRECTORIES, FILES, Tree
from nfs4tools.wire import Getattr, Opnum, Readdir, Status, bitmap, opaque

pytestmark = pytest.mark.quick

NOBODY = (0, 0)
# The bytes of an answer without its entries, and those of an entry beside its name, its mask and its values.
ENDS, ENTRY = 16, 12


def directory_of(chance):
    """A document with children of the root, and of a directory in it."""
    longest = chance.choice([3, 20, 250])

    def paths(count, kind, parent):
        return [f"{parent}{kind}{number}{'n' * chance.randint(0, longest)}" for number in range(count)]

    directories = paths(chance.randint(0, DIRECTORIES - 1), "d", "") + ["top"]
    files = paths(chance.randint(0, FILES // 2), "f", "") + paths(chance.randint(0, FILES // 2), "g", "top/")
    chance.shuffle(directories), chance.shuffle(files)
    tables = [f'[[directory]]\npath = "{path}"\n' for path in directories]
    tables += [f'[[file]]\npath = "{path}"\ntext = "{"t" * chance.randint(0, 99)}"\n' for path in files]
    return 'policy.profile = "clients"\n' + "".join(tables)


def ask(server, directory, cookie, maxcount, mask):
    return server.apply(Opnum.READDIR, Readdir(cookie, NO_VERIFIER, 0, maxcount, mask), directory, NOBODY)


def attributes_of(server, child, mask):
    """As GETATTR answers them."""
    return server.apply(Opnum.GETATTR, Getattr(mask), child, NOBODY).rest


def check_answer(server, directory, cookie, maxcount, mask, left):
    """Whether the answer has the first of these children, as many as fit; and how many they are."""
    lengths = [
        ENTRY + len(opaque(server.tree.nodes[child].name)) + len(attributes_of(server, child, mask)) for child in left
    ]
    room, count = min(maxcount, LISTING_LIMIT) - ENDS, 0
    while count < len(left) and sum(lengths[: count + 1]) <= room:
        count += 1
    result = ask(server, directory, cookie, maxcount, mask)
    expect("the status", result.status, Status.OK)
    reader = wire.Reader(result.rest)
    verifier, entries, is_end = wire.read_directory(reader)
    expect("the length", (reader.at, verifier), (len(result.rest), NO_VERIFIER))
    expect("the bytes", len(result.rest), ENDS + sum(lengths[:count]))
    expect("the cookies", [it.cookie for it in entries], [child + FIRST_COOKIE for child in left[:count]])
    expect("the names", [it.name for it in entries], [server.tree.nodes[child].name for child in left[:count]])
    expect(
        "the attributes",
        [bitmap(it.attributes[0]) + opaque(it.attributes[1]) for it in entries],
        [attributes_of(server, child, mask) for child in left[:count]],
    )
    expect("the end", is_end, count == len(left))
    if left:
        less = ask(server, directory, cookie, ENDS + lengths[0] - 1, mask)
        expect("an answer a byte too long", less, Result(Status.TOOSMALL))
    return count


def check_directory(server, directory, chance):
    """How many answers the listing takes."""
    mask = tuple([chance.getrandbits(32), chance.getrandbits(32) & ~(1 << 16 | 1 << 22)][: chance.randint(0, 2)])
    left = [number for number, node in enumerate(server.tree.nodes) if node.parent == directory]
    least = max(
        [
            ENTRY + len(opaque(server.tree.nodes[child].name)) + len(attributes_of(server, child, mask))
            for child in left
        ],
        default=0,
    )
    cookie, answers, is_begun = 0, 0, False
    while left or not is_begun:
        most = chance.choice([0, 1, 100, 1000, 100_000])
        count = check_answer(server, directory, cookie, ENDS + least + chance.randint(0, most), mask, left)
        cookie = left[count - 1] + FIRST_COOKIE if left else cookie
        left, answers, is_begun = left[count:], answers + 1, True
    return answers


@pytest.mark.parametrize("part", range(4))
def test_directories(part, add_up):
    for seed in range(part, 200, 4):
        chance = random.Random(seed)
        server = Server(Tree(directory_of(chance)))
        for directory in 0, server.tree.child(0, b"top"):
            add_up(1, "directories")
            add_up(check_directory(server, directory, chance), "answers")
