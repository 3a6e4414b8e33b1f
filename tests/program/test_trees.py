"""The files of a run: the default tree, the samples, and documents of trees that are taken or refused."""
import os

import pytest

from helpers.expecting_client import done
from nfs4tools.messages import GETATTR, NFS4ERR_BADHANDLE, NFS4ERR_NOENT, NFS4_OK, NULL, call, words
from nfs4tools.processes import TOP
from nfs4tools.wire import opaque
from program.program_runs import (
    DUPLICATE,
    NAME,
    ROOT,
    SAMPLE,
    SYNTAX,
    TOO_MANY,
    exchange,
    handle_is,
    look,
    node_is,
    put,
    want,
)

pytestmark = [pytest.mark.needs("nfs4state"), pytest.mark.quick]


def test_files(file_of):
    """The default tree, a file that says the same, and an empty one."""
    found = exchange(1, ROOT, look(b"d"), look(b"c"), handle_is(4))
    for arguments in ["once"], ["once", "--tree", SAMPLE], ["once", f"--tree={SAMPLE}"]:
        want(arguments, *found)
    want(["once", "--tree", file_of("empty.toml", b"")], *exchange(1, ROOT, look(b"d", NFS4ERR_NOENT)))


def test_letters():
    """The sample of README, a tree and two records: type, change, size and handle of `letters/first`, and no `a`."""
    has = words(GETATTR, 1, 0x1A), words(GETATTR, NFS4_OK, 1, 0x1A, 20, 1, 0, 0, 0, 5)
    first = exchange(1, ROOT, look(b"letters"), look(b"first"), has, handle_is(3))
    with open(os.path.join(TOP, "samples/letters.records"), "rb") as records:
        want(
            ["once", "--tree", os.path.join(TOP, "samples/letters.toml")],
            records.read(),
            first[1] + exchange(2, ROOT, look(b"a", NFS4ERR_NOENT))[1],
        )


def test_nodes():
    """Type, size and fileid of the root, `a`, `b`, `d` and `d/c`, and no `c` in the root, as samples/files.toml says
    too. The policy shows in none of these answers."""
    nodes = exchange(
        1,
        ROOT,
        node_is(2, 0, 1),
        look(b"a"),
        node_is(1, 5, 2),
        ROOT,
        look(b"b"),
        node_is(1, 0, 3),
        ROOT,
        look(b"d"),
        node_is(2, 0, 4),
        look(b"c"),
        node_is(1, 0, 5),
        ROOT,
        look(b"c", NFS4ERR_NOENT),
    )
    want(["once"], *nodes)
    want(["once", "--tree", SAMPLE], *nodes)


def test_attributes():
    """Attributes of nodes by the mask that asks for them, of two words at most: the mask and the values that come."""
    all_of = lambda kind, size, node: [
        1,
        0x180FFF,
        kind,
        0,
        0,
        0,
        0,
        size,
        0,
        0,
        0,
        0,
        1,
        0,
        0,
        1,
        90,
        0,
        8,
        0x6E666831,
        node,
        0,
        node + 1,
    ]
    table: list[tuple[int, list[int], list[int], list[int]]] = [
        (1, [0x1A], [0x1A], [1, 0, 0, 0, 5]),
        (3, [0x1A], [0x1A], [2, 0, 0, 0, 0]),
        (4, [0x100002], [0x100002], [1, 0, 5]),
        (0, [0x100000], [0x100000], [0, 1]),
        (1, [0xFFFFFFFF], [0x180FFF], all_of(1, 5, 1)),
        (3, [0xFFFFFFFF], [0x180FFF], all_of(2, 0, 3)),
        # None of those that there are, and two words.
        (1, [0xFFE7F000], [], []),
        (1, [0, 2], [], []),
        (1, [], [], []),
        (1, [2, 0xFFFFFFFF], [2], [1]),
    ]
    pairs = []
    for node, asked, mask, values in table:
        got = done(GETATTR, words(len(mask), *mask) + opaque(words(*values)))
        pairs += [put(node), (words(GETATTR, len(asked), *asked), got)]
    want(["once"], *exchange(1, *pairs))


def numbered(directories, files, more=""):
    """A document of that many directories and files of one name each, `d0` and `f0` and so on, and then this text."""
    tables = [f'[[directory]]\npath = "d{i}"\n' for i in range(directories)]
    return "".join(tables + [f'[[file]]\npath = "f{i}"\n' for i in range(files)]) + more


def directory(path):
    return f'[[directory]]\npath = "{path}"\n'


def file(path, text=None):
    return f'[[file]]\npath = "{path}"\n' + ("" if text is None else f'text = "{text}"\n')


# Documents, by how many nodes their trees have with the root, or by why they are refused. The 65th file is judged
# before what its path says, but not before its name; and a directory may be named again, and needed by a file.
DOCUMENTS = {
    1: [
        "",
        "# none\n[policy]\n",
        '[policy]\ndelegations = "none"\n',
        'policy = { delegations = "read" }\n',
        'policy.callbacks = "assume"\n',
        '[policy]\ndelegations = "all"\ncallbacks = "probe"\nclose_locks = "free"\n',
        'policy.close_locks = "refuse"\n',
    ],
    2: [file("n" * 255, ""), file("n", "t" * 65536)],
    3: [directory("a/b") + directory("a")],
    4: [file("f") + directory("d/e")],
    9: ['file = [{ path = "a/b/c/d/e/f/g/h" }]\n'],
    65: [numbered(0, 64), numbered(64, 0), numbered(64, 0, directory("d63"))],
    66: [numbered(63, 0, file("e/f"))],
    67: [numbered(64, 1, file("d0/a"))],
    129: [numbered(64, 64)],
    SYNTAX: [
        'policy.close_locks = "Refuse"\n',
        'policy.close_locks = "keep"\n',
        "policy.close_locks = true\n",
        "file = 1",
        b"# \xff",
        b'[[file]]\npath = "\xff"\n',
        '[[file]]\nname = "x"\n',
    ],
    NAME: [
        file("x/../y"),
        'file = [{ path = "x/../y" }]',
        'directory = [{ path = "a/a/a/a/a/a/a/a/a" }]',
        file("n" * 256, ""),
        file("n" * 256, "t" * 65537),
        numbered(0, 64, file("..")),
    ],
    TOO_MANY: [
        file("n", "t" * 65537),
        numbered(0, 65),
        numbered(0, 64, file("f0")),
        numbered(0, 64, file("f0/a")),
        numbered(0, 65, file("..")),
        numbered(65, 0),
        numbered(64, 1, file("f0/a/b")),
        numbered(63, 0, directory("e/f")),
        numbered(63, 0, file("e/f/g")),
    ],
    DUPLICATE: [file("x") + file("x/y"), 'file = [{ path = "x" }, { path = "x/y" }]', numbered(64, 1, file("f0/a"))],
}


def test_documents(path_of, file_of):
    """A refused document serves nothing. Of a tree the last node has a filehandle, and no node after it."""
    for wanted, document in [(wanted, document) for wanted, found in DOCUMENTS.items() for document in found]:
        path = file_of("tree.toml", document)
        if isinstance(wanted, str):
            want(["once", "--tree", path], call(7, NULL), fault=wanted, what=path)
            continue
        want(["once", "--tree", path], *exchange(1, put(wanted - 1), put(wanted, NFS4ERR_BADHANDLE)))
    # Directories come first, wherever they stand.
    path = file_of("tree.toml", file("f") + directory("d/e"))
    want(
        ["once", "--tree", path],
        *exchange(1, ROOT, look(b"d"), handle_is(1), look(b"e"), handle_is(2), ROOT, look(b"f"), handle_is(3)),
    )
    for path in path_of("missing"), path_of(""):
        want(["once", "--tree", path], fault="fault: file not read", what=path)
