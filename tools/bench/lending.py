"""A server that lends files, how long its sweeps run, and what a client does about files that are lent to others."""
import os
import time
from collections.abc import Iterable, Iterator
from contextlib import contextmanager
from tempfile import NamedTemporaryFile

from bench.scenes import Scene
from bench.clients import SceneClient, TREE
from bench.servers import serving
from helpers.expecting_client import BOTH, Wrong
from helpers.server_helpers import peer_of
from nfs4tools.messages import NFS4_OK
from nfs4tools.wire import Status


@contextmanager
def server(program: str, lease: int) -> Iterator[tuple[int, Scene]]:
    """The server's process, and a connection to it."""
    with NamedTemporaryFile("w", suffix=".toml") as tree:
        tree.write(TREE)
        tree.flush()
        serve = [program, "serve", "--lease", str(lease), "--tree", tree.name]
        with serving(serve) as served, peer_of(served) as peer:
            yield served.program.pid, Scene(peer)


def sweeper_milliseconds(pid: int) -> float:
    """How long the thread has run so far that the server made first, which is that of the sweeps."""
    thread = sorted(map(int, os.listdir(f"/proc/{pid}/task")))[1]
    with open(f"/proc/{pid}/task/{thread}/schedstat", encoding="ascii") as source:
        return int(source.read().split()[0]) / 1e6


def sweep_alone(pid: int, seconds: float) -> float:
    """How long a sweep runs, of which there is one each second, where nobody calls for so many seconds."""
    begun = sweeper_milliseconds(pid)
    time.sleep(seconds)
    return (sweeper_milliseconds(pid) - begun) / seconds


def renew(clients: Iterable[SceneClient]) -> None:
    for client in clients:
        client.renew()


def call_back(caller: SceneClient, files: Iterable[bytes]) -> None:
    """Each is opened to write, which has to wait."""
    for name in files:
        if (status := caller.open_by_name(name, BOTH).status) != Status.DELAY:
            raise Wrong(f"an OPEN of a file that is lent gets status {status}")


def open_revoked(caller: SceneClient, files: Iterable[bytes]) -> None:
    """Each is opened to write, which needn't wait."""
    for name in files:
        if (status := caller.open_by_name(name, BOTH).status) != NFS4_OK:
            raise Wrong(f"an OPEN of a file of which all is revoked gets status {status}")
