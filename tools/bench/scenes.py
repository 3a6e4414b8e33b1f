"""What there is before the calls that are counted."""
from collections import deque
from collections.abc import Callable, Iterable, Iterator
from itertools import cycle, islice

from bench.clients import NAME, OTHERS, TO_READ, SceneClient
from nfs4tools.processes import Peer
from nfs4tools.wire import READ_LT

# Runs of a byte each, that don't touch, begin at 0, so far from each other; and where the locks of others begin.
STEP, BEYOND = 4, 1 << 20


class Scene:
    """What there is, by one peer. Who comes later has a greater number."""

    def __init__(self, peer: Peer) -> None:
        self.peer, self.count = peer, 0
        # From the oldest on: who has an open of the file, and the lock owners that hold nothing, with their names. And
        # how many clients are lent the other files, and how many runs whoever is measured is to hold.
        self.openers, self.idle = deque[SceneClient](), deque[tuple[SceneClient, bytes]]()
        self.lenders = self.own_runs = 0

    def come(self) -> SceneClient:
        """One more client."""
        self.count += 1
        return SceneClient(self.peer, self.count, self).arrive()


def clients(scene: Scene, count: int) -> None:
    for _ in range(count):
        scene.come()


def lenders(scene: Scene, count: int, files: int = 60) -> list[SceneClient]:
    """The clients."""
    borrowers = [scene.come() for _ in range(count)]
    for client in borrowers:
        be_known(client)
        for name in OTHERS[:files]:
            client.borrow_and_close(name)
    scene.lenders = count
    return borrowers


def readers(scene: Scene, count: int) -> None:
    for _ in range(count):
        client = scene.come()
        be_known(client)
        client.borrow_and_close(NAME)


def owners(scene: Scene, count: int) -> None:
    use(scene.come().owners(islice(cycle(OTHERS), count)))


def closers(scene: Scene, count: int) -> None:
    for owner in list(scene.come().owners(islice(cycle(OTHERS), count))):
        owner.close()


def opens(scene: Scene, count: int) -> None:
    scene.openers.extend(scene.come().owners([NAME] * count))


def locks(scene: Scene, count: int) -> None:
    use(lock_states(scene.come().owners(OTHERS), count))


def idle(scene: Scene, count: int) -> None:
    for owner in lock_states(scene.come().owners(OTHERS), count):
        owner.unlock_byte(owner.byte)
        scene.idle.append((owner, owner.locker))


def neighbours(scene: Scene, count: int) -> None:
    use(lock_states(scene.come().owners([NAME]), count))


def runs(scene: Scene, count: int) -> SceneClient:
    owner = scene.come()
    owner.open_it(NAME)
    lock_runs(owner, count)
    return owner


def read_runs(scene: Scene, count: int) -> None:
    owner = runs(scene, count)
    for number in range(count):
        owner.lock_byte(STEP * number, READ_LT)


def own_runs(scene: Scene, count: int) -> None:
    scene.own_runs = count


# Parts of these.


def use(items: Iterable[SceneClient]) -> None:
    """Has them made."""
    for _ in items:
        pass


def be_known(client: SceneClient) -> None:
    """Its owner is confirmed, which brings no delegation."""
    client.open_it(OTHERS[0], TO_READ)
    client.close()


def lock_states(owners: Iterable[SceneClient], count: int) -> Iterator[SceneClient]:
    """So many lock owners of these owners in turn, each with a lock state of a byte: the owners, as they come."""
    for number, owner in enumerate(islice(cycle(owners), count)):
        owner.lock_as(b"locker %d" % number, BEYOND + STEP * number)
        yield owner


def lock_runs(owner: SceneClient, count: int) -> None:
    owner.lock_as(owner.locker, 0)
    for number in range(1, count):
        owner.lock_byte(STEP * number)


# Each with what there is so many of.
KINDS: dict[str, tuple[Callable[..., object], str]] = {
    "clients": (clients, "live clients"),
    "lenders": (lenders, "live clients that are lent 60 other files each to read; 250x10: 250, ten each"),
    "readers": (readers, "clients that are lent the file to read"),
    "owners": (owners, "owners with an open each, of other files"),
    "closers": (closers, "owners that opened other files, and then closed them, when all had them open"),
    "opens": (opens, "owners with an open each, of the file"),
    "locks": (locks, "lock states of other files, which hold a byte each"),
    "idle": (idle, "lock states of other files, which hold nothing"),
    "neighbours": (neighbours, "lock states of the file, which hold a byte each that isn't in the way"),
    "runs": (runs, "runs for writing, of a byte each, that a lock state of the file holds"),
    "read-runs": (read_runs, "runs for reading, of a byte each, that a lock state of the file holds"),
    "own-runs": (own_runs, "runs, of a byte each, that the lock state of whoever is measured holds"),
}


def read_besides(text: str) -> list[tuple[Callable[..., object], list[int]]]:
    """What each word makes, with its numbers: of `clients=250,lenders=250x10`, say."""
    pairs = [word.partition("=")[::2] for word in text.split(",") if word]
    return [(KINDS[name][0], [int(number) for number in numbers.split("x")]) for name, numbers in pairs]


def spelled(text: str) -> str:
    return text.replace(",", ", ") or "nothing"
