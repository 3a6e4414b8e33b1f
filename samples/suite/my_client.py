"""The client under test. `MyClient` is a small client that does right: the tests call its methods as an application
would, and `work` as its event loop would."""
import time
from collections import deque

from nfs4tools import BOTH, CallbackListener, Client, Heard, NONE, OpenFile, Status, StatusError, accept
from nfs4tools.wire import Stateid

# How often an OPEN that is answered NFS4ERR_DELAY is sent, and the seconds between two.
TRIES, PAUSE = 50, 0.02


class MyClient:
    """A client of the server at this address. Your own client needs methods of these names, and raises StatusError where
    the server refuses what the application asked for."""

    def __init__(self, address: tuple[str, int], name: str, lease: int) -> None:
        self.listener = CallbackListener(on_recall=self.keep_recall)
        self.nfs = Client(*address, name, callback=self.listener, timeout=5)
        # A call without a reply is sent again.
        self.nfs.tries = 3
        self.lease, self.since_renewal = lease, 0
        self.recalled: deque[Stateid] = deque()
        self.opened: list[OpenFile] = []

    def end(self) -> None:
        """Closes the files and the connections."""
        for file in list(self.opened):
            self.close(file)
        self.nfs.disconnect()
        self.listener.__exit__()

    # What an application asks for.

    def begin(self) -> None:
        self.nfs.begin()

    def open(self, path: str, access: int = BOTH, deny: int = NONE) -> OpenFile:
        """Opens a file. A file that the server recalls from another client is waited for."""
        for _ in range(TRIES - 1):
            try:
                return self.keep(self.nfs.open(path, access, deny))
            except StatusError as refused:
                if refused.status != Status.DELAY:
                    raise
                self.after_delay()
        return self.keep(self.nfs.open(path, access, deny))

    def keep(self, file: OpenFile) -> OpenFile:
        self.opened.append(file)
        return file

    def after_delay(self) -> None:
        time.sleep(PAUSE)

    def close(self, file: OpenFile) -> None:
        self.opened.remove(file)
        if file.delegation is not None:
            self.nfs.return_delegation(file.delegation)
        self.nfs.close(file)

    def read(self, file: OpenFile) -> bytes:
        return self.nfs.read(file).data

    def write(self, file: OpenFile, data: bytes) -> None:
        self.nfs.write(file, data)

    def lock(self, file: OpenFile, offset: int, length: int) -> None:
        self.nfs.lock(file, offset, length)

    def unlock(self, file: OpenFile, offset: int, length: int) -> None:
        self.nfs.unlock(file, offset, length)

    # What a test asks besides.

    @property
    def number(self) -> int:
        """The lower half of its clientid."""
        return self.nfs.clientid.client

    # What the client does by itself.

    def keep_recall(self, heard: Heard) -> None:
        """A recall comes: it is answered at once, and the delegation is returned by `work`."""
        if heard.call is not None and heard.call.recall is not None:
            self.recalled.append(heard.call.recall.stateid)
        accept(heard)

    def work(self, seconds: int = 0) -> None:
        """So many seconds have passed: renews the lease in time, and returns what was recalled."""
        self.since_renewal += seconds
        if self.since_renewal * 2 >= self.lease:
            self.renew()
        for file in self.opened:
            if file.delegation is not None and file.delegation.stateid in self.recalled:
                self.give_back(file)

    def renew(self) -> None:
        self.nfs.renew()
        self.since_renewal = 0

    def give_back(self, file: OpenFile) -> None:
        if file.delegation is not None:
            self.recalled.remove(file.delegation.stateid)
            self.nfs.return_delegation(file.delegation)
            file.delegation = None

    def recover(self) -> None:
        """The server has ended the client: it begins anew, and its files are gone."""
        self.opened.clear()
        self.recalled.clear()
        self.nfs.begin()
        self.since_renewal = 0
