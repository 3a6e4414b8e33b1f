"""What the tests of callbacks have in common."""
import subprocess
from contextlib import contextmanager
from itertools import count

import pytest

from callbacks.callback_runs import Run
from helpers.server_helpers import SERVERS
from nfs4tools.processes import Served


@pytest.fixture(params=SERVERS)
def command(request):
    """How a server is started: the program, then the model."""
    return request.param


@pytest.fixture
def run(command, path_of):
    """Begins a server with these options, as a `Run`: it takes orders, or serves so many connections."""
    numbers = count()

    @contextmanager
    def begin(*options, connections=None, **how):
        path = path_of(f"{next(numbers)}.journal")
        until = ["--orders"] if connections is None else ["--connections", str(connections)]
        words = [*command, "--listen", "127.0.0.1:0", "--journal", path, *until, *options]
        with Served(words, stdin=subprocess.PIPE, **how) as served:
            yield Run(served, path, connections is None)

    return begin
