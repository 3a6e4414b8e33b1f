"""What the tests of servers have in common."""
import os
import subprocess

import pytest

from nfs4tools.processes import PROGRAM, Served, tree_for_clients


@pytest.fixture
def serve(path_of):
    """Begins a server, which goes on until its input ends, unless it is to end otherwise."""
    tree = tree_for_clients(path_of(""))

    def begin(*options, until=("--until-input-ends",), **how):
        how = {"stdin": subprocess.PIPE, **how}
        return Served([PROGRAM, "serve", "--listen", "127.0.0.1:0", "--tree", tree, *until, *options], **how)

    return begin


@pytest.fixture
def disk_of(path_of):
    """Mounts a disk of so many KiB, which is gone behind the test: its folder."""
    mounted = []

    def mount(size):
        if os.geteuid() != 0:
            pytest.skip("needs root, to mount a small disk")
        folder = path_of(f"disk{len(mounted)}")
        os.mkdir(folder)
        command = ["mount", "-t", "tmpfs", "-o", f"size={size}k", "tmpfs", folder]
        ran = subprocess.run(command, capture_output=True, text=True)
        if ran.returncode != 0:
            pytest.skip(f"no small disk: {ran.stderr.strip()}")
        mounted.append(folder)
        return folder

    yield mount
    for folder in mounted:
        subprocess.run(["umount", "--lazy", folder], check=True)
