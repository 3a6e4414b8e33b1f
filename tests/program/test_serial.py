"""That the tests of links at once fail where one link is served after the other, as `tools/dev/try_serial` has it."""
import os
import subprocess

import pytest

from nfs4tools.processes import TOP

pytestmark = pytest.mark.needs("rt")


@pytest.mark.long
def test_serial():
    ran = subprocess.run(
        [os.path.join(TOP, "tools/dev/try_serial")], stdout=subprocess.PIPE, stderr=subprocess.STDOUT, text=True
    )
    assert ran.returncode == 0, ran.stdout
