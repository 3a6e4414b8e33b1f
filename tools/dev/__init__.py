"""The commands that only a developer of this repository runs: each is the module of its name."""
from nfs4tools.python_version import require_python

require_python()
