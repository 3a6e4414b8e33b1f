"""Measurements of the built programs. README.md says how they are made."""
from nfs4tools.python_version import require_python

require_python()
