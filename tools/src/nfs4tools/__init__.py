"""Tools for NFSv4.0. The names of the library for suites of tests (docs/SUITES.md) are here, too: they are imported
from `nfs4tools.client` when they are asked for. Nothing else is imported, so that any Python can say what it lacks."""
import importlib
import pkgutil

from nfs4tools.python_version import require_python

require_python()


def __getattr__(name):
    if name.startswith("_") or name in {it.name for it in pkgutil.iter_modules(__path__)}:
        raise AttributeError("module 'nfs4tools' has no attribute '%s'" % name)
    return getattr(importlib.import_module("nfs4tools.client"), name)
