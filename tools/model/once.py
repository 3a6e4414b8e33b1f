#!/usr/bin/env python3
"""Runs `main` of nfs4tools.model.once from this folder, without an installation."""
import os
import sys

sys.path[:1] = [os.path.join(os.path.dirname(os.path.realpath(__file__)), "../src")]
from nfs4tools.model.once import main

if __name__ == "__main__":
    sys.exit(main())
