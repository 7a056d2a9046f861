"""The Rattle kit's command `rt`, as a module."""
import fcntl
import importlib.machinery
import importlib.util
import os
import shutil
import sys


def rt():
    """Loads `rt`, or returns None where the PATH has none. Its `rtlib` knows the crates of a folder and rattle's words."""
    found = shutil.which("rt")
    if not found:
        return None
    loader = importlib.machinery.SourceFileLoader("rt", os.path.realpath(found))
    module = importlib.util.module_from_spec(importlib.util.spec_from_loader("rt", loader))
    sys.modules["rt"] = module
    loader.exec_module(module)
    return module


def share(crates):
    """Keeps other commands of rt from changing the folders of these crates until this process ends. Readers share them."""
    for folder in sorted({os.path.realpath(it.folder) for it in crates}):
        fcntl.flock(os.open(folder, os.O_RDONLY), fcntl.LOCK_SH)
