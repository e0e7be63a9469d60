"""The toolchain's own command `rt`, taken as a module: which crates there are, and how one of them is checked."""
import importlib.machinery
import importlib.util
import os
import shutil
import sys


def load_rt(script):
    """The command's module; the script ends where the command isn't there."""
    file = os.path.realpath(shutil.which("rt") or sys.exit(f"{script}: rt is not on PATH"))
    loader = importlib.machinery.SourceFileLoader("rt_command", file)
    made = importlib.util.module_from_spec(importlib.util.spec_from_loader("rt_command", loader))
    loader.exec_module(made)
    return made
