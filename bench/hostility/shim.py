"""Builds shim.c, which has the calls of a program fail that it is loaded into."""

import os
import shutil
import subprocess

SOURCE = os.path.join(os.path.dirname(os.path.abspath(__file__)), "shim.c")


def built(folder):
    """Builds the shim into this folder, and gives its path; None where there is no C compiler (cc) that can."""
    compiler = shutil.which("cc")
    if compiler is None:
        return None
    path = os.path.join(folder, "shim.so")
    words = [compiler, "-O2", "-shared", "-fPIC", "-o", path, SOURCE, "-ldl"]
    return path if subprocess.run(words).returncode == 0 else None
