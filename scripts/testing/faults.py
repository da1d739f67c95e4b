"""What `fault WORDS` in a case does: the system fails the next run, as WORDS say. They are the settings of the shim of
bench/hostile, which is loaded before the C library (bench/hostility/shim.c says what there is).

Where there is no C compiler to build it, the case is left out; so it is with a program that loads no library.
"""
import functools
import os
import sys
import tempfile
import threading

from testing import elf, reading

sys.path.append(os.path.join(reading.ROOT, "bench"))
from hostility import shim

BUILDING = threading.Lock()


class Skipped(Exception):
    """Why a case can't be run here."""


@functools.cache
def folder_of_shim():
    """A folder that goes when the runner ends, which every user may enter."""
    folder = tempfile.TemporaryDirectory(prefix="ctxvet-shim-")
    os.chmod(folder.name, 0o755)
    return folder


@functools.cache
def built_shim():
    return shim.built(folder_of_shim().name)


def variables_for(program, words):
    """The variables of the environment with which a run of this program fails so."""
    if elf.is_static(program):
        raise Skipped("it preloads a library, and this program loads none")
    with BUILDING:
        path = built_shim()
    if path is None:
        raise Skipped("no C compiler (cc)")
    return {"LD_PRELOAD": path, "HOSTILE": ",".join(words)}
