"""The toolchain's command rt, run in the same process, so that it asks each crate once.

`rt` asks a crate which libraries stand below it, and for a sum of all that it is made of, by asking each library that
the crate names, which asks its own. So it asks once for each chain of crates, and of those there are millions here.
Here an answer is remembered in the course of such a call, and comes out the same. Nothing else of rt is touched, and
no other name of its inside is used. Where these are gone, or anything else goes wrong before the first check, plain
`rt` runs.
"""
import copy
import functools
import importlib.machinery
import importlib.util
import os
import shutil
import sys
import threading

# The methods of a crate that ask all crates below.
ASKED = ("below", "stamp")
# How many crates may stand below one on which these methods are compared with what they were.
SMALL = 5


def load_rt():
    """The command rt on the PATH as a module."""
    path = os.path.realpath(shutil.which("rt") or "rt")
    with open(path, "rb") as file:
        if b"python" not in file.readline():
            raise ImportError("rt is no program in Python")
    loader = importlib.machinery.SourceFileLoader("rt_itself", path)
    made = importlib.util.module_from_spec(importlib.util.spec_from_loader("rt_itself", loader))
    sys.modules["rt_itself"] = made
    loader.exec_module(made)
    return made


def asked_once(method):
    """This method, for which each crate below is asked once in the course of a call; a later call asks all anew."""
    course, compared = threading.local(), []

    def call(crate, known):
        course.known = known
        try:
            return method(crate)
        finally:
            course.known = None

    def first(crate):
        known = {}
        answer = call(crate, known)
        # A sum may change meanwhile, with the files. A list may not.
        if not compared and isinstance(answer, list) and 1 < len(known) <= SMALL:
            compared.append(crate)
            if call(crate, "nothing") != answer:
                raise ValueError(f"rt's {method.__name__} gives something else where each crate is asked once")
        return answer

    @functools.wraps(method)
    def asked(crate):
        known = getattr(course, "known", None)
        if known is None:
            return first(crate)
        if known == "nothing":
            return method(crate)
        # The crate stands beside its answer, so that no other one gets its number meanwhile.
        if id(crate) not in known:
            known[id(crate)] = crate, method(crate)
        return copy.copy(known[id(crate)][1])

    return asked


def ask_once(rt):
    """Has rt ask each crate once. Where it does so already, as `rattle-kit-13f` for the sum, this changes nothing."""
    crate = rt.rtlib.Crate
    found = [name for name in ASKED if callable(getattr(crate, name, None))]
    if not found:
        raise LookupError(f"rt's crates have no method {' or '.join(ASKED)}")
    for name in found:
        setattr(crate, name, asked_once(getattr(crate, name)))


def is_check(words):
    """Whether this command has the prover, rattle, do more than read and lay out texts."""
    words = [str(word) for word in (words if isinstance(words, (list, tuple)) else [words])]
    return any(os.path.basename(word) == "rattle" for word in words) and not {"fmt", "--help"} & set(words)


def note_checks():
    """Gives a list that has something in it once the prover was started."""
    begun = []

    def note(event, given):
        if event == "subprocess.Popen" and not begun and is_check(given[1]):
            begun.append(given[1])

    sys.addaudithook(note)
    return begun


def run_rt(words):
    """Does what `rt` does with these words, and gives its status. What goes wrong before the first check is tried again
    by plain rt, in place of this process. What goes wrong later, and how rt itself ends, is not."""
    folder, begun, is_ready = os.getcwd(), note_checks(), False
    sys.argv = ["rt", *words]
    try:
        rt = load_rt()
        sys.argv[0] = rt.__file__
        ask_once(rt)
        is_ready = True
        return rt.main(words)
    except KeyboardInterrupt:
        raise
    except BaseException as error:
        if begun or is_ready and isinstance(error, SystemExit):
            raise
        print(f"plain rt {' '.join(words)} runs, since {type(error).__name__}: {error}", file=sys.stderr, flush=True)
    sys.stdout.flush()
    os.chdir(folder)
    os.execvp("rt", ["rt", *words])
