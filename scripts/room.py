"""Rooms for tools: folders that `rt` takes for a repository, with copies of crates that stand here, and a tool's own.

`rt` reads a source only where crates.txt lists its crate, and refuses one anywhere else. So the crates of a tool, for
which no proof of the gate is to wait, lie in its folder under names that end in `.txt`, as
tools/NAME/CRATE/src/main.rt.txt. Its file `crates` has their lines, written as those of crates.txt. In a room these
files have their own names, beside the crates below them. There `rt try` runs them with nothing proved, and `rt ci`
proves them.
"""
import contextlib
import glob
import hashlib
import os
import re
import shutil
import subprocess
import sys
import tempfile
import time

sys.dont_write_bytecode = True

import crates

# What a tool's files are called beyond their names in a room.
SUFFIX = ".txt"
# Seconds between two looks for a program that runs: before it is compiled, and then.
PAUSE, SHORT = 0.2, 0.002
# `rt` with these words, where what a crate stands on is asked once (scripts/kit.py).
RT = "import sys, kit; sys.exit(kit.run_rt(sys.argv[1:]))"


class Unbuilt(Exception):
    """Why a program could not be made."""


def lines_of(tool):
    """The lines of a tool's own crates, by their names."""
    with open(f"{tool}/crates", encoding="utf-8") as file:
        lines = [line for line in file if line.split("#")[0].strip()]
    return {line.partition(":")[0].split()[0]: line for line in lines}


def files_of(tool):
    """The paths of the sources of a tool's crates, sorted."""
    found = []
    for name in lines_of(tool):
        for at, _, files in os.walk(f"{tool}/{name}"):
            found += [f"{at}/{file}" for file in files if file.endswith(SUFFIX)]
    return sorted(found)


def names_below(tool):
    """The crates of the repository on which the tool's crates stand."""
    return crates.below([name for line in lines_of(tool).values() for name in line.partition(":")[2].split()])


def listed(tool):
    """The lines of a room's crates.txt."""
    names = names_below(tool)
    with open(f"{crates.ROOT}/crates.txt", encoding="utf-8") as lines:
        return [line for line in lines if re.split(r"[\s:]", line)[0] in names] + [*lines_of(tool).values()]


def sources(tool, parts=("src",)):
    """All files that the tool is made of, with these parts of the crates below it."""
    return files_of(tool) + [path for name in names_below(tool) for path in crates.files_of(name, parts)]


def lay_out(tool, room, parts=("src",)):
    """Makes a room of this folder, with these parts of the crates below the tool's: `rt try` reads the sources alone.
    One that is there already is made anew."""
    if os.path.exists(room):
        shutil.rmtree(room)
    # By this `rt` takes it for the top of a repository.
    os.makedirs(f"{room}/.git")
    shutil.copy(f"{crates.ROOT}/HANDLES", room)
    with open(f"{room}/crates.txt", "w", encoding="utf-8") as to:
        to.writelines(listed(tool))
    for name in names_below(tool):
        for path in crates.files_of(name, parts):
            put(path, f"{room}/{os.path.relpath(path, crates.ROOT)}")
    for path in files_of(tool):
        put(path, f"{room}/crates/{os.path.relpath(path, tool)}".removesuffix(SUFFIX))


def put(path, to):
    os.makedirs(os.path.dirname(to), exist_ok=True)
    shutil.copyfile(path, to)


def rt(folder, words, environment=None, **how):
    """Starts `rt` with these words in a folder of a room: its top, or that of a crate."""
    environment = dict(os.environ, PYTHONPATH=f"{crates.ROOT}/scripts", **(environment or {}))
    return subprocess.Popen([sys.executable, "-B", "-c", RT, *words], cwd=folder, env=environment, **how)


def tried(tool, name, to, words):
    """The path of the tool's program of this name, made with nothing proved.

    `rt try` runs the program with these words, on which it has to end well, and keeps nothing. What it runs is the file
    `program` in a folder of its own: that gets a second name while it runs.
    """

    def make(log):
        lay_out(tool, f"{to}/room")
        with tempfile.TemporaryDirectory(dir=to) as place:
            how = {"stdin": subprocess.DEVNULL, "stdout": log, "stderr": log}
            running = rt(f"{to}/room/crates/{name}", ["try", *words], dict(TMPDIR=place), **how)
            try:
                keep(running, place, f"{to}/program")
            finally:
                end(running)
        return running.returncode == 0

    return made(tool, name, to, ("src",), make)


def proved(tool, name, to):
    """The path of the tool's program of this name, which is proved with all that it stands on, as `rt ci` makes it."""

    def make(log):
        lay_out(tool, f"{to}/room", crates.PROVED)
        running = rt(f"{to}/room", ["ci"], stdin=subprocess.DEVNULL, stdout=log, stderr=log)
        try:
            running.wait()
        finally:
            end(running)
        shutil.copy(f"{to}/room/crates/{name}/out/{name}", f"{to}/program")
        return running.returncode == 0

    return made(tool, name, to, crates.PROVED, make)


def made(tool, name, to, parts, make):
    """The path of the program in the folder `to`, which is made as `to/program` where it isn't of these sources
    already. What `rt` prints goes to the file `log` there."""
    program, stamp = f"{to}/{name}", f"{to}/made"
    text = sum_of(listed(tool), sources(tool, parts))
    if os.path.exists(program) and read(stamp) == text:
        return program
    with contextlib.suppress(FileNotFoundError):
        os.remove(f"{to}/program")
    with open(f"{to}/log", "wb") as log:
        if not make(log) or not os.path.exists(f"{to}/program"):
            raise Unbuilt(f"see {to}/log")
    os.replace(f"{to}/program", program)
    with open(stamp, "w", encoding="utf-8") as file:
        file.write(text)
    return program


def cache(name):
    """The user's own folder below $TMPDIR for what is kept of the tool of this name."""
    to = os.path.join(tempfile.gettempdir(), f"ctxvet-{name}-{os.getuid()}")
    os.makedirs(to, mode=0o700, exist_ok=True)
    if os.stat(to).st_uid != os.getuid():
        raise Unbuilt(f"{to} is somebody else's")
    return to


def keep(running, place, to):
    """Waits for `rt try`, and gives the program that it runs a second name. That program stands for some hundredths of
    a second in one of the folders that are made when the sources are compiled: then it is looked for all the time."""
    while running.poll() is None and not os.path.exists(to):
        folders = glob.glob(f"{place}/*/*/")
        for folder in folders:
            with contextlib.suppress(OSError):
                os.link(f"{folder}program", to)
        time.sleep(SHORT if folders else PAUSE)
    running.wait()


def end(running):
    """Ends `rt`, which ends what it has started."""
    if running.poll() is None:
        running.terminate()
        running.wait()


def sum_of(lines, paths):
    """A sum of these lines, and of the names and the bytes of these files."""
    sum = hashlib.sha256("".join(lines).encode())
    for path in paths:
        with open(path, "rb") as file:
            data = file.read()
        sum.update(f"{os.path.relpath(path, crates.ROOT)} {len(data)}\n".encode() + data)
    return sum.hexdigest()


def read(path):
    try:
        with open(path, encoding="utf-8") as file:
            return file.read()
    except OSError:
        return None
