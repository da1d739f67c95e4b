"""Runs the cases of `tests`, each in a copy of its folder, and says where an answer is another than the one wanted."""
import difflib
import glob
import os
import shlex
import shutil
import signal
import subprocess
import tempfile

from testing import faults, reading

# Seconds after which a run counts as one that doesn't end.
LONGEST = 20
# The user for whom permissions count, where these cases are run by root.
NOBODY = 65534
AS_ROOT = os.geteuid() == 0


class Room:
    """The folder in which a case is run, and what its runs have: the program, its user, variables that faults need."""

    def __init__(self, program, case, folder):
        self.program, self.case, self.folder = program, case, folder
        self.user, self.faults, self.unreadable = None, {}, []

    def path(self, name):
        return os.path.join(self.folder, name)

    def filled(self, text):
        return text.replace(reading.HERE, self.folder).replace(reading.TOP, reading.ROOT)


def differences(program, case, scratch):
    """The lines that show what is otherwise than wanted, none where all is well. `scratch` is a folder for copies."""
    outer = tempfile.mkdtemp(prefix="case-", dir=scratch)
    os.chmod(outer, 0o755)
    room = Room(program, case, os.path.join(outer, "case"))
    try:
        shutil.copytree(case.folder, room.folder, symlinks=True)
        return [line for run in case.runs for line in differences_of_run(room, run)]
    finally:
        for path in room.unreadable:
            os.chmod(path, 0o700)
        shutil.rmtree(outer, ignore_errors=True)


def differences_of_run(room, run):
    room.faults = {}
    for verb, words in run.preparations:
        VERBS[verb](room, *map(room.filled, words))
    named = [name for name, what, _ in run.files if what == "has the bytes of"]
    made_by_run = [name for name in named if not os.path.lexists(room.path(name))]
    found = []
    for words in run.variants():
        for name in made_by_run:
            if os.path.lexists(room.path(name)):
                os.remove(room.path(name))
        found += compared(room, run, words)
    return found


def compared(room, run, words):
    """How the answer to these words differs from the one wanted, as a diff of transcripts."""
    wanted, got = [], []
    answer = answer_to(room, run, [room.filled(word) for word in words])
    if answer is None:
        wanted, got = ["an end\n"], [f"no end after {LONGEST} seconds\n"]
    else:
        out, err, status = answer
        add_stream(room, run.out, out, "stdout", reading.shown_line, wanted, got)
        add_stream(room, run.err, err, "stderr", "! {}".format, wanted, got)
        add_status(run.status, status, wanted, got)
        add_files(room, run.files, wanted, got)
    diff = diff_of(wanted, got)
    return [f"$ {shown_words(run, words)}\n", *diff] if diff else []


def diff_of(wanted, got):
    """The lines that show how an answer differs from the one wanted, none where it doesn't."""
    return list(difflib.unified_diff(wanted, got, "wanted", "got", n=2))


def shown_words(run, words):
    """A run as a line of `runs`, with the words of one of its variants."""
    before, _, _ = run.line.partition("ctxvet")
    after = f" < {shlex.quote(run.stdin)}" if run.stdin else ""
    return before + " ".join(["ctxvet", *map(shlex.quote, words)]) + after


def answer_to(room, run, words):
    """What the program writes on both streams, and its status; None where it doesn't end in time."""
    given = subprocess.DEVNULL
    folder = room.path(run.folder)
    if run.stdin is not None:
        given = os.open(os.path.join(folder, room.filled(run.stdin)), os.O_RDONLY)
    variables = {name: room.filled(value) for name, value in run.variables.items()}
    environment = {"PATH": os.environ.get("PATH", ""), "LC_ALL": "C", **room.faults, **variables}
    how = {"user": room.user, "group": room.user, "extra_groups": []} if room.user else {}
    try:
        process = subprocess.Popen(
            [room.program, *words], cwd=folder, env=environment, stdin=given, stdout=subprocess.PIPE,
            stderr=subprocess.PIPE, start_new_session=True, **how
        )
    finally:
        if given != subprocess.DEVNULL:
            os.close(given)
    try:
        return *process.communicate(timeout=LONGEST), process.returncode
    except subprocess.TimeoutExpired:
        return None
    finally:
        if process.poll() is None:
            os.killpg(process.pid, signal.SIGKILL)
            process.communicate()


def lines_of(data, shown):
    """Bytes as lines of a transcript; what has no newline at its end says so."""
    *whole, rest = data.decode("utf-8", "surrogateescape").split("\n")
    lines = [shown(line) + "\n" for line in whole]
    return lines + [f"{shown(rest)} (no newline at the end)\n"] * (rest != "")


def add_stream(room, wants, data, stream, shown, wanted, got):
    """Adds what a stream has to have and what it has."""
    if isinstance(wants, reading.Any):
        wanted.append(f"{stream} has something\n")
        got.append(f"{stream} has {'something' if data else 'nothing'}\n")
        missing = [text for text in wants.texts if room.filled(text).encode() not in data]
        wanted += [f"{stream} has {text}\n" for text in missing]
        got += lines_of(data, shown) if missing else []
        return
    if isinstance(wants, reading.Same):
        whole = room.filled(reading.text_of(os.path.join(room.case.folder, wants.name)))
    else:
        whole = room.filled("".join(f"{line}\n" for line in wants.lines))
    wanted += lines_of(whole.encode("utf-8", "surrogateescape"), shown)
    got += lines_of(data, shown)


def add_status(wants, status, wanted, got):
    """Adds the status that a run has to have, or the signal that has to end it, and what it had."""
    wanted.append(f"stopped by {wants}\n" if isinstance(wants, str) else f"status {wants}\n")
    got.append(f"status {status}\n" if status >= 0 else f"stopped by {signal.Signals(-status).name}\n")


def add_files(room, files, wanted, got):
    """Adds what has to stand in files and folders after a run, and what stands there."""
    for name, what, others in files:
        data = data_of(room.path(name))
        if what == "is not there":
            wanted.append(f"{name} is not there\n")
            got.append(f"{name} is {'not ' if data is None else ''}there\n")
        elif what in ("has just", "has nothing"):
            wanted.append(entries_line(name, others))
            got.append(entries_line(name, os.listdir(room.path(name))))
        else:
            wanted += lines_of(data_of(room.path(others[0])) or b"", f"{name}: {{}}".format)
            got += [f"{name} is not there\n"] if data is None else lines_of(data, f"{name}: {{}}".format)


def entries_line(name, entries):
    """What a folder has, as a line of `runs`."""
    return f"{name} has {' '.join(['just', *map(shlex.quote, sorted(entries))]) if entries else 'nothing'}\n"


def data_of(path):
    """The bytes of a file, or None where there is none."""
    if not os.path.lexists(path):
        return None
    if os.path.isdir(path):
        return b"(a folder)\n"
    with open(path, "rb") as file:
        return file.read()


def put(path, data):
    os.makedirs(os.path.dirname(path), exist_ok=True)
    with open(path, "wb") as file:
        file.write(data)


def make_link(room, name, target):
    os.makedirs(os.path.dirname(room.path(name)), exist_ok=True)
    os.symlink(target, room.path(name))


def make_folder(room, name):
    os.makedirs(room.path(name), exist_ok=True)


def make_unreadable(room, name):
    """Takes all permissions from a file. They don't count for root, who runs the program as another user then."""
    os.chmod(room.path(name), 0)
    room.unreadable.append(room.path(name))
    if AS_ROOT:
        room.user = NOBODY
        for folder, folders, names in os.walk(room.folder):
            for one in (folder, *(os.path.join(folder, name) for name in folders + names)):
                os.chown(one, NOBODY, NOBODY, follow_symlinks=False)


def copy(room, name, other):
    os.makedirs(os.path.dirname(room.path(other)), exist_ok=True)
    copy_one = shutil.copytree if os.path.isdir(room.path(name)) else shutil.copyfile
    copy_one(room.path(name), room.path(other))


def remove_one(room, name):
    path = room.path(name)
    shutil.rmtree(path) if os.path.isdir(path) and not os.path.islink(path) else os.remove(path)


def fill(room, *patterns):
    """Writes the folder's name for $PWD in the files of these names or patterns."""
    paths = [path for pattern in patterns for path in glob.glob(room.path(pattern))]
    if not paths:
        raise ValueError(f"no file to fill: {' '.join(patterns)}")
    for path in paths:
        put(path, room.filled(reading.text_of(path)).encode("utf-8", "surrogateescape"))


def repeat(room, name, count, text, end=""):
    """Makes a file of so many times a text, and of what follows."""
    put(room.path(name), reading.bytes_of(text) * int(count) + reading.bytes_of(end))


def put_zeros(room, name, count):
    """Makes a file of so many NUL bytes, which take no room on the disk."""
    put(room.path(name), b"")
    os.truncate(room.path(name), int(count))


def fail_next(room, *words):
    room.faults = faults.variables_for(room.program, words)


VERBS = {
    "link": make_link,
    "folder": make_folder,
    "cannot be read": make_unreadable,
    "copy": copy,
    "remove": remove_one,
    "write": lambda room, name, text: put(room.path(name), reading.bytes_of(text)),
    "repeat": repeat,
    "zeros": put_zeros,
    "fill": fill,
    "fault": fail_next,
}
