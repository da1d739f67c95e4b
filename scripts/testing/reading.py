"""Reads the cases of `tests`: each is a folder with a file `runs`, a transcript whose form tests/README.md says."""
import itertools
import os
import re
import shlex
from dataclasses import dataclass, field

ROOT = os.path.dirname(os.path.dirname(os.path.dirname(os.path.abspath(__file__))))
TESTS = os.path.join(ROOT, "tests")
# Stand in `runs` for the folder in which a case is run, and for the repository's top.
HERE, TOP = "$PWD", "$TOP"
STREAMS = {"stdout": "out", "stderr": "err"}
# What is made before a run, and how many words say what: this many, one of these numbers, or any number.
PREPARATIONS = {
    "link": 2,
    "folder": 1,
    "cannot be read": 1,
    "copy": 2,
    "remove": 1,
    "write": 2,
    "repeat": (3, 4),
    "zeros": 2,
    "fill": None,
    "fault": None,
}
PREPARATION = re.compile(rf"({'|'.join(PREPARATIONS)}) (.*)")
STREAM_IS = re.compile(r"(stdout|stderr) is (?:(not looked at)|(.+))")
STREAM_HAS = re.compile(r"(stdout|stderr) has (.+)")
# Quotes between which the escapes count that `bytes_of` knows.
ESCAPED = re.compile(r"\$'((?:[^'\\]|\\.)*)'")
NAME = r"(\$?'(?:[^'\\]|\\.)*'|\S+)"
FILE_HAS = re.compile(rf"{NAME} (?:(has the bytes of|has just) (.+)|(is not there|has nothing))")


class Malformed(Exception):
    """Why a case can't be read."""


@dataclass
class Lines:
    """What a stream has to have: these lines, each with a newline at its end."""

    lines: list = field(default_factory=list)


@dataclass
class Same:
    """What a stream has to have: the bytes of this file of the case."""

    name: str


@dataclass
class Any:
    """What a stream has to have: something, and among it these texts."""

    texts: list = field(default_factory=list)


@dataclass
class Run:
    """A run of the program: what is made before it, its words, and what has to come of it."""

    line: str
    preparations: list
    folder: str = ""
    variables: dict = field(default_factory=dict)
    words: list = field(default_factory=list)
    stdin: str = None
    out: object = None
    err: object = None
    status: object = 0
    files: list = field(default_factory=list)

    def variants(self):
        """The words of each run: `{a,b}` stands for a and then for b."""
        choices = [word[1:-1].split(",") if re.fullmatch(r"\{.*,.*\}", word) else [word] for word in self.words]
        return [list(words) for words in itertools.product(*choices)]


@dataclass
class Case:
    """A case: its name below `tests`, its folder, and its runs."""

    name: str
    folder: str
    runs: list


def bytes_of(text):
    """A text with the escapes \\n, \\t, \\r, \\\\ and \\xNN."""
    data = text.encode("utf-8", "surrogateescape")
    plain = {b"n": b"\n", b"t": b"\t", b"r": b"\r", b"\\": b"\\"}
    escape = rb"\\(?:x([0-9a-fA-F]{2})|([ntr\\]))"
    return re.sub(escape, lambda one: bytes.fromhex(one[1].decode()) if one[1] else plain[one[2]], data)


def split_words(line):
    """The words of a line as a shell splits them, $'..' with its escapes among them."""
    unescaped = lambda one: shlex.quote(bytes_of(one[1]).decode("utf-8", "surrogateescape"))
    return shlex.split(ESCAPED.sub(unescaped, line))


def names_of_cases(top=TESTS):
    """The names of all cases, by name."""
    found = []
    for folder, folders, files in os.walk(top):
        folders.sort()
        if "runs" in files:
            found.append(os.path.relpath(folder, top))
            folders.clear()
    return sorted(found)


def text_of(path):
    with open(path, "rb") as file:
        return file.read().decode("utf-8", "surrogateescape")


def read_case(name, top=TESTS):
    """The case of this name."""
    folder = os.path.join(top, name)
    packages = os.path.join(folder, "packages")
    star = text_of(packages).split() if os.path.isfile(packages) else None
    runs, preparations = [], []
    for number, line in enumerate(text_of(os.path.join(folder, "runs")).split("\n"), 1):
        try:
            read_line(line, runs, preparations, star)
        except (Malformed, ValueError) as fault:
            raise Malformed(f"{name}/runs:{number}: {fault}") from None
    if preparations or not runs:
        raise Malformed(f"{name}/runs: a run is missing at its end")
    return Case(name, folder, runs)


def read_line(line, runs, preparations, star):
    """Adds what a line of `runs` says to the runs before it, or to what is made before the next one."""
    preparation = PREPARATION.fullmatch(line)
    if not line or line.startswith("#"):
        return
    if line.startswith("$ "):
        runs.append(read_run(line[2:], list(preparations), star))
        preparations.clear()
    elif preparation:
        words = split_words(preparation[2].replace(" -> ", " ") if preparation[1] == "link" else preparation[2])
        count = PREPARATIONS[preparation[1]]
        if count is not None and len(words) not in (count if isinstance(count, tuple) else (count,)):
            raise Malformed(f"{preparation[1]} takes {count} words")
        preparations.append((preparation[1], words))
    elif preparations or not runs:
        raise Malformed("stands before a run, and is none of what can be made before it")
    else:
        read_answer(line, runs[-1])


def read_run(line, preparations, star):
    """The run of `$ LINE`."""
    run = Run(line, preparations, out=Lines(), err=Lines())
    words = split_words(line)
    if words[:1] == ["in"] and len(words) > 1 and words[1].endswith(":"):
        run.folder, words = words[1][:-1], words[2:]
    while words and re.match(r"\w+=", words[0]):
        name, _, value = words.pop(0).partition("=")
        run.variables[name] = value
    if words[:1] != ["ctxvet"]:
        raise Malformed("runs no ctxvet")
    if words[-2:-1] == ["<"]:
        run.stdin, words = words[-1], words[:-2]
    if "*" in words and star is None:
        raise Malformed("there is no file `packages` for *")
    run.words = [one for word in words[1:] for one in (star if word == "*" else [word])]
    return run


def read_answer(line, run):
    """Adds what this line says of a run's answer."""
    stream, piece, file = STREAM_IS.fullmatch(line), STREAM_HAS.fullmatch(line), FILE_HAS.fullmatch(line)
    if line.startswith("\\"):
        add_line(run, "out", line[1:])
    elif line == "!" or line.startswith("! "):
        add_line(run, "err", line[2:])
    elif re.fullmatch(r"status \d+", line):
        run.status = int(line[7:])
    elif re.fullmatch(r"stopped by SIG\w+", line):
        run.status = line[11:]
    elif stream:
        replace_lines(run, STREAMS[stream[1]], Any() if stream[2] else Same(stream[3]))
    elif piece:
        add_piece(run, STREAMS[piece[1]], piece[2])
    elif file:
        run.files.append((*split_words(file[1]), file[2] or file[4], split_words(file[3] or "")))
    else:
        add_line(run, "out", line)


def add_piece(run, stream, text):
    """Adds a text that this stream has to have among other lines."""
    if not isinstance(getattr(run, stream), Any):
        replace_lines(run, stream, Any())
    getattr(run, stream).texts.append(text)


def add_line(run, stream, line):
    if not isinstance(getattr(run, stream), Lines):
        raise Malformed("what this stream has is said before")
    getattr(run, stream).lines.append(line)


def replace_lines(run, stream, wanted):
    if getattr(run, stream) != Lines():
        raise Malformed("what this stream has is said before")
    setattr(run, stream, wanted)


def shown_line(line):
    """A line of standard output as it stands in `runs`."""
    if not line or re.match(r"[\\#]|[$!](?: |$)", line) or PREPARATION.fullmatch(line) or is_of_an_answer(line):
        return "\\" + line
    return line


def is_of_an_answer(line):
    run = Run("", [], out=Lines(), err=Lines())
    read_answer(line, run)
    return run.out != Lines([line])
