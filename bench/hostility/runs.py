"""How bench/hostile runs the program, how a run may end, and how what came of it is counted and told."""

import collections
import contextlib
import os
import re
import resource
import shlex
import shutil
import signal
import struct
import subprocess
import time

from hostility import shim

# Seconds of a processor, and seconds by the clock, after which a run counts as one that doesn't end.
LONGEST = 120
LONGEST_WAIT = 900
# So many runs of a section that end otherwise than they may are told one by one.
MOST_TOLD = 10

# Of each fault that a run may end with, by its name in the code, a word for the count.
WORDS = {
    "BadPackage": "bad package",
    "CannotRead": "cannot read",
    "CannotWrite": "cannot write",
    "CannotWriteFile": "cannot write",
    "TwoPackages": "two packages",
    "TooManyPackages": "too many packages",
    "CertificateNotJson": "not JSON",
    "CertificateWrongShape": "another shape",
    "CertificateWrongVersion": "version not known",
    "CertificateTooOld": "version too old",
    "FactsNotJson": "facts not JSON",
    "FactsWrongShape": "facts of another shape",
    "FactsWrongVersion": "facts version not known",
    "FactsReserved": "reserved path",
    "FactsNameGiven": "given package",
    "BaselineNotJson": "baseline not JSON",
    "BaselineWrongShape": "baseline of another shape",
    "UnitNotJson": "unit not JSON",
    "UnitWrongShape": "unit of another shape",
    "VetxNotJson": "vetx not JSON",
    "VetxWrongShape": "vetx of another shape",
    "VetxWrongVersion": "vetx version not known",
    "VetxOfAnotherPackage": "vetx of another package",
    "VetxOfAnotherEdition": "vetx of another edition",
    "VetxOfOtherFacts": "vetx of other facts",
    "NoThread": "no thread",
    "OutOfMemory": "out of memory",
    "WordNotText": "word is not UTF-8",
}


def texts_of_faults():
    """What the program says of each fault, by its name in the code. {} stands for a name."""
    top = os.path.dirname(os.path.dirname(os.path.dirname(os.path.abspath(__file__))))
    with open(os.path.join(top, "crates/folders/src/fault.rt"), encoding="utf-8") as file:
        found = re.findall(r'#\[error\("(.*)"\)\]\s+(\w+)', file.read())
    return {name: text.replace("{0}", "{}") for text, name in found}


TEXTS_OF_FAULTS = texts_of_faults()
# What a line on standard error may say after `ctxvet: `, and a word for the count.
FAULTS = {TEXTS_OF_FAULTS[name]: word for name, word in WORDS.items()}


def line_of(fault, name=""):
    """The line of the fault of this name in the code, about the file or package of this name."""
    return f"ctxvet: {TEXTS_OF_FAULTS[fault].format(name)}\n".encode()


OUT_OF_MEMORY = b"ctxvet: out of memory\n"
NO_THREAD = b"ctxvet: a thread could not be started\n"
UNWRITTEN = b"ctxvet: cannot write: standard output\n"
NOTE = (
    rb"ctxvet: note: (?:no Go files in [^\n]*|\d+ packages: \d+ yes, \d+ no; \d+ findings"
    rb"|\d+ packages: \d+ yes, \d+ accepted, \d+ no; \d+ findings, \d+ accepted"
    rb"|\d+ findings of the baseline are gone)\n"
)

# The texts of findings by both editions, by code.
TEXTS = {
    "LC01": "not UTF-8|NUL byte|(?:string|comment|rune) not ended|character of no token|file over 1 MiB",
    "LC02": "unexpected token|deeper than 200|left out: (?:type parameters|goto|fallthrough|dot import|recover)",
    "LC03": "cancel function discarded",
    "LC04": "overwritten before it is called",
    "LC05": "may not have been called at this return|is not called on every path to this return",
    "LC06": "cancel function used in another way|is used in a way that is not followed",
    "LC07": "group may be live at this return|is not waited for on every path to this return",
    "LC08": "overwritten before Wait",
    "LC09": "group used in another way|is used in a way that is not followed",
    "LC10": "(?:is )?left to a group that (?:may be live at|is not waited for on every path to) this return",
    "LC11": "named result or captured variable bound again",
    "LC12": "too many tracked variables",
    "LC13": "import is not yes|import has findings",
    "LC14": "import has no rank|import cycle",
    "LC15": "two functions of one name",
    "LC16": "certificate missing or not holding",
    "LC18": "accepts nothing",
}
FINDING = re.compile(
    "|".join(rf"[^\n]+:[1-9]\d*:[1-9]\d*: {code} \S+ (?:{text})" for code, text in TEXTS.items()).encode()
)

# What shim.c counts: calls of each kind, how many of them were refused, how often half as much was asked for next, and
# how often two threads met.
KINDS = "memory threads files writes syncs renames".split()
Counts = collections.namedtuple("Counts", [*KINDS, *(f"refused_{kind}" for kind in KINDS), "halved_memory", "met"])


class End:
    """How a run ended: its status (below 0 by a signal), what it wrote, and what it took."""

    def __init__(self, command, status, out, err, seconds, kilobytes, counts):
        self.command, self.status, self.out, self.err = command, status, out, err
        self.seconds, self.kilobytes, self.counts = seconds, kilobytes, counts

    def says(self):
        return (self.status, self.out, self.err)

    def kind(self):
        """A word or two for how it ended."""
        if self.status in (0, 1):
            return ("yes", "no")[self.status]
        if self.status == 2 and not self.err:
            return "nothing told"
        found = re.fullmatch(rb"ctxvet: ([^\n]*)\n", self.err)
        for text, word in FAULTS.items() if found else ():
            if re.fullmatch(re.escape(text).replace(r"\{\}", ".*"), found[1].decode("utf-8", "replace"), re.S):
                return word
        return "otherwise"


def is_one_fault(err):
    """Whether this is one line of the list, without a control code that could forge another."""
    return End(None, 2, b"", err, 0, 0, None).kind() != "otherwise" and not re.search(rb"[\0-\x09\x0b-\x1f\x7f]", err)


def trouble_of_report(status, out, err):
    """What is wrong with a whole report and its status, or None."""
    yes, findings, found = True, 0, 0
    for line in out.split(b"\n")[:-1]:
        verdict = re.fullmatch(rb"(yes|no) ([^\n]+)", line)
        if verdict is None:
            if not FINDING.fullmatch(line):
                return f"no line of a report: {line[:200]!r}"
            findings += 1
            continue
        if (verdict[1] == b"yes") != (findings == 0):
            return f"{findings} findings before: {line[:200]!r}"
        yes, findings, found = yes and verdict[1] == b"yes", 0, found + 1
    if not out.endswith(b"\n") or findings or not found:
        return f"no whole report: {out[-200:]!r}"
    if status != (0 if yes else 1):
        return f"status {status}"
    return None if re.fullmatch(b"(?:%s)*" % NOTE, err) else f"on standard error: {err[:200]!r}"


def trouble_of_form(end):
    """What is otherwise than at the end of any run: a report with its status, or nothing, one line and status 2."""
    if end.status in (0, 1):
        return trouble_of_report(end.status, end.out, end.err)
    if end.status in (-signal.SIGKILL, -signal.SIGXCPU):
        return f"no end in {LONGEST} seconds of a processor, or {LONGEST_WAIT} by the clock"
    if end.status != 2:
        return f"status {end.status}, {end.err[:200]!r}"
    if end.out:
        return f"a fault after a report: {end.out[:200]!r}, {end.err[:200]!r}"
    return None if is_one_fault(end.err) else f"no line of a fault: {end.err[:200]!r}"


class Bench:
    """The program that is tried, the shim where there is one, and a folder for what the runs need."""

    def __init__(self, program, folder):
        self.program, self.folder = program, folder
        self.case = os.path.join(folder, "case")
        self.kept = 0
        self.shim = shim.built(folder)
        os.chmod(folder, 0o755)
        self.empty_case()

    def empty_case(self):
        """Empties the folder in which the files of a run lie."""
        if os.path.exists(self.case):
            shutil.rmtree(self.case)
        os.mkdir(self.case)

    def at(self, name):
        """The path of a file or folder of the case."""
        return os.path.join(self.case, name)

    def put(self, name, data):
        """Writes a file of the case, and gives its path."""
        path = self.at(name)
        os.makedirs(os.path.dirname(path), exist_ok=True)
        with open(path, "wb") as file:
            file.write(data)
        return path

    def package(self, path, files):
        """A folder with these files, by their names, as the word of a package of this import path."""
        for name, text in files.items():
            self.put(os.path.join(path, name), text)
        os.makedirs(self.at(path), exist_ok=True)
        return f"{path}={self.at(path)}"

    def read(self, name):
        """The bytes of a file of the case, or None where there is none."""
        try:
            with open(self.at(name), "rb") as file:
                return file.read()
        except FileNotFoundError:
            return None

    def run(self, words, hostile=None, before=(), actions=(), program=None):
        """Runs the program, or another one, with these words: under the settings of the shim that `hostile` has, where
        there is a shim; by the command `before`; and with further file actions."""
        streams = [os.path.join(self.folder, name) for name in ("out", "err")]
        made = os.O_WRONLY | os.O_CREAT | os.O_TRUNC
        opened = [(os.POSIX_SPAWN_OPEN, 0, "/dev/null", os.O_RDONLY, 0)]
        opened += [(os.POSIX_SPAWN_OPEN, number, path, made, 0o666) for number, path in enumerate(streams, 1)]
        settings, counted = {}, os.path.join(self.folder, "counts")
        if hostile is not None and self.shim:
            settings = {"LD_PRELOAD": self.shim, "HOSTILE": hostile, "HOSTILE_COUNTS": counted}
        environment = {"PATH": os.environ.get("PATH", ""), **settings}
        command = [*before, program or self.program, *words]
        status, seconds, kilobytes = spawned(command, environment, [*opened, *actions])
        out, err = (read_file(path) for path in streams)
        shown = {key: value for key, value in settings.items() if key != "HOSTILE_COUNTS"}
        counts = read_counts(counted) if settings else None
        return End(shown_command(shown, command), status, out, err, seconds, kilobytes, counts)

    def keep(self, command):
        """Keeps the files of the case, and gives the command with their new place in it."""
        self.kept += 1
        place = os.path.join(self.folder, f"kept-{self.kept}")
        subprocess.run(["cp", "-a", self.case, place])
        return command.replace(self.case, place)


def read_file(path):
    with open(path, "rb") as file:
        return file.read()


def read_counts(path):
    data = read_file(path) if os.path.exists(path) else b""
    form = struct.Struct(f"={len(Counts._fields)}Q")
    return Counts(*form.unpack(data)) if len(data) == form.size else Counts(*[0] * len(Counts._fields))


def shown_command(settings, command):
    """The command as a shell takes it."""
    front = [f"{key}={value}" for key, value in settings.items()]
    return shlex.join((["env", *front] if front else []) + [os.fsdecode(word) for word in command])


def spawned(command, environment, actions):
    """Starts the command, waits for it, and gives its status, seconds and the most kilobytes that it had at once."""
    start = time.perf_counter()
    process = os.posix_spawnp(command[0], command, environment, file_actions=actions, setsigdef=[signal.SIGPIPE])
    signal.signal(signal.SIGALRM, lambda *_: os.kill(process, signal.SIGKILL))
    signal.alarm(LONGEST_WAIT)
    with contextlib.suppress(ProcessLookupError):
        resource.prlimit(process, resource.RLIMIT_CPU, (LONGEST, LONGEST))
    _, status, used = os.wait4(process, 0)
    signal.alarm(0)
    return os.waitstatus_to_exitcode(status), time.perf_counter() - start, used.ru_maxrss


class Section:
    """One section: its runs are counted by how they ended, and those that ended otherwise than they may are told."""

    def __init__(self, bench, name):
        self.bench, self.name = bench, name
        self.kinds, self.wrong = collections.Counter(), 0
        self.start, self.longest, self.kilobytes = time.perf_counter(), 0, 0

    def note(self, end, trouble):
        """Counts a run, and tells of it where it ended otherwise than it may; whether it ended as it may."""
        self.longest, self.kilobytes = max(self.longest, end.seconds), max(self.kilobytes, end.kilobytes)
        self.kinds["WRONG" if trouble else end.kind()] += 1
        if trouble:
            self.fail(trouble, end.command)
        return not trouble

    def fail(self, trouble, command):
        self.wrong += 1
        if self.wrong <= MOST_TOLD:
            print(f"WRONG ({self.name}): {trouble}\n  {self.bench.keep(command)}", flush=True)

    def tell(self):
        """Prints the section's line."""
        kinds = ", ".join(f"{count} {kind}" for kind, count in sorted(self.kinds.items()))
        spent = f"{time.perf_counter() - self.start:.0f} s"
        most = f"longest {self.longest:.2f} s, most memory {self.kilobytes / 1000:.0f} MB"
        print(f"{self.name}: {sum(self.kinds.values())} runs in {spent}: {kinds or 'none'}; {most}", flush=True)
