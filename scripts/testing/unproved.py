"""Tries cases on the sources as they stand, before any proof, by one `rt try`: of each case its first run, where that
checks packages. They are given as a list, and compared by the report and the status."""
import json
import os
import re
import shutil
import subprocess
import sys
import tempfile

from testing import reading, running

# What such a run may have beside the words PATH=DIR, and how many words belong to it; and what is left out, since it
# changes nothing of the report.
OPTIONS = {"--edition": 1, "--facts": 1, "-j": 1, "--why": 0}
LEFT_OUT = ("--cert",)
# `rt` in this process, as the gate runs it.
RUN_RT = "import kit, sys; sys.exit(kit.run_rt(sys.argv[1:]))"


class Unfit(Exception):
    """Why no case can be tried so."""


class Try:
    """A run of a case as `rt try` makes it: the list of packages, further words, and what is wanted."""

    def __init__(self, case, run):
        self.run, self.folder = run, case.folder
        options, self.packages = split_words(run)
        self.more = [word for name in options for word in (name, *self.absolute(name, options[name]))]
        # Lists are judged by the second edition where nothing else is said, and words by the first.
        self.more += [] if "--edition" in options else ["--edition", "1"]

    def absolute(self, name, given):
        return [os.path.join(self.folder, word) for word in given] if name == "--facts" else given

    def list(self):
        """The packages as `go list -json` prints them."""
        made = []
        for path, folder in self.packages:
            at = os.path.join(self.folder, folder)
            made.append({"ImportPath": path, "Dir": at, "GoFiles": go_files(at)})
        return "".join(json.dumps(one) + "\n" for one in made)

    def wanted(self):
        """The report and the status; files have their whole names in it."""
        folders = "|".join(re.escape(folder) for _, folder in self.packages)
        whole = re.compile(rf"(\t?)((?:{folders})/.*)")
        lines = [whole.sub(lambda one: f"{one[1]}{self.folder}/{one[2]}", line) for line in self.run.out.lines]
        return [f"{reading.shown_line(line)}\n" for line in lines] + [f"status {self.run.status}\n"]


def go_files(folder):
    names = [name for name in os.listdir(folder) if os.path.isfile(os.path.join(folder, name))]
    return sorted(name for name in names if name.endswith(".go") and not name.endswith("_test.go"))


def split_words(run):
    """The options of a run of `check` with their words, and its packages; raises Unfit for any other run."""
    # With more workers than one, where there is a choice.
    variants = run.variants()
    words, options, packages = variants[min(1, len(variants) - 1)], {}, []
    if words[:1] != ["check"]:
        raise Unfit
    words = words[1:]
    while words:
        word = words.pop(0)
        path, equals, folder = word.partition("=")
        if word in LEFT_OUT and words:
            words.pop(0)
        elif word in OPTIONS:
            options[word] = [words.pop(0) for _ in range(OPTIONS[word])]
        elif path and equals and not path.startswith("-"):
            packages.append((path, folder))
        else:
            raise Unfit
    return options, packages


def is_fit(one):
    """Whether a list can name these packages, which have Go files and plain names of folders."""
    return bool(one.packages) and all(
        os.path.normpath(folder) == folder and not folder.startswith(("/", "."))
        and os.path.isdir(os.path.join(one.folder, folder)) and go_files(os.path.join(one.folder, folder))
        for _, folder in one.packages
    )


def try_of(case):
    """The first run of this case as `rt try` makes it; None where it can't be made so."""
    run = case.runs[0]
    is_plain = not (run.preparations or run.folder or run.variables or run.stdin) and run.status in (0, 1)
    if not is_plain or not isinstance(run.out, reading.Lines):
        return None
    try:
        one = Try(case, run)
    except (Unfit, IndexError):
        return None
    return one if is_fit(one) else None


def look_for_rt():
    """Raises Unfit where this toolchain's `rt try` can't try cases."""
    if not shutil.which("rt"):
        raise Unfit("there is no command rt, the Rattle toolchain's")
    said = subprocess.run(["rt", "help"], stdout=subprocess.PIPE, stderr=subprocess.STDOUT, text=True).stdout
    if "--cases FOLDER" not in said:
        raise Unfit("this toolchain's rt try takes no --cases: build the program, and give it by --program")


def lay_out(tries, folder):
    """Writes what `rt try` reads of each case: its list, and further words."""
    for name, one in tries.items():
        with open(os.path.join(folder, name), "w", encoding="utf-8") as file:
            file.write(one.list())
        with open(os.path.join(folder, f"{name}.args"), "w", encoding="utf-8") as file:
            file.write("".join(f"{word}\n" for word in one.more))


def run_tries(folder, shown):
    """Runs the cases of this folder: the status of each that ended by itself. Their reports go to the file `shown`."""
    words = [sys.executable, "-B", "-c", RUN_RT, "try", "--cases", folder, "--", "check", "--packages", "-"]
    environment = {**os.environ, "PYTHONPATH": os.path.join(reading.ROOT, "scripts")}
    crate = os.path.join(reading.ROOT, "crates", "ctxvet")
    statuses = {}
    with subprocess.Popen(words, cwd=crate, env=environment, stdout=shown, stderr=subprocess.PIPE) as process:
        for line in process.stderr:
            ended = re.match(rb"case=(\S+) run=ended status=(\d+)", line)
            if ended:
                statuses[ended[1].decode()] = int(ended[2])
            elif not line.startswith(b"ctxvet: note: "):
                sys.stderr.buffer.write(line)
                sys.stderr.buffer.flush()
    return statuses


def answers(text, names):
    """Of each case what stands behind its line `== NAME`."""
    parts = re.split(r"^== (.*)\n", text, flags=re.M)
    return {name: lines for name, lines in zip(parts[1::2], parts[2::2]) if name in names}


def results(cases):
    """For each of these cases what there is to tell of it, as scripts/test tells it: None where it passed."""
    look_for_rt()
    tries = {case.name.replace("/", "--"): try_of(case) for case in cases}
    fit = {name: one for name, one in tries.items() if one is not None}
    if not fit:
        raise Unfit("no such case begins with a run of check that a list of packages could stand for")
    with tempfile.TemporaryDirectory(prefix="ctxvet-try-") as folder, tempfile.TemporaryFile() as shown:
        lay_out(fit, folder)
        statuses = run_tries(folder, shown)
        if not statuses:
            raise Unfit("rt try ran no case: what it says above is why")
        shown.seek(0)
        found = answers(shown.read().decode("utf-8", "surrogateescape"), fit)
    for case in cases:
        name = case.name.replace("/", "--")
        if name not in fit:
            yield case.name, ("skipped", ["its first run is none that a list of packages could stand for\n"])
        else:
            yield case.name, result_of(fit[name], found.get(name, ""), statuses.get(name))


def result_of(one, text, status):
    """What is to be told of a case with this report and status."""
    if status is None:
        return "FAILED", ["it did not end by itself: see what rt says above\n"]
    got = running.lines_of(text.encode("utf-8", "surrogateescape"), reading.shown_line) + [f"status {status}\n"]
    diff = running.diff_of(one.wanted(), got)
    return ("FAILED", [f"$ {one.run.line}\n", *diff]) if diff else None
