"""The crates of this repository, and runs of `rt ci` over some of them: what scripts/build, bench/gate and
bench/planted share.

Such a run has a folder of its own with copies of crates, which stands for a repository. So it takes nothing from the
checkout and leaves nothing in it. Where the toolchain keeps what the gate passed (`rattle-kit-13f` does), what it
proves is kept there, by the sums of all that a proof reads. There the gate finds it, and a later run here.
"""
import errno
import os
import re
import shutil
import signal
import subprocess

ROOT = os.path.dirname(os.path.dirname(os.path.abspath(__file__)))

# What a proof reads of a crate, and what else its run reads.
PROVED = ("src", "specs", "proofs")
RUN_ON = ("args", "data", "status", "stdin", "stdout")
# Seconds that a proof takes which bench/costs.txt doesn't know.
USUAL_COST = 90
# The free memory, in kB, from which on rt shares the processors out by itself (see rt_jobs).
PLENTY = 20_000_000
# Where a control group's share of the processors stands: so much time, in so much.
GROUPS = (
    ("/sys/fs/cgroup/cpu.max",),
    ("/sys/fs/cgroup/cpu/cpu.cfs_quota_us", "/sys/fs/cgroup/cpu/cpu.cfs_period_us"),
)


def listed():
    """For each crate of crates.txt, in its order, the names of those that its line names."""
    found = {}
    with open(f"{ROOT}/crates.txt", encoding="utf-8") as lines:
        for line in lines:
            head, _, names = line.split("#")[0].partition(":")
            if head.strip():
                found[head.split()[0]] = names.split()
    return found


def below(names):
    """These crates and all those of the repository on which they stand, in the order of crates.txt."""
    crates, found, waiting = listed(), set(), list(names)
    while waiting:
        name = waiting.pop()
        if name in crates and name not in found:
            found.add(name)
            waiting += crates[name]
    return [name for name in crates if name in found]


def files_of(name, parts=PROVED):
    """The paths of a crate's files in these parts of its folder, sorted."""
    found = []
    for part in parts:
        top = f"{ROOT}/crates/{name}/{part}"
        found += [top] if os.path.isfile(top) else [f"{at}/{file}" for at, _, files in os.walk(top) for file in files]
    return sorted(found)


def sums(*programs):
    """For each of these programs a sum of all that it is made of, as scripts/sums has it."""
    lines = subprocess.run([f"{ROOT}/scripts/sums", *programs], stdout=subprocess.PIPE, text=True, check=True).stdout
    return dict(line.split() for line in lines.splitlines())


def copy(names, room):
    """Makes of an empty folder a repository of these crates, without must-fail edits."""
    with open(f"{ROOT}/crates.txt", encoding="utf-8") as lines, open(f"{room}/crates.txt", "w", encoding="utf-8") as to:
        to.writelines(line for line in lines if re.split(r"[\s:]", line)[0] in names)
    shutil.copy(f"{ROOT}/HANDLES", room)
    # By this `rt ci` takes it for the top of a repository, wherever it lies.
    os.mkdir(f"{room}/.git")
    for name in names:
        for path in files_of(name, PROVED + RUN_ON):
            to = os.path.join(room, os.path.relpath(path, ROOT))
            os.makedirs(os.path.dirname(to), exist_ok=True)
            shutil.copy(path, to)


def costs():
    """For each crate the processor seconds of its proof, of its tests and of its must-fail edits, as
    bench/costs.txt has them."""
    try:
        with open(f"{ROOT}/bench/costs.txt", encoding="utf-8") as lines:
            rows = re.findall(r"^(\w+) +(\d+) +(\d+) +(\d+)(?: +\d+){2}$", lines.read(), re.M)
    except OSError:
        rows = []
    return {name: tuple(map(int, seconds)) for name, *seconds in rows}


def words_of(path):
    """The words of a file; none where it can't be read."""
    try:
        with open(path, encoding="utf-8") as file:
            return file.read().split()
    except OSError:
        return []


def share(quota, period):
    """How many processors a control group has by these two numbers, or None where it has no bound."""
    if not quota.isdigit() or not period.isdigit():
        return None
    return max(int(quota) // max(int(period), 1), 1)


def processors():
    """How many processors there are for this run: those that it may run on, or its control group's share."""
    found = len(os.sched_getaffinity(0))
    for paths in GROUPS:
        words = [word for path in paths for word in words_of(path)]
        if len(words) == 2:
            found = min(found, share(*words) or found)
    return found


def free_memory():
    """The free memory in kB."""
    with open("/proc/meminfo", encoding="utf-8") as lines:
        return next(int(line.split()[1]) for line in lines if line.startswith("MemAvailable:"))


def jobs():
    """As many checks side by side as there are processors, where each finds 4 GB of memory."""
    return max(1, min(processors(), free_memory() // 4_000_000))


def rt_jobs():
    """What RT_JOBS is to be for `rt ci`: so many checks side by side, each in one process; or nothing, where there is
    so much memory that rt does better by itself.

    Then rt gives a check the processors that others leave idle, and so shortens the longest chain of crates. But it
    reckons with some twice the memory that a check of these crates takes, and with less runs too few side by side.
    """
    return "" if free_memory() >= PLENTY else str(jobs())


def start(room):
    """Starts `rt ci` in this folder; what it prints comes line by line. It leads its own processes, so that Ctrl-C
    reaches only its caller, which then calls `end`."""
    if not shutil.which("rt"):
        raise FileNotFoundError(errno.ENOENT, os.strerror(errno.ENOENT), "rt")
    return subprocess.Popen(
        [f"{ROOT}/scripts/rt-ci"],
        cwd=room,
        stdin=subprocess.DEVNULL,
        stdout=subprocess.PIPE,
        stderr=subprocess.STDOUT,
        text=True,
        errors="replace",
        start_new_session=True,
    )


def end(gate):
    """Ends a run that still goes on, with all that it started."""
    for kind in (signal.SIGTERM, signal.SIGKILL):
        try:
            os.killpg(gate.pid, kind)
            gate.wait(timeout=10)
        except (ProcessLookupError, subprocess.TimeoutExpired):
            pass


def proved(line):
    """The crate that this line of `rt ci` says is proved, or was before (then with True), or None."""
    found = re.match(r"rt: (\w+) (proved|is kept:)", line)
    return found and (found[1], found[2] != "proved")
