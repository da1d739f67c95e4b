"""Whether several threads work at the same time, how many are started, and whether each does its part once.

No contract says so. Where two threads are to share some work, the shim lets neither go on before the other has done a
part of its own (`meet` in shim.c). So a thread that waits until the other one has ended is seen at each speed of a
machine: a run that is well never waits for long.
"""

from hostility.runs import Section, trouble_of_form
from hostility.units import put_unit
from hostility.worked import HEAD, importing, loops

# A function that calls its parameter, so that there is something to find out of it.
TAKER = """func {name}(c context.CancelFunc) {{
	defer c()
}}
"""
# A thread that is started takes some requests for memory, to hand over what it is to do, and so does it to see whether
# any is to be started.
MOST_FOR_A_THREAD = 8
# How many times as many requests for memory as a unit of the go command a check of the same package may make. A unit is
# judged by other code, without workers.
MOST_BESIDE_A_UNIT = 1.25


def takers(prefix, count):
    return "".join(TAKER.format(name=f"{prefix}{number}") for number in range(count))


# Twenty bodies, ten of which have a parameter of which it is asked whether it is called; and the same in a second file.
FILE = loops(10) + takers("g", 10)
SECOND_FILE = FILE.replace("func f", "func h").replace("func g", "func k")
APART = {path: {"a.go": loops(20).replace("package a", f"package {path}")} for path in "ab"}
RING = {"a": {"a.go": importing("a", "b")}, "b": {"a.go": importing("b", "a")}}
ONE_FILE = {"a": {"a.go": FILE}}
TWO_FILES = {"a": {"a.go": FILE, "b.go": SECOND_FILE}}
# One body, and so nothing to share; and none.
ONE_BODY = {"a": {"a.go": loops(1)}}
NO_BODY = {"a": {"a.go": HEAD}}

# Packages, whether certificates are written too, a number of workers, what threads they start, and which of these meet
# with the one that started them: by its number, and after how many requests for memory.
#
# Files are read by as many threads as there are workers and files, and packages are judged by as many as there are
# workers and packages. Where there are more workers than packages, each package has as many helpers as their number
# divided by that of packages. These tell of its files, make its bodies, look which parameters are called, judge the
# bodies, and write their certificates: as many at each step as there are helpers and pieces. One of the threads is
# always there, and the others are started.
ROWS = (
    ("packages apart", APART, False, 1, 0, ()),
    ("packages apart", APART, False, 2, 1 + 1, ((1, 100), (2, 300))),
    ("packages apart", APART, True, 2, 1 + 1, ((2, 300),)),
    ("packages apart", APART, False, 3, 1 + 1, ((1, 100), (2, 300))),
    # Two helpers for each of two packages, which make bodies and judge them.
    ("packages apart", APART, False, 5, 1 + 1 + 2 * (1 + 1), ((1, 100), (2, 100))),
    # Of 32 helpers each twenty have a body.
    ("packages apart", APART, False, 64, 1 + 1 + 2 * (19 + 19), ((1, 100),)),
    # Packages that import each other are judged by one thread, since no worker takes them.
    ("a ring of packages", RING, False, 1, 0, ()),
    ("a ring of packages", RING, False, 2, 1 + 1, ((1, 5),)),
    ("a ring of packages", RING, False, 64, 1 + 1, ((1, 5),)),
    ("one file", ONE_FILE, False, 1, 0, ()),
    ("one file", ONE_FILE, False, 2, 1 + 1 + 1, ((1, 100), (2, 5), (3, 10))),
    ("one file", ONE_FILE, True, 2, 1 + 1 + 1 + 1, ((1, 100), (4, 30))),
    ("one file", ONE_FILE, False, 3, 2 + 2 + 2, ((1, 100), (2, 100), (3, 3))),
    ("two files", TWO_FILES, False, 1, 0, ()),
    ("two files", TWO_FILES, False, 2, 1 + 1 + 1 + 1 + 1, ((1, 100), (2, 100), (3, 100), (4, 5), (5, 10))),
    ("two files", TWO_FILES, True, 2, 1 + 1 + 1 + 1 + 1 + 1, ((6, 30),)),
    ("two files", TWO_FILES, False, 3, 1 + 1 + 2 + 2 + 2, ((1, 100), (2, 100), (3, 100))),
    ("two files", TWO_FILES, True, 3, 1 + 1 + 2 + 2 + 2 + 2, ()),
    ("one body", ONE_BODY, False, 64, 0, ()),
    ("one body", ONE_BODY, True, 64, 0, ()),
    ("no body", NO_BODY, False, 64, 0, ()),
)


def put(bench, packages):
    """The words of these packages, whose files are put into the case."""
    bench.empty_case()
    return [bench.package(path, encoded(files)) for path, files in packages.items()]


def encoded(files):
    return {name: text.encode() for name, text in files.items()}


def meetings(bench, long):
    """Each row: so many threads, the report of one worker, no more requests for memory, and each meeting."""
    section = Section(bench, "meetings")
    for row in ROWS:
        row_of(section, *row)
    for packages in (ONE_FILE, TWO_FILES):
        beside_a_unit(section, packages)
    return section


def row_of(section, name, packages, is_certified, workers, threads, met):
    bench = section.bench
    words = [*put(bench, packages), *(["--cert", bench.at("c.json")] if is_certified else [])]
    alone = bench.run(["check", "-j", "1", *words], "")
    section.note(alone, trouble_of_form(alone))
    command = ["check", "-j", str(workers), *words]
    end = bench.run(command, "")
    trouble = trouble_of_report(end, alone) or trouble_of_work(end, alone, threads)
    section.note(end, trouble and f"{name}, {workers} workers: {trouble}")
    for number, requests in met:
        end = bench.run(command, f"meet={number},meet_after={requests}")
        trouble = trouble_of_report(end, alone) or trouble_of_meeting(end)
        section.note(end, trouble and f"{name}, {workers} workers, at the start of thread {number}: {trouble}")


def trouble_of_report(end, alone):
    """What is wrong with an end that is to give the report of one worker, or None. The shim tells of meetings."""
    is_same = (end.status, end.out) == (alone.status, alone.out)
    return None if is_same else f"{end.says()!r}, and not {alone.says()!r}"[:600]


def trouble_of_work(end, alone, threads):
    """What is wrong with how many threads there were, and with what they asked for, or None."""
    if end.counts.threads != threads:
        return f"{end.counts.threads} threads are started, and not {threads}"
    most = alone.counts.memory + MOST_FOR_A_THREAD * (threads + 1)
    if end.counts.memory > most:
        return f"{end.counts.memory} requests for memory, and {most} are enough: something is done twice"
    return None


def trouble_of_meeting(end):
    return None if end.counts.met and not end.err else f"no meeting: {end.err.decode(errors='replace').strip()}"


def beside_a_unit(section, packages):
    """One worker judges a package once: it makes few more requests for memory than a unit of it does."""
    bench = section.bench
    words = put(bench, packages)
    unit = bench.run([put_unit(bench, "a.cfg", "a", {}, "a.vetx")], "")
    section.note(unit, None if unit.status == 1 and not unit.err else f"{unit.says()!r}"[:600])
    end = bench.run(["check", "-j", "1", "--edition", "2", *words], "")
    made, most = end.counts.memory, MOST_BESIDE_A_UNIT * unit.counts.memory
    trouble = f"{made} requests for memory, and a unit makes {unit.counts.memory}: something is done twice"
    section.note(end, trouble_of_form(end) or (trouble if made > most else None))
