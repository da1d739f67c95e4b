"""What becomes of a run that is refused memory or threads, and how many requests for memory it makes."""

import json
import math
import os

from hostility.runs import NO_THREAD, OUT_OF_MEMORY, Section, trouble_of_form
from hostility.worked import (
    FACTS, GIVEN, GIVER, GROUP, HEAD, IMPORT_IS_NOT_YES, NOTIFIED, PASSED, RECURSION, WORKED, importing, loops, report_of,
    words_of
)

# So many runs in a row that meet no refusal end a search by the number of a request: threads ask in no fixed order.
CALM = 3
OLD = b"what stood there"
OUT = "certificates.json"
# How many times as many requests for memory as one worker several may make to judge the same.
MOST_REQUESTS = 1.5
# Numbers of workers, and how often each is tried: which of them judges a package is another matter each time.
WORKERS = ("1", "2", "3", "64")
TURNS, MORE_TURNS = 10, 300
# So many packages that import one another in a row: one worker judges, and the others wait to be woken.
CHAIN = 40

# Packages that call, give and start what is tracked.
WIDE = {"a": GIVER, "b": GIVEN, "c": GROUP, "d": RECURSION}
# Packages that import what is declared.
DECLARED = {"a": NOTIFIED, "b": PASSED}


class Command:
    """Words, and what they come to where nothing is refused; and how many requests for memory it takes at most until
    the packages are read, where that is known."""

    def __init__(self, bench, words, writes, read=math.inf):
        self.bench, self.words, self.writes, self.read = bench, words, writes, read
        self.ample = self.run("")
        self.text = bench.read(OUT)

    def run(self, hostile, **how):
        if self.writes:
            self.bench.put(OUT, OLD)
        return self.bench.run(self.words, hostile, **how)

    def note_ample(self, section):
        """Counts the run that is refused nothing."""
        section.note(self.ample, trouble_of_form(self.ample))

    def is_whole(self, end):
        return end.says() == self.ample.says()

    def lacks_notes(self, end):
        """Whether only notes are missing, for which memory was refused: they are made in memory, and change nothing."""
        told, wanted = end.err.splitlines(True), self.ample.err.splitlines(True)
        notes = [line for line in wanted if line not in told]
        return (
            end.says()[:2] == self.ample.says()[:2]
            and told == [line for line in wanted if line not in notes]
            and all(line.startswith(b"ctxvet: note: ") for line in notes)
        )

    def trouble_of_file(self, end):
        """The file that is written has its old text or the whole new one, and the new one where all went well."""
        if not self.writes:
            return None
        text = self.bench.read(OUT)
        if text not in ((self.text,) if end.status in (0, 1) else (OLD, self.text)):
            return f"the file of certificates has neither its old text nor the whole: {(text or b'')[:200]!r}"
        return None

    def trouble(self, end, faults, unwritten=()):
        """What is wrong with an end that may be whole, or one of these faults with nothing on standard output, or one
        of `unwritten` after the whole report."""
        if self.lacks_notes(end) or (end.status == 2 and not end.out and end.err in faults):
            return self.trouble_of_file(end)
        if self.writes and end.status == 2 and end.out == self.ample.out and end.err in unwritten:
            return self.trouble_of_file(end)
        return trouble_of_form(end) or f"not as where nothing is refused: {end.says()!r}"[:600]


def commands(bench, packages):
    """The commands that are refused something, on these packages."""
    bench.empty_case()
    words, kept = words_of(bench, packages), bench.at("kept.json")
    bench.run(["check", "--cert", kept, *words])
    return [
        Command(bench, ["check", "-j", "1", *words], False, read_by(bench, packages, "1")),
        Command(bench, ["check", "-j", "3", *words], False, read_by(bench, packages, "3")),
        Command(bench, ["check", "--cert", bench.at(OUT), *words], True),
        Command(bench, ["check", "-j", "3", "--cert", bench.at(OUT), *words], True),
        Command(bench, ["verify", "--cert", kept, *words], False),
    ]


def read_by(bench, packages, workers):
    """How many requests for memory so many workers make at most until they have read these packages: as many as they
    make on the same ones with two functions of one name more, which are read and not judged."""
    unjudged = {f"unjudged-{path}": f"{text}\nfunc f() {{}}\nfunc f() {{}}\n" for path, text in packages.items()}
    return bench.run(["check", "-j", workers, *words_of(bench, unjudged)], "").counts.memory


def commands_with_facts(bench):
    """The commands that are refused something while they have declared facts."""
    bench.empty_case()
    words, kept, facts = words_of(bench, DECLARED), bench.at("kept.json"), bench.put("facts.json", FACTS.encode())
    bench.run(["check", "--facts", facts, "--cert", kept, *words])
    return [
        Command(bench, ["check", "--facts", facts, *words], False),
        Command(bench, ["check", "-j", "3", "--facts", facts, "--cert", bench.at(OUT), *words], True),
        Command(bench, ["verify", "--cert", kept, "--facts", facts, *words], False),
    ]


def commands_with_a_list(bench):
    """The commands that are refused something while they have a list of packages, and its text."""
    bench.empty_case()
    named = [word.split("=", 1) for word in words_of(bench, IMPORT_IS_NOT_YES)]
    entries = [{"ImportPath": path, "Dir": folder, "GoFiles": sorted(os.listdir(folder))} for path, folder in named]
    text = "".join(json.dumps(entry, indent="\t") + "\n" for entry in entries)
    kept, given = bench.at("kept.json"), bench.put("list", text.encode())
    bench.run(["check", "--packages", given, "--cert", kept], "")
    return [
        Command(bench, ["check", "--packages", given], False),
        Command(bench, ["verify", "--cert", kept, "--packages", given], False),
    ]


def each_refused(section, command, setting, refused_of, judge):
    """Runs the command with the first call refused, then with the second, and so on until none meets a refusal."""
    number, calm, refused = 0, 0, 0
    while calm < CALM:
        number += 1
        end = command.run(f"{setting}={number}")
        met = refused_of(end.counts) > 0
        calm, refused = (0, refused + 1) if met else (calm + 1, refused)
        section.note(end, judge(end, met, number))
    if refused == 0:
        section.fail(f"no run met a refusal by {setting}=N: no call reaches the shim", command.ample.command)


def memory(bench, long):
    """Each request for memory refused, and all from it on."""
    section = Section(bench, "memory")
    for packages in (IMPORT_IS_NOT_YES, WIDE) if long else (IMPORT_IS_NOT_YES,):
        memory_of(section, commands(bench, packages))
    memory_of(section, commands_with_facts(bench))
    memory_of(section, commands_with_a_list(bench))
    return section


def memory_of(section, commands):
    """Each request for memory of these commands refused, and all from it on. An arena that is refused a chunk asks for
    half as much."""
    for command in commands:
        command.note_ample(section)
        unwritten = (OUT_OF_MEMORY, b"ctxvet: cannot write: %s\n" % section.bench.at(OUT).encode())
        for setting in ("memory", "memory+"):
            def judge(end, met, number):
                faults = faults_of_memory(command, setting, end) if met else ()
                judged = number > command.read and not end.counts.halved_memory
                if met and judged and command.is_whole(end):
                    return "memory is refused to somebody who judges, and the report is whole"
                return command.trouble(end, faults, unwritten if met else ())

            each_refused(section, command, setting, lambda counts: counts.refused_memory, judge)


def faults_of_memory(command, setting, end):
    """The faults that may be told where memory is refused. To start a thread takes memory, and whoever is refused it is
    told of the thread: then it was not started, so that fewer threads were than with ample memory. Memory to judge that
    is refused after that comes first."""
    lacks_thread = setting == "memory" and end.counts.threads < command.ample.counts.threads
    return (OUT_OF_MEMORY, NO_THREAD) if lacks_thread else (OUT_OF_MEMORY,)


def memory_before_threads(section):
    """No thread can be started, and all requests for memory from the k-th on are refused too: that of memory is told,
    since who judges is refused it whatever became of the thread."""
    bench = section.bench
    bench.empty_case()
    command = Command(bench, ["check", "-j", "2", *words_of(bench, IMPORT_IS_NOT_YES)], False)
    command.note_ample(section)

    def judge(end, met, number):
        wanted = (2, b"", OUT_OF_MEMORY if met else NO_THREAD)
        return None if end.says() == wanted else f"{end.says()!r}, and not {wanted!r}"[:600]

    each_refused(section, command, "thread+=1,memory+", lambda counts: counts.refused_memory, judge)


def threads(bench, long):
    """Each start of a thread refused, and all from it on. Of a thread that reads files the others do the work; of one
    that judges packages the fault is told. And nothing refused: each number of workers gives one report."""
    section = Section(bench, "threads")
    one_report(section, MORE_TURNS if long else TURNS)
    memory_before_threads(section)
    for workers in ("2", "3", "64"):
        bench.empty_case()
        one = [bench.package("a", {f"{name}.go": HEAD.encode() for name in WIDE})]
        alone = Command(bench, ["check", "-j", workers, *one], False)
        threads_of(section, alone, math.inf)
        bench.empty_case()
        several = Command(bench, ["check", "-j", workers, *words_of(bench, WIDE)], False)
        threads_of(section, several, alone.ample.counts.threads)
    return section


def threads_of(section, command, readers):
    """Each start of a thread of this command refused, and all from it on, where so many of them read files, first."""
    command.note_ample(section)
    starts = command.ample.counts.threads
    for setting in ("thread", "thread+"):

        def judge(end, met, number):
            is_all = setting == "thread+" and readers < starts
            return trouble_of_no_thread(end) if met and (is_all or readers < number) else command.trouble(end, ())

        each_refused(section, command, setting, lambda counts: counts.refused_threads, judge)


def one_report(section, turns):
    """Each number of workers gives the report that was worked out by hand, again and again, and one starts no thread."""
    bench = section.bench
    chain = {f"p{number:02}": importing("p", f"p{number + 1:02}") for number in range(CHAIN)}
    runs = [("a chain of packages", chain, [f"yes {path}" for path in chain])]
    runs += [(name, *run) for name, run in WORKED.items() if len(run[0]) > 1]
    for name, packages, report in runs:
        bench.empty_case()
        words, wanted = words_of(bench, packages), report_of(bench, report)
        for workers in WORKERS:
            for _ in range(turns):
                end = bench.run(["check", "-j", workers, *words], "")
                trouble = trouble_of_form(end) or trouble_of_one_report(end, wanted, workers)
                section.note(end, trouble and f"{name}, {workers} workers: {trouble}")


def trouble_of_one_report(end, wanted, workers):
    """What is wrong with the end of a run by so many workers that is to give this report, or None."""
    if end.status == 2 or end.out != wanted:
        return f"{end.says()!r}, and not {wanted!r}"[:600]
    return "a thread is started for one worker" if workers == "1" and end.counts.threads else None


def trouble_of_no_thread(end):
    """What is wrong with an end that is to tell of a thread that could not be started, or None."""
    if end.says() == (2, b"", NO_THREAD):
        return None
    return f"not as where a thread can't be started: {end.says()!r}"[:600]


def requests(bench, long):
    """How many requests for memory it takes to judge two packages, by one worker, by two, and each package by itself."""
    section = Section(bench, "requests")
    bench.empty_case()
    text = loops(20)
    # The same packages, but each has two functions of one name: they are read, and not judged.
    unjudged = text.replace("func f2(", "func f1(")
    words, read = (words_of(bench, packages_of(text)), words_of(bench, packages_of(unjudged, "unjudged-")))
    judged = lambda some, same, *options: (
        counted(section, ["check", *options, *some]) - counted(section, ["check", *options, *same])
    )
    alone = sum(judged([word], [same]) for word, same in zip(words, read))
    for workers in ("1", "2"):
        made = judged(words, read, "-j", workers)
        told = f"requests for memory to judge two packages by {workers} workers: {made}; each by itself: {alone}"
        print(told)
        if not 0 < made <= MOST_REQUESTS * alone:
            section.fail(told, f"{bench.program} check -j {workers} {' '.join(words)}")
    return section


def packages_of(text, before=""):
    """Two packages of this text, by their import paths."""
    return {f"{before}{name}": text.replace("package a", f"package {name}") for name in "ab"}


def counted(section, words):
    """The requests for memory of a run."""
    end = section.bench.run(words, "")
    section.note(end, trouble_of_form(end))
    return end.counts.memory
