"""What becomes of a unit, as the go command has packages judged one at a time, that is refused memory, whose calls on
files and streams fail at each place, or that is killed. What it keeps for others is written before its lines are
printed."""

import json
import os
import signal

from hostility.refusals import CALM, OLD, OUT, Command, each_refused
from hostility.runs import OUT_OF_MEMORY, UNWRITTEN, Section, is_one_fault, line_of
from hostility.worked import GIVEN, GIVER
from hostility.writes import FULL, closed, left_beside, trouble_beside, unwritten_file

# It obtains from `a` what it does not call.
DROPPED = GIVEN.replace("\tdefer cancel()\n", "")
PLACE, LOST = "b/b.go:11:1", "is not called on every path to this return"


class Unit(Command):
    """A unit by its words, with its status and what it prints where nothing is refused. What it keeps goes to OUT."""

    def __init__(self, bench, words, status, out):
        super().__init__(bench, words, True)
        self.wanted = (status, out.encode(), b"")

    def note_ample(self, section):
        """Counts the run that is refused nothing."""
        known = self.ample.says() == self.wanted and self.text.endswith(b'"whole":false,"yes":false}')
        section.note(self.ample, None if known else f"{self.ample.says()!r}, and not {self.wanted!r}"[:600])

    def trouble(self, end, met):
        """What is wrong with an end, where something was refused if `met` says so: what is kept has its old text or the
        whole new one. It is the new one where all went well, or where only the lines could not be printed, and the old
        one where something could not be read or written."""
        text = self.bench.read(OUT)
        if self.is_whole(end):
            return "a refused call is passed over" if met else self.trouble_of_text(text, (self.text,))
        if not met or end.status != 2:
            return f"not as where nothing is refused: {end.says()!r}"[:600]
        if end.err == UNWRITTEN:
            begun = self.ample.out.startswith(end.out)
            return self.trouble_of_text(text, (self.text,)) if begun else f"no front of the lines: {end.out[:200]!r}"
        if end.out or not is_one_fault(end.err):
            return f"no line of a fault alone: {end.says()!r}"[:600]
        return self.trouble_of_text(text, (OLD, self.text) if end.err == OUT_OF_MEMORY else (OLD,))

    def trouble_of_text(self, text, wanted):
        return None if text in wanted else f"what is kept is otherwise: {(text or b'')[:200]!r}"


def put_unit(bench, name, path, told, output, is_silent=False):
    """The file of a unit of the package of this path, with all files of its folder, which is told of its imports by these
    files."""
    files = [bench.at(f"{path}/{file}") for file in sorted(os.listdir(bench.at(path)))]
    unit = {
        "ID": path, "Dir": bench.at(path), "ImportPath": path, "GoFiles": files,
        "ImportMap": {each: each for each in ("context", *told)}, "PackageVetx": told,
        "VetxOnly": is_silent, "VetxOutput": bench.at(output),
    }
    return bench.put(name, json.dumps(unit).encode())


def commands(bench):
    """A unit that imports another one, in its forms, and one of which nothing is printed."""
    bench.empty_case()
    bench.put("a/a.go", GIVER.encode())
    bench.put("b/b.go", DROPPED.encode())
    bench.run([put_unit(bench, "a.cfg", "a", {}, "a.vetx")])
    told = {"a": bench.at("a.vetx")}
    loud, silent = put_unit(bench, "b.cfg", "b", told, OUT), put_unit(bench, "silent.cfg", "b", told, OUT, True)
    place = bench.at(PLACE)
    line = f"{place}: LC05 cancel {LOST}\n"
    found = f'{{"category":"LC05","posn":"{place}","message":"cancel {LOST}"}}'
    yield Unit(bench, [loud], 1, line)
    yield Unit(bench, ["-json", loud], 0, f'{{"b":{{"ctxvet":[{found}]}}}}\n')
    yield Unit(bench, ["-why", "-c=0", loud], 1, f"{line}11\t}}\n\t{bench.at('b/b.go:9:7')}: cancel is obtained\n")
    yield Unit(bench, [silent], 0, "")


def units(bench, long):
    """Units that are refused memory, whose calls fail or are ended, and whose writes take little."""
    section = Section(bench, "units")
    for unit in commands(bench):
        unit.note_ample(section)
        if bench.shim:
            refused_memory(section, unit)
            failing_calls(section, unit)
            failing_writes(section, unit)
            kills(section, unit)
        if unit.ample.out:
            closed_streams(section, unit)
    cut_files(section)
    return section


def refused_memory(section, unit):
    """Each request for memory refused, and all from it on. A file that is read asks once more, and so does an arena."""
    for setting in ("memory", "memory+"):
        def judge(end, met, number):
            if unit.is_whole(end):
                return unit.trouble(end, False)
            known = end.err in (OUT_OF_MEMORY, unwritten_file(section.bench))
            return unit.trouble(end, met) if known else f"no want of memory is told: {end.says()!r}"[:400]

        each_refused(section, unit, setting, lambda counts: counts.refused_memory, judge)


def failing_calls(section, unit):
    """The j-th call on a file or a stream fails, or it and all after it."""
    for setting in ("file", "file+"):
        number, calm = 0, 0
        while calm < CALM:
            number += 1
            end = unit.run(f"{setting}={number}")
            met = end.counts.refused_files > 0
            calm = 0 if met else calm + 1
            beside = trouble_beside(unit)
            section.note(end, unit.trouble(end, met) or (beside if setting == "file" else None))


def failing_writes(section, unit):
    """The j-th write fails, in one piece and a byte at a time; and writes that take little."""
    for step in ("", ",step=1"):
        number, end = 0, unit.ample
        while number == 0 or number <= end.counts.writes:
            number += 1
            end = unit.run(f"write={number}{step}")
            section.note(end, unit.trouble(end, number <= end.counts.writes) or trouble_beside(unit))
    for hostile in ("step=1", "stall=1", "step=7,stall=1"):
        end = unit.run(hostile)
        section.note(end, unit.trouble(end, False))


def kills(section, unit):
    """Killed at the j-th call: what is kept has its old text or the whole new one, and that before lines are printed."""
    number, end = 0, None
    while end is None or end.status == -signal.SIGKILL:
        number += 1
        end = unit.run(f"kill={number}")
        wanted = (unit.text,) if end.out or end.status != -signal.SIGKILL else (OLD, unit.text)
        trouble = unit.trouble_of_text(section.bench.read(OUT), wanted)
        section.kinds["killed"] += end.status == -signal.SIGKILL
        if end.status != -signal.SIGKILL or trouble:
            section.note(end, trouble and f"killed at call {number}: {trouble}")
        for name in left_beside(section.bench):
            os.remove(section.bench.at(name))


def closed_streams(section, unit):
    """Standard output that is closed or full: that is told, and what is kept is there all the same."""
    for actions in (closed(1), FULL):
        end = unit.run(None, actions=actions)
        told = end.says() == (2, b"", UNWRITTEN)
        section.note(end, unit.trouble(end, True) if told else f"the write does not fail: {end.says()!r}"[:400])


def cut_files(section):
    """The file of a unit, and the one that tells of its import, are cut at each byte: nothing is kept for others then."""
    bench = section.bench
    for name, fault in (("b.cfg", "UnitNotJson"), ("a.vetx", "VetxNotJson")):
        whole = bench.read(name)
        wanted = (2, b"", line_of(fault, bench.at(name)))
        for length in range(len(whole)):
            bench.put(name, whole[:length])
            bench.put(OUT, OLD)
            end = bench.run([bench.at("b.cfg")])
            is_well = end.says() == wanted and bench.read(OUT) == OLD
            section.note(end, None if is_well else f"{name} cut to {length} bytes: {end.says()!r}"[:400])
        bench.put(name, whole)
