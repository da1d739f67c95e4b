"""What becomes of a run whose calls on files and streams fail at each place, or take little, or that is killed."""

import os
import signal

from hostility.refusals import CALM, OLD, OUT, Command
from hostility.runs import UNWRITTEN, Section, trouble_of_form
from hostility.worked import DEFERRED, FACTS, IMPORT_IS_NOT_YES, words_of

YES = {"a": DEFERRED}
# Standard output that takes nothing.
FULL = [(os.POSIX_SPAWN_OPEN, 1, "/dev/full", os.O_WRONLY, 0)]


def unwritten_file(bench):
    return b"ctxvet: cannot write: %s\n" % bench.at(OUT).encode()


def trouble_of_writing(command, end, met):
    """What is wrong with an end where something could not be written, if a refusal was met: the report is whole or a
    beginning is there, and the fault is told."""
    whole = command.ample.out
    if command.is_whole(end):
        return "a refused call is passed over" if met else command.trouble_of_file(end)
    if end.status == 2 and end.err == UNWRITTEN and whole.startswith(end.out):
        return command.trouble_of_file(end) or untouched(command)
    if end.status == 2 and command.writes and end.err == unwritten_file(command.bench) and end.out == whole:
        return command.trouble_of_file(end)
    return f"status {end.status}, {end.out[:200]!r}, {end.err[:200]!r}"


def untouched(command):
    """A run that can't write its report does not write its certificates either."""
    if command.writes and command.bench.read(OUT) != OLD:
        return "certificates are written after a report that is not"
    return None


def left_beside(bench):
    """The names of files that a run has left beside the one that it writes."""
    return sorted(name for name in os.listdir(bench.case) if name.startswith("ctxvet-"))


def commands(bench):
    """A check, a check with declared facts, one that writes certificates, and a verification by them."""
    for packages in (IMPORT_IS_NOT_YES, YES):
        bench.empty_case()
        words, kept = words_of(bench, packages), bench.at("kept.json")
        bench.run(["check", "--cert", kept, *words])
        yield Command(bench, ["check", *words], False)
        yield Command(bench, ["check", "--facts", bench.put("facts.json", FACTS.encode()), *words], False)
        yield Command(bench, ["check", "--cert", bench.at(OUT), *words], True)
        yield Command(bench, ["verify", "--cert", kept, *words], False)


def writes(bench, long):
    """Writes that take little, nothing, are interrupted, or fail; and a kill at each call on a file or a stream."""
    section = Section(bench, "writes")
    for command in commands(bench):
        command.note_ample(section)
        if bench.shim:
            slow_writes(section, command)
            failing_writes(section, command)
            failing_calls(section, command)
            if command.writes:
                kills(section, command)
        closed_streams(section, command)
        special_files(section, command)
    return section


def slow_writes(section, command):
    """A writer that takes few bytes at a time, or is interrupted, gets all of them."""
    for hostile in ("step=1", "step=2", "step=7", "stall=1", "step=1,stall=1"):
        end = command.run(hostile)
        whole = command.is_whole(end)
        section.note(end, command.trouble_of_file(end) if whole else f"not the whole answer: {end.says()!r}"[:400])


def failing_writes(section, command):
    """The j-th write fails, or it and all after it, or it takes nothing; in one piece each, and a byte at a time."""
    for step in ("", ",step=1"):
        for setting in ("write", "write+", "none"):
            number, end = 0, command.ample
            while number == 0 or number <= end.counts.writes:
                number += 1
                end = command.run(f"{setting}={number}{step}")
                met = number <= end.counts.writes
                section.note(end, trouble_of_writing(command, end, met) or trouble_beside(command))


def trouble_beside(command):
    """Nothing is left beside the file that is written, unless its removal failed too."""
    left = left_beside(command.bench)
    for name in left:
        os.remove(command.bench.at(name))
    return f"left beside: {', '.join(left)}" if left else None


def failing_calls(section, command):
    """The j-th call on a file, a folder or a stream fails, or it and all after it."""
    for setting in ("file", "file+"):
        number, calm = 0, 0
        while calm < CALM:
            number += 1
            end = command.run(f"{setting}={number}")
            met = end.counts.refused_files > 0
            calm = 0 if met else calm + 1
            if end.err.startswith(b"ctxvet: cannot read: "):
                trouble = trouble_of_form(end) or untouched(command)
            else:
                trouble = trouble_of_writing(command, end, met)
            # Where all calls fail, that which removes the file beside fails too.
            beside = trouble_beside(command)
            section.note(end, trouble or (beside if setting == "file" else None))


def kills(section, command):
    """Killed at the j-th call: the file has its old text or the whole new one."""
    number, end = 0, None
    while end is None or end.status == -signal.SIGKILL:
        number += 1
        end = command.run(f"kill={number}")
        text = command.bench.read(OUT)
        begun = command.ample.out.startswith(end.out)
        is_well = text in (OLD, command.text) and begun
        section.kinds["killed"] += end.status == -signal.SIGKILL
        if end.status != -signal.SIGKILL or not is_well:
            section.note(end, None if is_well else f"killed at call {number}: {(text or b'')[:200]!r}")
        for name in left_beside(command.bench):
            os.remove(command.bench.at(name))


def closed(*numbers):
    return [(os.POSIX_SPAWN_CLOSE, number) for number in numbers]


def closed_streams(section, command):
    """Streams that are closed, that are full, and a pipe that nobody reads."""
    reader, writer = os.pipe()
    os.close(reader)
    broken = [(os.POSIX_SPAWN_DUP2, writer, 1)]
    for actions in (closed(1), FULL, broken):
        end = command.run(None, actions=actions)
        trouble = None if end.says() == (2, b"", UNWRITTEN) else f"the write does not fail: {end.says()!r}"[:400]
        section.note(end, trouble or command.trouble_of_file(end) or untouched(command))
    for numbers in ((0,), (2,), (0, 2)):
        end = command.run(None, actions=closed(*numbers))
        whole = end.says() == (command.ample.status, command.ample.out, b"")
        section.note(end, command.trouble_of_file(end) if whole else f"not the whole answer: {end.says()!r}"[:400])
    for numbers in ((1, 2), (0, 1, 2)):
        end = command.run(None, actions=closed(*numbers))
        trouble = None if end.says() == (2, b"", b"") else f"not status 2 and nothing more: {end.says()!r}"[:400]
        section.note(end, trouble or command.trouble_of_file(end) or untouched(command))
    os.close(writer)


def special_files(section, command):
    """Files for certificates that can't be written, or are none: the report is whole all the same."""
    if not command.writes:
        return
    bench, words = command.bench, command.words[3:]
    os.makedirs(bench.at("folder"), exist_ok=True)
    for file in ("/dev/full", bench.at("folder"), bench.at("none/file"), bench.at("a/a.go/file"), bench.at("x" * 256)):
        end = bench.run(["check", "--cert", file, *words])
        line = b"ctxvet: cannot write: %s\n" % file.encode()
        known = end.says() == (2, command.ample.out, line)
        section.note(end, None if known else f"OUT can't be written: {end.says()!r}"[:400])
    end = bench.run(["check", "--cert", "/dev/null", *words])
    section.note(end, None if command.is_whole(end) else f"not the whole answer: {end.says()!r}"[:400])
    # Where the report can't be written either, that is told.
    end = bench.run(["check", "--cert", bench.at("none/file"), *words], actions=FULL)
    section.note(end, None if end.says() == (2, b"", UNWRITTEN) else f"not of the report: {end.says()!r}"[:400])
