"""Folders and files that are hostile: by their names, their kind, their number, their rights, or as they change."""

import contextlib
import os
import subprocess
import sys
import threading

from hostility.runs import OUT_OF_MEMORY, Section, line_of, trouble_of_form
from hostility.worked import DEFERRED, LOST, ON_ONE_BRANCH

GOOD, BAD = DEFERRED.encode(), ON_ONE_BRANCH.encode()
CONTROLS = [byte for byte in range(1, 128) if byte < 32 or byte == 127]
MANY = 100_000
# So many names of one file: no file system has fewer.
LINKS = 1000
MOST_PACKAGES = 10_000
# Kilobytes of addresses of a run that must not read a file of 2 GiB, or one that has no end.
ROOM = 1_000_000
SPARSE = 2 << 30
NOBODY = 65534
# Runs on a folder that changes meanwhile.
TURNS, MORE_TURNS = 300, 3000


def folders(bench, long):
    """Names, kinds, numbers and rights of files and folders, and folders that change while they are read."""
    section = Section(bench, "folders")
    for part in (names, words, kinds, rings, endless_files, many_files, many_packages, twice, unreadable):
        bench.empty_case()
        part(section)
    bench.empty_case()
    changing(section, MORE_TURNS if long else TURNS)
    bench.empty_case()
    return section


def limited(kilobytes):
    """A command that gives another one so many kilobytes of addresses."""
    return ("sh", "-c", f'ulimit -v {kilobytes}; exec "$@"', "sh")


def expect(section, end, status, out, err):
    wanted = (status, out, err)
    section.note(end, None if end.says() == wanted else f"{end.says()!r}, and not {wanted!r}"[:600])


def expect_unread(section, end, name):
    """The run ends with a line that this can't be read; a control code of the name is escaped."""
    expect(section, end, 2, b"", b"ctxvet: cannot read: %s\n" % escaped(os.fsencode(name)))


def escaped(name):
    short = {9: b"\\t", 10: b"\\n", 13: b"\\r"}
    shown = lambda byte: short.get(byte, b"\\u{%x}" % byte) if byte in CONTROLS else bytes([byte])
    return b"".join(map(shown, name))


def names(section):
    """A control code in the name of a file, a folder, a package or a file of certificates can't forge a line."""
    bench = section.bench
    for byte in CONTROLS:
        part = f"x{chr(byte)}yes a{chr(byte)}y"
        bench.empty_case()
        word = bench.package("a", {f"{part}.go": GOOD})
        expect_unread(section, bench.run(["check", word]), bench.at("a"))
        bench.empty_case()
        bench.package(part, {"a.go": GOOD})
        expect_unread(section, bench.run(["check", f"a={bench.at(part)}"]), bench.at(part))
        word = bench.package("b", {"a.go": GOOD, f"{part}.txt": GOOD, f"{part}_test.go": GOOD})
        end = bench.run(["check", f"{part}={bench.at('b')}"])
        expect(section, end, 2, b"", b"ctxvet: bad package: %s\n" % escaped(f"{part}={bench.at('b')}".encode()))
        expect(section, bench.run(["check", word]), 0, b"yes b\n", b"")
        file = bench.at(f"{part}.json")
        expect_unread(section, bench.run(["verify", "--cert", file, word]), file)
        for command in ("check", "verify"):
            expect(section, bench.run([command, "--cert", file, word]), 0, b"yes b\n", b"")
        file = bench.at(f"none/{part}")
        end = bench.run(["check", "--cert", file, word])
        expect(section, end, 2, b"yes b\n", b"ctxvet: cannot write: %s\n" % escaped(file.encode()))


def words(section):
    """Names that are no UTF-8, and names that are too long."""
    bench = section.bench
    os.makedirs(bench.at("a"))
    with open(os.fsencode(bench.at("a")) + b"/\xff.go", "wb") as file:
        file.write(GOOD)
    expect_unread(section, bench.run(["check", f"a={bench.at('a')}"]), bench.at("a"))
    # This is told before words that are wrong, and before one that names no package.
    for word in ([b"a=\xff"], [b"\xff=a"], [b"\xff"], [b"--cert=\xff"], ["-j", "0", b"a=\xff"], ["a", b"a=\xff"]):
        expect(section, bench.run(["check", *word]), 2, b"", line_of("WordNotText"))
    for name in (bench.at("x" * 256), bench.at("x/" * 2100), "/" + "x" * 100_000):
        expect_unread(section, bench.run(["check", f"a={name}"]), name)
        expect_unread(section, bench.run(["verify", "--cert", name, "a=a"]), name)
    long_name = "x" * 252 + ".go"
    word = bench.package("b", {long_name: BAD})
    expect(section, bench.run(["check", word]), 1, finding(bench, "b", long_name) + b"no b\n", b"")
    word = "p" * 100_000 + "=" + bench.at("b")
    end = bench.run(["check", word])
    expect(section, end, 1, finding(bench, "b", long_name) + b"no " + b"p" * 100_000 + b"\n", b"")


def finding(bench, folder, name):
    """The one line on a file with BAD."""
    return f"{bench.at(folder)}/{name}:12:1: {LOST}\n".encode()


def kinds(section):
    """A file of the folder that is a pipe, a device, a link to nothing or a socket isn't read, nor waited for."""
    bench = section.bench
    devices = ("/dev/zero", "/dev/null", "/dev/full", "/dev/tty", "/dev/stdin")
    for target in (*devices, "none", "a.go", "../a/a.go"):
        bench.empty_case()
        word = bench.package("a", {})
        os.symlink(target, bench.at("a/a.go"))
        end = bench.run(["check", word], before=limited(ROOM))
        expect_unread(section, end, bench.at("a/a.go"))
    bench.empty_case()
    word = bench.package("a", {})
    os.mkfifo(bench.at("a/a.go"))
    expect_unread(section, bench.run(["check", word]), bench.at("a/a.go"))
    for name in (bench.at("a"), bench.at("a/a.go/b"), "/dev"):
        expect_unread(section, bench.run(["verify", "--cert", name, "a=a"]), name)
    for folder in (bench.at("a/a.go"), "/dev/null", "/dev/zero", "/proc/self/exe", ""):
        end = bench.run(["check", f"a={folder}"])
        if folder:
            expect_unread(section, end, folder)
        else:
            expect(section, end, 2, b"", b"ctxvet: bad package: a=\n")
    for folder in ("/proc/self", "/proc/self/fd", "/dev", "/"):
        end = bench.run(["check", f"a={folder}"])
        expect(section, end, 0, b"yes a\n", b"ctxvet: note: no Go files in %s\n" % folder.encode())


def rings(section):
    """Links in rings, of files and of folders, and a folder that is in itself."""
    bench = section.bench
    word = bench.package("a", {})
    os.symlink("b.go", bench.at("a/a.go"))
    os.symlink("a.go", bench.at("a/b.go"))
    expect_unread(section, bench.run(["check", word]), bench.at("a/a.go"))
    os.symlink("ring", bench.at("ring"))
    expect_unread(section, bench.run(["check", f"a={bench.at('ring')}"]), bench.at("ring"))
    for file in ("ring", "a/a.go"):
        expect_unread(section, bench.run(["verify", "--cert", bench.at(file), "a=a"]), bench.at(file))
        word = bench.package("b", {"a.go": GOOD})
        end = bench.run(["check", "--cert", bench.at(file), word])
        expect(section, end, 2, b"yes b\n", b"ctxvet: cannot write: %s\n" % bench.at(file).encode())
    os.symlink(".", bench.at("b/inner"))
    os.symlink("..", bench.at("b/outer.go"))
    inner = bench.at("b") + "/inner" * 20
    expect(section, bench.run(["check", f"b={inner}"]), 0, b"yes b\n", b"")


def endless_files(section):
    """Files of 2 GiB that take no room on the disk, and one without an end: a text is read to its limit, and
    certificates as far as memory goes."""
    bench = section.bench
    word = bench.package("a", {"a.go": b""})
    os.truncate(bench.at("a/a.go"), SPARSE)
    line = f"{bench.at('a')}/a.go:1:1: LC01 - file over 1 MiB\nno a\n".encode()
    expect(section, bench.run(["check", word], before=limited(ROOM)), 1, line, b"")
    for file in (bench.at("a/a.go"), "/dev/zero"):
        end = bench.run(["verify", "--cert", file, word], before=limited(ROOM))
        expect(section, end, 2, b"", OUT_OF_MEMORY)


def many_files(section):
    """100,000 files in a folder: none of them Go, and all of them."""
    bench = section.bench
    word = bench.package("a", {"z.go": GOOD})
    for number in range(MANY):
        os.close(os.open(bench.at(f"a/{number}.txt"), os.O_CREAT | os.O_WRONLY))
    expect(section, bench.run(["check", word]), 0, b"yes a\n", b"")
    bench.empty_case()
    word = bench.package("a", {"z.go": BAD})
    for number in range(MANY):
        if number % LINKS == 0:
            linked = bench.put(f"a/{number}.go", b"package a\n")
        else:
            os.link(linked, bench.at(f"a/{number}.go"))
    for workers in ("1", "64"):
        end = bench.run(["check", "-j", workers, word])
        expect(section, end, 1, finding(bench, "a", "z.go") + b"no a\n", b"")


def many_packages(section):
    """As many packages as a run takes, and one more: that is told before two of one path, and after a folder that can't
    be read."""
    bench = section.bench
    bench.package("a", {"a.go": GOOD})
    packages = [f"p{number}={bench.at('a')}" for number in range(MOST_PACKAGES + 1)]
    paths = sorted(word.split("=")[0] for word in packages[:-1])
    report = "".join(f"yes {path}\n" for path in paths).encode()
    expect(section, bench.run(["check", *packages[:-1]]), 0, report, b"")
    for more in (packages[-1], packages[0]):
        expect(section, bench.run(["check", *packages[:-1], more]), 2, b"", b"ctxvet: too many packages\n")
    expect_unread(section, bench.run(["check", *packages, f"a={bench.at('none')}"]), bench.at("none"))


def twice(section):
    """One folder under two import paths is two packages, also by certificates; one path twice is a fault."""
    bench = section.bench
    bench.package("a", {"a.go": BAD})
    folder = bench.at("a")
    same = [f"a={folder}", f"b={folder}", f"c={folder}/", f"d={bench.case}/./a/../a"]
    lines = [finding(bench, name, "a.go") for name in ("a", "a", "a", "./a/../a")]
    report = b"".join(line + b"no %s\n" % path for line, path in zip(lines, (b"a", b"b", b"c", b"d")))
    expect(section, bench.run(["check", *same]), 1, report, b"")
    expect(section, bench.run(["check", same[0], same[1], same[0]]), 2, b"", b"ctxvet: two packages of one path: a\n")
    bench.package("a", {"a.go": GOOD})
    file = bench.at("both.json")
    for words_of_run in (["check", "--cert", file], ["verify", "--cert", file]):
        expect(section, bench.run([*words_of_run, *same[:2]]), 0, b"yes a\nyes b\n", b"")


def as_nobody(section):
    """How a run is made without the rights of root: a command before it, and the program where nobody may start it."""
    bench = section.bench
    place = os.path.join(bench.folder, "program")
    if not os.path.exists(place):
        subprocess.run(["cp", os.path.realpath(bench.program), place], check=True)
        os.chmod(place, 0o755)
    if os.geteuid() != 0:
        return (), place
    rights = f"os.setgroups([]); os.setgid({NOBODY}); os.setuid({NOBODY})"
    script = f"import os, sys; {rights}; os.execv(sys.argv[1], sys.argv[1:])"
    return (sys.executable, "-I", "-c", script), place


def unreadable(section):
    """Folders and files without rights. Root reads all, so there the run is nobody's."""
    bench = section.bench
    before, program = as_nobody(section)
    if before:
        print(f"folders that can't be read: root reads all, so these runs are those of user {NOBODY}")
    word = bench.package("a", {"a.go": b"package a\n", "b.go": BAD})
    os.chmod(bench.case, 0o755)
    run = lambda *words_of_run: bench.run(words_of_run, before=before, program=program)
    expect(section, run("check", word), 1, finding(bench, "a", "b.go") + b"no a\n", b"")
    os.chmod(bench.at("a/a.go"), 0)
    expect_unread(section, run("check", word), bench.at("a/a.go"))
    expect_unread(section, run("verify", "--cert", bench.at("a/a.go"), word), bench.at("a/a.go"))
    os.chmod(bench.at("a/a.go"), 0o644)
    # Names can be listed and no file opened; or the other way round; or neither.
    for rights, name in ((0o444, "a/a.go"), (0o111, "a"), (0, "a")):
        os.chmod(bench.at("a"), rights)
        expect_unread(section, run("check", word), bench.at(name))
    os.chmod(bench.at("a"), 0o755)
    report = finding(bench, "a", "b.go") + b"no a\n"
    # A folder in which nobody may make a file, and a file that nobody may write.
    bench.put("kept.json", b"old")
    for name in ("new.json", "kept.json"):
        line = b"ctxvet: cannot write: %s\n" % bench.at(name).encode()
        expect(section, run("check", "--cert", bench.at(name), word), 2, report, line)
    if bench.read("kept.json") != b"old" or bench.read("new.json") is not None:
        section.fail("a file was changed that could not be written", f"check --cert {bench.at('kept.json')} {word}")


@contextlib.contextmanager
def meanwhile(act):
    """Does this again and again in another thread."""
    over = threading.Event()

    def turns():
        number = 0
        while not over.is_set():
            act(number)
            number += 1

    thread = threading.Thread(target=turns)
    thread.start()
    try:
        yield
    finally:
        over.set()
        thread.join()


def changing(section, turns):
    """Folders that change while they are read: a run ends with a report on what stood there, or can't read it."""
    bench = section.bench
    word = bench.package("a", {"a.go": GOOD})
    reports = (b"yes a\n", finding(bench, "a", "a.go") + b"no a\n")

    def replace(number):
        os.replace(bench.put("new", (GOOD, BAD)[number % 2]), bench.at("a/a.go"))

    with meanwhile(replace):
        for _ in range(turns):
            end = bench.run(["check", word])
            section.note(end, trouble_of_form(end) or (None if end.out in reports else f"{end.out[:300]!r}"))
    for act in (come_and_go, rewrite, move):
        bench.empty_case()
        word = bench.package("a", {"a.go": GOOD})
        with meanwhile(lambda number: act(bench, number)):
            for turn in range(turns):
                end = bench.run(["check", "-j", str(1 + turn % 3), word])
                section.note(end, trouble_of_form(end))


def come_and_go(bench, number):
    """Files come and go."""
    name = bench.at(f"a/b{number % 50}.go")
    if os.path.exists(name):
        os.remove(name)
    else:
        bench.put(name, b"package a\n")


def rewrite(bench, number):
    """A file is emptied and written in place, shorter and longer."""
    with open(bench.at("a/a.go"), "wb") as file:
        file.write((GOOD, BAD, b"", GOOD * 100)[number % 4])


def move(bench, number):
    """The folder itself goes away and comes back, as it was or as a link."""
    with contextlib.suppress(OSError):
        os.rename(bench.at("a"), bench.at("b"))
    with contextlib.suppress(OSError):
        os.symlink("b", bench.at("a"))
        os.remove(bench.at("a"))
    os.rename(bench.at("b"), bench.at("a"))
