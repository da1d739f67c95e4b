"""What bench/lexer, bench/parser, bench/check, bench/damaged and bench/hostile share: Go texts, packages, and how
programs are built and timed."""

import os
import random
import re
import shutil
import subprocess
import sys
import time

ROOT = os.path.dirname(os.path.dirname(os.path.abspath(__file__)))
LIMIT = 1_048_576
TURNS = 9
# Turns of what takes longer.
FEW = 3

WORDS = "ctx cancel err result value index count buffer request response handler server client config".split()
PROSE = "the a of it is to and returns waits for until if was closed before an error value".split() + WORDS
TYPES = "int string error []byte map[string]int context.Context *Server time.Duration".split()


def name(source):
    """An exported or local name of one to three words."""
    words = source.choices(WORDS, k=source.randrange(1, 4))
    return words[0] + "".join(word.title() for word in words[1:])


def comment(source, indent, lines):
    """Some lines of comment."""
    return [f"{indent}// " + " ".join(source.choices(PROSE, k=source.randrange(6, 14))) for _ in range(lines)]


def statement(source):
    """One statement, as people write them; one of three has a comment before it."""
    one, other, third = name(source), name(source), name(source)
    number = source.randrange(1000)
    lines = source.choice(
        [
            [f'\t{one}, err := s.{other}(ctx, {number}, "{third}/{other}\\n")',
             "\tif err != nil {", f'\t\treturn nil, fmt.Errorf("{third}: %w", err)', "\t}"],
            [f"\tfor i := 0; i < len({one}); i++ {{", f"\t\t{other}[i] += {one}[i]&0x{number:x} | 1<<3", "\t}"],
            [f"\tif {one} == nil || len({other}) > {number} && {one}.{third} != 'x' {{",
             f"\t\t{one} = make([]byte, {number})", "\t} else {", f"\t\t{other}.Close() // {third}", "\t}"],
            [f"\tgo func() {{ {one} <- {other} }}()"],
            [f"\tswitch {one}.{other} {{", f"\tcase {number}, {number / 64}:",
             f"\t\tlog.Printf(`%v {third}`, {other})", "\tdefault:", "\t\tbreak", "\t}"],
        ]
    )
    return comment(source, "\t", source.choice([0, 0, 1])) + lines


def go_function(source):
    """A function with its comment."""
    kinds = source.choices(TYPES, k=2)
    head = f"func (s *Server) {name(source)}(ctx context.Context, {name(source)} {kinds[0]}) ({kinds[1]}, error) {{"
    lines = comment(source, "", source.randrange(1, 4)) + [head]
    lines += ["\tctx, cancel := context.WithTimeout(ctx, 5*time.Second)", "\tdefer cancel()"]
    for _ in range(source.randrange(3, 12)):
        lines += statement(source)
    return "\n".join(lines + [f"\treturn {name(source)}, nil", "}", "", ""])


def go_file(source, size):
    """The text of a Go file of little over `size` bytes."""
    text = 'package bench\n\nimport (\n\t"context"\n\t"fmt"\n\t"time"\n)\n\n'
    while len(text) < size:
        text += go_function(source)
    return text.encode()


def generate_go(folder, size):
    """Files of Go of about 40 kB each, `size` bytes in all, the same at each run."""
    source, names, made = random.Random(1), [], 0
    while made < size:
        text = go_file(source, 40_000)
        names.append(write(folder, f"go{len(names)}.go", text))
        made += len(text)
    return names


def go_root():
    """The folder of Go's own library, or None where the go command is not installed."""
    if shutil.which("go") is None:
        return None
    return os.path.join(subprocess.check_output(["go", "env", "GOROOT"], text=True).strip(), "src")


def is_read(name):
    return name.endswith(".go") and not name.endswith("_test.go")


def packages_below(top):
    """The words PATH=DIR of the folders below this one that have Go files, and the bytes of these files."""
    words, size = [], 0
    for folder, folders, names in os.walk(os.path.realpath(top)):
        folders[:] = sorted(one for one in folders if one not in ("testdata", "vendor") and one[0] not in "._")
        files = [os.path.join(folder, name) for name in names if is_read(name)]
        if files:
            words.append(f"{os.path.relpath(folder, os.path.realpath(top))}={folder}")
            size += sum(map(os.path.getsize, files))
    return words, size


def answer(words, **how):
    """What a command answers: its status, and the bytes on its two streams."""
    done = subprocess.run(words, stdout=subprocess.PIPE, stderr=subprocess.PIPE, **how)
    return done.returncode, done.stdout, done.stderr


def verdicts(report):
    """The verdict, yes or no, of each import path in a report."""
    return {path: verdict.decode() for verdict, path in re.findall(rb"^(yes|no) (.*)$", report, re.M)}


def write(folder, name, data):
    path = os.path.join(folder, name)
    with open(path, "wb") as file:
        file.write(data)
    return path


def built(program):
    """The path of a program of the repository, as its script starts it. It is built first, where it must be."""
    return where_is(program, [os.path.join(ROOT, "scripts", "where"), program])


def tool(name):
    """The path of the program of a tool, tools/NAME. It is made first, where it must be."""
    return where_is(name, [os.path.join(ROOT, "tools", name, "run"), "--where"])


def where_is(program, words):
    where = subprocess.run(words, stdout=subprocess.PIPE, text=True)
    if where.returncode != 0:
        sys.exit(f"{sys.argv[0]}: {program} could not be built")
    return where.stdout.strip()


def build_go(folder, name):
    """Builds bench/NAME.go, and gives the program's path, or None where Go isn't installed."""
    if shutil.which("go") is None:
        return None
    program = os.path.join(folder, name)
    source = os.path.join(ROOT, "bench", f"{name}.go")
    environment = dict(os.environ, GOFLAGS="-mod=mod", GOCACHE=os.path.join(folder, "cache"))
    subprocess.run(["go", "build", "-o", program, source], check=True, cwd=folder, env=environment)
    return program


def run(words):
    """The seconds that a command takes, and its output."""
    start = time.perf_counter()
    done = subprocess.run(words, stdout=subprocess.PIPE, text=True)
    seconds = time.perf_counter() - start
    if done.returncode != 0:
        sys.exit(f"{sys.argv[0]}: {words[0]} failed")
    return seconds, done.stdout


def best(words):
    """As `run`, with the shortest time of some turns."""
    return min(run(words) for _ in range(TURNS))


def timed(words, **how):
    """The shortest of some turns in seconds, what was printed, and the last status."""
    best = None
    for _ in range(FEW):
        start = time.perf_counter()
        done = subprocess.run(words, stdout=subprocess.PIPE, stderr=subprocess.PIPE, text=True, **how)
        spent = time.perf_counter() - start
        best = spent if best is None else min(best, spent)
    return best, done.stdout, done.returncode


def counts(out):
    words = out.split()
    return {words[i]: int(words[i + 1]) for i in range(0, len(words), 2)}


def throughput(label, words, files):
    seconds, out = best(words + files)
    found = counts(out)
    speed = found["bytes"] / seconds / 1e6
    print(f"{label}: {out.strip()}: {speed:.0f} MB/s")
    return speed, found


def on_one_processor():
    os.sched_setaffinity(0, {min(os.sched_getaffinity(0))})


def one_body(size, groups=0):
    """A file with one function of little under `size` bytes, which has 48 cancel functions and so many groups, and uses
    of all of them."""
    front = 'package a\n\nimport (\n\t"context"\n\t"golang.org/x/sync/errgroup"\n)\n\nfunc f(p context.Context) {\n'
    front += "".join(f"\t_, c{i} := context.WithCancel(p)\n" for i in range(48))
    front += "".join(f"\tvar g{i} errgroup.Group\n" for i in range(groups))
    part = "".join(f"\tc{i}()\n" for i in range(48)) + "".join(f"\tg{i}.Wait()\n" for i in range(groups))
    return front + part * ((size - len(front) - 2) // len(part)) + "}\n"
