"""Texts of declared facts that are none, that are damaged, or that say much; and files that have none."""

import json
import math
import os

from common import verdicts
from hostility.folders import CONTROLS, ROOM, SPARSE, expect, expect_unread, limited
from hostility.huge import huge_texts
from hostility.runs import OUT_OF_MEMORY, Section, trouble_of_form
from hostility.texts import trouble_of_cut
from hostility.worked import FACTS, LOST, NOTIFIED, OTHERWISE, PASSED, WORKED, report_of, words_of

FILE = "facts.json"
NOT_JSON = b"ctxvet: facts are not JSON\n"
OTHER_SHAPE = b"ctxvet: facts have another shape\n"
NEW_VERSION = b"ctxvet: facts version not known\n"
RESERVED = b"ctxvet: facts name a reserved path: %s\n"
GIVEN = b"ctxvet: facts name a given package: %s\n"
RESERVED_PATHS = ("context", "golang.org/x/sync/errgroup")
# 127 lists and objects in each other are read, and more are no JSON.
DEEPEST = 127
MOST = (1 << 32) - 1
DAMAGES = b'"\\{}[],:09-\xff'
# So many functions of a package, and so many packages.
MANY = 100_000

EMPTY = '{"packages":[],"version":2}'
BOTH = {"a": NOTIFIED, "b": PASSED}


def declaring(*packages, version=2):
    """The text of facts of these packages, each a path and the texts of its functions."""
    parts = (f'{{"functions":[{",".join(functions)}],"path":{json.dumps(path)}}}' for path, *functions in packages)
    return f'{{"packages":[{",".join(parts)}],"version":{version}}}'


def function(name="f", causes="[]", gives="[]", params="[]", results="0"):
    return f'{{"causes":{causes},"gives":{gives},"name":"{name}","params":{params},"results":{results}}}'


def parameters(*rest):
    """Facts of one function whose parameters these are."""
    return declaring(("x", function(params=f"[{','.join(rest)}]")))


def nested(opening, closing, depth):
    return opening * depth + closing * depth


CANCEL = '{"at":0,"calls":true,"kind":"cancel"}'

# Texts, and what is told of them where `a` is given.
TEXTS = {
    "": NOT_JSON,
    "{": NOT_JSON,
    f"\ufeff{EMPTY}": NOT_JSON,
    f"{EMPTY} {EMPTY}": NOT_JSON,
    '{"version":1e999}': NOT_JSON,
    '{"\\ud800":1}': NOT_JSON,
    '{"packages":[],"version":02}': NOT_JSON,
    '{"packages":[],"version":2,}': NOT_JSON,
    nested("[", "]", 200): NOT_JSON,
    nested("[", "]", DEEPEST + 1): NOT_JSON,
    nested("[", "]", DEEPEST): OTHER_SHAPE,
    nested("[", "]", 1_000_000): NOT_JSON,
    '{"a":' * 1_000_000: NOT_JSON,
    "null": OTHER_SHAPE,
    "[]": OTHER_SHAPE,
    "{}": OTHER_SHAPE,
    '{"packages":[]}': OTHER_SHAPE,
    **{f'{{"packages":[],"version":{other}}}': OTHER_SHAPE for other in ('"2"', "-2", "-0", "2.0", "2e0", "null", MOST + 1)},
    **{f'{{"packages":7,"version":{other}}}': NEW_VERSION for other in (0, 1, 3, MOST)},
    '{"packages":[],"version":2,"x":0}': OTHER_SHAPE,
    '{"version":2}': OTHER_SHAPE,
    '{"packages":{},"version":2}': OTHER_SHAPE,
    '{"functions":[],"version":2}': OTHER_SHAPE,
    declaring(("x",), ("x",)): OTHER_SHAPE,
    declaring(("x", function(), function())): OTHER_SHAPE,
    declaring(("x", function(gives="[0]"))): OTHER_SHAPE,
    declaring(("x", function(causes="[1]", results="1"))): OTHER_SHAPE,
    declaring(("x", function(gives="[0,0]", results="1"))): OTHER_SHAPE,
    declaring(("x", function(gives="[0]", causes="[0]", results="1"))): OTHER_SHAPE,
    **{declaring(("x", function(results=other))): OTHER_SHAPE for other in ("-1", "1.0", "null", '"1"', MOST + 1)},
    declaring(("x", function().replace(',"results":0', ""))): OTHER_SHAPE,
    declaring(("x", function().replace('"causes":[],', ""))): OTHER_SHAPE,
    parameters(CANCEL, CANCEL): OTHER_SHAPE,
    **{parameters(CANCEL.replace("cancel", other)): OTHER_SHAPE for other in ("group", "func", "")},
    **{parameters(CANCEL.replace("true", other)): OTHER_SHAPE for other in ("1", "null", '"true"')},
    parameters('{"at":0,"kind":"cancel"}'): OTHER_SHAPE,
    **{declaring(("x",), (path,)): RESERVED % path.encode() for path in RESERVED_PATHS},
    declaring(("context",), ("golang.org/x/sync/errgroup",)): RESERVED % b"context",
    declaring(("a",), ("context",)): RESERVED % b"context",
    declaring(("context",), ("x",), ("x",)): OTHER_SHAPE,
    declaring(("context",), version=1): NEW_VERSION,
    declaring(("x",), ("a",)): GIVEN % b"a",
    declaring(("a",)).replace('"a"', '"\\u0061"'): GIVEN % b"a",
}

UNKNOWN = [f"b 10:12: LC06 cancel {OTHERWISE}", f"b 11:1: {LOST}", "no b"]
FOLLOWED = ["a 11:1: LC05 stop may not have been called at this return", "no a"]

# Texts that read well, and the report of NOTIFIED and PASSED.
READ = (
    (EMPTY, ["yes a", *UNKNOWN]),
    (FACTS, [*FOLLOWED, "yes b"]),
    (f" \t\r\n{FACTS}\n", [*FOLLOWED, "yes b"]),
    # Of other cases, of other functions, and of other paths nothing is known.
    (FACTS.replace("Notify", "notify").replace("Close", "close"), ["yes a", *UNKNOWN]),
    (FACTS.replace("x/run", "run").replace("os/signal", "signal"), ["yes a", *UNKNOWN]),
    (FACTS.replace("true", "false"), [*FOLLOWED, *UNKNOWN]),
    (FACTS.replace('"at":0', f'"at":{MOST}'), [*FOLLOWED, *UNKNOWN]),
    # As many results as there may be, of which the last is given.
    (
        FACTS.replace("[1]", f"[{MOST - 1}]").replace('"results":2', f'"results":{MOST}'),
        ["a 9:15: LC06 NotifyContext cancel function used in another way", "no a", "yes b"],
    ),
    (declaring(("",), ("\n",), ('"',), ("\0",), ("a/../a",), ("A",)), ["yes a", *UNKNOWN]),
)


def facts(bench, long):
    """Texts with what is told of them or by them, damaged at each byte, and huge; sources that are cut; and files."""
    section = Section(bench, "facts")
    faulty_texts(section)
    read_texts(section)
    damaged_bytes(section)
    worked_runs(section)
    cut_sources(section)
    files(section)
    many(section)
    bench.empty_case()
    path, words = bench.at(FILE), words_of(bench, BOTH)
    huge_texts(section, path, ["check", "--facts", path, *words], HUGE_TEXTS)
    return section


def check(bench, words, text):
    return bench.run(["check", "--facts", bench.put(FILE, text), *words])


def faulty_texts(section):
    bench = section.bench
    bench.empty_case()
    words = words_of(bench, {"a": NOTIFIED})
    texts = {text.encode(): fault for text, fault in TEXTS.items()}
    texts.update({b'"\xe9"': NOT_JSON, b"\xff\xfe{\0}\0": NOT_JSON, b"\0": NOT_JSON})
    for text, fault in texts.items():
        expect(section, check(bench, words, text), 2, b"", fault)


def read_texts(section):
    bench = section.bench
    bench.empty_case()
    words = words_of(bench, BOTH)
    kept = bench.at("kept.json")
    for text, lines in READ:
        report = report_of(bench, lines)
        expect(section, check(bench, words, text.encode()), int(b"no " in report), report, b"")
        # By the certificates of a check with the same facts the verdicts are the same.
        bench.run(["check", "--cert", kept, "--facts", bench.at(FILE), *words])
        end = bench.run(["verify", "--cert", kept, "--facts", bench.at(FILE), *words])
        same = verdicts(end.out) == verdicts(report)
        section.note(end, trouble_of_form(end) or (None if same else f"not as by check: {end.says()!r}"[:400]))


def is_whole(value):
    return type(value) is int and 0 <= value <= MOST


def is_object(value, *keys):
    return type(value) is dict and sorted(value) == sorted(keys)


def are_distinct(values):
    return len(set(values)) == len(values)


def is_parameter(value):
    if type(value) is dict and value.get("kind") == "group":
        return is_object(value, "at", "kind") and is_whole(value["at"])
    is_cancel = is_object(value, "at", "calls", "kind") and value["kind"] in ("cancel", "cause")
    return is_cancel and is_whole(value["at"]) and type(value["calls"]) is bool


def is_function(value):
    if not is_object(value, "causes", "gives", "name", "params", "results"):
        return False
    parts = [value["causes"], value["gives"], value["params"]]
    if type(value["name"]) is not str or not is_whole(value["results"]) or any(type(part) is not list for part in parts):
        return False
    positions = value["causes"] + value["gives"]
    if not all(is_whole(one) and one < value["results"] for one in positions) or not are_distinct(positions):
        return False
    return all(map(is_parameter, value["params"])) and are_distinct([one["at"] for one in value["params"]])


def is_package(value):
    is_one = is_object(value, "functions", "path") and type(value["path"]) is str and type(value["functions"]) is list
    return is_one and all(map(is_function, value["functions"])) and are_distinct([one["name"] for one in value["functions"]])


def strict_json(text):
    """The value of a text, as JSON has it."""

    def refused(_):
        raise ValueError

    def fraction(digits):
        return float(digits) if math.isfinite(float(digits)) else refused(digits)

    whole = lambda digits: -1.0 if digits.startswith("-") else int(digits)
    value = json.loads(text.decode("utf-8"), parse_constant=refused, parse_float=fraction, parse_int=whole)
    json.dumps(value, ensure_ascii=False).encode("utf-8")
    return value


def reading(text):
    """The fault of a text, or the value of the facts in it, by facts/README.md."""
    try:
        value = strict_json(text)
    except ValueError:
        return NOT_JSON, None
    if type(value) is not dict or not is_whole(value.get("version")):
        return OTHER_SHAPE, None
    if value["version"] != 2:
        return NEW_VERSION, None
    if not is_object(value, "packages", "version") or type(value["packages"]) is not list:
        return OTHER_SHAPE, None
    paths = [one["path"] for one in value["packages"] if is_package(one)]
    if len(paths) < len(value["packages"]) or not are_distinct(paths):
        return OTHER_SHAPE, None
    reserved = [path for path in paths if path in RESERVED_PATHS]
    return (RESERVED % reserved[0].encode(), None) if reserved else (None, value)


def damaged_bytes(section):
    """Each byte removed, doubled, or replaced: the fault is that of the format. Where there is none, the report is that of
    the same facts in another text, with white space and all keys the other way round."""
    bench, reports = section.bench, {}
    bench.empty_case()
    words = words_of(bench, BOTH)
    text = FACTS.encode()
    for place in range(len(text)):
        before, byte, after = text[:place], text[place:place + 1], text[place + 1:]
        expect(section, check(bench, words, before), 2, b"", NOT_JSON)
        for other in (b"", byte + byte, *(bytes([one]) for one in DAMAGES)):
            damaged = before + other + after
            fault, value = reading(damaged)
            end = check(bench, words, damaged)
            if fault:
                expect(section, end, 2, b"", fault)
                continue
            same = turned(value)
            if same not in reports:
                reports[same] = check(bench, words, same)
            trouble = None if end.says() == reports[same].says() else f"not as by the same facts: {damaged[:300]!r}"
            section.note(end, trouble_of_form(end) or trouble)


def turned(value):
    """Another text of the same value."""
    if type(value) is dict:
        return b"{\n%s }" % b" ,".join(turned(key) + b" : " + turned(value[key]) for key in sorted(value, reverse=True))
    if type(value) is list:
        return b"[ %s\t]" % b",\r\n".join(map(turned, value))
    return json.dumps(value).encode()


def worked_runs(section):
    """Reports of packages that import nothing that is declared are what they were."""
    bench = section.bench
    for packages, lines in WORKED.values():
        bench.empty_case()
        report = report_of(bench, lines)
        end = check(bench, words_of(bench, packages), FACTS.encode())
        expect(section, end, int(b"no " in report), report, b"")


def cut_sources(section):
    bench = section.bench
    for text in (NOTIFIED.encode(), PASSED.encode()):
        bench.empty_case()
        for count in range(len(text)):
            end = check(bench, [bench.package("a", {"a.go": text[:count]})], FACTS.encode())
            section.note(end, trouble_of_form(end) or trouble_of_cut(text[:count], end))


def files(section):
    """Files of facts that are none, by their names and kinds; a text is read as far as memory goes."""
    bench = section.bench
    bench.empty_case()
    word = bench.package("a", {"a.go": NOTIFIED.encode()})
    run = lambda name, **how: bench.run(["check", "--facts", name, word], **how)
    for name in (bench.at("none"), bench.at("a"), bench.at("a/a.go/b"), "/dev", bench.at("x" * 256), "/" + "x" * 100_000):
        expect_unread(section, run(name), name)
    os.symlink("ring", bench.at("ring"))
    expect_unread(section, run(bench.at("ring")), bench.at("ring"))
    for byte in CONTROLS:
        name = bench.at(f"x{chr(byte)}yes a{chr(byte)}y.json")
        expect_unread(section, run(name), name)
        bench.put(name, FACTS.encode())
        expect(section, run(name), 1, report_of(bench, FOLLOWED), b"")
        os.remove(name)
    bench.put("sparse", b"")
    os.truncate(bench.at("sparse"), SPARSE)
    for name in (bench.at("sparse"), "/dev/zero"):
        expect(section, run(name, before=limited(ROOM)), 2, b"", OUT_OF_MEMORY)
    expect(section, run("/dev/null"), 2, b"", NOT_JSON)


def many(section):
    """Many functions of a package, and many packages, behind and before those that are looked for."""
    bench = section.bench
    bench.empty_case()
    words = words_of(bench, BOTH)
    report = report_of(bench, [*FOLLOWED, "yes b"])
    functions = [function(f"f{number}", gives="[0]", params=f"[{CANCEL}]", results="1") for number in range(MANY)]
    front, rest = FACTS.split('"functions":[', 1)
    texts = {
        "functions": f'{front}"functions":[{",".join(functions)},{rest}',
        "packages": declaring(*((f"p{number}",) for number in range(MANY)))[:-len('],"version":2}')]
        + "," + FACTS[len('{"packages":['):],
    }
    for name, text in texts.items():
        end = check(bench, words, text.encode())
        expect(section, end, 1, report, b"")
        print(f"{MANY} {name} declared: {end.seconds:.1f} s, {end.kilobytes / 1000:.0f} MB", flush=True)


# Texts of 100 MB: what stands before and after what is repeated, and what may be told.
HUGE_TEXTS = {
    "digits of a version": (b'{"packages":[],"version":', b"1", b"}", (NOT_JSON, OTHER_SHAPE)),
    "brackets": (b"", b"[", b"", (NOT_JSON,)),
    "one string": (b'"', b"a", b'"', (OTHER_SHAPE,)),
    "one key": (b'{"packages":[],"version":2,"', b"a", b'":0}', (OTHER_SHAPE,)),
    "one path": (b'{"packages":[{"functions":[],"path":"', b"a", b'"}],"version":2}', ()),
    "numbers": (b"[0", b",0", b"]", (OTHER_SHAPE,)),
    "positions": (
        b'{"packages":[{"functions":[{"causes":[],"gives":[0', b",0",
        b'],"name":"f","params":[],"results":1}],"path":"b"}],"version":2}', (OTHER_SHAPE,)
    ),
    "keys of one name": (b'{"version":2', b',"packages":[]', b"}", ()),
}
