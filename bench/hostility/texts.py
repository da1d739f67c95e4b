"""Go sources that are cut, damaged or of a hostile form."""

import re

from common import LIMIT
from hostility.runs import Section, trouble_of_form
from hostility.worked import DEFERRED, GROUP, HEAD, WORKED, report_of, words_of

REPLACEMENTS = (0, ord('"'), ord("{"), 255)
UNEXPECTED = "LC02 - unexpected token"

# The first line of the report on HEAD cut to so many bytes; the other beginnings are yes.
BEGINNINGS = {
    **{count: f"1:1: {UNEXPECTED}" for count in range(0, 7)},
    7: f"1:8: {UNEXPECTED}",
    8: f"1:9: {UNEXPECTED}",
    **{count: f"3:1: {UNEXPECTED}" for count in range(12, 17)},
    17: f"3:7: {UNEXPECTED}",
    18: f"3:8: {UNEXPECTED}",
    **{count: "3:8: LC01 - string not ended" for count in range(19, 27)},
}


def sources(bench, long):
    """Worked sources whole, cut at each byte, and with each byte replaced; beginnings; and texts of 1 MiB."""
    section = Section(bench, "sources")
    whole_sources(section)
    beginnings(section)
    for text in {text for packages, _ in WORKED.values() for text in packages.values()}:
        cut_at_each_byte(section, text.encode())
    for text in (DEFERRED, GROUP):
        each_byte_replaced(section, text.encode())
    long_texts(section)
    return section


def whole_sources(section):
    for name, (packages, report) in WORKED.items():
        section.bench.empty_case()
        end = section.bench.run(["check", *words_of(section.bench, packages)])
        trouble = unlike(end, report_of(section.bench, report))
        section.note(end, trouble and f"{name}: {trouble}")


def unlike(end, report):
    """What is wrong with an end that should be this report."""
    status = 0 if re.fullmatch(rb"(?:yes [^\n]*\n)+", report) else 1
    return None if end.says() == (status, report, b"") else f"{end.says()!r}, and not {report!r}"[:600]


def check(section, text):
    """Checks the text as the one file of the package `a`."""
    bench = section.bench
    word = bench.package("a", {"a.go": text})
    return bench.run(["check", word])


def named(section, line):
    """The report of the package `a` in which this is the one finding."""
    return f"{section.bench.at('a')}/a.go:{line}\nno a\n".encode() if line else b"yes a\n"


def beginnings(section):
    section.bench.empty_case()
    for count in range(len(HEAD) + 1):
        end = check(section, HEAD[:count].encode())
        section.note(end, unlike(end, named(section, BEGINNINGS.get(count))))


def place(text, offset):
    """Line and column of an offset, both from 1, columns in bytes."""
    before = text[:offset]
    return before.count(b"\n") + 1, offset - (before.rfind(b"\n") + 1) + 1


def cut_at_each_byte(section, text):
    """Of a text that has a tree, a beginning that has none is at fault at its last token or at its end."""
    section.bench.empty_case()
    end = check(section, text)
    has_tree = not re.search(rb": LC0[12] ", end.out)
    for count in range(len(text)):
        end = check(section, text[:count])
        section.note(end, trouble_of_form(end) or (trouble_of_cut(text[:count], end) if has_tree else None))


def trouble_of_cut(text, end):
    found = re.match(rb"[^\n]*:(\d+):(\d+): LC0[12] ", end.out)
    if found is None:
        return None
    last_token = len(text) - len(re.search(rb"\S*\s*\Z", text)[0])
    is_last = place(text, last_token) <= (int(found[1]), int(found[2])) <= place(text, len(text))
    return None if is_last else f"cut to {len(text)} bytes: {end.out[:200]!r}"


def each_byte_replaced(section, text):
    """A NUL byte and one that is no UTF-8 are at fault where they stand."""
    section.bench.empty_case()
    known = {0: "LC01 - NUL byte", 255: "LC01 - not UTF-8"}
    for offset in range(len(text)):
        for byte in REPLACEMENTS:
            end = check(section, text[:offset] + bytes([byte]) + text[offset + 1:])
            line, column = place(text, offset)
            wanted = named(section, f"{line}:{column}: {known[byte]}") if byte in known else None
            section.note(end, unlike(end, wanted) if wanted else trouble_of_form(end))


# What is repeated up to 1 MiB, in `package a`, and what the report begins with; None where any finding will do.
OPENING = b"package a\n\nvar x = "
BODY = b"package a\n\nfunc f() {\n"
REPEATED = {
    "opening brackets": (OPENING, b"("),
    "opening square brackets": (OPENING, b"["),
    "opening braces of literals": (OPENING, b"T{"),
    "braces in braces": (OPENING + b"T", b"{"),
    "functions in functions": (OPENING, b"func(){_="),
    "calls of calls": (OPENING + b"f", b"(f"),
    "minus signs": (OPENING, b"-"),
    "stars": (OPENING, b"*"),
    "arrows": (OPENING, b"<-"),
    "selectors": (OPENING + b"a", b".a"),
    "sums": (OPENING + b"1", b"+1"),
    "types of channels": (b"package a\n\ntype T ", b"chan "),
    "types of maps": (b"package a\n\ntype T ", b"map["),
    "types of functions": (b"package a\n\ntype T ", b"func("),
    "structures": (b"package a\n\ntype T ", b"struct{a "),
    "blocks": (BODY, b"{"),
    "branches": (BODY, b"if x {"),
    "other branches": (BODY + b"if x {}", b"else if x {}"),
    "loops": (BODY, b"for {"),
    "switches": (BODY, b"switch {case x:"),
    "labels": (BODY, b"a:"),
    "clauses": (BODY + b"switch {", b"case x:"),
    "deferred functions": (BODY, b"defer func(){"),
    "imports": (b"package a\n\nimport (", b'"a";'),
    "unclosed comments": (OPENING, b"/*"),
    "quotes": (OPENING, b"'"),
    "parameters": (b"package a\n\nfunc f(", b"a,"),
    "semicolons": (b"package a", b";"),
    "declarations": (b"package a\n", b"var _ int;"),
    "functions of one name": (b"package a\n", b"func f(){};"),
    "statements": (BODY, b"f();"),
    "cancel functions": (BODY[:-3] + b"{\n", b"_,c:=context.WithCancel(p);"),
}


def long_texts(section):
    """Texts of 1 MiB, and one byte more."""
    section.bench.empty_case()
    end = check(section, b"\n" * LIMIT)
    section.note(end, unlike(end, named(section, f"{LIMIT + 1}:1: {UNEXPECTED}")))
    end = check(section, b"\n" * (LIMIT + 1))
    section.note(end, unlike(end, named(section, "1:1: LC01 - file over 1 MiB")))
    slowest = (0, "")
    for name, (opening, part) in REPEATED.items():
        text = opening + part * ((LIMIT - len(opening)) // len(part))
        end = check(section, text)
        slowest = max(slowest, (end.seconds, name))
        section.note(end, trouble_of_form(end) and f"{name}: {trouble_of_form(end)}")
    print(f"the slowest text of 1 MiB: {slowest[1]}, {slowest[0]:.2f} s")
