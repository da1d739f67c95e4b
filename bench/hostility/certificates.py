"""Texts of certificates that are none, that are damaged, or of other sources."""

import json

from hostility.agreement import excused, findings, unfounded
from hostility.huge import huge_texts
from hostility.runs import Section, trouble_of_form
from hostility.worked import (
    DEFERRED, DEFERRED_IN_A_LOOP, HEAD, LEFT_TO_TWO_GROUPS, LOOP, ON_ONE_BRANCH, PASSED_TO_TWO_GROUPS, RECURSION, WORKED,
    report_of, words_of
)

FILE = "certificates.json"
NOT_JSON = b"ctxvet: certificate is not JSON\n"
OTHER_SHAPE = b"ctxvet: certificate has another shape\n"
NEW_VERSION = b"ctxvet: certificate version not known\n"
MISSING = "LC16 f certificate missing or not holding"
# What may come of a text that is no certificates.
TEXT_FAULTS = (NOT_JSON, OTHER_SHAPE, NEW_VERSION)
# 127 lists and objects in each other are read, and more are no JSON.
DEEPEST = 127
DAMAGES = b'"\\{}[],:09-\xff'

NO_BODIES = '{"bodies":[],"facts":[],"path":"a"}'


def nested(opening, closing, depth):
    return opening * depth + closing * depth


# Texts, and what is told of them.
TEXTS = {
    "": NOT_JSON,
    "{": NOT_JSON,
    "\ufeff{}": NOT_JSON,
    "nul": NOT_JSON,
    "{} {}": NOT_JSON,
    '{"version":1e999}': NOT_JSON,
    '{"\\ud800":1}': NOT_JSON,
    '{"version":01}': NOT_JSON,
    nested("[", "]", 200): NOT_JSON,
    nested("[", "]", DEEPEST + 1): NOT_JSON,
    nested("[", "]", DEEPEST): OTHER_SHAPE,
    nested("[", "]", 1_000_000): NOT_JSON,
    '{"a":' * 1_000_000: NOT_JSON,
    nested('{"a":[', "]}", DEEPEST): NOT_JSON,
    "null": OTHER_SHAPE,
    "[]": OTHER_SHAPE,
    "{}": OTHER_SHAPE,
    '{"packages":[]}': OTHER_SHAPE,
    '{"packages":[],"version":"1"}': OTHER_SHAPE,
    '{"packages":[],"version":-1}': OTHER_SHAPE,
    '{"packages":[],"version":1.0}': OTHER_SHAPE,
    '{"packages":[],"version":1e0}': OTHER_SHAPE,
    '{"packages":[],"version":4294967296}': OTHER_SHAPE,
    '{"packages":[],"version":null}': OTHER_SHAPE,
    '{"version":3}': NEW_VERSION,
    '{"version":0}': NEW_VERSION,
    '{"version":4294967295}': NEW_VERSION,
    '{"packages":[],"version":1,"x":0}': OTHER_SHAPE,
    '{"version":1}': OTHER_SHAPE,
    '{"packages":{},"version":1}': OTHER_SHAPE,
    f'{{"packages":[{NO_BODIES},{NO_BODIES}],"version":1}}': OTHER_SHAPE,
}

# Certificates of DEFERRED: its one function begins at byte 29, and its masks are unset, unset, open, safe, safe.
MASKS = "[[1],[1],[2],[4],[4]]"


def text_with(bodies, facts="[]", version=1):
    """Certificates of the package `a`: the masks of its bodies, by the offset of each."""
    listed = ",".join(f'{{"at":{at},"file":0,"states":{masks}}}' for at, masks in bodies.items())
    return f'{{"packages":[{{"bodies":[{listed}],"facts":{facts},"path":"a"}}],"version":{version}}}'


def deferred_text(masks=MASKS, facts="[]", version=1):
    return text_with({29: masks}, facts, version)


# Sources that have findings by `check` and are yes by weaker certificates: the masks of their bodies, and the parameters
# of their functions. By these what the first literal calls may be open where it returns. So nobody relies on that
# literal, and its cancel function is left to the own group alone, which is waited for.
CALLED_BY_MEMBER = "[[2],[2],[4],[0]]"
MAY_BE_OPEN = "[[2],[2],[6],[0]]"
GROUP_AT_1 = '{"at":1,"kind":"group"}'
WEAKER = {
    LEFT_TO_TWO_GROUPS: (
        {64: "[[4,1,1],[4,1,1],[4,2,1],[4,2,2],[4,2,2],[4,4,16],[4,2,4]]", 175: MAY_BE_OPEN, 220: CALLED_BY_MEMBER},
        {"f": GROUP_AT_1},
    ),
    PASSED_TO_TWO_GROUPS: (
        {64: "[[2,4,1],[2,4,1],[2,4,2],[2,4,2],[16,4,4],[4,4,2]]", 145: MAY_BE_OPEN, 185: CALLED_BY_MEMBER,
         232: "[[4,1],[4,1],[4,2],[4,4],[4,4]]"},
        {"f": GROUP_AT_1, "stop": '{"at":0,"calls":true,"kind":"cancel"},' + GROUP_AT_1},
    ),
}


def weaker_text(source, version):
    bodies, functions = WEAKER[source]
    front = '"causes":[],"gives":[]' if version == 2 else '"gives":[]'
    facts = ",".join(f'{{{front},"name":"{name}","params":[{params}]}}' for name, params in functions.items())
    return text_with(bodies, f"[{facts}]", version)


CLAIM = '[{"gives":[],"name":"NAME","params":[{"at":0,"calls":true,"kind":"cancel"}]}]'
BLANK = HEAD + """func f(_ context.CancelFunc) {
}

func h(p context.Context) {
	_, cancel := context.WithCancel(p)
	f(cancel)
}
"""
IS_MISSING = [f"a 5:1: {MISSING}", "no a"]

# Texts that read well: the source of the package `a`, the text, and the report.
READ = (
    (DEFERRED, deferred_text(), ["yes a"]),
    (DEFERRED, deferred_text(version=2), ["yes a"]),
    (DEFERRED, deferred_text(facts=CLAIM.replace("NAME", "zz")), ["yes a"]),
    (DEFERRED, deferred_text(MASKS.replace("[1]", "[65535]", 1)), IS_MISSING),
    (DEFERRED, deferred_text("[[1],[1],[2],[4]]"), IS_MISSING),
    (DEFERRED, deferred_text("[[1],[1],[2],[4],[4],[4]]"), IS_MISSING),
    (DEFERRED, deferred_text("[[1],[1],[2],[4],[]]"), IS_MISSING),
    (DEFERRED, deferred_text("[]"), IS_MISSING),
    (DEFERRED, '{"packages":[],"version":1}', IS_MISSING),
    (DEFERRED, f'{{"packages":[{NO_BODIES}],"version":1}}', IS_MISSING),
    *((source, weaker_text(source, version), ["yes a"]) for source in WEAKER for version in (1, 2)),
    # The way round by `continue` is hidden.
    (HEAD + LOOP, deferred_text("[[1],[5],[5],[2],[2],[2],[2],[5]]"), IS_MISSING),
    (
        BLANK,
        f'{{"packages":[{{"bodies":[],"facts":{CLAIM.replace("NAME", "f")},"path":"a"}}],"version":1}}',
        [f"a 5:1: {MISSING}", f"a 8:1: {MISSING.replace('f', 'h', 1)}",
         "a 10:4: LC06 cancel cancel function used in another way", "no a"],
    ),
)


def certificates(bench, long):
    """Texts with what is told of them; masks made smaller; bytes damaged; certificates of other sources; huge texts."""
    section = Section(bench, "certificates")
    faulty_texts(section)
    read_texts(section)
    for text in (DEFERRED, DEFERRED_IN_A_LOOP):
        smaller_masks(section, text)
    for source in WEAKER:
        smaller_masks(section, source, weaker_text(source, version=2))
    for text in (DEFERRED, ON_ONE_BRANCH, RECURSION):
        damaged_bytes(section, text)
    other_sources(section)
    bench.empty_case()
    path, words = bench.at(FILE), words_of(bench, {"a": DEFERRED})
    huge_texts(section, path, ["verify", "--cert", path, *words], HUGE_TEXTS)
    return section


def verify(bench, words, text):
    return bench.run(["verify", "--cert", bench.put(FILE, text), *words])


def certified(bench, words):
    """What a check finds in each package, and the certificates that it writes."""
    end = bench.run(["check", "--cert", bench.at(FILE), *words])
    return findings(end.out), bench.read(FILE)


def trouble_of_yes(end, checked, excused_codes):
    """What is wrong with an answer by certificates, where a check found that: a yes for a package in which it found what
    certificates don't excuse, or no answer."""
    said = findings(end.out)
    if trouble := trouble_of_form(end):
        return trouble
    if end.status != 2 and list(said) != list(checked):
        return f"other packages than were given: {end.out[:200]!r}"
    unsound = unfounded(said, checked, excused_codes)
    return f"yes, and what check finds is not excused: {unsound}" if unsound else None


def faulty_texts(section):
    bench = section.bench
    bench.empty_case()
    words = words_of(bench, {"a": DEFERRED})
    texts = {text.encode(): fault for text, fault in TEXTS.items()}
    texts.update({b'"\xe9"': NOT_JSON, b"\xff\xfe{\0}\0": NOT_JSON, b"\0": NOT_JSON})
    texts[deferred_text(MASKS.replace("4", "65536")).encode()] = OTHER_SHAPE
    for text, fault in texts.items():
        end = verify(bench, words, text)
        known = end.says() == (2, b"", fault)
        section.note(end, None if known else f"{end.says()!r}, and not {fault!r}, by {text[:200]!r}")


def read_texts(section):
    bench = section.bench
    for source, text, report in READ:
        bench.empty_case()
        end = verify(bench, words_of(bench, {"a": source}), text.encode())
        wanted = report_of(bench, report)
        well = end.says() == (int(b"no a" in wanted), wanted, b"")
        section.note(end, None if well else f"{end.says()!r}, and not {wanted!r}, by {text[:200]}")


def text_of(value):
    return json.dumps(value, separators=(",", ":"), sort_keys=True).encode()


def smaller_masks(section, source, text=None):
    """Any one mask of a text made smaller by one of its bits takes the yes away; the text of `check`, or this one."""
    bench = section.bench
    bench.empty_case()
    words = words_of(bench, {"a": source})
    text = text.encode() if text else certified(bench, words)[1]
    value = json.loads(text)
    section.note(end := verify(bench, words, text), None if end.status == 0 else f"{end.says()!r}"[:400])
    for body in value["packages"][0]["bodies"]:
        for row in body["states"]:
            for number, mask in enumerate(row):
                for bit in range(mask.bit_length()):
                    if mask >> bit & 1:
                        row[number] = mask & ~(1 << bit)
                        end = verify(bench, words, text_of(value))
                        well = end.status == 1 and end.out.endswith(b"\nno a\n")
                        section.note(end, trouble_of_form(end) or (None if well else f"not no: {end.says()!r}"[:400]))
                        row[number] = mask


def damaged_bytes(section, source):
    """Each byte removed, doubled, or replaced; and each beginning, which is no JSON."""
    bench = section.bench
    bench.empty_case()
    words = words_of(bench, {"a": source})
    checked, text = certified(bench, words)
    for place in range(len(text)):
        before, byte, after = text[:place], text[place:place + 1], text[place + 1:]
        end = verify(bench, words, before)
        section.note(end, None if end.says() == (2, b"", NOT_JSON) else f"a beginning: {end.says()!r}"[:400])
        for other in (b"", byte + byte, *(bytes([one]) for one in DAMAGES)):
            end = verify(bench, words, before + other + after)
            trouble = trouble_of_yes(end, checked, excused([source.encode()]))
            if end.status == 2 and end.err not in TEXT_FAULTS:
                trouble = trouble or f"no fault of certificates: {end.err[:200]!r}"
            section.note(end, trouble)


def yes_of(found):
    """The packages in which nothing was found."""
    return [path for path, codes in found.items() if not codes]


def other_sources(section):
    """The certificates of each worked run, and weaker ones, for each; by its own just that is yes which is so by `check`."""
    bench, texts = section.bench, [weaker_text(source, version=2).encode() for source in WEAKER]
    for packages, _ in WORKED.values():
        bench.empty_case()
        texts.append(certified(bench, words_of(bench, packages))[1])
    for packages, _ in WORKED.values():
        bench.empty_case()
        words = words_of(bench, packages)
        checked, own = certified(bench, words)
        excused_codes = excused(text.encode() for text in packages.values())
        for text in texts:
            end = verify(bench, words, text)
            trouble = trouble_of_yes(end, checked, excused_codes)
            if text == own and yes_of(findings(end.out)) != yes_of(checked):
                trouble = trouble or f"not as by check: {end.out[:300]!r}"
            section.note(end, trouble)


# Texts of 100 MB: what stands before and after what is repeated, and what may be told.
HUGE_TEXTS = {
    "digits": (b"", b"1", b"", (NOT_JSON, OTHER_SHAPE)),
    "digits of a version": (b'{"packages":[],"version":', b"1", b"}", (NOT_JSON, OTHER_SHAPE)),
    "digits of a fraction": (b'{"packages":[],"version":0.', b"1", b"}", (NOT_JSON, OTHER_SHAPE)),
    "brackets": (b"", b"[", b"", (NOT_JSON,)),
    "one string": (b'"', b"a", b'"', (OTHER_SHAPE,)),
    "one string that does not end": (b'"', b"a", b"", (NOT_JSON,)),
    "one string of escapes": (b'"', b"\\u0041", b'"', (OTHER_SHAPE,)),
    "one key": (b'{"packages":[],"version":1,"', b"a", b'":0}', (OTHER_SHAPE,)),
    "blanks": (b"", b" ", b'{"version":3}', (NEW_VERSION,)),
    "numbers": (b"[0", b",0", b"]", (OTHER_SHAPE,)),
    "lists": (b"[[]", b",[]", b"]", (OTHER_SHAPE,)),
    "masks": (
        b'{"packages":[{"bodies":[{"at":0,"file":0,"states":[[0', b",0", b']]}],"facts":[],"path":"b"}],"version":1}', ()
    ),
    "keys of one name": (b'{"version":1', b',"packages":[]', b"}", ()),
}
