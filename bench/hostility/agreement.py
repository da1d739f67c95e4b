"""What `check` may have found in a package that is yes by certificates, whoever wrote these.

Both commands read the same texts, and know the same of signatures and declared facts. So they say alike what hangs on
nothing else: faults of a whole package, and uses (LC01, LC02, LC03, LC09, LC11, LC12, LC14, LC15, and LC06 of a use).
The rest hangs on the literals that are relied on: for `check` all that settle a variable, for `verify` those whose
own certificate does. These may be fewer, which is fair, and is how a certificate can be weaker. Then

- a cancel function that `check` has as pending in a group of the caller stays open, and so is left to another group
  that is waited for: no LC10 where the function returns, and no LC04 where it is bound again;
- so a literal may settle a variable that it does not settle for `check`, and a function may call a parameter. For
  `check` it is then open where it is used (LC04, LC05), and a pass to the function is LC06;
- packages that import one of these have LC13.

Of groups it is otherwise: whoever relies on more literals finds fewer of them live. So LC07 and LC08 of `check` are
faults by certificates too. Where no package has a literal, nothing is relied on, and a yes by certificates is one of
`check`.
"""

import re

# Lines of a report: a package's verdict, with its path, and before that its findings.
VERDICT = re.compile(rb"(?:yes|no) (.*)")
CODE = re.compile(rb".*:[1-9]\d*:[1-9]\d*: (LC\d\d) ")
# What certificates can excuse. The code LC06 does not tell a pass, which they can, from another use, which they can't.
EXCUSED = frozenset((b"LC04", b"LC05", b"LC06", b"LC10", b"LC13"))
# A `func` within a line: of a literal or of a type. Those of declarations begin theirs.
LITERAL = re.compile(rb"[^\n]\bfunc\b")


def findings(report):
    """The codes of the findings of each import path in a report."""
    found, codes = {}, set()
    for line in report.split(b"\n"):
        if verdict := VERDICT.fullmatch(line):
            found[verdict[1]], codes = codes, set()
        elif finding := CODE.match(line):
            codes.add(finding[1])
    return found


def excused(texts):
    """The codes of findings that certificates can excuse in packages of these texts."""
    return EXCUSED if any(LITERAL.search(text) for text in texts) else frozenset()


def unfounded(said, checked, excused_codes):
    """The paths that are yes by certificates, though `check` found what is not excused; both as `findings` gives them."""
    return [path for path, codes in said.items() if not codes and checked[path] - excused_codes]
