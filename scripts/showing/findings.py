"""What scripts/show and scripts/page show of a finding: a sentence, marks in the source, and the way to it."""
import os
import re
from collections import defaultdict

from sources import Source
from ways import Walk

# The texts of notes that are steps of a way.
KINDS = {
    "cancel is obtained": "obtained",
    "group is made": "made",
    "work is started": "work",
    "the condition holds": "true",
    "the condition does not hold": "false",
    "the loop goes on": "on",
    "the loop ends": "end",
    "this clause is entered": "case",
    "no clause is entered": "none",
}
# Faults on a path. Others say that something can't be followed, or be judged.
ERRORS = {"LC03", "LC04", "LC05", "LC07", "LC08", "LC10"}
# The sentence of a finding, with its name for {n} and its text for {text}.
SENTENCES = {
    "LC01": "The file can't be read as Go text: {text}",
    "LC02": "This can't be judged: {text}",
    "LC03": "The cancel function that `{n}` returns is thrown away, so nobody can call it",
    "LC04": "`{n}` gets a new value here, and what it held may not have been called",
    "LC05": "`{n}` may not have been called when the function returns here",
    "LC06": "`{n}` goes where nobody follows it",
    "LC07": "Work of `{n}` may still be running when the function returns here",
    "LC08": "`{n}` is made anew here, and its old work may still be running",
    "LC09": "The group `{n}` goes where nobody follows it",
    "LC10": "The call of `{n}` is left to a group that may still be running at this return",
    "LC11": "`{n}` is bound a second time while a function literal uses it, or is a named result",
    "LC12": "`{n}` is one too many: the function has more cancel functions or groups than are followed",
    "LC13": "The import `{n}` has findings of its own",
    "LC14": "The import `{n}` is on a ring of imports",
    "LC15": "Two functions of this package are called `{n}`",
    "LC16": "No certificate of `{n}` holds",
    "LC18": "This line accepts no finding",
}
# What stands beside the place itself.
HERE = {
    "LC01": "the text stops here",
    "LC02": "not judged",
    "LC03": "thrown away here",
    "LC04": "overwritten here",
    "LC05": "returns here, `{n}` not called",
    "LC07": "returns here, `{n}` not waited for",
    "LC08": "made anew here, `{n}` not waited for",
    "LC10": "returns here, the call left to a group",
    "LC11": "bound here",
    "LC13": "imported here",
    "LC15": "the second one",
}
LONGEST = 64


def short(text, most=LONGEST):
    return text if len(text) <= most else text[: most - 3].rstrip() + "..."


class Note:
    """A note of the report. `says` is its text with what the source has there, `brief` is for where that is seen."""

    def __init__(self, told, name, root, seen, by):
        self.file, self.line, self.text = told["file"], told["line"], told["text"]
        source = self.source = Source.of(self.file, root)
        place = told["line"], told["column"]
        self.token, self.column = source.token(*place), source.column(*place)
        self.end = end_of(source, self.line, self.column, self.token)
        self.kind, self.by = KINDS.get(self.text, "note"), by
        key = (self.line, self.column, self.kind)
        self.says = self.brief = self.sentence(name, " again" if key in seen else "")
        seen.add(key)
        found = re.match(r"`(.*?)` (is (?:true|false).*|is taken.*)$", self.says)
        if found and len(found[1]) > 28:
            self.brief = ("the case " if self.kind == "case" else "the condition ") + found[2]

    def sentence(self, name, again):
        source, k = self.source, self.token
        if k is None or self.kind == "note":
            return self.text
        if self.kind == "case":
            last = k
            while last < len(source.tokens) and source.tokens[last].text != ":":
                last = source.partners.get(last, last) + 1 if source.tokens[last].is_sign("([{") else last + 1
            return f"`{short(source.words(k, last))}` is taken{again}"
        if self.kind == "obtained":
            return f"`{name}` is obtained{self.giver()}"
        fixed = {"made": f"`{name}` is made", "work": f"work of `{name}` begins", "none": "no case fits"}
        return fixed.get(self.kind) or self.branch(again)

    def giver(self):
        if self.by:
            return f" from `{short(self.by, 40)}`"
        source, last = self.source, self.source.end(self.token)
        equals = next((k for k in range(self.token, last) if source.tokens[k].text in ("=", ":=")), last)
        bracket = next((k for k in range(equals, last) if source.tokens[k].text == "("), last)
        called = source.words(equals + 1, bracket)
        return f" from `{short(called, 40)}`" if re.fullmatch(r"[\w.\[\]]+", called) else ""

    def branch(self, again):
        brace, semicolons = self.source.brace(self.token)
        if brace is None:
            return self.text
        condition = self.source.words(self.token + 1, brace)
        if self.kind in ("true", "false"):
            condition = self.source.words(semicolons[-1] + 1, brace) if semicolons else condition
            return f"`{short(condition)}` is {self.kind}" if condition else self.text
        if len(semicolons) >= 2:
            condition = self.source.words(semicolons[0] + 1, semicolons[1])
        elif " range " in f" {condition}":
            over = short(f" {condition}".split(" range ", 1)[1], 40)
            turn = f"the loop takes {'another' if again else 'a'} turn"
            return turn if self.kind == "on" else f"the loop ends: no more in `{over}`"
        if not condition:
            return f"the loop turns{again}"
        said = f"true: the loop turns{again}" if self.kind == "on" else "false: the loop ends"
        return f"`{short(condition)}` is {said}"


def end_of(source, line, column, token):
    text = source.lines[line - 1] if 0 < line <= len(source.lines) else ""
    return min(len(text), column + (1 if token is None else len(source.tokens[token].text)))


class Finding:
    def __init__(self, told, root):
        self.file, self.line, self.byte_column = told["file"], told["line"], told["column"]
        self.code, self.name, self.text = told["code"], told["name"], told["text"]
        if not re.fullmatch(r"LC\d\d", self.code):
            raise SystemExit(f"no report of ctxvet: the code {self.code!r}")
        self.accepted = told.get("accepted")
        self.is_error = self.code in ERRORS
        source = self.source = Source.of(self.file, root)
        self.token, self.column = source.token(self.line, self.byte_column), source.column(self.line, self.byte_column)
        self.end = end_of(source, self.line, self.column, self.token)
        seen = set()
        by = told.get("cause", {}).get("by")
        notes = [Note(one, self.name, root, seen, by) for one in told.get("why", [])]
        self.steps = [one for one in notes if one.kind != "note"]
        self.notes = [one for one in notes if one.kind == "note"]
        # A backquote would end the name, and begin another one.
        name, text = (told.replace("`", "'") for told in (self.name, self.text))
        self.says = SENTENCES.get(self.code, "{text}").format(n=name, text=text)
        self.here = HERE.get(self.code, "").format(n=name)
        self.runs, self.step_runs = self.way(told.get("lines", []))
        self.stand()
        if self.code == "LC03":
            self.mark_blank()

    def way(self, lines):
        steps = [{"token": one.token, "kind": one.kind, "run": 0} for one in self.steps]
        if not steps or self.token is None or any(step["token"] is None for step in steps):
            return [], [0] * len(steps)
        runs = Walk(self.source, steps, self.token).lines() or self.told_run(lines)
        return runs, [step["run"] if runs else 0 for step in steps]

    def told_run(self, lines):
        """The lines that the report tells, as one run, where the way only goes down."""
        run = [line for line in lines if line >= self.steps[0].line]
        places = [step.line for step in self.steps] + [self.line]
        return [run] if run and places == sorted(places) and run[-1] == self.line else []

    def stand(self):
        """The function that it stands in, and the lines of that."""
        source = self.source
        around = source.functions(self.token) if self.token is not None else []
        self.where, self.inner = "", self.line
        self.span = max(1, self.line - 4), min(len(source.lines), self.line + 4)
        if around:
            first, tokens = around[0], source.tokens
            self.span = tokens[first].line, tokens[source.partners[source.blocks[first]]].line
            self.inner = tokens[around[-1]].line
            head = re.match(r"func (?:\(\w*\s*\*?(\w+)[^)]*\) )?(\w+)", source.words(first, source.blocks[first]))
            name = ".".join(part for part in head.groups() if part) if head else "func"
            self.where = ("a literal of " if len(around) > 1 else "") + name

    def mark_blank(self):
        """Of a discarded cancel function the `_` is marked, and not the statement's first word."""
        for k in range(self.token or 0, self.source.end(self.token or 0)):
            token = self.source.tokens[k]
            if token.text in ("=", ":="):
                return
            if token.text == "_" and token.line == self.line:
                self.column, self.end = token.column, token.column + 1
                return

    def cause(self):
        """Findings with one of these are about one value."""
        return (self.file, self.code, self.steps[0].line, self.steps[0].column) if self.steps else None


def together(findings):
    """The findings of each cause."""
    groups = defaultdict(list)
    for one in findings:
        if one.cause():
            groups[one.cause()].append(one)
    return groups


def verdict(package):
    return "yes" if package["yes"] else "accepted" if package.get("accepted") else "no"


def codes(root):
    """Of docs/CODES.md: for each code what it says and what to do, and a wrong and a right example."""
    path, found = os.path.join(root, "docs", "CODES.md"), {}
    if not os.path.exists(path):
        return found
    with open(path, encoding="utf-8") as file:
        text = file.read()
    for row in re.finditer(r"^\| \[(LC\d\d)\]\([^)]*\) \| (.*?) \| (.*?) \|$", text, re.M):
        found[row[1]] = [row[2], row[3], "", ""]
    for part in re.finditer(r"^## (LC\d\d): (.*?)(?=^## |\Z)", text, re.M | re.S):
        for word, example in re.findall(r"^(Wrong|Right)[^\n]*:\n\n```go\n(.*?)```", part[2], re.M | re.S):
            example = re.sub(r"/\* want .*? \*/", "", example)
            head = r"^package a\n\n|^import \(.*?^\)\n\n|^import \"[^\n]*\n\n"
            example = re.sub(head, "", example, flags=re.M | re.S)
            at = 2 + (word == "Right")
            if part[1] in found and not found[part[1]][at]:
                found[part[1]][at] = example.rstrip()
    return found
