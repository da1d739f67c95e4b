"""The page of a report: its HTML, and the data that its script draws sources from."""
import html
import json
import os
import re
from collections import Counter, defaultdict

from excerpts import WIDEST, Excerpt, literals, ranges
from findings import Finding, codes, together, verdict
from sources import Source

HERE = os.path.dirname(os.path.realpath(__file__))
POLICY = "default-src 'none';style-src 'unsafe-inline';script-src 'unsafe-inline';img-src data:"
SIGNS = {"no": "✕", "accepted": "~", "yes": "✓"}
CLASSES = {"no": "no", "accepted": "accd", "yes": "yes"}


def escaped(text):
    return html.escape(text)


def marked(text):
    """Text in which `..` is code."""
    return re.sub(r"`([^`]+)`", r"<code>\1</code>", escaped(text))


def counted(number, one):
    return f"{number:,} {one if number == 1 else one + 's'}"


def read(name):
    with open(os.path.join(HERE, name), encoding="utf-8") as file:
        return file.read()


def style():
    return read("page.css").replace("\n", "")


def script():
    lines = (line.strip() for line in read("page.js").split("\n"))
    return "\n".join(line for line in lines if line and not line.startswith("//"))


class Page:
    def __init__(self, report, root, top, title):
        self.root, self.doc, self.title = root, codes(top), title
        self.by_verdict = defaultdict(list)
        for package in report["packages"]:
            self.by_verdict[verdict(package)].append(package)
        # First those with something to mend in themselves.
        faulty = [package for package in report["packages"] if package["diagnostics"]]
        self.faulty = sorted(faulty, key=self.order)
        self.findings, self.of = [], {}
        for package in self.faulty:
            found = [Finding(one, root) for one in package["diagnostics"]]
            self.of[package["path"]] = range(len(self.findings), len(self.findings) + len(found))
            self.findings += found
        self.groups = together(self.findings)
        self.numbers = {id(one): n for n, one in enumerate(self.findings)}
        self.excerpts = [Excerpt(one, self.is_brief(one)) for one in self.findings]
        self.counts = Counter(one.code for one in self.findings)
        self.anchors = self.name_anchors()

    @staticmethod
    def order(package):
        own = [one["code"] for one in package["diagnostics"] if "accepted" not in one]
        return verdict(package) != "no", not own, all(code == "LC13" for code in own)

    def group(self, finding):
        return self.groups.get(finding.cause(), [])

    def is_brief(self, finding):
        return len(self.group(finding)) > 1 and len(finding.steps) > 3 and len(finding.runs) == 1

    def name_anchors(self):
        names = []
        for one in self.findings:
            base = name = re.sub(r"[^\w.:/-]", "-", f"{one.code}-{one.file}:{one.line}:{one.byte_column}")
            while name in names:
                name = f"{base}-{len(names)}"
            names.append(name)
        return names

    # The data of the script.

    def data(self):
        needed = defaultdict(set)
        for one, excerpt in zip(self.findings, self.excerpts):
            needed[one.file].update(range(excerpt.first, excerpt.last + 1))
        places = {name: k for k, name in enumerate(needed)}
        files = [{"p": name, "s": self.pieces(name, lines)} for name, lines in needed.items()]
        found = [self.drawn(n, places[one.file]) for n, one in enumerate(self.findings)]
        told = {code: self.doc.get(code, ["", "", "", ""]) for code in self.counts}
        text = json.dumps({"files": files, "f": found, "codes": told}, ensure_ascii=False, separators=(",", ":"))
        return text.replace("<", "\\u003c")

    def pieces(self, name, needed):
        lines = Source.of(name, self.root).lines
        there = (line for line in needed if 0 < line <= len(lines))
        return [[first, "\n".join(line[:WIDEST] for line in lines[first - 1 : last])] for first, last in ranges(there)]

    def drawn(self, n, file):
        one, excerpt = self.findings[n], self.excerpts[n]
        return {
            "i": file,
            "a": excerpt.first,
            "b": excerpt.last,
            "v": excerpt.open,
            "c": one.code,
            "n": one.name,
            "h": [one.line, one.column, one.end],
            "here": one.here,
            "steps": [[*self.mark(step), step.kind, step.brief, run] for step, run in zip(one.steps, one.step_runs)],
            "runs": [ranges(run) for run in one.runs],
            "lit": literals(one) if one.steps else [],
            "notes": [self.note(one, excerpt, note) for note in one.notes],
            "g": [self.numbers[id(other)] for other in self.group(one)],
        }

    @staticmethod
    def mark(note):
        return note.line, note.column, note.end

    def note(self, one, excerpt, note):
        """A note in another file has its place, and the finding that stands there."""
        is_here = (note.file, note.line) == (one.file, one.line)
        is_near = note.file == one.file and not is_here and excerpt.first <= note.line <= excerpt.last
        place = None if is_here or is_near else f"{note.file}:{note.line}"
        there = (n for n, other in enumerate(self.findings) if (other.file, other.line) == (note.file, note.line))
        return [*self.mark(note), note.says, next(there, None) if place else None, place, is_near]

    # The parts of the page.

    def whole(self):
        yield '<!doctype html><html lang="en"><head><meta charset="utf-8">'
        yield '<meta name="viewport" content="width=device-width,initial-scale=1">'
        yield f'<meta http-equiv="Content-Security-Policy" content="{POLICY}"><link rel="icon" href="data:,">'
        yield f"<title>{len(self.by_verdict['no'])} no – ctxvet {escaped(self.title)}</title>"
        yield f"<style>{style()}</style></head>"
        yield '<body><a class="skip" href="#main">To the findings</a>'
        yield from self.head()
        yield from self.tools()
        yield from self.main()
        yield read("help.html")
        yield f'<script type="application/json" id="d">{self.data()}</script><script>{script()}</script></body></html>'

    def head(self):
        kinds = {word: len(self.by_verdict[word]) for word in ("no", "accepted", "yes")}
        total = sum(kinds.values())
        said = f"<em>All {counted(total, 'package')} are yes</em>"
        if kinds["no"]:
            verb = "has" if kinds["no"] == 1 else "have"
            said = f"<em>{kinds['no']:,}</em> of {counted(total, 'package')} {verb} findings"
        elif kinds["accepted"]:
            said = f"All {counted(total, 'package')} are yes or <em>accepted</em>"
        kind = next((letter for word, letter in (("no", "n"), ("accepted", "a")) if kinds[word]), "y")
        yield '<header class="top"><div class="wrap"><div>'
        yield f'<p class="brand">ctxvet {escaped(self.title)}</p><h1 class="{kind}">{said}</h1>'
        yield '<div class="meter" aria-hidden="true">'
        for word, number in kinds.items():
            yield f'<i class="{CLASSES[word]}" style="flex:{number}"></i>' if number else ""
        yield '</div><p class="sums">'
        for word, number in kinds.items():
            yield f'<span><span class="{CLASSES[word]}">{SIGNS[word]}</span> <b>{number:,}</b> {word}</span>'
        causes = len(self.groups) + sum(not one.cause() for one in self.findings)
        yield f'</p><p class="sums"><span>{counted(len(self.findings), "finding")}'
        yield f' from {counted(causes, "cause")}</span></p></div><ul class="codes" aria-label="Findings by code">'
        yield from self.codes()
        yield "</ul></div></header>"

    def codes(self):
        most = max(self.counts.values(), default=1)
        kinds = {one.code: "e" if one.is_error else "w" for one in self.findings}
        for code, number in sorted(self.counts.items(), key=lambda row: (-row[1], row[0])):
            kind, says = kinds[code], escaped(self.doc.get(code, [""])[0])
            yield f'<li><button aria-pressed="false" data-c="{code}" title="{says}">'
            yield f'<span class="id {kind}">{code}</span>'
            yield f'<span>{says}</span><span class="b {kind}" style="width:{max(3, 48 * number // most)}px"></span>'
            yield f'<span class="n">{number}</span></button></li>'

    def tools(self):
        yield '<div class="tools" role="search"><div class="wrap"><label class="vh" for="q">Search in findings</label>'
        yield '<input id="q" type="search" placeholder="Search:  /  name, file, condition" autocomplete="off">'
        yield '<label class="vh" for="p">Package</label><select id="p"><option value="">All packages</option>'
        yield "".join(f"<option>{escaped(package['path'])}</option>" for package in self.faulty)
        yield f'</select><button class="bt" id="clr" hidden>Clear</button>'
        yield f'<output aria-live="polite">{counted(len(self.findings), "finding")}</output>'
        yield '<button class="bt" id="hp" aria-label="Help: keys and signs">?</button></div></div>'

    def main(self):
        yield '<div class="wrap cols"><nav aria-label="Packages with findings"><h2>Packages</h2><ul>'
        for k, package in enumerate(self.faulty):
            path, number = escaped(package["path"]), len(package["diagnostics"])
            yield f'<li data-p="{path}"><a href="#p{k}"><span>{path}</span><b>{number}</b></a></li>'
        yield '</ul></nav><main id="main" tabindex="-1"><noscript><p class="kp">Each finding stands '
        yield "below with its place. The source and the way through it are drawn by a script, which is off here.</p>"
        yield "</noscript>"
        for k, package in enumerate(self.faulty):
            yield from self.package(k, package)
        yield '<p class="none" id="nil" hidden>No finding fits these filters. <kbd>Esc</kbd> clears them.</p>'
        if self.by_verdict["yes"]:
            yield from self.clean()
        yield "</main></div>"

    def package(self, k, package):
        path, word = escaped(package["path"]), verdict(package)
        height = sum(self.excerpts[n].rows() * 22 + 166 for n in self.of[package["path"]]) + 62
        yield f'<section class="pkg" id="p{k}" data-p="{path}" style="--h:{height}px">'
        yield f'<h2>{path} <span class="{CLASSES[word]}">{SIGNS[word]} {word}</span></h2>'
        for n in self.of[package["path"]]:
            yield from self.card(n)
        yield "</section>"

    def card(self, n):
        one, anchor = self.findings[n], escaped(self.anchors[n])
        place = escaped(f"{one.file}:{one.line}:{one.byte_column}")
        yield f'<article class="f" id="{anchor}" data-i="{n}" tabindex="-1" style="--n:{self.excerpts[n].rows()}"'
        yield f' aria-labelledby="h{n}"><header>'
        yield f'<a class="id {"e" if one.is_error else "w"}" href="#{anchor}">{one.code}</a>'
        yield f'<h3 id="h{n}">{marked(one.says)}</h3><p class="loc"><code title="{place}">{place}: '
        yield f"{escaped(f'{one.code} {one.name} {one.text}')}</code>"
        yield f" in <code>{escaped(one.where)}</code></p>" if one.where else "</p>"
        if one.accepted is not None:
            yield f'<p class="ok">~ Accepted: {escaped(one.accepted)}</p>'
        yield '</header><div class="src"></div></article>\n'

    def clean(self):
        packages = self.by_verdict["yes"]
        keeping = [package for package in packages if package["keeping"]]
        yield f'<section class="pkg" id="yes"><h2>{counted(len(packages), "package")} without findings '
        yield '<span class="yes">✓ yes</span></h2>'
        if keeping:
            yield '<div class="kp">These keep cancel functions in fields of objects, and what becomes of them there is '
            yield "not looked at further. For each field look whether the method that calls it is called, whether "
            yield "whoever gets the object keeps it, and whether a map or list that it is put into lives on.<dl>"
            for package in keeping:
                fields = ", ".join(f"<code>{escaped(name)}</code>" for name in package["keeping"])
                yield f"<dt><code>{escaped(package['path'])}</code></dt><dd>keeps {fields}</dd>"
            yield "</dl></div>"
        paths = "\n".join(escaped(package["path"]) for package in packages)
        yield f'<details><summary>All packages that are yes</summary><pre class="yl">{paths}</pre></details></section>'
