"""Which lines of a source the page has of a finding, and which of them it shows at first."""
import re

# Of a longer function there are only so many lines around the way.
LONGEST_FUNCTION, AROUND = 600, 60
# A function with fewer lines is shown as a whole.
SHORT_FUNCTION = 22
# With more lines that name the variable, these aren't shown at first.
MOST_MENTIONS = 14
# The page draws no more of a line.
WIDEST = 400


def ranges(lines):
    found = []
    for line in sorted(set(lines)):
        if found and line == found[-1][1] + 1:
            found[-1][1] = line
        else:
            found.append([line, line])
    return found


class Excerpt:
    """The lines from `first` to `last` are at hand, and those of `open` are shown at first."""

    def __init__(self, finding, is_brief):
        first, last = finding.span
        near = [note.line for note in finding.notes if note.file == finding.file and first <= note.line <= last]
        key = {finding.line, *(step.line for step in finding.steps), *near}
        low, high = min(key), max(key)
        if is_brief:
            # The rest is as in the finding before.
            key = {finding.line, finding.steps[0].line, *(step.line for step in finding.steps[-2:])}
        if last - first > LONGEST_FUNCTION:
            first, last = max(first, low - AROUND), min(last, high + AROUND)
        self.first, self.last = first, last
        if last - first < SHORT_FUNCTION:
            self.open = ranges(range(first, last + 1))
            return
        key |= {run[-1] for run in finding.runs[:-1]}
        lines = {line + step for line in key for step in (-1, 0, 1)} | {finding.line - 2, finding.line + 2}
        lines |= {first} if finding.where else set()
        lines |= {finding.inner} if first <= finding.inner < low < finding.inner + 80 else set()
        lines |= set() if is_brief else mentions(finding, first, last)
        self.open = ranges(self.closed({line for line in lines if first <= line <= last}))

    def closed(self, lines):
        """With the lines between two that are close: a fold would take as much room."""
        found = sorted(lines)
        for before, after in zip(found, found[1:]):
            if after - before <= 3:
                lines.update(range(before, after))
        if found and found[0] - self.first <= 2:
            lines.update(range(self.first, found[0]))
        if found and self.last - found[-1] <= 2:
            lines.update(range(found[-1], self.last + 1))
        return lines

    def rows(self):
        """How many rows it takes at first, with its folds."""
        folds = max(0, len(self.open) - 1)
        folds += bool(self.open) and self.open[0][0] > self.first
        folds += bool(self.open) and self.open[-1][1] < self.last
        return sum(last - first + 1 for first, last in self.open) + folds


def mentions(finding, first, last):
    if finding.name == "-" or not finding.steps:
        return set()
    name = re.compile(rf"(?<![\w.]){re.escape(finding.name)}(?!\w)")
    lines = finding.source.lines
    found = {line for line in range(first, last + 1) if name.search(lines[line - 1].split("//")[0])}
    return found if len(found) <= MOST_MENTIONS else set()


def literals(finding):
    """The lines of function literals that name the variable: these aren't grey, though the way goes past them."""
    source, found = finding.source, []
    work = {step.line for step in finding.steps if step.kind == "work"}
    for k, brace in source.blocks.items():
        first, last = source.tokens[brace].line, source.tokens[source.partners[brace]].line
        if source.tokens[k].text != "func" or not finding.span[0] < source.tokens[k].line <= last <= finding.span[1]:
            continue
        inside = range(brace, source.partners[brace])
        is_named = any(source.tokens[j].text == finding.name and source.tokens[j - 1].text != "." for j in inside)
        if first in work or is_named:
            found.append([first, last])
    return found
