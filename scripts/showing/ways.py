"""The lines that a way executes, between the steps that a report tells of.

The report tells where a way could have gone another way, and its lines, but not their order. This finds it by going
through the source from step to step. Where it doesn't come to the next step there is no way, and the steps alone are shown."""

# The kinds of steps that go into a block.
INTO = ("true", "on", "case")
MOST_STEPS = 60000


class Lost(Exception):
    pass


class Walk:
    """`runs` are lists of lines that go down; each next list begins with a jump back up."""

    def __init__(self, source, steps, goal):
        self.source, self.steps, self.goal = source, steps, goal
        self.tokens, self.runs, self.left = source.tokens, [[]], MOST_STEPS

    def see(self, k):
        run = self.runs[-1]
        if not run or run[-1] != self.tokens[k].line:
            run.append(self.tokens[k].line)

    def come(self, k):
        """Sees a token, to which the way may have jumped back."""
        if self.runs[-1] and self.tokens[k].line < self.runs[-1][-1]:
            self.runs.append([])
        self.see(k)

    def lines(self):
        try:
            targets = [step["token"] for step in self.steps[1:]] + [self.goal]
            self.see(self.steps[0]["token"])
            for n, target in enumerate(targets):
                self.steps[n]["run"] = len(self.runs) - 1
                self.go(self.first(n), target, self.steps[n]["kind"] == "work")
                self.come(target)
        except (Lost, KeyError, IndexError):
            return []
        for k in range(self.goal, min(self.source.end(self.goal), len(self.tokens))):
            self.see(k)
        return [self.filled(run) for run in self.runs if run]

    def filled(self, run):
        """With the lines between that have no token, as comments."""
        full, lines = run[:1], {token.line for token in self.tokens}
        for line in run[1:]:
            between = range(full[-1] + 1, line)
            full += [] if lines.intersection(between) else between
            full.append(line)
        return full

    def first(self, n):
        """The token to which a step leads."""
        k, kind = self.steps[n]["token"], self.steps[n]["kind"]
        if kind in ("case", "obtained", "made"):
            return k + 1
        if kind == "work":
            return k
        brace = self.source.blocks[k]
        for one in range(k, brace + 1):
            self.see(one)
        behind = self.source.partners[brace] + 1
        if kind in INTO:
            return brace + 1
        if kind == "false" and self.tokens[behind].text == "else":
            self.see(behind)
            return behind + 1 + self.tokens[behind + 1].is_sign("{")
        return behind

    def go(self, k, target, leaves):
        """From a token to the next target. Where that is the same, and it is to be left, once around."""
        while leaves or k != target:
            leaves, self.left = False, self.left - 1
            if self.left < 0 or k >= len(self.tokens):
                raise Lost
            if self.tokens[k].kind != "end":
                self.come(k)
            k = self.next(k, target)

    def next(self, k, target):
        token, source = self.tokens[k], self.source
        if token.text == "func" and k in source.blocks:
            return self.over(k, target)
        if token.text in ("switch", "select", "if") and k in source.blocks:
            return self.header(k, target)
        if token.text in ("case", "default"):
            return self.clause(k)
        if token.text in ("break", "continue"):
            return self.jump(k)
        if token.text == "return" and target > source.end(k):
            raise Lost
        if token.is_sign("}") and k in source.closed:
            return self.close(k)
        return k + 1

    def over(self, k, target):
        """A function literal is not gone through."""
        last = self.source.partners[self.source.blocks[k]]
        if k < target <= last:
            raise Lost
        self.see(last)
        return last + 1

    def header(self, k, target):
        source, brace = self.source, self.source.blocks[k]
        inside = brace < target < source.partners[brace]
        if self.tokens[k].text == "if":
            return brace + 1 if inside else self.behind(source.partners[brace])
        for one in range(k, brace + 1):
            self.see(one)
        is_clause = inside and self.tokens[target].text in ("case", "default")
        return target if is_clause else brace + 2

    def clause(self, k):
        """At the end of a clause the next one is not entered, but by `fallthrough`."""
        block = self.source.around(k, ("switch", "select"))
        before = {token.text for token in self.tokens[max(0, k - 2) : k]}
        if block is None or "fallthrough" in before or k == self.source.blocks[block] + 1:
            return k + 1
        return self.source.partners[self.source.blocks[block]] + 1

    def jump(self, k):
        label, is_continue = self.tokens[k + 1], self.tokens[k].text == "continue"
        kinds = ("for",) if is_continue else ("for", "switch", "select")
        block = self.source.labelled(label.text) if label.kind == "name" else self.source.around(k, kinds)
        if block is None:
            raise Lost
        return block if is_continue else self.source.partners[self.source.blocks[block]] + 1

    def close(self, k):
        opened = self.source.closed[k]
        word = self.tokens[opened].text
        if word == "func":
            raise Lost
        if word == "for":
            self.come(opened)
            return opened
        return self.behind(k) if word == "if" else k + 1

    def behind(self, close):
        """Behind the closing brace of an `if`, with all that belongs to its `else`."""
        k, tokens = close + 1, self.tokens
        while k < len(tokens) and tokens[k].text == "else":
            if tokens[k + 1].text == "if":
                k = self.source.partners[self.source.blocks[k + 1]] + 1
            else:
                k = self.source.partners[k + 1] + 1
        return k
