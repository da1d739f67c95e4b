"""Sources with the reports that they have by the rules (docs/PROFILE.md, docs/CODES.md), worked out by hand.

Each entry of WORKED is one run: its packages by import path, each with the one file `a.go`, and the report, in which a
file is named by its package's import path.
"""

HEAD = 'package a\n\nimport "context"\n\n'
GROUP_HEAD = 'package a\n\nimport (\n\t"context"\n\t"golang.org/x/sync/errgroup"\n)\n\n'

DEFERRED = HEAD + """func f(p context.Context, d int) {
	ctx, cancel := context.WithTimeout(p, d)
	defer cancel()
	use(ctx)
}
"""

DISCARDED = HEAD + """func f(p context.Context, d int) {
	ctx, _ := context.WithCancel(p)
	use(ctx)
}
"""

ON_ONE_BRANCH = HEAD + """func f(p context.Context, b bool) {
	ctx, cancel := context.WithCancel(p)
	if b {
		cancel()
		return
	}
	use(ctx)
}
"""

LOOP = """func f(p context.Context, x bool) {
	for next() {
		ctx, cancel := context.WithCancel(p)
		if x {
			continue
		}
		use(ctx)
		cancel()
	}
}
"""

DEFERRED_IN_A_LOOP = HEAD + """func f(p context.Context, x bool) {
	for next() {
		ctx, cancel := context.WithCancel(p)
		defer cancel()
		use(ctx)
	}
}
"""

GIVER = HEAD + """func With(p context.Context) (context.Context, context.CancelFunc) {
	return context.WithCancel(p)
}
"""

GIVEN = """package b

import (
	"a"
	"context"
)

func f(p context.Context) {
	ctx, cancel := a.With(p)
	defer cancel()
	use(ctx)
}
"""

RECURSION = HEAD + """func f(c context.CancelFunc) {
	g(c)
}

func g(c context.CancelFunc) {
	if more() {
		f(c)
	}
}

func h(p context.Context) {
	_, cancel := context.WithCancel(p)
	f(cancel)
}
"""

GROUP = GROUP_HEAD + """func f(p context.Context) error {
	var g errgroup.Group
	ctx, cancel := context.WithCancel(p)
	g.Go(func() error {
		defer cancel()
		return work(ctx)
	})
	return g.Wait()
}
"""

OTHER_GROUP = GROUP_HEAD + """func f(work func() error) error {
	var g errgroup.Group
	var h errgroup.Group
	h.Go(func() error {
		g.Go(work)
		return nil
	})
	if err := h.Wait(); err != nil {
		return err
	}
	return g.Wait()
}
"""

EARLY_RETURN = GROUP_HEAD + """func f(p context.Context, x bool) error {
	g, ctx := errgroup.WithContext(p)
	if x {
		return nil
	}
	g.Go(func() error { return work(ctx) })
	return g.Wait()
}
"""

ASKED = HEAD + """func f(p context.Context) {
	_, cancel := context.WithCancel(p)
	if cancel != nil {
		cancel()
	}
}
"""

BOUND_IN_A_BRANCH = HEAD + """func f(p context.Context, x bool) {
	cancel := func() {}
	if x {
		p, cancel = context.WithCancel(p)
	}
	defer cancel()
	use(p)
}
"""

GROUP_OF_THE_CALLER = GROUP_HEAD + """func f(p context.Context, g *errgroup.Group) {
	_, cancel := context.WithCancel(p)
	g.Go(func() error {
		cancel()
		return nil
	})
}
"""

# Its cancel function is left to the caller's group first, and then to one of its own, for which it waits.
LEFT_TO_TWO_GROUPS = GROUP_HEAD + """func f(p context.Context, g *errgroup.Group) {
	var h errgroup.Group
	_, cancel := context.WithCancel(p)
	g.Go(func() error { cancel(); return nil })
	h.Go(func() error { cancel(); return nil })
	h.Wait()
}
"""

# By its first literal the parameter is left to the caller's group.
PASSED_TO_TWO_GROUPS = GROUP_HEAD + """func stop(c context.CancelFunc, g *errgroup.Group) {
	var h errgroup.Group
	g.Go(func() error { c(); return nil })
	h.Go(func() error { c(); return nil })
	h.Wait()
}

func f(p context.Context, g *errgroup.Group) {
	_, cancel := context.WithCancel(p)
	stop(cancel, g)
}
"""

NOTIFIED = """package a

import (
	"context"
	"os/signal"
)

func f(p context.Context) {
	ctx, stop := signal.NotifyContext(p)
	use(ctx)
}
"""

PASSED = """package a

import (
	"context"
	"x/run"
)

func f(p context.Context) {
	_, cancel := context.WithCancel(p)
	run.Close(cancel)
}
"""

# Declared facts by which the cancel function of NOTIFIED is followed, and that of PASSED was called.
FACTS = (
    '{"packages":[{"functions":[{"causes":[],"gives":[1],"name":"NotifyContext","params":[],"results":2}],'
    '"path":"os/signal"},{"functions":[{"causes":[],"gives":[],"name":"Close","params":[{"at":0,"calls":true,'
    '"kind":"cancel"}],"results":0}],"path":"x/run"}],"version":2}'
)

# The most cancel variables that a body may have.
MOST_CANCELS = 48


def deferred(count):
    """A function with so many cancel functions, each deferred."""
    lines = "".join(f"\t_, c{number} := context.WithCancel(p)\n\tdefer c{number}()\n" for number in range(1, count + 1))
    return f"{HEAD}func f(p context.Context) {{\n{lines}}}\n"


def importing(package, path):
    return f'package {package}\n\nimport "{path}"\n'


def loops(count):
    """So many functions with a loop in which a cancel function may be lost."""
    return HEAD + "".join(LOOP.replace("func f(", f"func f{number}(") for number in range(1, count + 1))


def marked(report):
    """A report in which lines of findings say where, as `a 5:1: LC05 ..` of the package a, as the program prints it."""
    lines = (line.split(" ", 1) for line in report)
    return "".join(f"{one}/a.go:{rest}\n" if one not in ("yes", "no") else f"{one} {rest}\n" for one, rest in lines)


IMPORT_IS_NOT_YES = {"a": ON_ONE_BRANCH, "b": importing("b", "a")}

OVERWRITTEN = "LC04 cancel overwritten before it is called"
LOST = "LC05 cancel may not have been called at this return"
LEFT = "LC10 cancel left to a group that may be live at this return"
OTHERWISE = "cancel function used in another way"

WORKED = {
    "deferred": ({"a": DEFERRED}, ["yes a"]),
    "called on one branch": ({"a": ON_ONE_BRANCH}, [f"a 12:1: {LOST}", "no a"]),
    "discarded": ({"a": DISCARDED}, ["a 6:2: LC03 WithCancel cancel function discarded", "no a"]),
    "cut in a body": ({"a": "package a\n\nfunc f() {\n\treturn"}, ["a 4:8: LC02 - unexpected token", "no a"]),
    "lost in a loop": ({"a": HEAD + LOOP}, [f"a 7:8: {OVERWRITTEN}", f"a 14:1: {LOST}", "no a"]),
    "deferred in a loop": ({"a": DEFERRED_IN_A_LOOP}, ["yes a"]),
    "given by another package": ({"a": GIVER, "b": GIVEN}, ["yes a", "yes b"]),
    "recursion that may end without a call": (
        {"a": RECURSION},
        [f"a 6:4: LC06 c {OTHERWISE}", f"a 11:5: LC06 c {OTHERWISE}", f"a 17:4: LC06 cancel {OTHERWISE}",
         f"a 18:1: {LOST}", "no a"],
    ),
    "recursion": ({"a": RECURSION.replace("\tif more() {\n\t\tf(c)\n\t}\n", "\tf(c)\n")}, ["yes a"]),
    "called by a member of a group": ({"a": GROUP}, ["yes a"]),
    "called by a member that may not start": ({"a": GROUP.replace("g.Go(", "g.TryGo(")}, [f"a 15:2: {LOST}", "no a"]),
    "started by a member of another group": (
        {"a": OTHER_GROUP}, ["a 12:3: LC09 g group used in another way", "no a"]
    ),
    "group live at an early return": (
        {"a": EARLY_RETURN}, ["a 11:3: LC07 g group may be live at this return", "no a"]
    ),
    "ring of imports": (
        {"a": importing("a", "b"), "b": importing("b", "a"), "c": importing("c", "a")},
        ["a 3:8: LC14 b import has no rank", "no a", "b 3:8: LC14 a import has no rank", "no b",
         "c 3:8: LC14 a import has no rank", "no c"],
    ),
    "import that is not yes": (
        IMPORT_IS_NOT_YES,
        [f"a 12:1: {LOST}", "no a", "b 3:8: LC13 a import is not yes", "no b"],
    ),
    "as many variables as a body may have": ({"a": deferred(MOST_CANCELS)}, ["yes a"]),
    "one variable more": (
        {"a": deferred(MOST_CANCELS + 1)}, ["a 102:5: LC12 c49 too many tracked variables", "no a"]
    ),
    "asked whether it is nil": ({"a": ASKED}, [f"a 7:5: LC06 cancel {OTHERWISE}", f"a 10:1: {LOST}", "no a"]),
    "bound in a branch": ({"a": BOUND_IN_A_BRANCH}, ["yes a"]),
    "left to a group of the caller": ({"a": GROUP_OF_THE_CALLER}, [f"a 14:1: {LEFT}", "no a"]),
    "left to a group of the caller and to an own one": ({"a": LEFT_TO_TWO_GROUPS}, [f"a 14:1: {LEFT}", "no a"]),
    "passed to a function that leaves it to a group of its caller": (
        {"a": PASSED_TO_TWO_GROUPS}, [f"a 17:7: LC06 cancel {OTHERWISE}", f"a 18:1: {LOST}", "no a"]
    ),
    "string not ended": ({"a": 'package a\n\nvar s = "x\n'}, ["a 3:9: LC01 - string not ended", "no a"]),
}


def words_of(bench, packages):
    """The words of these packages, whose files are put into the case."""
    return [bench.package(path, {"a.go": text.encode()}) for path, text in packages.items()]


def report_of(bench, report):
    """The bytes of a report of WORKED, of the packages of the case."""
    lines = marked(report).splitlines(keepends=True)
    return "".join(line if line.startswith(("yes ", "no ")) else bench.at(line) for line in lines).encode()
