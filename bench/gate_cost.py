"""What the gate costs by crates.txt and the table of bench/costs.txt alone: what `bench/gate --cost` prints.

A change of a crate costs the proofs, tests and edits of that crate and of all that stand on it; a commit that changes
several crates costs those of each once.
"""
import subprocess

import crates

# How many commits a mean is taken of.
COMMITS = 60
# What a proof is to take at most, in seconds, and what a crate is to have, in lines of code (docs/GATE.md).
LONG_PROOF, LONG_CRATE = 200, 1500


def table():
    """The seconds of each crate's proof, tests and edits; of one that the table lacks, what scripts/build takes."""
    known = crates.costs()
    return {name: known.get(name, (crates.USUAL_COST, 0, 0)) for name in crates.listed()}


def minutes(seconds):
    return f"{seconds / 60:.0f}"


def longest_chain(cost):
    """The crates that are made one after another and take longest together: the names, lowest first."""
    chains = {}
    for name, needs in crates.listed().items():
        below = [chains[one] for one in needs if one in chains]
        chains[name] = [*max(below, key=lambda chain: sum(map(cost.get, chain)), default=[]), name]
    return max(chains.values(), key=lambda chain: sum(map(cost.get, chain)), default=[])


def cost_of_changes(cost):
    """A function that gives the seconds that a change of these crates costs."""
    below = {name: set(crates.below([name])) for name in crates.listed()}
    return lambda changed: sum(cost[name] for name in cost if below[name] & set(changed))


def changed_crates(revision):
    """For each of the last commits up to this one that changed crates, which of those that are still there."""
    words = ["git", "log", f"-{COMMITS}", "--format=tformat:commit", "--name-only", revision]
    done = subprocess.run(words, cwd=crates.ROOT, stdout=subprocess.PIPE, text=True, check=True)
    found, listed = [], crates.listed()
    for line in done.stdout.splitlines():
        parts = line.split("/")
        if line == "commit":
            found.append(set())
        elif parts[0] == "crates" and len(parts) > 3 and parts[1] in listed and parts[2] in crates.PROVED:
            found[-1].add(parts[1])
    return [names for names in found if names]


def of_whole(parts):
    proofs, tests, edits = (sum(part) for part in zip(*parts.values()))
    yield f"the whole: {minutes(proofs + tests + edits)} processor minutes: {minutes(proofs)} for proofs, " + (
        f"{minutes(tests)} for tests, {minutes(edits)} for must-fail edits"
    )
    lacking = [name for name in parts if name not in crates.costs()]
    if lacking:
        yield f"reckoned with {crates.USUAL_COST} s, since the table lacks them: {', '.join(lacking)}"


def lines_of_code(name):
    """The lines of a crate's code."""
    total = 0
    for path in crates.files_of(name, ["src"]):
        with open(path, "rb") as file:
            total += file.read().count(b"\n")
    return total


def of_crates(parts):
    long = {name: proof for name, (proof, _, _) in parts.items() if proof > LONG_PROOF}
    yield f"proofs over {LONG_PROOF} s: " + (in_words(long, str) or "none")
    sizes = {name: lines_of_code(name) for name in parts}
    large = {name: size for name, size in sizes.items() if size > LONG_CRATE}
    yield f"crates over {LONG_CRATE} lines: " + (in_words(large, str) or "none")


def in_words(figures, form):
    """These figures by name, the largest first."""
    return ", ".join(f"{name} {form(figures[name])}" for name in sorted(figures, key=lambda name: -figures[name]))


def of_changes(change, cost, revision, by_crate):
    commits = changed_crates(revision)
    mean = sum(map(change, commits)) / len(commits) if commits else 0
    count = f"the mean of the {len(commits)} of the last {COMMITS} commits that changed crates"
    yield f"a change: {minutes(mean)} minutes, {count}"
    if by_crate:
        yield "changes: " + in_words({name: change([name]) for name in cost}, minutes)


def lines(revision, by_crate):
    """The lines that `bench/gate --cost` prints, with the commits up to this one."""
    parts = table()
    cost = {name: sum(seconds) for name, seconds in parts.items()}
    yield from of_whole(parts)
    yield from of_crates(parts)
    # No crate waits for the edits of another.
    made = {name: proof + tests for name, (proof, tests, _) in parts.items()}
    chain = longest_chain(made)
    yield f"the longest chain: {minutes(sum(map(made.get, chain)))} minutes: " + (
        ", ".join(f"{name} {made[name] / 60:.1f}" for name in chain)
    )
    yield from of_changes(cost_of_changes(cost), cost, revision, by_crate)
