"""Texts of 100 MB: files of certificates and of declared facts that are one long number, string, list and the like."""

import os

from hostility.runs import OUT_OF_MEMORY, trouble_of_form

HUGE = 100_000_000
# The most kilobytes of addresses that a run on such a text gets.
ROOM = 8_000_000
MIB = 1 << 20


def long_file(path, opening, part, closing):
    """A file of about 100 MB, written piece by piece."""
    piece = part * (MIB // len(part))
    with open(path, "wb") as file:
        file.write(opening)
        for _ in range(HUGE // len(piece)):
            file.write(piece)
        file.write(closing)


def huge_texts(section, path, words, texts):
    """Runs the program with these words on texts of 100 MB in the file of this path: each by what stands before and after
    what is repeated, and what may be told. A run may also say that memory runs out, since it has not all of the
    machine's."""
    before = ("sh", "-c", f'ulimit -v {ROOM}; exec "$@"', "sh")
    for name, (opening, part, closing, faults) in texts.items():
        long_file(path, opening, part, closing)
        end = section.bench.run(words, before=before)
        known = (2, b"") == end.says()[:2] and end.err in (*faults, OUT_OF_MEMORY)
        unread = faults and not known and f"{name}: {end.says()!r}"[:400]
        section.note(end, unread or trouble_of_form(end))
        print(f"100 MB, {name}: {end.seconds:.1f} s, {end.kilobytes / 1000:.0f} MB, {end.kind()}", flush=True)
    os.remove(path)
