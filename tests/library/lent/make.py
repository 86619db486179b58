#!/usr/bin/env python3
"""Makes files.bin, what lent.c resolves, and answers.txt, what it must write (./run compares).

Each file is resolved 15 times, into buffers of their full lengths with each of the seven in turn
one element short, then with each in turn 16 longer, then with none. The mirror says which elements
are not zero then.
"""

import random
import sys
from pathlib import Path

HERE = Path(__file__).resolve().parent
sys.path.insert(0, str(HERE.parents[1]))

from files import edges, stream  # noqa: E402
from files.examples import EXAMPLES  # noqa: E402
from readings import lexical, mirror, second_judge  # noqa: E402


def filled(rows):
    """How many rows are packed as something else than zero."""
    return sum(any(row) for row in rows)


def line(number, counts, elements):
    return "answer {} counts {} filled {}\n".format(number, *(" ".join(map(str, part)) for part in (counts, elements)))


def refusal(number):
    return line(number, [0] * 5, [0] * 7)


def expected(data):
    """The line for a file in buffers that are long enough."""
    number, reading = second_judge.judged(data)
    if number:
        return refusal(number)
    F = mirror.file_of(reading)
    st = lexical.resolved(F)
    if len(st.slots) > mirror.SLOT_LIMIT:
        return refusal(12)
    r = lexical.records(F, st)
    entries = [(name, public, slot) for name, _, _, public, _, _, local, slot in r.bindings if not local]
    return line(0, map(len, (r.bindings, entries, r.slots, r.copies, r.errors)),
                map(filled, ([row[1:] for row in r.names + r.answers], r.bindings, entries, r.scopes, r.slots, r.copies, r.errors)))


def files():
    yield from (data for _, data, _ in EXAMPLES)
    rng = random.Random("lent")
    yield from (edges.slots(rng, count) for count in (4095, 4096, 4097))
    yield edges.everything()
    first = EXAMPLES[0][1]
    yield b""
    yield first[:-1]
    yield first + b"\0" * 60000


def main():
    made = list(files())
    with open(HERE / "files.bin", "wb") as target:
        stream.write(target, made)
    with open(HERE / "answers.txt", "w") as target:
        for data in made:
            target.write(refusal(1) * 7 + expected(data) * 8)
    print(f"{len(made)} files")


if __name__ == "__main__":
    main()
