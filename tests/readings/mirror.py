#!/usr/bin/env python3
"""The definitions' mirror: lists a node file by what lexical.py says.

It answers as the oracle does, so that it can stand for the proved program or be compared
with it. Refusals 2 to 11 are second_judge's, which also reads the fields.
"""

import argparse
import sys
from pathlib import Path
from typing import NamedTuple

sys.path.insert(0, str(Path(__file__).resolve().parents[1]))

from files import stream  # noqa: E402
from readings import lexical, meaning, second_judge  # noqa: E402

SLOT_LIMIT = 4096


def spellings(reading):
    """The names of a reading, as bytes."""
    pool = reading.data[reading.pool_at:]
    return [pool[offset:offset + length] for offset, length in reading.names]


def file_of(reading):
    """The File that an accepted reading holds."""
    def node(at):
        return lexical.Node(at, reading.kinds[at], reading.nodes[at][2], [node(kid) for kid in reading.children[at]])
    return lexical.File(
        names=lexical.Names([name.startswith(b"_") for name in spellings(reading)], bool(reading.reexport)),
        entries=[lexical.Entry(name, bool(rest >> 15), rest & 0x7fff) for name, rest in reading.entries],
        globals=reading.globals,
        root=[node(0)],
    )


def visibility(public):
    return b"public" if public else b"private"


def listing(reading, r, full):
    """The lines for the records of an accepted file; `full` adds the Names' answers and the slots as they were made."""
    text = spellings(reading)
    module = [row for row in r.bindings if not row[6]]
    yield b"answer 0 bindings %d module %d slots %d copies %d errors %d" % (
        len(r.bindings), len(module), len(r.slots), len(r.copies), len(r.errors))
    for number, (name, source, entry, public, any_, captured, local, slot) in enumerate(r.bindings):
        yield b"B %d %s %s %d %s %s %s %s" % (
            number, text[name], b"L" if local else b"M", slot, visibility(public), b"any" if any_ else b"once",
            b"captured" if captured else b"free", b"-" if entry else b"%d" % source)
    for name, _, _, public, _, _, _, slot in module:
        yield b"M %d %s %s" % (slot, text[name], visibility(public))
    in_scope = [[] for _ in r.scopes]
    for scope, name in r.slots:
        in_scope[scope].append(b" " + text[name])
    for scope, (count, _) in enumerate(r.scopes):
        yield b"S %d %d:%s" % (scope, count, b"".join(in_scope[scope]))
    for copy in r.copies:
        yield b"C %d %d %d" % copy
    for node, kind, slot, binding in sorted(r.answers):
        yield b"I %d %s %d %s" % (node, b" MLG"[kind:kind + 1], slot, b"-" if kind == 3 else b"%d" % binding)
    for node, code in r.errors:
        yield b"E %d %d %s" % (node, code, text[reading.nodes[node][2]])
    if full:
        for node, kind, slot, binding in sorted(r.names):
            yield b"N %d %s %d %d" % (node, b" ML"[kind:kind + 1], slot, binding)
        for scope, name in r.slots:
            yield b"T %d %s" % (scope, text[name])


class Resolved(NamedTuple):
    """An accepted file: its fields, its lists and tree, the state after the walks, the records."""
    reading: second_judge.Reading
    file: lexical.File
    state: lexical.St
    records: lexical.Records


def resolved(data, check=False):
    """The number of a byte string, and what it is resolved to if that is 0; `check` holds Idents against their
    meanings, Names against their blocks."""
    number, reading = second_judge.judged(data)
    if number:
        return number, None
    F = file_of(reading)
    st = lexical.resolved(F)
    if check:
        meaning.check(F, st)
    if len(st.slots) > SLOT_LIMIT:
        return 12, None
    return 0, Resolved(reading, F, st, lexical.records(F, st))


def refusal(number):
    return b"answer %d\n" % number


def answer(data, full=False, check=False):
    """The listing of a byte string."""
    number, r = resolved(data, check)
    return refusal(number) if number else b"".join(line + b"\n" for line in listing(r.reading, r.records, full))


def main():
    parser = argparse.ArgumentParser(description="List a node file from standard input, by the definitions.")
    parser.add_argument("--batch", action="store_true",
                        help="standard input and output are streams: each file and each listing preceded by its "
                        "length (4 bytes, most significant first)")
    parser.add_argument("--full", action="store_true",
                        help="add `N node M|L slot binding` for each Name and `T scope name` for each slot made")
    parser.add_argument("--check", action="store_true",
                        help="also compare each Ident's answer with its meaning, each Name's binding with its block, "
                        "and follow the copies")
    options = parser.parse_args()
    if options.batch:
        stream.write(sys.stdout.buffer,
                     (answer(data, options.full, options.check) for data in stream.read(sys.stdin.buffer)))
    else:
        sys.stdout.buffer.write(answer(sys.stdin.buffer.read(), options.full, options.check))


if __name__ == "__main__":
    main()
