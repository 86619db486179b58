#!/usr/bin/env python3
"""Compares the definitions of crate `lexical` with the oracle: the definitions themselves, computed by the checker.

For each of some random files (files/grow.py) a theorem is written, proved by `refl`: the records that the definitions
compute are those of the oracle's full listing. Every column is compared: bindings, module entries afterwards, scopes,
slots, copies, Names, Idents, errors; Names and Idents, which the oracle lists in node order, in the order of the
mirror's records. The theorems are checked in a scratch copy of the crate (`rt check`). The last line counts; the exit
status is 1 if any differ.
"""

import argparse
import random
import shutil
import subprocess
import sys
import tempfile
from itertools import islice
from pathlib import Path
from typing import NamedTuple

sys.path.insert(0, str(Path(__file__).resolve().parents[1]))

from compare.programs import Batch  # noqa: E402
from files.generate import accepted_files  # noqa: E402
from readings import mirror  # noqa: E402
from nodefile import pack, preorder, unpack  # noqa: E402

TOP = Path(__file__).resolve().parents[2]
ORACLE = TOP / "oracle/target/release/oracle"
CRATE = "lexical"
LEAST = 8            # nodes of a file, at least
FROM_MODULE = 65535  # the source of a binding that an entry made

HEAD = """-- Random files and their records, from the oracle.
use Rattle.std.specs.Prelude.{◌≡◌, refl, List, [], ◌∷◌, Bool, true, false}
use Rattle.lexical.specs.Tree.{Forest, nil, node}
use Rattle.lexical.specs.Module.{Entry, File}
use Rattle.lexical.specs.Records.{Records, records}
use Rattle.lexical.PLACE.Examples.{file}
"""

THEOREM = """
unfoldable pub t{number} : File
t{number} = file {low} {reexport} {entries} {globals} ({root})

pub ok{number} : records t{number} ≡ record {{ {columns} }}
unfolding records file t{number}
ok{number} = refl
"""


class Columns(NamedTuple):
    """The records' columns, as `Records` of the crate has them."""
    bindings: list
    entries: list
    scopes: list
    slots: list
    copies: list
    names: list
    answers: list
    errors: list


# From a file and its listing to the columns.


def respelled(rng, data):
    """A file whose names are plain, those from a number `low` on begin with `_`: what the crate's `file` can say."""
    file = unpack(data)
    low = rng.randrange(len(file.names) + 1)
    file.names = [b"%sn%d" % (b"_" * (number >= low), number) for number in range(len(file.names))]
    return low, file


def some_files(seed, most):
    """Files of at most so many nodes, and not so few that they say nothing: (low, File, bytes), without end."""
    rng = random.Random(seed)
    while True:
        low, file = respelled(rng, *accepted_files(1, rng.random()))
        if LEAST <= sum(1 for _ in preorder(file.root)) <= most:
            yield low, file, pack(file)


def ordered(rows, like):
    """Rows that begin with a node, in the order of others."""
    by_node = {row[0]: row for row in rows}
    return [by_node.pop(node) for node, *_ in like] + list(by_node.values())


def columns(file, listing, records):
    """The columns of the oracle's full listing; `records` are the mirror's."""
    number = {name.decode(): at for at, name in enumerate(file.names)}
    rows = {letter: [] for letter in "BMSCIENT"}
    for line in listing.decode().splitlines()[1:]:
        letter, *words = line.replace(":", "").split()
        rows[letter].append(words)

    def answers(letter):
        return [(int(node), " MLG".index(kind), int(slot), 0 if binding == "-" else int(binding))
                for node, kind, slot, binding in rows[letter]]
    return Columns(
        bindings=[(number[name], FROM_MODULE if source == "-" else int(source), int(source == "-"),
                   int(shown == "public"), int(often == "any"), int(free == "captured"), int(kind == "L"), int(slot))
                  for _, name, kind, slot, shown, often, free, source in rows["B"]],
        entries=[(number[name], int(shown == "public"), int(slot)) for slot, name, shown in rows["M"]],
        scopes=[(int(params), len(names)) for _, params, *names in rows["S"]],
        slots=[(int(scope), number[name]) for scope, name in rows["T"]],
        copies=[tuple(map(int, words)) for words in rows["C"]],
        names=ordered(answers("N"), records.names),
        answers=ordered(answers("I"), records.answers),
        errors=[(int(node), int(code)) for node, code, _ in rows["E"]],
    )


# From the columns to a theorem.


def items(texts):
    return "(" + " ∷ ".join([*texts, "[]"]) + ")"


def rows(table):
    return items(items(map(str, row)) for row in table)


def truth(value):
    return "true" if value else "false"


def forest(nodes, at=0):
    """Nodes side by side, the first of them number `at`."""
    if not nodes:
        return "nil"
    first, *rest = nodes
    size = sum(1 for _ in preorder(first))
    return f"node {at} {first.kind} {first.value} ({forest(first.kids, at + 1)}) ({forest(rest, at + size)})"


def theorem(number, low, file, found):
    return THEOREM.format(
        number=number, low=low, reexport=truth(file.reexport), globals=items(map(str, file.globals)),
        entries=items(f"record {{ name = {name}; public = {truth(public)}; slot = {slot} }}"
                      for name, public, slot in file.entries),
        root=forest([file.root]),
        columns="; ".join(f"{column} = {rows(table)}" for column, table in found._asdict().items()))


# Checking.


def scratch_copy(folder, theorems):
    """The crate, with what it stands on and the theorems."""
    lines = dict(line.split(":") for line in (TOP / "crates.txt").read_text().splitlines() if not line.startswith("#"))
    wanted = [CRATE]
    for name in wanted:
        wanted += [below for below in lines[name].split() if below in lines and below not in wanted]
        shutil.copytree(TOP / "crates" / name, folder / "crates" / name, ignore=shutil.ignore_patterns("out"))
    (folder / "crates.txt").write_text("".join(f"{name}:{lines[name]}\n" for name in lines if name in wanted))
    # beside the examples, which say `file`
    place = next(place for place in ("specs", "proofs") if (folder / "crates" / CRATE / place / "Examples.antt").is_file())
    beside = folder / "crates" / CRATE / place
    (beside / "Trial.antt").write_text(HEAD.replace("PLACE", place) + "".join(theorems))
    with open(beside / "Lib.antt", "a") as lib:
        lib.write("pub mod Trial\n")


def faults(theorems):
    """What the checker says against the theorems."""
    with tempfile.TemporaryDirectory() as folder:
        scratch_copy(Path(folder), theorems)
        done = subprocess.run(["rt", "check"], cwd=f"{folder}/crates/{CRATE}", capture_output=True, text=True)
    said = (done.stdout + done.stderr).splitlines()
    found = [line for line in said if "error:" in line]
    if any("Trial.antt" not in line for line in found) or not (found or any("logic=proved" in line for line in said)):
        sys.exit("\n".join(["the crate itself is not proved", *said[-5:]]))
    return found


def main():
    parser = argparse.ArgumentParser(description=__doc__, formatter_class=argparse.RawDescriptionHelpFormatter)
    parser.add_argument("count", type=int, help="how many files")
    parser.add_argument("seed", type=int)
    parser.add_argument("--nodes", type=int, default=100,
                        help=f"how many nodes a file has at most (100); at least {LEAST}")
    parser.add_argument("--oracle", default=f"{ORACLE} --batch --full", help="the command that lists a stream of files")
    options = parser.parse_args()

    files = list(islice(some_files(options.seed, options.nodes), options.count))
    listings = Batch(options.oracle).answers([data for *_, data in files])
    found = [columns(file, listing, mirror.resolved(data)[1].records)
             for (_, file, data), listing in zip(files, listings, strict=True)]
    differ = faults([theorem(number, low, file, table)
                     for number, ((low, file, _), table) in enumerate(zip(files, found))])
    totals = zip(Columns._fields, (sum(map(len, part)) for part in zip(*found)))
    print("records compared:", ", ".join(f"{total} {column}" for column, total in totals))
    print(*(line[:300] for line in differ[:5]), sep="\n", end="\n" if differ else "")
    print(f"{len(files)} files compared, {len(differ)} differ")
    sys.exit(len(differ) > 0)


if __name__ == "__main__":
    main()
