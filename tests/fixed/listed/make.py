#!/usr/bin/env python3
"""Makes files.bin, accepted files, listings.txt, the oracle's plain listing of each, and full.bin, its full one.

For each rule of rules.py, random files are taken whose listing changes when that rule is
broken: some are shrunk, as far as the listing still changes, some stay as they are. Before them
come document 01's examples, after them random files and the limits. The files are the same in
every run; the listings are the oracle's, and the mirror must agree.

files.bin: a stream, each file preceded by its length, 4 bytes, most significant first.
full.bin: for each file the listing with --full, then the byte 255 four times. The proved program
scope_stream is run on files.bin and must write full.bin: copies stand in its crate, as stdin and stdout.
listings.txt: for each file a line `= NUMBER LENGTH NOTES`, then LENGTH bytes, its listing. The notes
are the rules that the file tells broken from kept (by their names in rules.py), or what it is.
"""

import argparse
import random
import re
import sys
from collections import defaultdict
from itertools import islice
from pathlib import Path

HERE = Path(__file__).resolve().parent
CRATE = HERE.parents[2] / "crates/scope_stream"
sys.path.insert(0, str(HERE.parents[1]))

from compare.programs import END, Batch  # noqa: E402
from compare.shrink import shrink  # noqa: E402
from files import edges, stream  # noqa: E402
from files.examples import EXAMPLES  # noqa: E402
from files.generate import accepted_files  # noqa: E402
from files.rawfile import Raw  # noqa: E402
from readings import mirror  # noqa: E402
from readings.rules import RULES, Broken  # noqa: E402
from readings.second_judge import judge  # noqa: E402
from nodefile import pack, unpack  # noqa: E402

ORACLE = HERE.parents[2] / "oracle/target/release/oracle"
SHRUNK, WHOLE = 3, 2  # files for each rule
LOOKED_AT = 6000      # files looked at for each rule, at most
LARGEST = 40          # nodes of a file that is taken


def plainly_named(data):
    """The file with names of letters, digits and `_` alone, which every version of the listing prints alike."""
    file = unpack(data)
    for at, name in enumerate(file.names):
        if not re.fullmatch(rb"[A-Za-z0-9_]{1,8}", name):
            file.names[at] = b"%sn%d" % (b"_" if name.startswith(b"_") else b"", at)
    return pack(file)


def files_for(rule):
    """Files that tell the mirror with this rule broken from the right one."""
    broken = Broken(rule)

    def differ(files):
        return [judge(data) == 0 and broken.answer(data) != mirror.answer(data) for data in files]

    small = (data for data in accepted_files(LOOKED_AT, rule.name) if Raw(data).count("nodes") <= LARGEST)
    telling = (data for data in map(plainly_named, small) if differ([data])[0])
    for data in islice(telling, SHRUNK):
        yield shrink(data, differ)
    yield from islice(telling, WHOLE)


def noted():
    """All files, each with its notes."""
    notes = defaultdict(list)
    for what, data, _ in EXAMPLES:
        notes[data].append(f"example {what}")
    for rule in RULES:
        for data in files_for(rule):
            notes[data].append(rule.name)
    for data in map(plainly_named, accepted_files(60, "random")):
        notes[data].append("random")
    rng = random.Random("limits")
    for make, limit in edges.LIMITS:
        notes[plainly_named(make(rng, limit))].append(f"{limit:,} {make.__name__.strip('_')}")
    notes[edges.slots(rng, 4097)].append("4,097 slots")
    return notes


def main():
    parser = argparse.ArgumentParser(description=__doc__, formatter_class=argparse.RawDescriptionHelpFormatter)
    parser.add_argument("--oracle", default=f"{ORACLE} --batch", help="a command that lists a stream of files")
    options = parser.parse_args()
    files = noted()
    listings = Batch(options.oracle).answers(list(files))
    fulls = Batch(options.oracle + " --full").answers(list(files))
    for path in HERE / "files.bin", CRATE / "stdin":
        with open(path, "wb") as target:
            stream.write(target, files)
    for path in HERE / "full.bin", CRATE / "stdout":
        path.write_bytes(b"".join(full + END for full in fulls))
    with open(HERE / "listings.txt", "wb") as target:
        for number, ((data, notes), listing) in enumerate(zip(files.items(), listings, strict=True)):
            if listing != mirror.answer(data):
                raise SystemExit(f"file {number}, {notes}: the oracle and the mirror differ")
            target.write(b"= %d %d %s\n" % (number, len(listing), "; ".join(dict.fromkeys(notes)).encode()) + listing)
    print(f"{len(files)} files")


if __name__ == "__main__":
    main()
