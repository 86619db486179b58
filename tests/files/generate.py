#!/usr/bin/env python3
"""Makes node files, the same for the same seed.

accepted    random files that judging accepts (grow.py)
exhaustive  small trees, spread over all of them (exhaust.py)
damaged     files with faults of every number from 2 to 11 (damage.py)
edges       one below, at, and one above each limit (edges.py)
mixed       some of all of these, about half of them damaged
"""

import argparse
import random
import sys
from itertools import chain, islice
from pathlib import Path

sys.path.insert(0, str(Path(__file__).resolve().parents[1]))

from files import stream  # noqa: E402
from files.damage import damaged  # noqa: E402
from files.edges import edges  # noqa: E402
from files.exhaust import small  # noqa: E402
from files.grow import accepted  # noqa: E402
from nodefile import pack  # noqa: E402


def accepted_files(count, seed):
    rng = random.Random(seed)
    return (accepted(rng) for _ in range(count))


def exhaustive_files(count, seed):
    return map(pack, small(count, seed))


def damaged_files(count, seed):
    rng = random.Random(seed)
    return (damaged(rng) for _ in range(count))


def edge_files(count, seed):
    return islice(edges(random.Random(seed)), count)


SHARES = {accepted_files: 30, exhaustive_files: 14, edge_files: 1}  # in a hundred mixed files; the others are damaged


def mixed_files(count, seed):
    counts = {files: count * share // 100 for files, share in SHARES.items()}
    counts[damaged_files] = count - sum(counts.values())
    return chain.from_iterable(files(number, seed) for files, number in counts.items())


FILES = {"accepted": accepted_files, "exhaustive": exhaustive_files, "damaged": damaged_files, "edges": edge_files,
         "mixed": mixed_files}
KINDS_HELP = f"{', '.join(FILES)}, or: scripts DIR, the files *.nodes in a folder"


def chosen(parser, words, count, seed):
    """The files that the words behind --kind ask for."""
    kind, *folder = words
    if kind == "scripts" and len(folder) == 1:
        return (path.read_bytes() for path in sorted(Path(folder[0]).rglob("*.nodes"))[:count])
    if kind not in FILES or folder:
        parser.error(f"--kind is {KINDS_HELP}")
    return FILES[kind](count, seed)


def main():
    parser = argparse.ArgumentParser(description=__doc__, formatter_class=argparse.RawDescriptionHelpFormatter,
                                     epilog="Standard output is a stream: each file preceded by its length, 4 bytes, "
                                     "most significant first.")
    parser.add_argument("kind", choices=FILES)
    parser.add_argument("count", type=int)
    parser.add_argument("seed", type=int)
    options = parser.parse_args()
    stream.write(sys.stdout.buffer, FILES[options.kind](options.count, options.seed))


if __name__ == "__main__":
    main()
