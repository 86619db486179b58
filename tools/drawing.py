"""For the tests: scripts resolved by the definitions' mirror, with no program built."""

import sys
from pathlib import Path

from nodefile import File, pack
from picture.listing import read_listing
from picture.meaning import Resolved
from picture.script import Script, label, shown
from starlark_tree import convert

TOP = Path(__file__).resolve().parent.parent
sys.path.append(str(TOP / "tests"))

from files.generate import FILES  # noqa: E402
from readings import mirror  # noqa: E402
from readings.second_judge import judge  # noqa: E402, F401

accepted = FILES["accepted"]


def counted(data):
    """The mirror's listing with the number of readers at the end of each B line, as request P7 has it."""
    lines = mirror.answer(data).decode().splitlines()
    readers = [line.split()[4] for line in lines if line.startswith("I ")]
    return "".join(
        line + f" {readers.count(line.split()[1])}" * line.startswith("B ") + "\n" for line in lines).encode()


def drawn(source, globals=(), entries=(), listing=mirror.answer):
    """The Script of Starlark source; an entry is a name, whether it is public, and its slot."""
    root, names = convert(source)
    numbers = {name: number for number, name in enumerate(names)}
    for name in [*globals, *(name for name, _, _ in entries)]:
        numbers.setdefault(name, len(numbers))
    listed = [(numbers[name], public, slot) for name, public, slot in entries]
    return drawn_file(source, File(False, root, list(numbers), listed, [numbers[name] for name in globals]), listing)


def drawn_file(source, file, listing=mirror.answer):
    return Script(source, Resolved(file, read_listing(listing(pack(file)))))


def sample():
    """The sample script, as the commands make it."""
    source = (TOP / "samples/offsets.star").read_bytes()
    return drawn(source, (TOP / "samples/globals.txt").read_bytes().split())


def marks(script):
    """Each name in the order of the text, with its mark."""
    return [f"{shown(mark.name)} {'=' * mark.sets}{label(mark.meaning)}" for mark in script.resolved.marks]
