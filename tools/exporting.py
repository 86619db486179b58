"""A node file from Starlark source and lists: what star2nodes, scopepicture and starlint share."""

import re
from dataclasses import dataclass
from pathlib import Path

from inputs import content
from nodefile import MAX_ENTRIES, MAX_GLOBALS, MAX_NAME_BYTES, MAX_NAMES, MAX_POOL, MAX_SLOT, File
from starlark_source import Refused
from starlark_tokens import why_no_name
from starlark_tree import convert

# The names that every Starlark program has.
UNIVERSE = """
    None True False abs all any bool bytes chr dict dir enumerate fail float getattr hasattr
    hash int len list max min ord print range repr reversed set sorted str tuple type zip
""".split()


def add_options(parser):
    """The source, and the options that say what else a node file is made of."""
    parser.add_argument("source", type=Path, help="Starlark source; `-` for standard input")
    add_list_options(parser)


def add_list_options(parser):
    parser.add_argument("--globals", type=Path, metavar="FILE", help="the globals: a name a line; `#` begins a comment")
    parser.add_argument("--globals-default", action="store_true", help="the globals: Starlark's own (None, len, ...); "
                        "with --globals these come first")
    parser.add_argument("--entries", type=Path, metavar="FILE",
                        help="the module's entries before this script: `name public|private slot` a line")
    parser.add_argument("--reexport", action="store_true", help="loaded names are public")


@dataclass
class Lists:
    """What a node file holds besides the script: rows of entries and of globals."""

    reexport: bool
    entries: list
    globals: list


def exported(options, data):
    """The File that the options and the source's bytes make."""
    return file_of(options.source, data, lists_of(options))


def lists_of(options):
    """The lists that the options name, read and checked."""
    entries = read_entries(options.entries) if options.entries else []
    globals_ = [Row(Path("--globals-default"), number, [(name, 1)])
                for number, name in enumerate(UNIVERSE * options.globals_default, 1)]
    if options.globals:
        given = {row.name for row in globals_}
        globals_ += (row for row in rows(options.globals, 1) if row.name not in given)
    check_amount(entries, MAX_ENTRIES, "module entries")
    check_amount(globals_, MAX_GLOBALS, "globals")
    return Lists(options.reexport, entries, globals_)


def file_of(path, data, lists):
    """The File of the source at a path, with these lists."""
    try:
        root, spellings = convert(data)
    except Refused as error:
        error.path = path
        raise
    names = Names(spellings)
    return File(
        reexport=lists.reexport,
        root=root,
        entries=[(names.number(row), row.word(1) == "public", int(row.word(2))) for row in lists.entries],
        globals=[names.number(row) for row in lists.globals],
        names=list(names.numbers),
    )


class Row:
    """A line of a list: its words with their columns; the first is a name."""

    def __init__(self, path, line, words):
        self.path, self.line, self.words = path, line, words
        self.name = self.word(0)

    def word(self, number):
        return self.words[number][0]

    def refused(self, number, why):
        return Refused(self.line, self.words[number][1], why, self.path)


class Names:
    """The names of the file, each once; those of the tree come first."""

    def __init__(self, names):
        self.numbers = {name: number for number, name in enumerate(names)}
        self.pool = sum(map(len, names))

    def number(self, row):
        """The number of a listed name, a new one if the name is new."""
        spelled = row.name.encode()
        if spelled not in self.numbers:
            self.numbers[spelled] = len(self.numbers)
            self.pool += len(spelled)
            if len(self.numbers) > MAX_NAMES:
                raise row.refused(0, f"more than {MAX_NAMES} names, the script's own included")
            if self.pool > MAX_POOL:
                raise row.refused(0, f"more than {MAX_POOL} bytes of names, the script's own included")
        return self.numbers[spelled]


def check_amount(listed, limit, what):
    if len(listed) > limit:
        raise listed[limit].refused(0, f"more than {limit} {what}")


def read_entries(path):
    """The rows of a list of module entries."""
    entries = list(rows(path, 3))
    for row in entries:
        if row.word(1) not in ("public", "private"):
            raise row.refused(1, "`public` or `private` is wanted")
        if not (re.fullmatch("[0-9]+", row.word(2)) and int(row.word(2)) <= MAX_SLOT):
            raise row.refused(2, f"a slot from 0 to {MAX_SLOT} is wanted")
    return entries


def rows(path, count):
    """The lines of a list with so many words each, the first a new name; blank lines and comments are skipped."""
    seen = set()
    for number, line in enumerate(content(path).splitlines(), 1):
        try:
            text, _, _ = line.decode().partition("#")
        except UnicodeDecodeError as error:
            raise Refused(number, len(line[:error.start].decode()) + 1, "not UTF-8", path) from None
        words = [(word.group(), word.start() + 1) for word in re.finditer(r"\S+", text)]
        if words:
            row = Row(path, number, words)
            check_row(row, count, seen)
            seen.add(row.name)
            yield row


def check_row(row, count, seen):
    """Refuse a row of another number of words, or whose first is no name or one that was seen."""
    if len(row.words) != count:
        raise row.refused(0, f"{len(row.words)} words, {count} wanted")
    if why := why_no_name(row.name):
        raise row.refused(0, why)
    if len(row.name.encode()) > MAX_NAME_BYTES:
        raise row.refused(0, f"more than {MAX_NAME_BYTES} bytes in a name")
    if row.name in seen:
        raise row.refused(0, f"`{row.name}` a second time")
