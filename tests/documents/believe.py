#!/usr/bin/env python3
"""Which definitions a reader must believe, and whether docs/BELIEVE.md says so.

Starts from the contracts of the public functions, those in each crate's src/lib.rt, and from the
statements of the theorems (the files Theorems and Whole of specs/ or proofs/), and goes along the
`use` lines to every definition that they reach. An inner room, a crate with a public function that
asks something of its callers (`requires`), is left out. A definition is a data type, a record, an
`abbrev` or an `unfoldable`; of any other declaration, a law or a witness, the statement alone counts.

Then reads docs/BELIEVE.md. Everything in backquotes there must exist; and every file with a
definition that is reached must be named, as crate/specs/File (crate/proofs/File, where it stands
there), or as File alone on a line that has named crate/specs/.. before it.
"""

import argparse
import re
import sys
from pathlib import Path
from typing import NamedTuple

TOP = Path(__file__).resolve().parents[2]
CRATES = TOP / "crates"
THEOREMS = ("Theorems", "Whole")
LEMMAS = {("readers", "proofs/Whole")}  # a file of lemmas that has such a name
THEORY = ("lexical",)  # no bytes: its theorems are said again of them
# words in backquotes that are no definitions: the kit's
KIT = {"requires", "ensures", "axioms"}

PLACES = ("specs", "proofs")  # where a file of definitions or theorems may stand
USE = re.compile(r"^(?:ghost |pub )*use Rattle\.(\w+)\.(specs|proofs)\.([\w.]+?)(?:\.\{(.*)\}| as (\w+));?$")
HEAD = re.compile(r"^( *)((?:(?:unfoldable|abbrev|opaque|pub) )*)(?:(data|record) )?([^\s:(){}]+)(?: .*?)? ?: ")
WORDS = re.compile(r"[^\s(){}⟨⟩,;«»]+")


class Decl(NamedTuple):
    """A declaration: is it a definition; its lines; those of its signature and of the sections it stands in; the
    names of its constructors or fields."""
    name: str
    defines: bool
    lines: tuple
    statement: tuple
    members: tuple


def words(lines):
    """The words of some lines, each also without the marks that may stand at its ends, and the parts of `a.b`."""
    for line in lines:
        for word in WORDS.findall(line):
            yield word
            yield word.strip("◌.λ")
            yield from word.strip("◌.λ").split(".")


def chunks(text):
    """A file's stretches of lines without an empty line between them, comments left out."""
    lines = []
    for line in [*text.split("\n"), ""]:
        if line.strip().startswith("--"):
            continue
        if line.strip():
            lines.append(re.sub(r"  -- .*$", "", line))
        elif lines:
            yield lines
            lines = []


def indent(line):
    return len(line) - len(line.lstrip())


def declarations(text):
    """The declarations of a file of specifications, at the top and in its sections."""
    sections = []
    for lines in chunks(text):
        while lines and lines[0].lstrip().startswith("module _ "):
            sections = [s for s in sections if s[0] < indent(lines[0])]
            end = next(i for i, line in enumerate(lines) if line.endswith("where")) + 1
            sections.append((indent(lines[0]), lines[:end]))
            lines = lines[end:]
        lines = [line for line in lines if not line.startswith(("use ", "pub use ", "infix"))]
        if not lines or not (head := HEAD.match(lines[0])):
            continue
        depth, marks, kind, name = len(head[1]), head[2], head[3], head[4]
        sections = [s for s in sections if s[0] < depth]
        if depth != (sections[-1][0] + 2 if sections else 0):
            continue  # of a `where` block
        end = next((i for i, line in enumerate(lines) if i and (kind or indent(line) <= depth)), len(lines))
        members = [line.split(" : ")[0].split() for line in lines[1:] if kind and indent(line) == depth + 2]
        yield Decl(name, bool(kind) or "abbrev" in marks or "unfoldable" in marks, tuple(lines),
                   (*lines[:end], *(line for s in sections for line in s[1])),
                   tuple(m for names in members for m in names if m != "pub"))


class File:
    """A file of specifications: its declarations by every name that leads to them, and where its other names come from."""

    def __init__(self, path):
        self.path = path
        text = path.read_text()
        self.decls = {}
        self.named = {}
        for d in declarations(text):
            self.decls[d.name] = d
            for name in (d.name, d.name.strip("◌"), *d.members, *(m.strip("◌") for m in d.members)):
                self.named.setdefault(name, d.name)
        self.imports = imports(text)


def imports(text):
    """Name to (crate, file, name there); `alias.` to (crate, file, None). A file is `proofs/Laws/Rows`, say."""
    found = {}
    for line in text.split("\n"):
        if m := USE.match(line.strip()):
            crate, place, file, names, alias = m.groups()
            file = f"{place}/{file.replace('.', '/')}"
            if alias:
                found[alias + "."] = (crate, file, None)
            for name in names.split(",") if names else ():
                name, _, here = name.strip().partition(" as ")
                for spelled in {here or name, (here or name).strip("◌")}:
                    found[spelled] = (crate, file, name)
    return found


class Specs:
    """All files of definitions and theorems, read as they are asked for."""

    def __init__(self):
        self.files = {}

    def file(self, crate, name):
        path = CRATES / crate / f"{name}.antt"
        if path not in self.files:
            self.files[path] = File(path) if path.exists() else None
        return self.files[path]

    def resolve(self, word, here, at):
        """The declaration that a word leads to, as (crate, file, name): from file `at` with the imports `here`."""
        if at and (own := self.file(*at)) and word in own.named:
            return (*at, own.named[word])
        if word in here:
            crate, file, name = here[word]
        elif "." in word and word.split(".")[0] + "." in here:
            crate, file, _ = here[word.split(".")[0] + "."]
            name = word.split(".", 1)[1]
        else:
            return None
        there = self.file(crate, file)
        return self.resolve(name, there.imports, (crate, file)) if there else None

    def decl(self, crate, file, name):
        return self.file(crate, file).decls[name]

    def reached(self, roots):
        """Every definition that some (words, imports, at) lead to, and what these lead to in turn."""
        seen, todo = set(), list(roots)
        while todo:
            said, here, at = todo.pop()
            for word in said:
                found = self.resolve(word, here, at)
                if found and found not in seen:
                    seen.add(found)
                    d = self.decl(*found)
                    todo.append((set(words(d.lines if d.defines else d.statement)), self.file(*found[:2]).imports, found[:2]))
        return {found for found in seen if self.decl(*found).defines}


def functions(crate):
    """The public functions of a crate: name, contract."""
    path = CRATES / crate / "src" / "lib.rt"
    text = path.read_text() if path.exists() else ""
    return re.findall(r'^pub (?:extern "C" )?fn (\w+)(.*?)^\{$', text, re.S | re.M)


def open_crates():
    """The crates that are no inner rooms."""
    for path in sorted(CRATES.iterdir()):
        if not any("requires" in contract for _, contract in functions(path.name)):
            yield path.name


def contracts():
    """The public functions: crate, name, the words of the contract, the imports."""
    for crate in open_crates():
        for name, contract in functions(crate):
            said = contract.split("ensures", 1)[1] if "ensures" in contract else ""
            yield crate, name, set(words(said.split("\n"))), imports((CRATES / crate / "src" / "lib.rt").read_text())


def theorems(specs):
    """The public statements of the files of theorems: crate, file, declaration."""
    for crate in open_crates():
        for name in (f"{place}/{name}" for place in PLACES for name in THEOREMS):
            for d in (file.decls.values() if (crate, name) not in LEMMAS and (file := specs.file(crate, name)) else ()):
                if d.lines[0].lstrip().startswith("pub "):
                    yield crate, name, d


def believed(specs, but=()):
    """All definitions that a reader of the contracts and the theorems must believe; without the theorems of some crates."""
    roots = [(said, here, None) for _, _, said, here in contracts()]
    roots += [(set(words(d.statement)), specs.file(crate, file).imports, (crate, file))
              for crate, file, d in theorems(specs) if crate not in but]
    return specs.reached(roots)


def named(text):
    """What docs/BELIEVE.md names, line by line: (line number, word, the crate named last before it on the line)."""
    for number, line in enumerate(text.split("\n"), 1):
        crate = None
        for word in re.findall(r"`([^`]+)`", line):
            if m := re.match(r"(\w+)/(specs|proofs)/", word):
                crate = m[1]
            yield number, word, crate


def known_words(specs):
    """Every name that a word in backquotes may mean."""
    known = set(KIT)
    for path in (path for place in PLACES for path in CRATES.glob(f"*/{place}/**/*.antt")):
        crate, *inner = path.relative_to(CRATES).with_suffix("").parts
        known.add(path.stem)
        file = specs.file(crate, "/".join(inner))
        known |= set(file.named)
        known |= {f"{path.stem}.{name}" for name in file.named}
    for path in CRATES.glob("*/src/*.rt"):
        crate, text = path.parent.parent.name, path.read_text()
        found = re.findall(r"\b(?:fn|struct|enum|const) (\w+)", text)
        known |= {crate, *found, *(f"{crate}::{name}" for name in found)}
    return known


def exists(word, known):
    """Is there such a thing: a path of the repository, of its crates or of some crate; or a name, called or not?"""
    if "/" in word:
        where = [TOP, CRATES, *CRATES.iterdir()]
        return any((top / (word.rstrip("/") + end)).exists() for top in where for end in ("", ".antt", ".rt"))
    return word.split("(")[0] in known


def faults(specs, text, reached):
    """What docs/BELIEVE.md names though it is not there, and which files it leaves out."""
    known = known_words(specs)
    files, seen = {r[:2] for r in reached}, set()
    for number, word, crate in named(text):
        if not exists(word, known):
            yield f"docs/BELIEVE.md:{number}: there is no `{word}`"
        if m := re.match(r"(\w+)/((?:specs|proofs)/\w+)$", word):
            seen.add((m[1], m[2]))
        elif crate:
            seen |= {(crate, f"{place}/{word.split('.')[0]}") for place in PLACES}
    for crate, file in sorted(files - seen):
        yield f"docs/BELIEVE.md: does not name `{crate}/{file}`: {', '.join(sorted(n for c, f, n in reached if (c, f) == (crate, file)))}"


def main():
    parser = argparse.ArgumentParser(description=__doc__, formatter_class=argparse.RawDescriptionHelpFormatter)
    parser.add_argument("--list", action="store_true", help="list every definition that is reached, by its file")
    options = parser.parse_args()
    specs = Specs()
    reached = believed(specs)
    lines = {r: len(specs.decl(*r).lines) for r in reached}
    if options.list:
        for crate, file in sorted({r[:2] for r in reached}):
            mine = sorted(r for r in reached if r[:2] == (crate, file))
            print(f"{crate}/{file} ({sum(lines[r] for r in mine)} lines): {', '.join(r[2] for r in mine)}")
    wrong = list(faults(specs, (TOP / "docs" / "BELIEVE.md").read_text(), reached))
    for fault in wrong:
        print(fault)
    bytes_alone = believed(specs, but=THEORY)
    print(f"{len(list(contracts()))} contracts and {len(list(theorems(specs)))} theorems rest on {len(reached)} definitions "
          f"in {len({r[:2] for r in reached})} files, {sum(lines.values())} lines; those on bytes alone on "
          f"{len(bytes_alone)}, {sum(lines[r] for r in bytes_alone)} lines")
    return 1 if wrong else 0


if __name__ == "__main__":
    sys.exit(main())
