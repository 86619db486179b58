#!/usr/bin/env python3
"""Respells this repository's own definitions and lemmas as today's Rattle spells names.

usage: tools/respell.py [--list] [TOP]      TOP: the checkout, by default this one; --list prints the names alone

bindingWidths -> binding_widths, reads-one -> reads_one, map-upTo -> map-up_to, field-spec -> field_spec, copy-parent -> copy_parent_lem

A word is in snake case; a type, a module and a fact keep their capitals. A dash stays only between two names (of definitions,
constructors or Rust functions), else it becomes `_`. A name that an import takes from the kit's library keeps its spelling, and so does every
name of the Rust text, of a goal (tie.Need-..), and what stands in a string or a comment, but for words in backticks. It rewrites the .antt and
.rt files and the edits of crates/, and words in backticks in README.md and docs/. Two names that would fall together stop it. Run it once.
"""

import re
import sys
from pathlib import Path

NAME = r"[^\s(){}.;,:@\"«»\[\]\\=]+"
TOKEN = re.compile(r"--[^\n]*|//[^\n]*|\"(?:[^\"\\]|\\.)*\"|" + NAME)
DECLARED = re.compile(r"^((?:(?:abbrev|unfoldable|pub|data|record|ruleset) )*)(?!use )(" + NAME + r")(?: .*?)? :(?: |$)", re.M)
MEMBER = re.compile(r"^ +(?:pub )?(" + NAME + r") :(?: |$)", re.M)
FOREIGN = re.compile(r"^use (?!Rattle\.(?!std)\w+\.(?:specs|proofs))(\S+)\.\{([^}]*)\}", re.M)
CAMEL = re.compile(r"[a-z][A-Za-z0-9]*[A-Z]\w*")
# A goal of a function, which the kit names, and the words that begin it.
GOAL = re.compile(r"(?:Need|InvT|MeasureT|In|After|Then|Else|invariant|decreases|returns)-")

# Clauses of a refusal whose names would fall together with those of the limits.
CLAUSES = {f"many-{what}": f"too_many_{what}" for what in ("nodes", "names", "entries", "globals", "bindings", "slots", "errors")}
# Lemmas that the kit's script has already turned, and that would fall together with a definition's name.
LEMMAS = {word: f"{word}_lem" for word in ("answer_word", "in_rest", "is_name", "own_name", "owner_of")} | {"placed-from": "placed_from_lem"}


def snake(word):
    """reads-one's halves keep their dashes; nextSlot becomes next_slot, isX is_x, comprYX compr_yx."""
    if not CAMEL.fullmatch(word):
        return word
    word = re.sub(r"([a-z0-9])([A-Z])", r"\1_\2", word)
    return re.sub(r"([A-Z]+)([A-Z][a-z])", r"\1_\2", word).lower()


def texts(top):
    for path in sorted((top / "crates").rglob("*")):
        if path.suffix in (".antt", ".rt", ".edit") and path.relative_to(top / "crates").parts[1] != "out":
            yield path


class Names:
    def __init__(self, top):
        self.declared, self.words, self.foreign, self.functions = set(), set(), set(), set()
        for path in texts(top):
            text = path.read_text()
            if path.suffix == ".rt":
                self.functions.update(re.findall(r"\bfn (\w+)", text))
            if path.suffix != ".antt":
                continue
            for names in FOREIGN.findall(text):
                self.foreign.update(re.split(r"[,\s]+", names[1]))
            if path.name == "Proof.antt":
                continue
            for before, name in DECLARED.findall(text):
                self.declared.add(name)
                if re.search("abbrev|unfoldable|data|record", before):
                    self.words.add(name)
            self.declared.update(MEMBER.findall(text))
        self.words.update(word for word in self.foreign if "-" not in word)
        self.plain = {snake(word) for word in self.declared | {"entryWord"} if "-" not in word}
        self.foreign.discard("")

    def parts(self, word):
        """The names that a dash may stand between."""
        return word in self.words

    def new(self, word):
        if word in CLAUSES or word in LEMMAS:
            return CLAUSES.get(word) or LEMMAS[word]
        if word in self.foreign or GOAL.match(word):
            return word
        if "-" not in word:
            return snake(word)
        halves = word.split("-")
        if word.endswith("-spec") and word[: -len("-spec")].replace("-", "_") in self.functions:
            return word[: -len("-spec")].replace("-", "_") + "_spec"
        if word not in self.declared:
            return word
        out = snake(halves[0])
        for before, half in zip(halves, halves[1:]):
            out += ("-" if self.parts(before) and self.parts(half) else "_") + snake(half)
        # a lemma that would have its definition's name
        return out + "_lem" if out in self.plain else out


def main(words):
    listing = "--list" in words
    words = [w for w in words if w != "--list"]
    top = Path(words[0]) if words else Path(__file__).resolve().parents[1]
    names = Names(top)
    turned = {}
    all_tokens = set()
    for path in texts(top):
        if path.suffix == ".antt":
            for token in TOKEN.findall(path.read_text()):
                if not token.startswith(("--", '"', "//")):
                    all_tokens.add(token)
    for token in all_tokens | names.declared:
        new = names.new(token)
        if new != token:
            turned[token] = new
    clash = {}
    for token in all_tokens | names.declared:
        clash.setdefault(turned.get(token, token), set()).add(token)
    fallen = {new: old for new, old in clash.items() if len(old) > 1}
    if listing:
        for old in sorted(turned):
            print(f"{old}\t{turned[old]}")
    for new, old in sorted(fallen.items()):
        print(f"fall together: {' '.join(sorted(old))} -> {new}", file=sys.stderr)
    if listing:
        return

    def one(match):
        token = match.group()
        if token.startswith(("--", "//")):
            return re.sub(r"`[^`]*`", lambda m: re.sub(NAME, lambda n: turned.get(n.group(), n.group()), m.group().strip("`")).join("``"), token)
        if token.startswith('"'):
            return token
        return turned.get(token, token)

    for path in texts(top):
        text = path.read_text()
        if path.suffix == ".edit":
            new = "".join(re.sub(NAME, lambda n: turned.get(n.group(), n.group()), line) if line.startswith(("old:", "new:")) else line for line in text.splitlines(True))
        else:
            new = TOKEN.sub(one, text)
        if new != text:
            path.write_text(new)
    for path in [top / "README.md", *sorted((top / "docs").rglob("*.md"))]:
        text = path.read_text()
        new = re.sub(r"`[^`\n]*`", lambda m: re.sub(NAME, lambda n: turned.get(n.group(), n.group()), m.group()[1:-1]).join("``"), text)
        if new != text:
            path.write_text(new)


if __name__ == "__main__":
    main(sys.argv[1:])
