"""The text of a script, cut at its names, with every byte made fit to be seen."""

import bisect
import re
import unicodedata

from .listing import ERRORS, Unfit
from .meaning import ERROR, GLOBAL, MODULE

LINE_END = re.compile(rb"\r\n|\r|\n")


def shown(data):
    """Bytes as text on one line: what cannot be printed, or turns the text's direction, as an escape."""
    text = data.decode(errors="backslashreplace")
    return "".join(each if each.isprintable() else escape(each) for each in text)


def escape(character):
    code = ord(character)
    return f"\\x{code:02x}" if code < 0x100 else f"\\u{code:04x}" if code < 0x10000 else f"\\U{code:08x}"


def width(text):
    """How many columns a text takes."""
    return sum(0 if unicodedata.combining(each) else 2 if unicodedata.east_asian_width(each) in "WF" else 1
               for each in text)


def label(meaning, arrow="<"):
    """What stands beside a name: m0, g0, 2.5 (scope 2, slot 5), 3.1<2.5 (copied from there), or an error."""
    if meaning.kind == ERROR:
        return f"!{ERRORS[meaning.number]}"
    if meaning.kind in (MODULE, GLOBAL):
        return f"{meaning.kind[0]}{meaning.number}"
    steps = [f"{scope}.{slot}" for scope, slot in meaning.chain]
    return arrow.join(steps if len(steps) < 4 else [steps[0], "..", steps[-1]])


class Script:
    """The script's text; every mark is where its name is spelled, and no two overlap."""

    def __init__(self, data, resolved):
        self.data, self.resolved = data, resolved
        self.starts = [0, *(end.end() for end in LINE_END.finditer(data))]
        at = 0
        for mark in resolved.marks:
            line, column = self.place(mark.offset)
            if data[mark.offset:mark.end] != mark.name:
                raise Unfit(f"{line}:{column}: node {mark.node}, `{shown(mark.name)}`, is not spelled here")
            if mark.offset < at:
                raise Unfit(f"{line}:{column}: node {mark.node}, `{shown(mark.name)}`, stands on another name")
            at = mark.end

    def place(self, offset):
        """The line and the column of a byte, both from 1; columns count characters."""
        line = bisect.bisect_right(self.starts, offset)
        return line, len(self.data[self.starts[line - 1]:offset].decode(errors="replace")) + 1

    def lines(self, spots):
        """Each line as its number and its texts, a text with its spot (from `offset` to `end`) or None."""
        number, line, at = 1, [], 0
        for spot in [*spots, None]:
            first, *more = LINE_END.split(self.data[at:spot.offset if spot else len(self.data)])
            line.append((self.between(first), None))
            for text in more:
                yield number, line
                number += 1
                line = [(self.between(text), None)]
            if spot:
                text = self.data[spot.offset:spot.end]
                line.append((shown(text), spot))
                number += len(LINE_END.findall(text))
                at = spot.end
        if any(text for text, _ in line):
            yield number, line

    @staticmethod
    def between(text):
        return shown(text.replace(b"\t", b"    "))

    def line_text(self, number):
        """A line as one text."""
        end = self.starts[number] if number < len(self.starts) else len(self.data)
        return self.between(LINE_END.sub(b"", self.data[self.starts[number - 1]:end])).strip()
