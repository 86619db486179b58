"""The tokens of Starlark source, one after another, each with the byte where it begins."""

import math
import re
import unicodedata
from dataclasses import dataclass

from starlark_source import quoted

KEYWORDS = frozenset("and break continue def elif else for if in lambda load not or pass return".split())
RESERVED = frozenset("""
    as class del except finally from global import is nonlocal raise try while with yield
""".split())

TOKEN = re.compile(rb"""
    (?P<gap>     [ \t]+ | \\(?:\r\n|\r|\n) | \#[^\r\n]* )
  | (?P<newline> \r\n | \r | \n )
  | (?P<string>  (?:rb?|b|fr?)? (?:'''|\"\"\"|'|\") )
  | (?P<number>  0[xX][0-9a-fA-F]* | 0[oO][0-7]* | 0[bB][01]*
               | (?:[0-9]+\.?[0-9]*|\.[0-9]+) (?:[eE][+-]?[0-9]*)? )
  | (?P<name>    [A-Za-z_\x80-\xff][A-Za-z0-9_\x80-\xff]* )
  | (?P<sign>    \.\.\. | //= | <<= | >>= | [-+*/%&|^=!<>:]= | -> | \*\* | // | << | >>
               | [-+*/%&|^~=<>.,;:()\[\]{}@] )
""", re.VERBOSE)

BLANK_LINES = re.compile(rb"(?:[ \t]*+(?:#[^\r\n]*+)?(?:\r\n|\r|\n))*+")
MARGIN = re.compile(rb"[ \t]*+(?:#[^\r\n]*+\Z)?")
TAB_WIDTH = 8

# What a string goes on with, up to and with its end, by what it began with.
STRING_ENDS = {
    quote: re.compile(rb"(?s)(?:[^\\\r\n%b]++|\\(?:\r\n|.))*+%b" % (quote, quote)) for quote in (b"'", b'"')
} | {
    quote * 3: re.compile(rb"(?s)(?:[^\\%b]++|\\.|%b(?!%b))*+%b" % (quote, quote, quote * 2, quote * 3))
    for quote in (b"'", b'"')
}
BACKSLASH = re.compile(rb"(?s)\\(?:\r\n|.)")
ESCAPE = re.compile(rb"\\(?:[abfnrtv\\'\"\r\n]|([0-7]{1,3})|x[0-9a-fA-F]{2}|u([0-9a-fA-F]{4})|U([0-9a-fA-F]{8}))")
STRING = re.compile(rb"(?s)([a-z]*)('''|\"\"\"|'|\")(.*)\2")

INTEGER = re.compile(rb"0[xX][0-9a-fA-F]+|0[oO][0-7]+|0[bB][01]+|0+|[1-9][0-9]*")
FLOAT = re.compile(rb"(?:[0-9]+\.[0-9]*|\.[0-9]+)(?:[eE][+-]?[0-9]+)?|[0-9]+[eE][+-]?[0-9]+")

IDENTIFIER = re.compile(r"[^\W\d]\w*")
CLOSING = {"(": ")", "[": "]", "{": "}"}


@dataclass(frozen=True, slots=True)
class Token:
    """`kind` is name, number, string, reserved, newline, indent, dedent or end; or a keyword or a sign itself."""

    kind: str
    at: int
    text: bytes = b""

    def __str__(self):
        """The token as a refusal speaks of it."""
        match self.kind:
            case "newline":
                return "the end of the line"
            case "end":
                return "the end of the file"
            case "indent":
                return "an indented line"
            case "dedent":
                return "the end of the block"
            case "string":
                return "a string"
            case "name" | "number":
                return f"the {self.kind} {quoted(self.text)}"
            case _:
                return quoted(self.text)


def why_no_name(spelling):
    """Why a text cannot be a name of Starlark; None if it can."""
    if spelling in KEYWORDS | RESERVED:
        return f"`{spelling}` is a keyword of Starlark" if spelling in KEYWORDS else reserved(spelling)
    if not IDENTIFIER.fullmatch(spelling) or not all(map(belongs_to_name, spelling)):
        return f"{quoted(spelling)} is no name"
    return None


def reserved(word):
    return f"`{word}` is a reserved word, neither a name nor a statement of Starlark"


def belongs_to_name(character):
    return character.isascii() or unicodedata.category(character).startswith("L")


class Scanner:
    """Reads tokens from source; one line of them may be several lines of text."""

    def __init__(self, source):
        self.source, self.data = source, source.data
        self.at = 0             # where the next token is looked for
        self.last = 0           # where the last one ended
        self.open = []          # the brackets that are open
        self.margins = [0]      # the widths of the blocks' indentations

    def refused(self, at, why):
        return self.source.refused(at, why)

    def tokens(self):
        while self.at < len(self.data):
            yield from self.indentation()
            if self.at < len(self.data):
                yield from self.line()
        yield from (Token("dedent", self.last) for _ in self.margins[1:])
        yield Token("end", self.last)

    def indentation(self):
        """Skips blank lines, then says which blocks begin or end at the next one."""
        self.at = BLANK_LINES.match(self.data, self.at).end()
        margin = MARGIN.match(self.data, self.at)
        self.at = margin.end()
        if self.at == len(self.data):
            return
        width = len(margin[0].expandtabs(TAB_WIDTH))
        if width > self.margins[-1]:
            self.margins.append(width)
            yield Token("indent", self.at)
        while width < self.margins[-1]:
            self.margins.pop()
            if width > self.margins[-1]:
                raise self.refused(self.at, "the indentation is that of no line above")
            yield Token("dedent", self.at)

    def line(self):
        """The tokens of a line, the newline included; within brackets a line goes on."""
        while self.at < len(self.data):
            found = TOKEN.match(self.data, self.at)
            if not found:
                raise self.refused(self.at, self.why_unreadable())
            self.at = found.end()
            if found.lastgroup == "newline" and not self.open:
                yield Token("newline", found.start())
                return
            if found.lastgroup not in ("gap", "newline"):
                yield getattr(self, found.lastgroup)(found[0], found.start())
                self.last = self.at
        if self.open:
            opened = self.open[-1]
            raise self.refused(opened.at, f"`{opened.kind}` is never closed")
        yield Token("newline", self.last)

    def why_unreadable(self):
        character = self.data[self.at:self.at + 1]
        if character == b"\\":
            return "a backslash goes on to the next line only at the end of its own"
        return f"{shown(character.decode())} is not Starlark"

    # What TOKEN's groups become

    def name(self, text, at):
        word = text.decode()
        for number, character in enumerate(word):
            if not belongs_to_name(character):
                raise self.refused(at + len(word[:number].encode()), f"{shown(character)} is not Starlark")
        if word in RESERVED:
            return Token("reserved", at, text)
        return Token(word if word in KEYWORDS else "name", at, text)

    def sign(self, text, at):
        token = Token(text.decode(), at, text)
        if token.kind in CLOSING:
            self.open.append(token)
        elif token.kind in CLOSING.values():
            self.close(token)
        return token

    def close(self, token):
        if not self.open:
            raise self.refused(token.at, f"`{token.kind}` closes nothing")
        opened = self.open.pop()
        if token.kind != CLOSING[opened.kind]:
            raise self.refused(token.at, f"`{token.kind}` does not close {self.spoken(opened)}")

    def spoken(self, opened):
        line, column = self.source.place(opened.at)
        return f"the `{opened.kind}` at {line}:{column}"

    def number(self, text, at):
        if self.data[self.at:self.at + 1] == b"_":
            raise self.refused(at, "`_` within a number is not Starlark")
        if self.data[self.at:self.at + 1] in (b"j", b"J"):
            raise self.refused(at, "an imaginary number is not Starlark")
        if re.fullmatch(rb"0[0-9]+", text) and not INTEGER.fullmatch(text):
            raise self.refused(at, f"{quoted(text)} begins with 0: decimal has no such 0, octal begins with 0o")
        if FLOAT.fullmatch(text):
            if math.isinf(float(text)):
                raise self.refused(at, "a floating-point number that is too large")
        elif not INTEGER.fullmatch(text):
            raise self.refused(at, f"{quoted(text)} is no number")
        return Token("number", at, text)

    def string(self, beginning, at):
        quote = beginning.lstrip(b"rbf")
        found = STRING_ENDS[quote].match(self.data, self.at)
        if not found:
            raise self.refused(at, "a string that is never closed" if len(quote) == 3
                               else "a string that is not closed on its line")
        if b"r" not in beginning:
            for backslash in BACKSLASH.finditer(self.data, self.at, found.end() - len(quote)):
                self.check_escape(backslash.start())
        self.at = found.end()
        return Token("string", at, self.data[at:self.at])

    def check_escape(self, at):
        escape = ESCAPE.match(self.data, at)
        if not escape:
            written = self.data[at:at + 5].decode(errors="ignore")[:2]
            raise self.refused(at, f"{quoted(written)} is no whole escape of Starlark; a backslash itself is `\\\\`")
        octal, *hexadecimal = escape.groups()
        point = next((int(digits, 16) for digits in hexadecimal if digits), 0)
        if int(octal or b"0", 8) > 0xff or 0xd800 <= point <= 0xdfff or point > 0x10ffff:
            raise self.refused(at, f"{quoted(escape[0])} is no character")


def shown(character):
    """A character that has no place outside strings and comments."""
    return quoted(character) if character.isprintable() else f"the character U+{ord(character):04X}"
