"""The order of a call's arguments: positional, named, `*`, `**`."""

from starlark_source import quoted

RANKS = {"positional": 0, "named": 1, "*": 2, "**": 3}
SPOKEN = {"positional": "a positional argument", "named": "a named argument", "*": "`*`", "**": "`**`"}


class ArgumentOrder:
    """Checks the arguments of one call, one after another."""

    def __init__(self, reader):
        self.reader = reader
        self.last = "positional"
        self.names = set()

    def check(self, kind, begun):
        """Refuse an argument of this kind, which begins at a token, if it may not come here."""
        stars = kind in ("*", "**")
        if RANKS[kind] < RANKS[self.last] or stars and kind == self.last:
            raise self.reader.refused(begun.at, f"{SPOKEN[kind]} after {SPOKEN[self.last]}")
        if kind == "named":
            if begun.text in self.names:
                raise self.reader.refused(begun.at, f"a second argument named {quoted(begun.text)}")
            self.names.add(begun.text)
        self.last = kind
