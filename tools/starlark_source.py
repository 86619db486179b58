"""Source text, places in it, and what is said when it is refused."""

import bisect

LONGEST_QUOTED = 60


class Refused(Exception):
    """Text that is refused: at a line and a column, both from 1, and why."""

    def __init__(self, line, column, why, path=None):
        super().__init__(line, column, why)
        self.line, self.column, self.why, self.path = line, column, why, path

    def __str__(self):
        return f"{self.path}:" * bool(self.path) + f"{self.line}:{self.column}: {self.why}"


def quoted(text):
    """A piece of source as a refusal shows it: in one line, and short."""
    if isinstance(text, bytes):
        text = text.decode()
    if len(text) > LONGEST_QUOTED:
        text = text[:LONGEST_QUOTED] + ".."
    return "`" + "".join(each if each.isprintable() else f"\\u{ord(each):04x}" for each in text) + "`"


class Source:
    """Source text, and places in it as byte offsets."""

    def __init__(self, data):
        self.data = data
        self.starts = [0]
        for line in data.splitlines(keepends=True):
            self.starts.append(self.starts[-1] + len(line))
        try:
            data.decode()
        except UnicodeDecodeError as error:
            raise self.refused(error.start, "not UTF-8") from None

    def place(self, offset):
        """The line and the column of a byte, both from 1; columns count characters."""
        line = bisect.bisect_right(self.starts, offset, hi=len(self.starts) - 1) or 1
        before = self.data[self.starts[line - 1]:offset]
        return line, len(before.decode(errors="replace")) + 1

    def refused(self, offset, why):
        return Refused(*self.place(offset), why)
