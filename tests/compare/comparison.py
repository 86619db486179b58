"""Two answers to the same files: which differ, and the smallest file that shows it."""

import difflib
import subprocess
from dataclasses import dataclass
from itertools import islice
from pathlib import Path

from compare.expected import agrees
from compare.shrink import shrink
from readings.second_judge import judge

AT_ONCE = 1000                  # files handed over in one run
ROW = 16                        # bytes shown in a line
WITH_TREE = (0, 8, 9, 10, 11)   # judgements of files whose nodes are a tree
NODES2TEXT = Path(__file__).resolve().parents[2] / "tools/nodes2text"


@dataclass
class Difference:
    """A file, what was answered and what was expected."""
    data: bytes
    answer: bytes
    expected: bytes


class Comparison:
    """A program under test (programs.py), what is expected of it (expected.py), and what was found so far."""

    def __init__(self, program, expected):
        self.program, self.expected = program, expected
        self.compared = self.differ = 0
        self.smallest = None

    def differences(self, files):
        """The differences among these files."""
        for data, answer, expected in zip(files, self.program.answers(files), self.expected.texts(files), strict=True):
            if not agrees(answer, expected):
                yield Difference(data, answer, expected)

    def run(self, files):
        """Compare all files, counting."""
        files = iter(files)
        while some := list(islice(files, AT_ONCE)):
            self.compared += len(some)
            for difference in self.differences(some):
                self.differ += 1
                if self.smallest is None or len(difference.data) < len(self.smallest.data):
                    self.smallest = difference

    def shrunk(self):
        """The smallest difference made smaller; the file keeps its judgement."""
        number = judge(self.smallest.data)
        if number not in WITH_TREE:
            return self.smallest

        def differ(files):
            found = {d.data for d in self.differences(files) if judge(d.data) == number}
            return [data in found for data in files]
        return next(self.differences([shrink(self.smallest.data, differ)]))

    def report(self, save):
        """Print the smallest difference and the counts, save its file; the status to end with."""
        if self.smallest:
            found = self.shrunk()
            Path(save).write_bytes(found.data)
            print(*drawn(found.data), "", *beside(found.answer, found.expected), sep="\n")
            print(f"saved as {save}")
        print(f"{self.compared} files compared, {self.differ} differ")
        return int(self.differ > 0)


def drawn(data):
    """A file for reading: its judgement, then its lists and its tree, or its bytes if it has no tree."""
    number = judge(data)
    yield f"judged {number}"
    if number in WITH_TREE:
        done = subprocess.run([NODES2TEXT, "/dev/stdin"], input=data, stdout=subprocess.PIPE, check=True)
        yield done.stdout.decode(errors="backslashreplace").rstrip("\n")
    else:
        yield f"{len(data)} bytes: {data[:400].hex(' ')}"


def shown(text):
    """The lines of a text; of packed numbers, which begin with a zero byte or soon have one, the rows that are not all
    zero."""
    if b"\0" not in text[:4]:
        return text.decode(errors="backslashreplace").splitlines()
    rows = ((at, text[at:at + ROW]) for at in range(0, len(text), ROW))
    return [f"{at:6}: {row.hex(' ', -4)}" for at, row in rows if any(row)]


def beside(answer, expected):
    """Two texts beside each other; lines that differ are marked."""
    left, right = map(shown, (answer, expected))
    width = max(map(len, left + ["the program"]))
    yield f"  {'the program':{width}}   expected"
    for what, a, b, c, d in difflib.SequenceMatcher(None, left, right, autojunk=False).get_opcodes():
        mark = " " if what == "equal" else "!"
        for i in range(max(b - a, d - c)):
            one = left[a + i] if a + i < b else ""
            two = right[c + i] if c + i < d else ""
            yield f"{mark} {one:{width}} | {two}"
