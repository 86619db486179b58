"""Files that the commands read."""

import sys
from pathlib import Path

STANDARD_INPUT = Path("-")
already_read = []


def content(path):
    """The bytes of a file; `-` is standard input, which can be read once."""
    if path != STANDARD_INPUT:
        return path.read_bytes()
    if already_read:
        raise OSError("`-` a second time: standard input can be read only once")
    already_read.append(path)
    return sys.stdin.buffer.read()
