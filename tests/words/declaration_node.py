"""`vaib declaration NODE`: the one line of `vaib declaration` for a node, for a file that judging accepts."""

import zlib

from words import declaration

WORD = "declaration"
PAST = 3  # numbers past the nodes that are asked for, too


def asked(data):
    """A node number that differs from file to file."""
    nodes = int.from_bytes(data[1:3], "big")
    return zlib.crc32(data) % (nodes + PAST)


def further(data):
    return [str(asked(data))]


def text(data):
    first, *lines = declaration.text(data).splitlines(keepends=True)
    node = asked(data)
    return lines[node] if node < len(lines) else b"D %d not an Ident\n" % node if lines else first
