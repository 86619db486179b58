"""A node file with every field on its own, so that tests can set each to anything.

Unlike tools/nodefile.py nothing is computed: sizes, pool offsets and, once `said` holds one,
the header's counts are whatever they were set to.
"""

import struct

COUNTS = ("nodes", "names", "entries", "globals", "pool")


class Raw:
    """`nodes` [kind, zero, size, value, offset], `names` [offset, length], `entries` [name, public, slot],
    `globals` [name], `pool` bytes, `tail` bytes after the pool, `said` counts that differ from the lists."""

    def __init__(self, data):
        first, nodes, names, entries, globals_, _, _ = struct.unpack_from(">BHHHHBH", data)
        self.version, self.reexport, self.zero = first >> 4, first >> 3 & 1, first & 7
        self.said = {}
        ends = [12]
        for count, width in ((nodes, 8), (names, 3), (entries, 4), (globals_, 2)):
            ends.append(ends[-1] + count * width)
        parts = [data[low:high] for low, high in zip(ends, ends[1:])]
        self.nodes = [[first >> 3, first & 7, size, value, high << 16 | low]
                      for first, size, value, high, low in struct.iter_unpack(">BHHBH", parts[0])]
        self.names = [list(name) for name in struct.iter_unpack(">HB", parts[1])]
        self.entries = [[name, rest >> 15, rest & 0x7fff] for name, rest in struct.iter_unpack(">HH", parts[2])]
        self.globals = [list(name) for name in struct.iter_unpack(">H", parts[3])]
        self.pool = data[ends[4]:]
        self.tail = b""

    def count(self, what):
        """What the header says of a list."""
        return self.said.get(what, len(getattr(self, what)))

    def bytes(self):
        nodes, names, entries, globals_, pool = map(self.count, COUNTS)
        parts = [struct.pack(">BHHHHBH", self.version << 4 | self.reexport << 3 | self.zero,
                             nodes, names, entries, globals_, pool >> 16, pool & 0xffff)]
        parts += [struct.pack(">BHHBH", kind << 3 | zero, size, value, offset >> 16, offset & 0xffff)
                  for kind, zero, size, value, offset in self.nodes]
        parts += [struct.pack(">HB", *name) for name in self.names]
        parts += [struct.pack(">HH", name, public << 15 | slot) for name, public, slot in self.entries]
        parts += [struct.pack(">H", *name) for name in self.globals]
        return b"".join(parts) + self.pool + self.tail

    def end(self, node):
        """Where a node ends, by its size."""
        return node + self.nodes[node][2]

    def parent_end(self, node):
        """Where the parent of a node ends; the root's is the last node's."""
        return min((self.end(i) for i in range(node) if self.end(i) > node), default=len(self.nodes))
