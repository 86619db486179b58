#!/usr/bin/env python3
"""A second judge of node files, written from docs/01-scope.md alone.

It shares no code with the judge that it is compared with, nor with tools/nodefile.py:
the fields are read here once more. Each number of the table "Numbers given back" is one
function below whose text follows the table clause by clause. A function is asked only
when no smaller number holds, so each may rely on what the smaller ones have ruled out.
"""

import argparse
import re
import struct
import sys
from pathlib import Path

sys.path.insert(0, str(Path(__file__).resolve().parents[1]))

from files import stream  # noqa: E402

DEF, NAME, IDENT, LAMBDA, PARAM = 6, 8, 11, 12, 17

# The table of kinds. A kind's letter is its number counted from A, and what stands under a
# node is the word that its children's letters spell.
LETTERS = "ABCDEFGHIJKLMNOPQRS"
STATEMENT, TARGET, EXPRESSION = "[A-H]", "[I-K]", "[L-O]"
A_NAME, FOR_CLAUSE, IF_CLAUSE, A_PARAM, TYPE = "I", "P", "Q", "R", "S"
CHILDREN = [re.compile(pattern) for pattern in (
    f"{STATEMENT}*",                                              # 0 Block
    f"{EXPRESSION}?",                                             # 1 Plain
    f"{TARGET}{TYPE}?{EXPRESSION}",                               # 2 Assign
    f"{TARGET}{EXPRESSION}",                                      # 3 Modify
    f"{EXPRESSION}{STATEMENT}{STATEMENT}?",                       # 4 If
    f"{TARGET}{EXPRESSION}{STATEMENT}",                           # 5 For
    f"{A_NAME}{A_PARAM}*{TYPE}?{STATEMENT}",                      # 6 Def
    f"{A_NAME}*",                                                 # 7 Load
    "",                                                           # 8 Name
    f"{TARGET}*",                                                 # 9 Tuple
    f"{EXPRESSION}{EXPRESSION}?",                                 # 10 Place
    "",                                                           # 11 Ident
    f"{A_PARAM}*{EXPRESSION}",                                    # 12 Lambda
    f"{FOR_CLAUSE}({FOR_CLAUSE}|{IF_CLAUSE})*{EXPRESSION}{EXPRESSION}?",  # 13 Compr
    f"{EXPRESSION}*",                                             # 14 Other
    f"{TARGET}{EXPRESSION}",                                      # 15 ForClause
    EXPRESSION,                                                   # 16 IfClause
    f"({A_NAME}{TYPE}?{EXPRESSION}?)?",                           # 17 Param
    EXPRESSION,                                                   # 18 Type
)]


class Reading:
    """The fields of a byte string: the header, then the lists, then the tree, each when asked for."""

    def __init__(self, data):
        self.data = data

    def read_header(self):
        """Version 4 bits, reexport 1, zero 3, nodes 16, names 16, entries 16, globals 16, pool 24."""
        first, self.node_count, self.name_count, self.entry_count, self.global_count, high, low = \
            struct.unpack_from(">BHHHHBH", self.data)
        self.version, self.reexport, self.zero = first >> 4, first >> 3 & 1, first & 7
        self.pool_bytes = high << 16 | low
        self.names_at = 12 + 8 * self.node_count
        self.entries_at = self.names_at + 3 * self.name_count
        self.globals_at = self.entries_at + 4 * self.entry_count
        self.pool_at = self.globals_at + 2 * self.global_count
        self.length = self.pool_at + self.pool_bytes

    def read_lists(self):
        """Nodes as (kind and zero, size, value), names (offset, length), entries (name, public and slot)."""
        data = self.data
        self.nodes = list(struct.iter_unpack(">BHH3x", data[12:self.names_at]))
        self.names = list(struct.iter_unpack(">HB", data[self.names_at:self.entries_at]))
        self.entries = list(struct.iter_unpack(">HH", data[self.entries_at:self.globals_at]))
        self.globals = [name for name, in struct.iter_unpack(">H", data[self.globals_at:self.pool_at])]

    def read_tree(self):
        """Each node's kind, children and depth; False if a node is empty or runs past its parent's end."""
        count = len(self.nodes)
        self.kinds = [first >> 3 for first, _, _ in self.nodes]
        self.children = [[] for _ in range(count)]
        self.depths = []
        around, ends = [], [count]  # the nodes that hold this one, and where each ends
        for node, (_, size, _) in enumerate(self.nodes):
            while around and ends[-1] == node:
                around.pop()
                ends.pop()
            if size == 0 or node + size > ends[-1]:
                return False
            if around:
                self.children[around[-1]].append(node)
            around.append(node)
            ends.append(node + size)
            self.depths.append(len(around))
        return True


def number_2(f):
    """Fewer than 12 bytes, version not 1, or zero bits set in the header."""
    if len(f.data) < 12:
        return True
    f.read_header()
    return f.version != 1 or f.zero != 0


def number_3(f):
    """Nodes 0 or above 2,048; names above 1,024; module entries above 256; globals above 256; pool above 16,384."""
    return (f.node_count == 0 or f.node_count > 2048 or f.name_count > 1024
            or f.entry_count > 256 or f.global_count > 256 or f.pool_bytes > 16384)


def number_4(f):
    """Length is not exactly what the header says."""
    return len(f.data) != f.length


def number_5(f):
    """A name of length 0, past the pool, or spelled as an earlier one."""
    f.read_lists()
    spelled = set()
    for offset, length in f.names:
        if length == 0 or offset + length > f.pool_bytes:
            return True
        spelled.add(f.data[f.pool_at + offset:f.pool_at + offset + length])
    return len(spelled) < len(f.names)


def number_6(f):
    """A module entry or global with no such name, or a name twice in one list."""
    def faulty(numbers):
        return any(name >= f.name_count for name in numbers) or len(set(numbers)) < len(numbers)
    return faulty([name for name, _ in f.entries]) or faulty(f.globals)


def number_7(f):
    """Kind above 18, zero bits set, size 0, a node running past its parent's end, root size wrong,
    no such name, or a value where none belongs."""
    for first, _, value in f.nodes:
        kind, zero = first >> 3, first & 7
        if kind > 18 or zero != 0:
            return True
        if kind in (NAME, IDENT):
            if value >= f.name_count:
                return True
        elif kind not in (DEF, LAMBDA) and value != 0:
            return True
    root_size = f.nodes[0][1]
    return root_size != f.node_count or not f.read_tree()


def number_8(f):
    """The root no statement, or children other than the table allows."""
    def word(nodes):
        return "".join([LETTERS[f.kinds[node]] for node in nodes])
    return (not re.fullmatch(STATEMENT, word([0]))
            or any(not CHILDREN[kind].fullmatch(word(children)) for kind, children in zip(f.kinds, f.children)))


def number_9(f):
    """Depth 65 or more."""
    return max(f.depths) >= 65


def number_10(f):
    """Scope numbers are not 1..S each once, or S above 255."""
    scopes = [value for kind, (_, _, value) in zip(f.kinds, f.nodes) if kind in (DEF, LAMBDA)]
    return sorted(scopes) != list(range(1, len(scopes) + 1)) or len(scopes) > 255


def number_11(f):
    """Two Params of one Def or Lambda with one name."""
    for kind, children in zip(f.kinds, f.children):
        if kind in (DEF, LAMBDA):
            params = [f.children[child] for child in children if f.kinds[child] == PARAM]
            names = [f.nodes[inside[0]][2] for inside in params if inside]
            if len(set(names)) < len(names):
                return True
    return False


CONDITIONS = ((2, number_2), (3, number_3), (4, number_4), (5, number_5), (6, number_6),
              (7, number_7), (8, number_8), (9, number_9), (10, number_10), (11, number_11))


def judged(data):
    """The judgement of a byte string and the reading it rests on."""
    reading = Reading(data)
    return next((number for number, holds in CONDITIONS if holds(reading)), 0), reading


def judge(data):
    """0 for an accepted file, else the smallest number from 2 to 11 whose condition holds."""
    return judged(data)[0]


def spelling(data, name):
    """Where name number `name` is spelled: (offset in the file, length); None if refused or no such name."""
    number, f = judged(data)
    if number != 0 or not 0 <= name < f.name_count:
        return None
    offset, length = f.names[name]
    return f.pool_at + offset, length


def main():
    parser = argparse.ArgumentParser(description="Judge a node file from standard input: prints 0 or the number "
                                     "from 2 to 11.")
    parser.add_argument("--batch", action="store_true",
                        help="standard input is a stream of files, each preceded by its length (4 bytes, "
                        "most significant first); one line for each")
    if parser.parse_args().batch:
        for data in stream.read(sys.stdin.buffer):
            print(judge(data))
    else:
        print(judge(sys.stdin.buffer.read()))


if __name__ == "__main__":
    main()
