"""`vaib answer`: number and counts, then the seven answer buffers of document 01, packed and at their full lengths."""

import ctypes
import struct
from typing import NamedTuple

from readings import mirror


class Kind(NamedTuple):
    """A buffer: how many elements, the widths of a record's fields, most significant first, an element's format."""
    length: int
    widths: tuple
    form: str


BUFFERS = {
    "nodes": Kind(2048, (2, 15, 15), "I"),                       # class, slot or global, binding
    "bindings": Kind(2304, (16, 16, 1, 1, 1, 1, 1, 15, 12), "Q"),  # name, source, five marks, slot, zero
    "module": Kind(2304, (16, 1, 15), "I"),                      # name, public, slot
    "scopes": Kind(256, (16, 16), "I"),                          # parameter variables, slots
    "slots": Kind(4096, (16, 16), "I"),                          # scope, name
    "copies": Kind(4096, (8, 12, 12), "I"),                      # scope, parent slot, child slot
    "errors": Kind(2048, (16, 16), "I"),                         # node, code
}
HEAD = ">8I"  # number, bindings, module entries, slots, copies, errors, 0, 0


def element(widths, fields):
    """Fields packed into one number."""
    value = 0
    for width, number in zip(widths, fields, strict=True):
        value = value << width | number
    return value


def buffer(kind, rows):
    """A buffer's bytes: the records from the front, then zeros."""
    elements = [element(kind.widths, row) for row in rows]
    return struct.pack(f">{kind.length}{kind.form}", *elements, *[0] * (kind.length - len(elements)))


def packed(counts, tables):
    return struct.pack(HEAD, *counts) + b"".join(map(buffer, BUFFERS.values(), tables))


def text(data):
    number, r = mirror.resolved(data)
    if number:
        return packed((number,) + (0,) * 7, [[]] * len(BUFFERS))
    rec = r.records
    nodes = [(0, 0, 0)] * len(r.reading.nodes)
    for node, *resolution in rec.names + rec.answers:
        nodes[node] = tuple(resolution)
    module = [(name, public, slot) for name, _, _, public, _, _, local, slot in rec.bindings if not local]
    tables = [nodes, [(*row, 0) for row in rec.bindings], module, rec.scopes, rec.slots, rec.copies, rec.errors]
    counts = [len(rows) for rows in (rec.bindings, module, rec.slots, rec.copies, rec.errors)]
    return packed((0, *counts, 0, 0), tables)


ELEMENT = {"I": ctypes.c_uint32, "Q": ctypes.c_uint64}
COUNTS = 6  # numbers of a struct vaib_answer


def ask(library, data):
    """The same from vaib_resolve, into buffers full of ones."""
    resolve, lent, answer = library.vaib_resolve, [], (ctypes.c_uint64 * COUNTS)()
    for kind in BUFFERS.values():
        lent.append((ELEMENT[kind.form] * kind.length)())
        ctypes.memset(lent[-1], 255, ctypes.sizeof(lent[-1]))
    slice_ = [ctypes.c_void_p, ctypes.c_size_t]
    resolve.argtypes = [ctypes.c_char_p, ctypes.c_size_t, *slice_ * len(lent), ctypes.c_void_p]
    resolve(data, len(data), *(part for one in lent for part in (one, len(one))), answer)
    buffers = (struct.pack(f">{kind.length}{kind.form}", *one) for kind, one in zip(BUFFERS.values(), lent))
    return struct.pack(HEAD, *answer, 0, 0) + b"".join(buffers)


def rows(answer, wanted):
    """The records of one buffer of such an answer, as rows of fields, zeros behind them too."""
    at = struct.calcsize(HEAD)
    for name, kind in BUFFERS.items():
        form = f">{kind.length}{kind.form}"
        if name == wanted:
            zero = (0,) * len(kind.widths)
            return [fields(kind.widths, value) if value else zero for value in struct.unpack_from(form, answer, at)]
        at += struct.calcsize(form)
    raise KeyError(wanted)


def fields(widths, value):
    """The fields of an element."""
    found = []
    for width in reversed(widths):
        found.append(value & (1 << width) - 1)
        value >>= width
    return tuple(reversed(found))
