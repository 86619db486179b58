"""`vaib plan` (document 02, P6): each scope's frame.

"For each scope it tells how many slots, how many parameters, which slots arrive by copy and which are
boxed: those of a captured binding, and each copy of them. Boxes and copies are 64-bit masks, slot 0
highest; the number of boxed slots is the number of ones in the mask."
"""

from typing import NamedTuple

from readings import mirror
from words import lines

MOST_SLOTS = 64
FIRST = 1 << 63  # slot 0's bit of a mask
CAPTURED, LOCAL, SLOT = 5, 6, 7  # places in a row of a binding


class Frame(NamedTuple):
    slots: int
    parameters: int
    copied: int
    boxed: int


def mask(slots):
    return sum(FIRST >> slot for slot in slots)


def frames(r):
    """A Frame for each scope; none if any has more slots than a mask has bits."""
    if any(slots > MOST_SLOTS for _, slots in r.records.scopes):
        return None
    captured = [row[CAPTURED] for row in r.records.bindings]
    copied, boxed = ([set() for _ in r.records.scopes] for _ in range(2))
    for scope, _, child in r.records.copies:
        copied[scope].add(child)
    for slot in r.state.slots:  # each with the binding whose value it holds, its own or a copy
        if captured[slot.id]:
            boxed[slot.scope].add(slot.num)
    return [Frame(slots, parameters, mask(copied[scope]), mask(boxed[scope]))
            for scope, (parameters, slots) in enumerate(r.records.scopes)]


def planned(data):
    """The number of a byte string, its frames and its module slot count: one more than the largest slot of an entry."""
    number, r = mirror.resolved(data)
    if number:
        return number, None, 0
    module = 1 + max((row[SLOT] for row in r.records.bindings if not row[LOCAL]), default=-1)
    found = frames(r)
    return (0, found, module) if found else (15, None, 0)


def text(data):
    number, found, module = planned(data)
    if number:
        return mirror.refusal(number)
    return lines([b"answer 0 scopes %d module %d" % (len(found), module),
                  *(b"F %d %d %d %016x %016x %d" % (scope, *frame, frame.boxed.bit_count())
                    for scope, frame in enumerate(found))])
