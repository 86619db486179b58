"""A listing of docs/01-scope.md read back. Names are skipped: the node file has them, with any byte."""

import re
from dataclasses import dataclass, field

# What a refusal's number says of the node file.
REFUSALS = {
    1: "an answer buffer is too short",
    2: "no header of version 1",
    3: "no nodes, or more nodes, names, module entries, globals or pool bytes than a file may hold",
    4: "its length is not what the header says",
    5: "a name is empty, past the pool, or spelled as an earlier one",
    6: "a module entry or global has no name, or a name stands twice in one list",
    7: "a node's fields are damaged",
    8: "a node has children that its kind does not allow",
    9: "nodes are nested more than 64 levels deep",
    10: "scope numbers are not 1 to S each once, or there are more than 255",
    11: "two parameters of one function have one name",
    12: "all scopes together would need more than 4,096 slots",
}

ERRORS = {1: "not found", 2: "local in a type"}

# The groups of lines in their order, each with the shape of a line.
SHAPES = {
    "B": re.compile(rb"B (\d+) .+ ([ML]) (\d+) (public|private) (once|any) (captured|free) (\d+|-)(?: (\d+))?"),
    "M": re.compile(rb"M (\d+) .+ (public|private)"),
    "S": re.compile(rb"S (\d+) (\d+):(.*)"),
    "C": re.compile(rb"C (\d+) (\d+) (\d+)"),
    "I": re.compile(rb"I (\d+) ([MLG]) (\d+) (\d+|-)"),
    "E": re.compile(rb"E (\d+) ([12]) .+"),
}
HEAD = re.compile(rb"answer 0 bindings (\d+) module (\d+) slots (\d+) copies (\d+) errors (\d+)")
REFUSAL = re.compile(rb"answer (\d+)")


class Unfit(Exception):
    """A listing, a node file and a script that do not belong together, or are none."""


class NotResolved(Exception):
    """The listing is a refusal."""

    def __init__(self, number):
        super().__init__(f"answer {number}: {REFUSALS.get(number, 'a number without a meaning here')}")


@dataclass
class Binding:
    """A variable; `source` is the Name node that declares it, None if it comes from the module's list.

    `reads` says how often it is read, where the listing says so.
    """

    local: bool
    slot: int
    public: bool
    any: bool
    captured: bool
    source: int | None
    reads: int | None = None

    def unread(self, name):
        """Whether it is never read, here or elsewhere; a local whose name begins with `_` need not be."""
        wanted = not name.startswith(b"_") if self.local else not self.public
        return self.reads == 0 and self.source is not None and wanted


@dataclass
class Listing:
    bindings: list = field(default_factory=list)
    parameters: list = field(default_factory=list)   # for each scope, how many parameter variables
    copies: dict = field(default_factory=dict)       # from scope and child slot to parent slot
    answers: dict = field(default_factory=dict)      # from an Ident's node to M, L or G, slot or global, binding
    errors: dict = field(default_factory=dict)       # from an Ident's node to 1 or 2


def read_listing(data):
    """The Listing in the bytes that a listing command prints."""
    head, *lines = data.split(b"\n")[:-1] or [b""]
    if refusal := REFUSAL.fullmatch(head):
        raise NotResolved(int(refusal[1]))
    counts = HEAD.fullmatch(head)
    if not counts:
        raise Unfit("the listing does not begin with `answer`")
    groups = grouped(lines)
    found = [len(groups[letter]) for letter in "BMCE"]
    if found != [int(counts[number]) for number in (1, 2, 4, 5)]:
        raise Unfit("the listing's lines are not as many as its first line says")
    return Listing(
        bindings=[Binding(kind == b"L", int(slot), public == b"public", count == b"any", captured == b"captured",
                          None if source == b"-" else int(source), None if reads is None else int(reads))
                  for _, kind, slot, public, count, captured, source, reads in groups["B"]],
        parameters=[int(count) for _, count, _ in groups["S"]],
        copies={(int(scope), int(child)): int(parent) for scope, parent, child in groups["C"]},
        answers={int(node): (kind.decode(), int(slot), None if binding == b"-" else int(binding))
                 for node, kind, slot, binding in groups["I"]},
        errors={int(node): int(code) for node, code in groups["E"]},
    )


def grouped(lines):
    """The fields of each line, by the line's letter; the groups must stand in order."""
    groups = {letter: [] for letter in SHAPES}
    left = list(SHAPES)
    for line in lines:
        while left and not (fields := SHAPES[left[0]].fullmatch(line)):
            left.pop(0)
        if not left:
            raise Unfit(f"a line of the listing cannot be read: {line.decode(errors='backslashreplace')}")
        groups[left[0]].append(fields.groups())
    return groups
