"""What each name of a script means: a node file's names with the answers of its listing."""

from collections import Counter
from dataclasses import dataclass

from nodefile import IDENT, NAME, NAMED

from .listing import Unfit
from .tree import Tree

MODULE, LOCAL, GLOBAL, ERROR = "module", "local", "global", "error"


@dataclass(frozen=True)
class Meaning:
    """What a name means: `number` is a module slot, a global or an error's code.

    A local has its `chain`: scope and slot where it is read, then where each copy came from;
    the last is the variable's own slot.
    """

    kind: str
    number: int = 0
    binding: int | None = None
    chain: tuple = ()

    @property
    def copied(self):
        return len(self.chain) > 1


@dataclass(frozen=True)
class Mark:
    """A name in the text; `sets` if it stands where a value is bound."""

    node: int
    name: bytes
    offset: int
    sets: bool
    meaning: Meaning

    @property
    def end(self):
        return self.offset + len(self.name)


class Resolved:
    """The marks of a script in the order of its text, with its bindings and scopes."""

    def __init__(self, file, listing):
        self.file, self.bindings, self.listing, self.tree = file, listing.bindings, listing, Tree(file)
        self.bound = {self.variable(number): number for number in range(len(self.bindings))}
        if len(self.bound) != len(self.bindings) or len(listing.parameters) != len(self.tree.scopes):
            raise Unfit("the listing is of another node file")
        self.slots = self.filled_slots()
        self.marks = sorted(self.all_marks(), key=lambda mark: mark.offset)
        self.check_reads()

    def check_reads(self):
        """Where the listing counts readers, they must be those that are marked."""
        read = Counter(mark.meaning.binding for mark in self.marks if not mark.sets)
        for number, binding in enumerate(self.bindings):
            if binding.reads not in (None, read[number]):
                raise Unfit(f"binding {number} is not read {binding.reads} times")

    def name(self, number):
        """How a binding is spelled."""
        return self.file.names[self.variable(number)[1]]

    def unread(self, number):
        """Whether a binding is said to be never read."""
        return self.bindings[number].unread(self.name(number))

    def variable(self, number):
        """The block and the name of a binding."""
        source = self.bindings[number].source
        if source is None and number < len(self.file.entries):
            return None, self.file.entries[number][0]
        if source is None or source >= len(self.tree.nodes) or self.tree.nodes[source].kind != NAME:
            raise Unfit(f"nothing declares binding {number}")
        return self.tree.block[source], self.tree.nodes[source].value

    def filled_slots(self):
        """For each scope the binding in each of its slots: its own, or the one copied there."""
        filled = {scope: {} for scope in self.tree.scopes}
        for number, binding in enumerate(self.bindings):
            if binding.local:
                filled[self.tree.scope[binding.source]][binding.slot] = number
        for (scope, child), parent in self.listing.copies.items():
            around = self.tree.scopes[scope].parent if scope in filled else None
            if around is None or parent not in filled[around]:
                raise Unfit(f"nothing to copy from into slot {child} of scope {scope}")
            filled[scope][child] = filled[around][parent]
        return filled

    def all_marks(self):
        for number, node in enumerate(self.tree.nodes):
            if node.kind in NAMED:
                meaning = self.read_here(number, node) if node.kind == IDENT else self.set_here(number, node)
                if meaning is None:
                    raise Unfit(f"the listing does not say what node {number} means")
                yield Mark(number, self.file.names[node.value], node.offset, node.kind == NAME, meaning)

    def set_here(self, number, node):
        """The meaning of a Name: the variable of its block."""
        binding = self.bound.get((self.tree.block[number], node.value))
        return None if binding is None else self.own(binding)

    def read_here(self, number, node):
        """The meaning of an Ident."""
        if number in self.listing.errors:
            return Meaning(ERROR, self.listing.errors[number])
        kind, slot, binding = self.listing.answers.get(number, (None, 0, None))
        if kind == "G":
            found = slot < len(self.file.globals) and self.file.globals[slot] == node.value
            return Meaning(GLOBAL, slot) if found else None
        if binding is None or binding >= len(self.bindings):
            return None
        own = self.own(binding)
        if kind == "M":
            return own if own == Meaning(MODULE, slot, binding) else None
        chain = self.chain(self.tree.scope[number], slot)
        return Meaning(LOCAL, 0, binding, chain) if chain[-1:] == own.chain else None

    def own(self, number):
        """The meaning of a binding where it is declared."""
        binding = self.bindings[number]
        if not binding.local:
            return Meaning(MODULE, binding.slot, number)
        return Meaning(LOCAL, 0, number, ((self.tree.scope[binding.source], binding.slot),))

    def chain(self, scope, slot):
        """From a slot outward, copy by copy, to the variable's own."""
        steps = [(scope, slot)]
        while steps[-1] in self.listing.copies:
            steps.append((self.tree.scopes[steps[-1][0]].parent, self.listing.copies[steps[-1]]))
        return tuple(steps)
