"""What the tables say: a row for each module slot and for each slot of each scope."""

from dataclasses import dataclass

from nodefile import COMPR

from .listing import ERRORS
from .meaning import ERROR
from .script import shown

HEADINGS = ("slot", "name", "what", "visible", "bound", "captured", "declared")


@dataclass
class Row:
    slot: str
    binding: int
    what: str
    declared: int | None  # the offset of the declaration, None in the module's list


def module_rows(script):
    resolved = script.resolved
    for number, binding in enumerate(resolved.bindings):
        if not binding.local:
            what = "from the module's list" if binding.source is None else "variable"
            yield Row(f"m{binding.slot}", number, what, declared(script, number))


def scope_rows(script, scope):
    resolved = script.resolved
    for slot, number in sorted(resolved.slots[scope].items()):
        if (scope, slot) in resolved.listing.copies:
            what = "copied from %d.%d" % resolved.chain(scope, slot)[1]
        elif slot < resolved.listing.parameters[scope]:
            what = "parameter"
        else:
            block = resolved.tree.block[resolved.bindings[number].source]
            inside = block is not None and resolved.tree.nodes[block].kind == COMPR
            what = "of a comprehension" if inside else "variable"
        yield Row(f"{scope}.{slot}", number, what, declared(script, number))


def declared(script, number):
    source = script.resolved.bindings[number].source
    return None if source is None else script.resolved.tree.nodes[source].offset


def cells(script, row):
    """A row's texts under HEADINGS."""
    binding = script.resolved.bindings[row.binding]
    return (
        row.slot,
        name_of(script, row.binding),
        row.what + ", never read" * script.resolved.unread(row.binding),
        "public" if binding.public else "private",
        "any" if binding.any else "once",
        "captured" if binding.captured else "",
        "" if row.declared is None else at(script, row.declared),
    )


def name_of(script, number):
    return shown(script.resolved.name(number))


def at(script, offset):
    """A place as `line:column`."""
    return "%d:%d" % script.place(offset)


def scope_title(script, number):
    """A scope in words."""
    if number == 0:
        return "scope 0, the module: only comprehensions have slots here"
    scope = script.resolved.tree.scopes[number]
    kind = "lambda" if scope.name is None else f"def {shown(scope.name)}"
    inside = f", inside scope {scope.parent}" if scope.parent else ""
    return f"scope {number}, {kind} at {at(script, scope.offset)}{inside}"


def errors(script):
    """The marks that are errors, each with what is wrong."""
    return [(mark, ERRORS[mark.meaning.number]) for mark in script.resolved.marks if mark.meaning.kind == ERROR]
