"""The page's search: a field, and the names to be found, hidden until they are asked for."""

from html import escape

from .cards import link, row_id
from .facts import name_of
from .meaning import GLOBAL, Meaning
from .script import label, shown

FIELD = """<div id="search" role="search" hidden>
<input type="search" placeholder="find a name: /" aria-label="Find a name" aria-controls="found" autocomplete="off"
  spellcheck="false"><span role="status"></span>
</div>"""


def search(cards):
    """The field and its list; the script shows the field, for without it nothing is found."""
    yield FIELD
    yield '<ul id="found" class="roving" aria-label="Names found">'
    for name, target, what, count in sorted(entries(cards), key=lambda entry: entry[0].lower()):
        places = f"{count} place{'s' * (count != 1)}"
        yield f"<li hidden>{link(target, f'<code>{escape(name)}</code>')} {escape(what)}, {places}</li>"
    yield "</ul>"


def entries(cards):
    """Of each variable, global and missing name: its spelling, where it is, its label and how many places it has."""
    resolved = cards.resolved
    for number, binding in enumerate(resolved.bindings):
        own = resolved.own(number)
        target = row_id(own) if binding.source is None else f"n{binding.source}"
        yield name_of(cards.script, number), target, label(own), cards.count(f"b{number}")
    for number, name in enumerate(resolved.file.globals):
        yield shown(resolved.file.names[name]), row_id(Meaning(GLOBAL, number)), f"g{number}", cards.count(f"g{number}")
    for group, marks in cards.wrong():
        yield shown(marks[0].name), f"n{marks[0].node}", label(marks[0].meaning), len(marks)
