"""What the page says first: how many names of each kind, the marks' meanings, the errors."""

from html import escape

from .cards import link, some
from .facts import at, declared, name_of
from .listing import ERRORS
from .meaning import ERROR, GLOBAL, LOCAL, MODULE
from .script import shown

NEVER_READ = "∅"
LEGEND = (
    ("module", "m0", "module slot 0"),
    ("local", "2.5", "scope 2, slot 5"),
    ("local copied", "3.1←2.5", "scope 3, slot 1, copied from scope 2, slot 5"),
    ("global", "g0", "global 0"),
    ("error", "!", "error"),
    ("sets", "bold", "a value is bound here"),
)


def overview(script):
    """The lines under the title."""
    never = [number for number in range(len(script.resolved.bindings)) if script.resolved.unread(number)]
    yield summary(script)
    if never:
        yield unread_line(script, never)
    yield legend([*LEGEND, ("unread", NEVER_READ, "never read")] if never else LEGEND)


def summary(script):
    kinds = [mark.meaning.kind for mark in script.resolved.marks]
    copied = sum(mark.meaning.copied for mark in script.resolved.marks)
    count = kinds.count(ERROR)
    wrong = f'<strong class="wrong">{count} error{"s" * (count > 1)}</strong>' if count else "no errors"
    return (f"<p>{len(kinds)} names: {kinds.count(MODULE)} of the module, {kinds.count(LOCAL)} local "
            f"({copied} read from a copy), {kinds.count(GLOBAL)} global, {wrong}.</p>")


def unread_line(script, numbers):
    """The variables that are never read, each with its place."""
    links = (f"<code>{escape(name_of(script, number))}</code> "
             + link(f"n{script.resolved.bindings[number].source}", at(script, declared(script, number)))
             for number in numbers)
    return f'<p id="unread" class="roving"><strong>{len(numbers)} never read</strong>: {some(links)}.</p>'


def legend(entries):
    items = (f'<li><span class="name {kind}">{escape(text)}</span> {escape(what)}</li>' for kind, text, what in entries)
    return f'<ul id="legend">{"".join(items)}</ul>'


def error_list(cards):
    """The errors, an entry for each name."""
    found = cards.wrong()
    if found:
        yield '<section class="wrong"><h2>Errors</h2><ul class="roving">'
        for group, marks in found:
            yield (f'<li id="row-{group}" tabindex="-1"><code>{escape(shown(marks[0].name))}</code>: '
                   f"{ERRORS[marks[0].meaning.number]} at {cards.place_links(marks)}</li>")
        yield "</ul></section>"
