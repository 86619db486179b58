"""The picture as one HTML page that loads nothing: the script, a card for each meaning, the tables."""

import math
from dataclasses import dataclass
from html import escape
from pathlib import Path

from .cards import Cards, link, row_id
from .facts import HEADINGS, cells, module_rows, scope_rows, scope_title
from .meaning import GLOBAL, LOCAL, Mark, Meaning
from .overview import NEVER_READ, error_list, overview
from .script import label, shown, width
from .search import search

HERE = Path(__file__).parent
HEAD = """<!doctype html>
<html lang="en">
<meta charset="utf-8">
<meta http-equiv="Content-Security-Policy"
  content="default-src 'none'; style-src 'unsafe-inline'; script-src 'unsafe-inline'">
<meta name="viewport" content="width=device-width, initial-scale=1">"""
CARD_TOP = """<p id="pinned" hidden>Pinned <button type="button">Unpin (Esc)</button></p>
<div id="cards"><p id="hint">Point at a name, or move to one with the Tab key and the arrow keys: this shows what it
means, where it is declared and who else reads it. A click or Enter pins the card, a second one goes to the declaration,
Escape clears. <kbd>/</kbd> finds a name.</p>"""
LABEL_SIZE = 0.78  # of a label's letters, as in page.css
SCRIPTS = ("show.js", "pin.js", "keys.js", "search.js")


@dataclass
class Opener:
    """The keyword that opens a scope."""

    scope: int
    offset: int
    end: int


def page_of(script, title, readers=None):
    """The page's text; `readers`: the nodes that read each variable, where somebody was asked."""
    cards = Cards(script, readers)
    lines, slots = list(code(script, cards)), list(tables(script, cards))  # what has cards, before all cards
    title = escape(title)
    return "\n".join([
        HEAD,
        f"<title>{title}: what each name means</title>",
        f"<style>\n{(HERE / 'page.css').read_text()}</style>",
        f"<header><h1>{title}</h1>", *overview(script), "</header>",
        '<main><div id="script">',
        *error_list(cards),
        *lines,
        '</div><aside aria-label="Search, and the card of a name">',
        *search(cards),
        CARD_TOP,
        *cards.articles(),
        '</div></aside><div id="tables" class="roving" role="group" aria-label="All slots">',
        *slots,
        "</div></main>",
        "<script>", *((HERE / name).read_text() for name in SCRIPTS), "</script>",
        "</html>\n",
    ])


def code(script, cards):
    """The script's lines, numbered; each name a link to its declaration."""
    yield '<div id="code" class="roving" role="group" aria-label="The script"><svg aria-hidden="true"></svg>'
    spots = sorted([*script.resolved.marks, *openers(script)], key=lambda spot: spot.offset)
    for number, pieces in script.lines(spots):
        room, line = math.inf, []  # from the right: how far the next name is
        for text, spot in reversed(pieces):
            room += width(text)
            line.append(piece(cards, text, spot, room))
            room = 0 if isinstance(spot, Mark) else room
        line = "".join(reversed(line))
        yield f'<div class="line"><span class="number">{number}</span><code>{line or " "}</code></div>'
    yield "</div>"


def openers(script):
    """The keywords that open scopes, where they are spelled as in Starlark."""
    for scope in script.resolved.tree.scopes.values():
        keyword = b"lambda" if scope.name is None else b"def"
        if scope.number and script.data.startswith(keyword, scope.offset):
            yield Opener(scope.number, scope.offset, scope.offset + len(keyword))


def piece(cards, text, spot, room):
    """A text, or a name with its label below; a name is followed by a gap if its label has no room."""
    if spot is None:
        return escape(text)
    if isinstance(spot, Opener):
        return f'<span class="opens" id="s{spot.scope}" title="scope {spot.scope}">{escape(text)}</span>'
    unread = spot.sets and cards.resolved.unread(spot.meaning.binding)
    kinds = " copied" * spot.meaning.copied + " sets" * spot.sets + " unread" * unread
    below = label(spot.meaning, "←") + f" {NEVER_READ}" * unread
    gap = LABEL_SIZE * len(below) + 0.6 - room
    style = f' style="margin-right:{gap:.1f}ch"' if gap > 0 else ""
    return (f'<a class="name {spot.meaning.kind}{kinds}" id="n{spot.node}" href="#{cards.target(spot)}" '
            f'{cards.attributes(spot.meaning, spot.node)}{style}>{escape(text)}'
            f'<span class="label" aria-hidden="true">{escape(below)}</span></a>')


def tables(script, cards):
    """Every module slot, every scope's slots and copies, and the globals."""
    resolved = script.resolved
    rows = [slot_row(script, cards, row, resolved.own(row.binding)) for row in module_rows(script)]
    yield from table("module", HEADINGS, rows)
    for scope, slots in resolved.slots.items():
        rows = [slot_row(script, cards, row, Meaning(LOCAL, 0, row.binding, resolved.chain(scope, slot)))
                for slot, row in zip(sorted(slots), scope_rows(script, scope))]
        yield from table(scope_title(script, scope), HEADINGS, rows)
    rows = [f'<tr id="row-g{number}" tabindex="-1" {cards.attributes(Meaning(GLOBAL, number))}><td>g{number}</td>'
            f"<td><code>{escape(shown(resolved.file.names[name]))}</code></td></tr>"
            for number, name in enumerate(resolved.file.globals)]
    yield from table("globals", HEADINGS[:2], rows)


def table(title, headings, rows):
    if rows:
        yield f"<table><caption>{escape(title)}</caption><tr>"
        yield "".join(f"<th>{heading}</th>" for heading in headings) + "</tr>"
        yield from rows
        yield "</table>"


def slot_row(script, cards, row, meaning):
    slot, name, what, *flags, place = (escape(cell) for cell in cells(script, row))
    place = "" if row.declared is None else link(f"n{script.resolved.bindings[row.binding].source}", place)
    rest = "".join(f"<td>{cell}</td>" for cell in (what, *flags, place))
    copied = ' class="copied"' * meaning.copied
    return (f'<tr id="{row_id(meaning)}" tabindex="-1"{copied} {cards.attributes(meaning)}><td>{slot}</td>'
            f"<td><code>{name}</code></td>{rest}</tr>")
