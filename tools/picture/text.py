"""The picture as plain text: under each line of the script the marks of its names, then every slot."""

from .facts import HEADINGS, at, cells, errors, module_rows, scope_rows, scope_title
from .script import label, shown, width

WIDTH = 100
GUTTER = 7  # `1234 | `

LEGEND = """\
 m0   module slot 0          g0       global 0          !        an error
 2.5  slot 5 of scope 2      3.1<2.5  slot 1 of scope 3, copied from slot 5 of scope 2
 =    a value is bound here"""


def text_of(script):
    """The lines of the picture."""
    yield LEGEND
    yield ""
    for number, pieces in script.lines(script.resolved.marks):
        gutter = f"{number:4} | "
        for part in wrapped(pieces):
            yield (gutter + "".join(text for text, _ in part)).rstrip()
            yield from (f"     | {row}" for row in rows_of(part))
            gutter = "     : "
    yield from tables(script)


def mark_text(mark):
    return "=" * mark.sets + label(mark.meaning)


def wrapped(pieces):
    """A line in parts that fit, with the marks of their names; a part begins with a name where it can."""
    part, used, room = [], 0, WIDTH - GUTTER
    for text, mark in pieces:
        need = max(width(text), width(mark_text(mark))) if mark else 0
        if used + need > room and used:
            yield part
            part, used = [], 0
        while text:
            fitting = text
            while used + width(fitting) > room:
                fitting = fitting[:-1]
            part.append((fitting, mark))
            used += width(fitting)
            text, mark = text[len(fitting):], None
            if text:
                yield part
                part, used = [], 0
    yield part


def rows_of(part):
    """The rows under a line: marks from right to left, one that has no room goes lower, led by a `|`."""
    at, marks = 0, []
    for text, mark in part:
        if mark:
            marks.append((at, mark_text(mark)))
        at += width(text)
    rows = []
    for column, text in reversed(marks):
        row = next((row for row in rows if column + len(text) < row[0][0]), None)
        if row is None:
            row = []
            rows.append(row)
        for above in rows:
            if above is row:
                break
            above.insert(0, (column, "|"))
        row.insert(0, (column, text))
    for row in rows:
        line = ""
        for column, text in row:
            line = line.ljust(column) + text
        yield line


def tables(script):
    """What each module slot, each slot of each scope and each global is; then the errors."""
    yield from table("module", [cells(script, row) for row in module_rows(script)], HEADINGS)
    for scope in script.resolved.slots:
        rows = [cells(script, row) for row in scope_rows(script, scope)]
        yield from table(scope_title(script, scope), rows, HEADINGS)
    yield from table("globals", [(f"g{number}", shown(script.resolved.file.names[name]))
                                 for number, name in enumerate(script.resolved.file.globals)])
    yield from table("errors", [(at(script, mark.offset), shown(mark.name), what) for mark, what in errors(script)])


def table(title, rows, headings=None):
    """A title and rows in columns, the second column the names; nothing without rows."""
    if not rows:
        return
    yield ""
    yield clipped(title, WIDTH)
    rows = [headings, *rows] if headings else rows
    widths = [max(map(width, column)) for column in zip(*rows)]
    widths[1] = min(widths[1], WIDTH - 2 * len(widths) - widths[0] - sum(widths[2:]))
    for row in rows:
        texts = (clipped(cell, room) for cell, room in zip(row, widths))
        yield "".join(f"  {text}{' ' * (room - width(text))}" for text, room in zip(texts, widths)).rstrip()


def clipped(text, room):
    """A text that fits, its end as dots where it does not."""
    if width(text) <= room:
        return text
    while width(text) > room - 2:
        text = text[:-1]
    return text + ".."
