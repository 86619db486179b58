"""`vaib readers` (document 02, P1): who reads each binding and each global.

"For each binding of an accepted file, the Ident nodes resolved to it, in node order, held .. as a
start (the sum of the counts before) and a count per binding over one flat list. Globals get the
same by global number."
"""

from itertools import accumulate

from readings import mirror
from words import lines

MODULE, LOCAL, GLOBAL = 1, 2, 3


def readers(records, globals_):
    """The Idents of each binding and of each global."""
    of_binding, of_global = [[] for _ in records.bindings], [[] for _ in globals_]
    for node, class_, number, binding in sorted(records.answers):
        if class_ in (MODULE, LOCAL):
            of_binding[binding].append(node)
        elif class_ == GLOBAL:
            of_global[number].append(node)
    return of_binding, of_global


def rows(letter, lists):
    starts = accumulate(map(len, lists), initial=0)
    for number, (start, nodes) in enumerate(zip(starts, lists)):
        yield b"%s %d %d %d:" % (letter, number, start, len(nodes)) + b"".join(b" %d" % node for node in nodes)


def text(data):
    number, r = mirror.resolved(data)
    if number:
        return mirror.refusal(number)
    of_binding, of_global = readers(r.records, r.file.globals)
    return lines([b"answer 0 bindings %d globals %d" % (len(of_binding), len(of_global)),
                  *rows(b"R", of_binding), *rows(b"G", of_global)])
