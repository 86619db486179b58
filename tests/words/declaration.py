"""`vaib declaration` (document 02, P4): what declares each Ident, from judging alone.

"The Name node that declares it, or "module list", "global", "not found" or "not an Ident" (a number
past the nodes too). Look outward from the node and stop at the innermost binder that has the name
and, by demand 2's definition, reaches the node." A local refused in a type has a declaration too.
"""

from readings import mirror, second_judge
from readings.lexical import Outer, module_vars, outer_of
from readings.meaning import declared, sites_of
from words import lines


def outside(F):
    """What declares a name that no function and no comprehension around it binds."""
    out, module = outer_of(F), module_vars(F)

    def of(name):
        where, number = out(name)
        if where is Outer.module:
            return b"module list" if module[number].entry else b"name %d" % module[number].source
        return b"global" if where is Outer.global_ else b"not found"
    return of


def declarations(F):
    """What declares each Ident, by its node."""
    found, of = {}, outside(F)
    for site in sites_of(F):
        local = declared(site.name, site.above)
        found[site.node] = b"name %d" % local[1] if local else of(site.name)
    return found


def text(data):
    number, reading = second_judge.judged(data)
    if number:
        return mirror.refusal(number)
    found = declarations(mirror.file_of(reading))
    nodes = len(reading.nodes)
    return lines([b"answer 0 nodes %d" % nodes,
                  *(b"D %d %s" % (node, found.get(node, b"not an Ident")) for node in range(nodes + 1))])
