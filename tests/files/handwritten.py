"""Files written by hand: names are text, and numbers are given in node order.

    script(Def(Name("f"), Param(Name("a")), Plain(Ident("a"))), globals=["x"])
"""

from files.table import number_scopes
from nodefile import IDENT, KINDS, NAME, NAMED, File, Node, pack, preorder


def _maker(kind):
    """Makes nodes of a kind from their children."""
    return lambda *kids: Node(kind, 0, 0, list(kids))


(Block, Plain, Assign, Modify, If, For, Def, Load, _, Tuple, Place, _, Lambda, Compr, Other, ForClause, IfClause, Param,
 Type) = map(_maker, range(len(KINDS)))


def Name(name):
    return Node(NAME, name)


def Ident(name):
    return Node(IDENT, name)


def script(root, names=(), entries=(), globals=(), reexport=False, scopes=None):
    """A file's bytes. Names are numbered as they are listed in `names`, then as they are first met; `entries` are
    (name, public, slot); `scopes` the scope numbers of the functions in node order, if not 1, 2, .."""
    met = [node.value for node in preorder(root) if node.kind in NAMED]
    numbers = {name: i for i, name in enumerate(dict.fromkeys([*names, *met, *(e[0] for e in entries), *globals]))}
    number_scopes(root, scopes)
    for node in preorder(root):
        if node.kind in NAMED:
            node.value = numbers[node.value]
    return pack(File(reexport, root, [name.encode() for name in numbers],
                     [(numbers[name], public, slot) for name, public, slot in entries],
                     [numbers[name] for name in globals]))
