"""Where the nodes of a node file stand: scopes, and the blocks that bind names."""

from dataclasses import dataclass

from nodefile import COMPR, DEF, LAMBDA, PARAM, preorder


@dataclass(frozen=True)
class Scope:
    """A Def or Lambda; scope 0 is the module's."""

    number: int
    parent: int | None
    node: int
    name: bytes | None
    offset: int


class Tree:
    """For every node the scope it is in, and the block to which a Name there belongs."""

    def __init__(self, file):
        self.file = file
        self.nodes = list(preorder(file.root))
        self.scope, self.block = [], []
        self.scopes = {0: Scope(0, None, 0, None, 0)}
        self.walk(file.root, 0, None)

    def walk(self, node, scope, block):
        number = len(self.scope)
        self.scope.append(scope)
        self.block.append(block)
        if node.kind in (DEF, LAMBDA):
            name = self.file.names[node.kids[0].value] if node.kind == DEF else None
            self.scopes[node.value] = Scope(node.value, scope, number, name, node.offset)
            for kid in node.kids[:-1]:
                self.header(kid, (scope, block), (node.value, number))
            self.walk(node.kids[-1], node.value, number)
        else:
            for kid in node.kids:
                self.walk(kid, scope, number if node.kind == COMPR else block)

    def header(self, node, outside, inside):
        """A Def's name, a Param or the return type: only a Param's Name belongs inside."""
        if node.kind == PARAM and node.kids:
            self.scope.append(outside[0])
            self.block.append(outside[1])
            self.walk(node.kids[0], *inside)
            for kid in node.kids[1:]:
                self.walk(kid, *outside)
        else:
            self.walk(node, *outside)
