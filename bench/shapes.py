#!/usr/bin/env python3
# shapes.py FOLDER: writes the largest files that are accepted, a shape each: what a resolver may find hard.
import sys
from pathlib import Path

sys.path.insert(0, str(Path(__file__).resolve().parent.parent / "tools"))
from nodefile import ASSIGN, BLOCK, COMPR, DEF, FOR_CLAUSE, IDENT, LAMBDA, NAME, NAMED, OTHER, PARAM, PLAIN, TUPLE, \
    File, Node, pack, preorder


def name(number):
    return Node(NAME, number)


def ident(number):
    return Node(IDENT, number)


def block(kids):
    return Node(BLOCK, kids=kids)


def plain(kids):
    return Node(PLAIN, kids=[Node(OTHER, kids=kids)])


def param(number):
    return Node(PARAM, kids=[name(number)])


def define(scope, own, params, body):
    return Node(DEF, scope, kids=[name(own)] + [param(p) for p in params] + [body])


# So many names, each bound once and read once.
def bound(count):
    return block([Node(ASSIGN, kids=[Node(TUPLE, kids=[name(i) for i in range(count)]), Node(OTHER, kids=[ident(i) for i in range(count)])])])


# .. of one function
def local(count):
    return define(1, count, [], bound(count))


# 255 functions beside each other, each with a parameter and a local.
def defs_255():
    return block([define(s, 2, [0], Node(ASSIGN, kids=[name(1), ident(0)])) for s in range(1, 256)])


# Functions inside each other, as deep as may be (60), four times; the innermost reads each of the outermost's 16 parameters.
def copies(chains, levels, params):
    def chain(scope, level):
        if level == levels:
            return define(scope, 20, [], plain([ident(p) for p in range(params)]))
        return define(scope, 20, range(params) if level == 1 else [], chain(scope + 1, level + 1))
    return block([chain(1 + c * levels, 1) for c in range(chains)])


# The same, and comprehensions' variables at module level until there are 4,096 slots.
def slots_4096():
    root = copies(4, 60, 16)
    left = 4096 - 4 * (60 * 16 + 59)
    root.kids.append(Node(PLAIN, kids=[Node(COMPR, kids=[Node(FOR_CLAUSE, kids=[Node(TUPLE, kids=[name(i) for i in range(left)]), Node(OTHER)]), Node(OTHER)])]))
    return root


# Comprehensions in comprehensions, each with its own variable of one name.
def comprs():
    def nest(depth):
        element = ident(0) if depth == 0 else nest(depth - 1)
        return Node(COMPR, kids=[Node(FOR_CLAUSE, kids=[name(0), ident(0)]), element])
    return block([Node(PLAIN, kids=[nest(30)]) for _ in range(16)])


# Lambdas in lambdas, each reads its own parameter and that of the one around it.
def lambdas():
    def nest(scope, depth):
        kids = [ident(depth), ident(max(depth - 1, 0))] + ([nest(scope + 1, depth + 1)] if depth < 29 else [])
        return Node(LAMBDA, scope, kids=[param(depth), Node(OTHER, kids=kids)])
    return block([Node(PLAIN, kids=[nest(1 + 30 * c, 0)]) for c in range(8)])


# Idents that nothing binds: an error each.
def errors():
    return block([plain([ident(i % 50) for i in range(2045)])])


SHAPES = {
    **{f"module-{count}": lambda count=count: bound(count) for count in (255, 510, 1020)},
    **{f"locals-{count}": lambda count=count: local(count) for count in (250, 500, 1000)},
    "defs-255": defs_255, "copies-3776": lambda: copies(4, 60, 16), "slots-4096": slots_4096, "comprs": comprs, "lambdas": lambdas, "errors": errors,
}


def main():
    folder = Path(sys.argv[1])
    folder.mkdir(parents=True, exist_ok=True)
    for shape, make in SHAPES.items():
        root = make()
        count = 1 + max(node.value for node in preorder(root) if node.kind in NAMED)
        (folder / shape).write_bytes(pack(File(False, root, [b"n%d" % i for i in range(count)], [], [])))


if __name__ == "__main__":
    main()
