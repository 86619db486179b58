#!/usr/bin/env python3
"""Writes node files made of real scripts, the modules of Python's own standard library: files.py FOLDER.

real-8, real-100, real-500, real-800, real-1000, real-2000 (about so many nodes); names-1024, as many names as a file may have;
flat-2048, as many nodes.
"""

import ast
import copy
import sys
import sysconfig
from pathlib import Path

sys.path.insert(0, str(Path(__file__).resolve().parent.parent / "tools"))
from nodefile import ASSIGN, BLOCK, COMPR, DEF, FOR, FOR_CLAUSE, IDENT, IF, IF_CLAUSE, LAMBDA, LOAD, MAX_NAMES, MAX_NODES, \
    MAX_SCOPES, MODIFY, NAME, OTHER, PARAM, PLACE, PLAIN, TUPLE, TYPE, File, Node, pack, preorder  # noqa: E402

SIZES = (8, 100, 500, 800, 1000, 2000)
LOOKED_AT = 60     # modules, for each size
GLOBALS = 8        # the last names of a script are its globals, so many of them
LONGEST = 37388    # bytes of an accepted file


def node(kind, *kids, value=0):
    return Node(kind, value, kids=list(kids))


class Converter:
    """Python's statements and expressions as nodes: names and scopes are numbered as they are met."""

    def __init__(self):
        self.names, self.scopes = {}, 0

    def name(self, kind, text):
        return node(kind, value=self.names.setdefault(text, len(self.names)))

    def scope(self):
        self.scopes += 1
        return self.scopes

    def type(self, e):
        return [node(TYPE, self.expr(e))] if e else []

    def block(self, body):
        return node(BLOCK, *(t for s in body for t in self.statement(s)))

    def target(self, e):
        if isinstance(e, ast.Name):
            return self.name(NAME, e.id)
        if isinstance(e, (ast.Tuple, ast.List)):
            return node(TUPLE, *map(self.target, e.elts))
        if isinstance(e, ast.Starred):
            return self.target(e.value)
        if isinstance(e, ast.Subscript):
            return node(PLACE, self.expr(e.value), self.expr(e.slice))
        return node(PLACE, self.expr(e.value))

    def params(self, a):
        every = a.posonlyargs + a.args
        defaults = [None] * (len(every) - len(a.defaults)) + a.defaults
        rows = list(zip(every, defaults)) + ([(a.vararg, None)] if a.vararg else [])
        rows += list(zip(a.kwonlyargs, a.kw_defaults)) + ([(a.kwarg, None)] if a.kwarg else [])
        return [node(PARAM, self.name(NAME, p.arg), *self.type(p.annotation), *([self.expr(d)] if d else [])) for p, d in rows]

    def statement(self, s):
        """The nodes of a statement; a class is its body."""
        match s:
            case ast.FunctionDef() | ast.AsyncFunctionDef():
                scope = self.scope()
                kids = [self.name(NAME, s.name), *self.params(s.args), *self.type(s.returns)]
                return [node(DEF, *kids, self.block(s.body), value=scope)]
            case ast.Assign():
                value = self.expr(s.value)
                return [node(ASSIGN, self.target(s.targets[0]), value)]
            case ast.AnnAssign(value=ast.expr()):
                return [node(ASSIGN, self.target(s.target), *self.type(s.annotation), self.expr(s.value))]
            case ast.AugAssign():
                return [node(MODIFY, self.target(s.target), self.expr(s.value))]
            case ast.If() | ast.While():
                return [node(IF, self.expr(s.test), self.block(s.body), *([self.block(s.orelse)] if s.orelse else []))]
            case ast.For():
                return [node(FOR, self.target(s.target), self.expr(s.iter), self.block(s.body))]
            case ast.Import() | ast.ImportFrom():
                return [node(LOAD, *(self.name(NAME, (a.asname or a.name).split(".")[0]) for a in s.names))]
            case ast.ClassDef() | ast.With():
                return [self.block(s.body)]
            case ast.Try():
                return [self.block(s.body + [x for h in s.handlers for x in h.body])]
        value = getattr(s, "value", None) or getattr(s, "exc", None) or getattr(s, "test", None)
        return [node(PLAIN, *([self.expr(value)] if isinstance(value, ast.expr) else []))]

    def expr(self, e):
        match e:
            case ast.Name():
                return self.name(IDENT, e.id)
            case ast.Lambda():
                scope = self.scope()
                return node(LAMBDA, *self.params(e.args), self.expr(e.body), value=scope)
            case ast.ListComp() | ast.SetComp() | ast.GeneratorExp() | ast.DictComp():
                clauses = [clause for g in e.generators for clause in self.clauses(g)]
                parts = [e.key, e.value] if isinstance(e, ast.DictComp) else [e.elt]
                return node(COMPR, *clauses, *map(self.expr, parts))
        kids = []
        for child in ast.iter_child_nodes(e):
            if isinstance(child, ast.expr):
                kids.append(self.expr(child))
            elif isinstance(child, ast.keyword):
                kids.append(self.expr(child.value))
        return node(OTHER, *kids)

    def clauses(self, g):
        return [node(FOR_CLAUSE, self.target(g.target), self.expr(g.iter)), *(node(IF_CLAUSE, self.expr(x)) for x in g.ifs)]


def count(root):
    return sum(1 for _ in preorder(root))


def numbered(root):
    """The tree with each node's number as its source offset."""
    for number, each in enumerate(preorder(root)):
        each.offset = number
    return root


def script(text, most):
    """The first statements of a script, as many as keep it within `most` nodes: the file and its nodes."""
    kept, converter, size = [], Converter(), 1
    for s in ast.parse(text).body:
        longer = copy.deepcopy(converter)
        nodes = longer.statement(s)
        size += sum(map(count, nodes))
        if size > most or longer.scopes > MAX_SCOPES:
            break
        kept, converter = kept + nodes, longer
    names = [name.encode() for name in converter.names]
    last = list(range(max(len(names) - GLOBALS, 0), len(names)))
    root = numbered(node(BLOCK, *kept))
    return pack(File(False, root, names, [], last)), count(root)


def modules():
    """The texts of the first modules by name."""
    for path in sorted(Path(sysconfig.get_paths()["stdlib"]).glob("*.py")):
        try:
            yield path.name, path.read_text()
        except (UnicodeDecodeError, OSError):
            pass


def longest(texts, most):
    """The script with the most nodes: (file, nodes, module)."""
    best = b"", 0, ""
    for name, text in texts:
        try:
            data, nodes = script(text, most)
        except SyntaxError:
            continue
        if nodes > best[1] and len(data) <= LONGEST:
            best = data, nodes, name
    return best


def main():
    folder = Path(sys.argv[1])
    folder.mkdir(parents=True, exist_ok=True)
    texts = list(modules())[:LOOKED_AT]
    for most in SIZES:
        data, nodes, name = longest(texts, most)
        (folder / f"real-{most}").write_bytes(data)
        print(f"real-{most}", nodes, "nodes from", name, file=sys.stderr)
    names = [b"n%03x_%d" % (i * 2654435761 % 4096, i) for i in range(MAX_NAMES)]
    reads = node(BLOCK, *(node(PLAIN, node(IDENT, value=i)) for i in range(MAX_NAMES - 1)))
    (folder / f"names-{MAX_NAMES}").write_bytes(pack(File(False, numbered(reads), names)))
    flat = node(BLOCK, *(node(PLAIN) for _ in range(MAX_NODES - 1)))
    (folder / f"flat-{MAX_NODES}").write_bytes(pack(File(False, numbered(flat), [b"a"])))


if __name__ == "__main__":
    main()
