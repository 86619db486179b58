"""Starlark's statements, read into nodes.

A suite of one statement is that statement, any other a Block; so is the module. Names
have no order of running: `elif`s stand side by side in one Block, so that a long chain is
not deep.
"""

from nodefile import ASSIGN, BLOCK, DEF, FOR, IF, LOAD, MODIFY, NAME, PLAIN, Node
from starlark_expressions import Expressions
from starlark_source import quoted
from starlark_tokens import STRING, why_no_name

AUGMENTED = ("+=", "-=", "*=", "/=", "//=", "%=", "&=", "|=", "^=", "<<=", ">>=")


def suite_node(statements):
    if len(statements) == 1:
        return statements[0]
    return Node(BLOCK, 0, statements[0].offset if statements else 0, statements)


class Statements(Expressions):
    """Reads a module; `around` are the words of the statements around the next one."""

    def __init__(self, source):
        super().__init__(source)
        self.around = []

    def module(self):
        statements = []
        while not self.sees("end"):
            if not self.took("newline"):
                statements += self.statement()
        return suite_node(statements)

    def statement(self):
        """The nodes of a compound statement, or of a line of simple ones."""
        match self.token.kind:
            case "def":
                return [self.definition()]
            case "if":
                return [self.conditional()]
            case "for":
                return [self.loop()]
            case "indent":
                raise self.refused(self.token.at, "an indented line, but no block begins here")
            case "@":
                raise self.refused(self.token.at, "a decorator is not Starlark")
            case "else" | "elif":
                raise self.refused(self.token.at, f"`{self.token.kind}` without an `if` before it")
        return self.simple_line()

    # Compound statements

    def suite(self, word):
        """What follows the `:` of a statement that begins with this word, as one node."""
        self.expect(":")
        self.enter()
        self.around.append(word)
        statements = self.block() if self.took("newline") else self.simple_line()
        self.around.pop()
        self.leave()
        return suite_node(statements)

    def block(self):
        self.expect("indent", "an indented block")
        statements = []
        while not self.took("dedent"):
            statements += self.statement()
        return statements

    def definition(self):
        made = Node(DEF, 0, self.take().at)
        name = self.expect("name", "a function's name")
        made.kids.append(Node(NAME, name.text, name.at))
        opened = self.expect("(")
        made.kids += self.parameters(")", typed=True)
        self.close(opened)
        if self.took("->"):
            made.kids.append(self.type_node())
        made.kids.append(self.suite("def"))
        return made

    def conditional(self):
        """An if; from the second elif on, all stand in the Block that is its last child."""
        first = self.branch()
        others = []
        while self.sees("elif"):
            others.append(self.branch())
        if self.took("else"):
            (others or [first])[-1].kids.append(self.suite("if"))
        if others:
            first.kids.append(suite_node(others))
        return first

    def branch(self):
        """An `if` or `elif` with its suite, as an If."""
        begun = self.take()
        return Node(IF, 0, begun.at, [self.test().node, self.suite("if")])

    def loop(self):
        begun = self.take()
        target = self.target(self.loop_variables())
        self.expect("in")
        made = Node(FOR, 0, begun.at, [target, self.expression().node, self.suite("for")])
        if self.sees("else"):
            raise self.refused(self.token.at, "`for` with `else` is not Starlark")
        return made

    # Simple statements

    def simple_line(self):
        statements = [self.simple()]
        while self.took(";") and not self.sees("newline"):
            statements.append(self.simple())
        self.expect("newline", "the end of the statement")
        return statements

    def simple(self):
        begun = self.token
        match begun.kind:
            case "pass" | "break" | "continue" | "return":
                self.check_place(begun)
                self.take()
                given = begun.kind == "return" and not self.sees("newline", ";")
                return Node(PLAIN, 0, begun.at, [self.expression().node] if given else [])
            case "load":
                self.check_place(begun)
                return self.load()
        return self.assignment(begun.at)

    def check_place(self, begun):
        """Refuse a statement that may not stand here."""
        outward = self.around[::-1]
        if begun.kind == "return" and "def" not in outward:
            raise self.refused(begun.at, "`return` outside a function")
        inside = outward[:outward.index("def")] if "def" in outward else outward
        if begun.kind in ("break", "continue") and "for" not in inside:
            raise self.refused(begun.at, f"`{begun.kind}` outside a loop")
        if begun.kind == "load" and outward:
            raise self.refused(begun.at, "`load` inside another statement")

    def assignment(self, at):
        """An assignment of any sort, or an expression."""
        found = self.expression()
        if self.sees(*AUGMENTED):
            if found.what in ("a tuple", "a list"):
                raise self.refused(found.node.offset, f"{found.what} cannot be changed by `{self.token.kind}`")
            made = Node(MODIFY, 0, at, [self.target(found)])
            self.take()
        elif self.sees("=", ":"):
            made = Node(ASSIGN, 0, at, [self.target(found)] + self.annotation(found))
        else:
            return Node(PLAIN, 0, at, [found.node])
        made.kids.append(self.expression().node)
        if self.sees("="):
            raise self.refused(self.token.at, "a chained assignment is not Starlark")
        return made

    def annotation(self, found):
        """The type in `target: type =`, if there is one; the `=` is taken."""
        kids = []
        if self.took(":"):
            if found.what in ("a tuple", "a list"):
                raise self.refused(found.node.offset, f"{found.what} cannot have a type")
            kids.append(self.type_node())
            if self.sees("newline", ";"):
                raise self.refused(found.node.offset, "a declaration without a value is not Starlark")
        self.expect("=")
        return kids

    # Load

    def load(self):
        begun = self.take()
        opened = self.expect("(", "`(` after `load`, which is no name,")
        self.expect("string", "the module's name as a string")
        made = Node(LOAD, 0, begun.at)
        while self.took(",") and not self.sees(")"):
            made.kids.append(self.loaded())
        self.close(opened)
        if not made.kids:
            raise self.refused(begun.at, "`load` without a name to load")
        return made

    def loaded(self):
        """The Name of `"a"` or of `b = "c"`."""
        if self.sees("string"):
            return self.quoted_name(self.take())
        name = self.expect("name", 'a name in quotes, or `name = "its name there"`,')
        if not self.took("="):
            strings = quoted(b'"%b"' % name.text), quoted(b'%b = "its name there"' % name.text)
            raise self.refused(name.at, f"a loaded name is a string: {strings[0]}, or {strings[1]}")
        self.expect("string", "a name in quotes")
        return Node(NAME, name.text, name.at)

    def quoted_name(self, token):
        """The name stands inside the quotes."""
        prefix, quote, inside = STRING.fullmatch(token.text).groups()
        why = why_no_name(inside.decode())
        if why or prefix not in (b"", b"r"):
            raise self.refused(token.at, why or "a name to load is a plain string")
        return Node(NAME, inside, token.at + len(prefix) + len(quote))
