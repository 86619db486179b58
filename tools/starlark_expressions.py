"""Starlark's expressions and targets, read into nodes.

Every expression but names, lambdas and comprehensions is an Other that holds its operands
in source order. An Other never holds an Other: what that one would hold stands in its place.
So neither brackets nor precedence show in the nodes; a name's value is its spelling here.
"""

import re
from dataclasses import dataclass, field

from nodefile import COMPR, FOR_CLAUSE, IDENT, IF_CLAUSE, LAMBDA, NAME, OTHER, PLACE, TUPLE, Node
from starlark_arguments import ArgumentOrder
from starlark_parameters import Parameters
from starlark_tokens import CLOSING, STRING, why_no_name

COMPARISONS = ("==", "!=", "<", ">", "<=", ">=", "in", "not in")
OPERATORS = ("or", "and", *COMPARISONS, "|", "^", "&", "<<", ">>", "+", "-", "*", "%", "/", "//")
ENDS_OF_TUPLES = ("end", "newline", "=", "}", "]", ")", ";", ":")

# In an f-string: a doubled brace, a name in braces, or a brace that is neither.
BRACES = re.compile(rb"\{\{|\}\}|\{([^{}]*?)(?:![rs])?\}|[{}]")


@dataclass
class Expression:
    """What was read: what it is called, its node, and the parts a target needs."""

    what: str
    node: Node
    parts: list = field(default_factory=list)


def merged(expressions):
    """The nodes that an Other of these expressions holds."""
    nodes = []
    for each in expressions:
        nodes += each.node.kids if each.node.kind == OTHER else [each.node]
    return nodes


def other(what, at, operands=(), parts=()):
    return Expression(what, Node(OTHER, 0, at, merged(operands)), list(parts))


class Expressions(Parameters):
    """Reads expressions, targets and arguments."""

    def expression(self):
        """A test, or a tuple without brackets."""
        start, first = self.token.at, self.test()
        return self.tuple(start, self.more(first)) if self.sees(",") else first

    def more(self, first):
        """The elements of a tuple without brackets, which may not end with a comma."""
        elements = [first]
        while self.sees(","):
            comma = self.take()
            if self.sees(*ENDS_OF_TUPLES):
                raise self.refused(comma.at, "a tuple that ends with a comma needs brackets")
            elements.append(self.test())
        return elements

    def tuple(self, at, elements):
        return other("a tuple", at, elements, elements)

    def test(self):
        """A lambda, an operation, or `a if b else c`."""
        start, operands = self.token.at, []
        while not self.sees("lambda"):
            operands.append(self.operation())
            if not self.sees("if"):
                break
            operands.append(self.condition())
        else:
            operands.append(self.function(self.test))
        return operands[0] if len(operands) == 1 else other("a conditional expression", start, operands)

    def condition(self):
        """The middle of `a if b else c`."""
        begun = self.take()
        condition = self.operation()
        if not self.took("else"):
            raise self.refused(begun.at, "`if` without `else` in an expression")
        return condition

    def function(self, body):
        """A lambda; the expression after the `:` is read by `body`."""
        self.enter()
        made = Node(LAMBDA, 0, self.take().at, self.parameters(":", typed=False))
        self.expect(":")
        made.kids.append(body().node)
        self.leave()
        return Expression("a lambda", made)

    # Operations

    def operation(self):
        """Operands between operators. Which operator binds first does not matter to names."""
        start, operands, compared, negated = self.token.at, [], None, False
        operator = "and"
        while operator:
            while operator in ("and", "or") and self.took("not"):
                negated = True
            operands.append(self.operand())
            operator = self.operator(compared)
            if operator in ("and", "or"):
                compared = None
            elif operator in COMPARISONS:
                compared = operator
        return operands[0] if len(operands) == 1 and not negated else other("an operation", start, operands)

    def operator(self, compared):
        """Takes an operator between two operands, if there is one; comparisons do not follow one another."""
        found = self.token
        if found.kind == "**":
            raise self.refused(found.at, "`**` between operands is not Starlark")
        if found.kind not in OPERATORS and found.kind != "not":
            return None
        self.take()
        word = found.kind
        if word == "not":
            self.expect("in", "`in` after `not`")
            word = "not in"
        if compared and word in COMPARISONS:
            raise self.refused(found.at, f"`{compared}` and `{word}` in one comparison: brackets are wanted")
        return word

    def operand(self):
        start = self.token.at
        signed = False
        while self.sees("-", "+", "~"):
            signed = bool(self.take())
        found = self.suffixed()
        return other("an operation", start, [found]) if signed else found

    def suffixed(self):
        """A primary with any number of `.name`, `[index]` and `(arguments)`."""
        self.enter()
        start = self.token.at
        found = base = self.primary()
        held, last, what = [], [found], None
        while self.sees(".", "[", "("):
            held += last
            base = found if what is None else None
            what, last = self.suffix()
        self.leave()
        if what is None:
            return found
        base = base or other("an expression", start, held)
        return other(what, start, held + last, [base, *last])

    def suffix(self):
        """What the suffix makes of the expression before it, and its own operands."""
        match self.token.kind:
            case ".":
                self.take()
                self.expect("name", "a name after `.`")
                return "an attribute", []
            case "[":
                return self.index()
            case _:
                return "a call", self.arguments()

    def index(self):
        opened = self.take()
        operands = [] if self.sees(":") else [self.expression()]
        if operands and self.took("]"):
            return "an item", operands
        self.expect(":", "`:` or `]`")
        if not self.sees(":", "]"):
            operands.append(self.test())
        if self.took(":") and not self.sees("]"):
            operands.append(self.test())
        self.close(opened)
        return "a slice", operands

    def arguments(self):
        opened, order, operands = self.take(), ArgumentOrder(self), []
        while not self.sees(")"):
            operands.append(self.argument(order))
            if self.sees("for"):
                raise self.refused(self.token.at, "a generator expression is not Starlark")
            if not self.took(","):
                break
        self.close(opened)
        return operands

    def argument(self, order):
        begun = self.token
        if self.sees("*", "**"):
            order.check(self.take().kind, begun)
            return self.test()
        found = self.test()
        if not self.sees("="):
            order.check("positional", begun)
            return found
        # `(a) = 1` begins with a bracket, not with the name.
        if found.what != "a name" or found.node.offset != begun.at:
            raise self.refused(self.token.at, "only a name may stand before `=` in a call")
        self.take()
        order.check("named", begun)
        return self.test()

    # Primaries

    def primary(self):
        match self.token.kind:
            case "name":
                token = self.take()
                return Expression("a name", Node(IDENT, token.text, token.at))
            case "number" | "...":
                return other("a literal", self.take().at)
            case "string":
                return self.string()
            case "(":
                return self.bracketed()
            case "[":
                return self.list()
            case "{":
                return self.dict()
            case ":=":
                raise self.refused(self.token.at, "`:=` is not Starlark")
            case "load":
                raise self.refused(self.token.at, "`load` is a statement, no name")
            case _:
                raise self.unexpected("an expression")

    def string(self):
        token = self.take()
        if self.sees("string"):
            raise self.refused(self.token.at, "two strings side by side are not Starlark; `+` joins them")
        prefix, quote, inside = STRING.fullmatch(token.text).groups()
        names = self.names_in_braces(inside, token.at + len(prefix) + len(quote)) if b"f" in prefix else []
        return other("a string", token.at, names)

    def names_in_braces(self, inside, at):
        """The names in an f-string whose text begins at `at`."""
        names = []
        for braces in BRACES.finditer(inside):
            if braces[0] in (b"{{", b"}}"):
                continue
            if braces[1] is None:
                raise self.refused(at + braces.start(), "a brace alone; in an f-string it is written twice")
            if why_no_name(braces[1].decode()):
                raise self.refused(at + braces.start(), "only a name may stand in the braces of an f-string")
            names.append(Expression("a name", Node(IDENT, braces[1], at + braces.start(1))))
        return names

    def bracketed(self):
        """An expression in round brackets, which is itself, or a tuple."""
        opened = self.take()
        if self.took(")"):
            return self.tuple(opened.at, [])
        first = self.test()
        if self.sees("for"):
            raise self.refused(self.token.at, "a generator expression is not Starlark")
        elements = self.elements(first, opened) if self.sees(",") else None
        self.close(opened)
        return first if elements is None else self.tuple(opened.at, elements)

    def elements(self, first, opened):
        """The elements in brackets; a last comma may follow."""
        elements = [first]
        while self.took(",") and not self.sees(CLOSING[opened.kind]):
            elements.append(self.test())
        return elements

    def list(self):
        opened = self.take()
        if self.took("]"):
            return other("a list", opened.at)
        first = self.test()
        if self.sees("for"):
            return self.comprehension(opened, [first])
        elements = self.elements(first, opened)
        self.close(opened)
        return other("a list", opened.at, elements, elements)

    def dict(self):
        opened, operands = self.take(), []
        while not self.sees("}"):
            operands += self.entry()
            if self.sees("for") and len(operands) == 2:
                return self.comprehension(opened, operands)
            if not self.took(","):
                break
        self.close(opened)
        return other("a dict", opened.at, operands)

    def entry(self):
        """The key and the value of `key: value`."""
        if self.sees("**", "*"):
            raise self.refused(self.token.at, f"`{self.token.kind}` in a dict is not Starlark")
        key = self.test()
        if self.sees(",", "}", "for"):
            raise self.refused(self.token.at, "`:` is wanted here: a set in braces is not Starlark")
        self.expect(":", "`:` after a key")
        return [key, self.test()]

    # Comprehensions

    def comprehension(self, opened, elements):
        """A comprehension from its first `for` on; its node has the clauses first."""
        made = Node(COMPR, 0, opened.at)
        closing = CLOSING[opened.kind]
        while not self.took(closing):
            if self.sees("for"):
                made.kids.append(self.for_clause())
            elif self.sees("if"):
                made.kids.append(Node(IF_CLAUSE, 0, self.take().at, [self.test_without_condition().node]))
            else:
                raise self.unexpected(f"`for`, `if` or `{closing}`")
        made.kids += [each.node for each in elements]
        return Expression("a comprehension", made)

    def for_clause(self):
        begun = self.take()
        target = self.target(self.loop_variables())
        self.expect("in")
        return Node(FOR_CLAUSE, 0, begun.at, [target, self.operation().node])

    def test_without_condition(self):
        """What an `if` clause holds: no `a if b else c` without brackets."""
        return self.function(self.test_without_condition) if self.sees("lambda") else self.operation()

    # Targets

    def loop_variables(self):
        """What stands between `for` and `in`."""
        start, variables = self.token.at, [self.suffixed()]
        while self.took(","):
            variables.append(self.suffixed())
        return variables[0] if len(variables) == 1 else self.tuple(start, variables)

    def target(self, found):
        """The node of an expression that is assigned to."""
        at = found.node.offset
        match found.what:
            case "a name":
                return Node(NAME, found.node.value, at)
            case "a tuple" | "a list":
                return Node(TUPLE, 0, at, [self.target(each) for each in found.parts])
            case "an attribute" | "an item":
                return Node(PLACE, 0, at, [part.node for part in found.parts])
            case what:
                raise self.refused(at, f"{what} cannot be assigned to")
