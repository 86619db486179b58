"""The parameters of functions and lambdas, read into nodes."""

from nodefile import NAME, PARAM, TYPE, Node
from starlark_reading import Reader

STARS = ("*", "**", "/")


class Parameters(Reader):
    """Reads parameters; what extends this reads the expressions in them."""

    def parameters(self, closing, typed):
        """The Params up to a closing token, which is left; a def's may have types and end with a comma."""
        params, order = [], ParameterOrder(self)
        while not self.sees(closing):
            params.append(self.parameter(order, typed))
            if not self.took(",") or typed and self.sees(closing):
                break
            if self.sees(closing):
                raise self.unexpected("a parameter")
        if not self.sees(closing):
            raise self.unexpected(f"`,` or `{closing}`")
        order.end()
        return params

    def parameter(self, order, typed):
        begun = self.token
        stars = self.take().kind if self.sees(*STARS) else ""
        if stars == "/" or stars == "*" and not self.sees("name"):
            order.add(begun, stars)
            return Node(PARAM, 0, begun.at)
        name = self.expect("name", "a parameter")
        made = Node(PARAM, 0, begun.at, [Node(NAME, name.text, name.at)])
        if typed and self.took(":"):
            made.kids.append(self.type_node())
        default = not stars and self.took("=")
        order.add(begun, stars, name, default)
        if default:
            made.kids.append(self.test().node)
        return made

    def type_node(self):
        return Node(TYPE, 0, self.token.at, [self.test().node])


class ParameterOrder:
    """Checks the parameters of one function: required, optional, `*`, named only, `**`; a `/` before the `*`."""

    def __init__(self, reader):
        self.reader = reader
        self.names = set()
        self.count = 0
        self.optional = self.slash = False
        self.bare = None        # a `*` alone that no parameter follows yet
        self.starred = False
        self.last = False       # `**` was there

    def add(self, token, stars, name=None, default=False):
        if why := self.why_not(stars, default, name):
            raise self.reader.refused(token.at, why)
        if name:
            self.check_new(name)
        if not stars:
            self.bare = None
        elif stars == "*":
            self.starred, self.bare = True, None if name else token
        self.count += 1
        self.optional |= default
        self.slash |= stars == "/"
        self.last |= stars == "**"

    def why_not(self, stars, default, name):
        """Why a parameter may not come here, if it may not."""
        if self.last:
            return "a parameter after `**`"
        if stars == "*" and self.starred:
            return "a second `*` among the parameters"
        if stars == "/" and (self.slash or self.starred or not self.count):
            return "a `/` that is the first parameter, the second `/`, or after `*`"
        if not stars and not default and self.optional and not self.starred:
            return "a parameter without a default after one that has it"
        return None

    def check_new(self, name):
        if name.text in self.names:
            raise self.reader.refused(name.at, "a second parameter of this name")
        self.names.add(name.text)

    def end(self):
        if self.bare:
            raise self.reader.refused(self.bare.at, "a `*` alone that no named parameter follows")
