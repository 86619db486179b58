"""Going through the tokens of Starlark source, and refusing those that do not belong."""

from starlark_tokens import CLOSING, Scanner, reserved

# How deeply brackets, lambdas and blocks may be nested: few enough for Python's own stack.
MAX_NESTING = 100


class Reader:
    """Holds the next token; what reads statements and expressions extends this."""

    def __init__(self, source):
        self.source = source
        self.tokens = Scanner(source).tokens()
        self.token = next(self.tokens)
        self.nesting = 0

    def refused(self, at, why):
        return self.source.refused(at, why)

    def unexpected(self, wanted):
        """The refusal of the next token, where something else is wanted."""
        if self.sees("reserved"):
            return self.refused(self.token.at, reserved(self.token.text.decode()))
        return self.refused(self.token.at, f"{wanted} is wanted here, not {self.token}")

    def sees(self, *kinds):
        return self.token.kind in kinds

    def take(self):
        taken = self.token
        self.token = next(self.tokens, taken)
        return taken

    def took(self, kind):
        """Whether the next token is of this kind, and then it is taken."""
        return self.sees(kind) and bool(self.take())

    def expect(self, kind, wanted=None):
        if not self.sees(kind):
            raise self.unexpected(wanted or f"`{kind}`")
        return self.take()

    def close(self, opened):
        """Takes the bracket that closes an opened one."""
        closing = CLOSING[opened.kind]
        if not self.took(closing):
            line, column = self.source.place(opened.at)
            raise self.unexpected(f"`,`, or `{closing}` for the `{opened.kind}` at {line}:{column},")

    def enter(self):
        """One level deeper; whoever enters also leaves."""
        self.nesting += 1
        if self.nesting > MAX_NESTING:
            raise self.refused(self.token.at, f"nested more than {MAX_NESTING} levels deep")

    def leave(self):
        self.nesting -= 1
