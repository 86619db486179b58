"""Random accepted files: every kind, every optional child, few names so that they shadow each other.

A Taste, drawn anew for each file, says how often each kind and each optional child is taken,
so that some files are all comprehensions and others all nested functions. A tree is grown
from a budget of nodes that each node divides among its children.
"""

from files.rawfile import Raw
from files.table import HEIGHT, MANY, SHAPES, SIZE, STATEMENT, number_scopes
from nodefile import BLOCK, COMPR, DEF, LAMBDA, LOAD, MAX_DEPTH, MAX_NODES, MAX_SCOPES, NAME, NAMED, OTHER, PARAM, \
    PLAIN, SCOPED, File, Node, pack, preorder

LETTERS = [b"a", b"b", b"x", b"y", b"f", b"_p", b"_q", b"t", b"ab", b"_", b"__", "\u00e9".encode(), "\u540d".encode(),
           b"a b", b"x" * 255]

LEAF = 0.1  # how often a leaf is taken where more would fit
USUAL = {BLOCK: 4, DEF: 4, PLAIN: 0.5, LOAD: 0.5, LAMBDA: 2, COMPR: 1.5, OTHER: 0.6}  # how often, where not 1


class Taste:
    """How often each kind and each optional child is taken in one file."""

    def __init__(self, rng):
        self.weight = [USUAL.get(kind, 1) * rng.choice((0.1, 1, 1, 1, 4)) for kind in SHAPES]
        self.optional = rng.choice((0.15, 0.5, 0.85))
        self.list_mean = rng.choice((0.3, 1, 2.5))
        self.choices = {}

    def choose(self, rng, kinds, room, budget, functions):
        """A kind that fits into `room` levels; leaves where the budget is used up."""
        key = kinds, min(room, 4), budget if budget < 3 else 3, functions
        if key not in self.choices:
            fit = [k for k in kinds if HEIGHT[k] <= room and (functions or k not in SCOPED)]
            if budget < 3:
                fit = [k for k in fit if SIZE[k] <= max(budget, min(SIZE[k] for k in fit))]
                weights = [self.weight[k] for k in fit]
            else:
                weights = [self.weight[k] * (LEAF if SHAPES[k] == [[]] else 1) for k in fit]
            self.choices[key] = fit, weights
        fit, weights = self.choices[key]
        return fit[0] if len(fit) == 1 else rng.choices(fit, weights)[0]


class Grower:
    """Grows one tree over `names` name numbers with at most `functions` Defs and Lambdas."""

    def __init__(self, rng, names, functions=MAX_SCOPES):
        self.rng, self.names, self.functions = rng, names, functions
        self.taste = Taste(rng)

    def tree(self, kinds, room, budget):
        """A tree whose root is of one of these kinds, of at most `room` levels and about `budget` nodes."""
        kind = self.taste.choose(self.rng, kinds, room, budget, self.functions > 0)
        if kind in NAMED:
            return Node(kind, self.rng.randrange(self.names))
        if kind in SCOPED:
            self.functions -= 1
        wanted = self.children(kind, room - 1, budget - 1)
        shares = self.shares(budget - 1, wanted)
        node = Node(kind, 0, 0, [self.tree(kinds, room - 1, share) for kinds, share in zip(wanted, shares)])
        if kind in SCOPED:
            self.part_params(node)
        return node

    def children(self, kind, room, budget):
        """The kinds that each child may have, for one way of taking the optional ones."""
        rng, shapes = self.rng, SHAPES[kind]
        shape = shapes[-1] if len(shapes) == 1 or (budget > 0 and room > 0 and rng.random() < 0.8) else shapes[0]
        wanted = []
        for kinds, least, most in shape:
            count = least
            if most > least and budget > len(wanted) and min(HEIGHT[k] for k in kinds) <= room:
                only = len(shape) == 1 and rng.random() < 0.9
                if most < MANY:
                    count += only or rng.random() < self.taste.optional
                else:
                    count += min(only + int(rng.expovariate(1 / self.taste.list_mean) + rng.random()), budget)
            wanted += [kinds] * count
        return wanted

    def shares(self, budget, wanted):
        """A budget divided at random among the children that can use it."""
        users = [kinds != (NAME,) for kinds in wanted]
        cuts = sorted(self.rng.randrange(budget + 1) for _ in range(sum(users) - 1)) if budget > 0 else []
        parts = iter([high - low for low, high in zip([0] + cuts, cuts + [max(budget, 0)])])
        return [next(parts, 0) if user else 1 for user in users]

    def part_params(self, function):
        """Different names for the Params of one function; those for which none is left lose theirs."""
        params = [kid for kid in function.kids if kid.kind == PARAM and kid.kids]
        if len(params) > 1:
            names = self.rng.sample(range(self.names), min(len(params), self.names))
            for param, name in zip(params, names):
                param.kids[0].value = name
            for param in params[len(names):]:
                param.kids = []


def budget(rng):
    """Mostly small trees, now and then one near the limit."""
    if rng.random() < 0.003:
        return rng.randrange(400, 1500)
    return int(2 ** rng.uniform(0, 6.7))


def some_names(rng, count):
    """Different names; beyond the usual ones they are numbered."""
    names = LETTERS[:]
    rng.shuffle(names)
    names += [b"%s%d" % (rng.choice((b"n", b"_n")), i) for i in range(count - len(names))]
    return names[:count]


def some_entries(rng, names):
    """Module entries for some of the names: slots in order, or with gaps, or any, also one slot twice."""
    chosen = rng.sample(range(names), rng.randrange(min(names, 256) + 1))
    slots = rng.choice((lambda i: i, lambda i: 2 * i + 1, lambda i: rng.randrange(len(chosen) + 2),
                        lambda i: rng.randrange(32768), lambda i: 7))
    return [(name, rng.random() < 0.5, slots(i)) for i, name in enumerate(chosen)]


def with_scopes(rng, root):
    """A tree with its scopes numbered, in half of the cases in any order."""
    numbers = list(range(1, 1 + sum(node.kind in SCOPED for node in preorder(root))))
    if rng.random() < 0.5:
        rng.shuffle(numbers)
    return number_scopes(root, numbers)


def some_file(rng, root, names):
    """A file around a tree over `names` name numbers."""
    with_scopes(rng, root)
    for offset, node in enumerate(preorder(root)):
        node.offset = 3 * offset
    return File(
        reexport=rng.random() < 0.5,
        root=root,
        names=some_names(rng, names + rng.choice((0, 0, 1))),
        entries=some_entries(rng, names) if rng.random() < 0.4 else [],
        globals=rng.sample(range(names), rng.randrange(min(names, 256) + 1)) if rng.random() < 0.5 else [],
    )


def relaid(rng, data):
    """The same file with another pool: names that stand within others share their bytes, and some bytes are unused."""
    raw = Raw(data)
    pool = b""
    for name in raw.names:
        spelled = raw.pool[name[0]:name[0] + name[1]]
        if spelled not in pool:
            pool += rng.randbytes(rng.randrange(3)) + spelled
        name[0] = pool.index(spelled)
    raw.pool = pool + rng.randbytes(rng.randrange(3))
    return raw.bytes()


def accepted(rng):
    """A random file that judging accepts."""
    while True:
        size = budget(rng)
        names = rng.choice((1, 2, 2, 3, 3, 4, 6)) if size < 200 else rng.choice((3, 8, 30, 200))
        root = Grower(rng, names).tree(STATEMENT, MAX_DEPTH, size)
        if sum(1 for _ in preorder(root)) <= MAX_NODES:
            data = pack(some_file(rng, root, names))
            return relaid(rng, data) if rng.random() < 0.1 else data
