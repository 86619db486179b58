"""The specifications of crate `lexical`, runnable in Python.

Each part follows the file of crates/lexical/specs that it is named after, definition by definition
and under the same names. A forest is a list of nodes here (`Node`) and the state's lists grow in place
(`add_slot`); `Kind` has the cases of Found, `Walk3` walk three's parameters, `captures` the binding of
which the crate's `captured` asks. Nothing else differs. What a name means, outward and without slots,
is in meaning.py.
"""

from dataclasses import dataclass, field
from enum import Enum
from typing import NamedTuple

# ---------------------------------------------------------------------------------- Tree


@dataclass(slots=True)
class Node:
    """A node and what is below it; a forest is a list of these."""
    at: int
    kind: int
    value: int
    kids: list


Way = Enum("Way", "plain look fn compr clause type")

WAYS = (Way.plain,) * 6 + (Way.fn,) + (Way.plain,) * 4 + (
    Way.look, Way.fn, Way.compr, Way.plain, Way.clause, Way.plain, Way.plain, Way.type)


def way(k):
    """How a kind is resolved."""
    return WAYS[k]


Pick = Enum("Pick", "through shut head name loop load param")

PICKS = (Pick.through,) * 5 + (Pick.loop, Pick.head, Pick.load, Pick.name, Pick.through, Pick.through) + (
    Pick.shut,) * 4 + (Pick.through, Pick.through, Pick.param, Pick.shut)


def pick(k):
    """How a kind is collected."""
    return PICKS[k]


def params(kids):
    """A function's parameter variables: its Params that have a Name."""
    return sum(x.kind == 17 and x.kids != [] for x in kids)


def params_in(forest):
    """Each function's scope number and parameter variables."""
    found = []
    for x in forest:
        if way(x.kind) is Way.fn:
            found.append((x.value, params(x.kids)))
        found += params_in(x.kids)
    return found


# ------------------------------------------------------------------------------- Binders


class Names(NamedTuple):
    """Which names begin with `_`, and whether Load passes names on."""
    hidden: list
    reexport: bool


class Marks(NamedTuple):
    """What stands around a target: a For, a Load, a Param."""
    loop: bool = False
    load: bool = False
    param: bool = False


unmarked = Marks()
looping = Marks(loop=True)


class Target(NamedTuple):
    """One Name that binds."""
    node: int
    name: int
    any: bool
    public: bool


def target(N, m, at, n):
    return Target(at, n, any=m.loop, public=m.param or (not N.hidden[n] and (not m.load or N.reexport)))


def gather(N, m, x):
    """The targets of one node."""
    p = pick(x.kind)
    if p is Pick.through:
        return collect(N, m, x.kids)
    if p is Pick.head:
        return [target(N, m, x.kids[0].at, x.kids[0].value)]
    if p is Pick.name:
        return [target(N, m, x.at, x.value)]
    if p is Pick.loop:
        return collect(N, m._replace(loop=True), x.kids)
    if p is Pick.load:
        return collect(N, m._replace(load=True), x.kids)
    if p is Pick.param:
        return collect(N, m._replace(param=True), x.kids)
    return []


def collect(N, m, forest):
    return [t for x in forest for t in gather(N, m, x)]


def targets(N, k, kids):
    """What a node binds for its inside: a Def its Params and its body, a Lambda its Params, a Compr its clauses'
    targets."""
    if k == 6:
        return collect(N, unmarked, kids[1:])
    if k == 12:
        return collect(N, unmarked, kids)
    if k == 13:
        return collect(N, looping, kids)
    return []


class Var(NamedTuple):
    """A block's variable."""
    name: int
    source: int
    entry: bool
    public: bool
    any: bool


def new_var(t):
    return Var(t.name, t.node, entry=False, public=t.public, any=t.any)


def again(t, v):
    return v._replace(public=v.public or t.public, any=True)


def merge(vs, ts):
    """A new name makes a variable, a known one becomes any, Public promotes."""
    known = {v.name: v for v in vs}
    for t in ts:
        known[t.name] = again(t, known[t.name]) if t.name in known else new_var(t)
    return list(known.values())


# -------------------------------------------------------------------------------- Module


class Entry(NamedTuple):
    name: int
    public: bool
    slot: int


class File(NamedTuple):
    names: Names
    entries: list
    globals: list
    root: list


def entry_var(e):
    return Var(e.name, 65535, entry=True, public=e.public, any=False)


def module_vars(F):
    return merge([entry_var(e) for e in F.entries], collect(F.names, unmarked, F.root))


Outer = Enum("Outer", "module global_ missing")


def outer(mods, globals_, n):
    """The module's names, then the globals: what it is, and its number there."""
    if n in mods:
        return Outer.module, mods[n]
    if n in globals_:
        return Outer.global_, globals_[n]
    return Outer.missing, None


def outer_of(F):
    mods = {v.name: i for i, v in enumerate(module_vars(F))}
    globals_ = {n: i for i, n in enumerate(F.globals)}
    return lambda n: outer(mods, globals_, n)


# --------------------------------------------------------------------------------- State


class Binding(NamedTuple):
    """A variable with its number, the scope that owns it and its slot there."""
    id: int
    var: Var
    local: bool
    owner: int
    slot: int


class Slot(NamedTuple):
    """A slot of a scope, and the binding whose value it holds."""
    scope: int
    num: int
    name: int
    id: int


class Copy(NamedTuple):
    scope: int
    parent: int
    child: int
    id: int


Kind = Enum("Kind", "local refused outside")


class Found(NamedTuple):
    """A local or refused binding with its slot, or what stands outside."""
    kind: Kind
    of: object
    slot: int | None = None


class Event(NamedTuple):
    """A name looked up: the Ident, its name, the scopes around it, innermost first, and what was found."""
    node: int
    name: int
    scopes: tuple
    found: Found


class Named(NamedTuple):
    """A Name and its binding."""
    node: int
    of: Binding


@dataclass
class St:
    """The state of the walks; `counts` and `held` only index `slots`."""
    made: list = field(default_factory=list)
    named: list = field(default_factory=list)
    slots: list = field(default_factory=list)
    copies: list = field(default_factory=list)
    log: list = field(default_factory=list)
    counts: dict = field(default_factory=dict)
    held: dict = field(default_factory=dict)


class Ctx(NamedTuple):
    """What a name can mean here, innermost block first; the scopes around; is it directly in a Type."""
    env: tuple
    scopes: tuple
    ty: bool


# --------------------------------------------------------------------------------- Block


def fresh(s, st):
    return st.counts.get(s, 0)


def add_slot(s, k, b, st):
    st.slots.append(Slot(s, k, b.var.name, b.id))
    st.counts[s] = fresh(s, st) + 1
    st.held.setdefault((s, b.id), k)


def new(s, v, st):
    return Binding(len(st.made), v, local=True, owner=s, slot=fresh(s, st))


def bind(s, vs, st):
    """Fresh bindings, each with a slot."""
    bs = []
    for v in vs:
        b = new(s, v, st)
        st.made.append(b)
        add_slot(s, b.slot, b, st)
        bs.append(b)
    return bs


def naming(ts, bs, st):
    by_name = {b.var.name: b for b in bs}
    st.named += [Named(t.node, by_name[t.name]) for t in ts]


def block(s, ts, st):
    """A block: its variables get bindings and slots, its Names their bindings."""
    bs = bind(s, merge([], ts), st)
    naming(ts, bs, st)
    return bs


# --------------------------------------------------------------------------------- First


def module_bindings(F):
    """An old entry keeps its slot, a new one has the number of those before it."""
    kept = [e.slot for e in F.entries]
    return [Binding(i, v, local=False, owner=0, slot=kept[i] if i < len(kept) else i)
            for i, v in enumerate(module_vars(F))]


def start(F):
    st = St(made=module_bindings(F))
    naming(collect(F.names, unmarked, F.root), st.made, st)
    return st


# -------------------------------------------------------------------------------- Second


def declare(N, forest, rows, st):
    """Walk two: the variables of each Def and Lambda, in node order."""
    for x in forest:
        if way(x.kind) is Way.fn:
            rows[x.value] = block(x.value, targets(N, x.kind, x.kids), st)
        declare(N, x.kids, rows, st)


# --------------------------------------------------------------------------------- Third


def hand(s, i, st):
    """The first slot of scope s that holds binding i."""
    return st.held.get((s, i))


def bring(scopes, b, st):
    """A local's slot in the innermost scope: at hand there, or copied from the scope outside, where it is brought
    first."""
    if not scopes:
        return b.slot
    s = scopes[0]
    k = hand(s, b.id, st)
    if k is None:
        parent = bring(scopes[1:], b, st)
        k = fresh(s, st)
        add_slot(s, k, b, st)
        st.copies.append(Copy(s, parent, k, b.id))
    return k


def inner(bs, c):
    return c._replace(env=({b.var.name: b for b in bs},) + c.env)


def enter(s, bs, c):
    return inner(bs, c)._replace(scopes=(s,) + c.scopes)


def below(w, c):
    """The context of a node's children."""
    if w in (Way.fn, Way.compr):
        return c._replace(ty=False)
    if w is Way.type:
        return c._replace(ty=True)
    return c


class Walk3:
    """Walk three: `N` the names, `D` each function's variables, `out` what stands outside all functions."""

    def __init__(self, N, D, out):
        self.N, self.D, self.out = N, D, out

    def look_up(self, x, c, st):
        b = next((names[x.value] for names in c.env if x.value in names), None)
        if b is None:
            found = Found(Kind.outside, self.out(x.value))
        else:
            found = Found(Kind.refused if c.ty else Kind.local, b, bring(c.scopes, b, st))
        st.log.append(Event(x.at, x.value, c.scopes, found))

    def each(self, forest, c, st):
        """Nodes one after the other, each with what is below it."""
        for x in forest:
            w = way(x.kind)
            if w is Way.look:
                self.look_up(x, c, st)
            elif x.kids:
                self.walk(x.kids, w, x.value, targets(self.N, x.kind, x.kids), below(w, c), st)

    def walk(self, kids, w, s, ts, c, st):
        """The children of a node that is resolved by w, has scope number s and binds ts."""
        if w is Way.fn:
            self.each(kids[:-1], c, st)
            self.each(kids[-1:], enter(s, self.D[s], c), st)
        elif w is Way.compr:
            self.each(kids[:1], c, st)
            bs = block(c.scopes[0], ts, st)
            self.each(kids[1:], inner(bs, c), st)
        elif w is Way.clause:
            self.each(kids[1:], c, st)
            self.each(kids[:1], c, st)
        else:
            self.each(kids, c, st)


outermost = Ctx(env=(), scopes=(0,), ty=False)


def resolved(F):
    """The state after the three walks."""
    st, rows = start(F), {}
    declare(F.names, F.root, rows, st)
    Walk3(F.names, rows, outer_of(F)).each(F.root, outermost, st)
    return st


# ------------------------------------------------------------------------------- Records


def captures(e):
    """The binding that a lookup captures: a local of another scope; a module name, from inside a function."""
    if e.found.kind is Kind.outside:
        where, number = e.found.of
        return number if where is Outer.module and len(e.scopes) > 1 else None
    return e.found.of.id if e.found.of.owner != e.scopes[0] else None


def binding_row(captured, b):
    v = b.var
    return (v.name, v.source, v.entry, v.public, v.any, b.id in captured, b.local, b.slot)


def name_row(x):
    return (x.node, 2 if x.of.local else 1, x.of.slot, x.of.id)


def answer_row(bs, e):
    """None where the answer stays empty."""
    if e.found.kind is Kind.local:
        return (e.node, 2, e.found.slot, e.found.of.id)
    if e.found.kind is Kind.refused:
        return None
    where, number = e.found.of
    if where is Outer.module:
        return (e.node, 1, bs[number].slot, number)
    if where is Outer.global_:
        return (e.node, 3, number, 0)
    return None


def error_row(e):
    if e.found.kind is Kind.refused:
        return (e.node, 2)
    if e.found.kind is Kind.outside and e.found.of[0] is Outer.missing:
        return (e.node, 1)
    return None


class Records(NamedTuple):
    """Document 01's records, as rows of numbers."""
    bindings: list
    scopes: list
    slots: list
    copies: list
    names: list
    answers: list
    errors: list


def records(F, st):
    captured = {captures(e) for e in st.log}
    counted = dict(params_in(F.root))
    return Records(
        bindings=[binding_row(captured, b) for b in st.made],
        scopes=[(counted.get(s, 0), fresh(s, st)) for s in range(len(counted) + 1)],
        slots=[(r.scope, r.name) for r in st.slots],
        copies=[(c.scope, c.parent, c.child) for c in st.copies],
        names=[name_row(x) for x in st.named],
        answers=[row for e in st.log if (row := answer_row(st.made, e))],
        errors=[row for e in st.log if (row := error_row(e))],
    )
