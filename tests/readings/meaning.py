"""What a name means, outward over the node tree: no slots, no copies, no states.

The first part follows specs/Meaning and specs/Blocks of crate `lexical`, under the same
names. The second holds a resolved file against it: each Ident's answer is what its meaning
says, following copies from it ends at the binding's own slot, and nothing is copied that no
Ident needs; each Name's binding is the one of its block, with every field that the block
gives it.
"""

from typing import NamedTuple

from readings.lexical import Kind, Pick, Var, Way, collect, outer_of, pick, targets, unmarked, way


class Around(NamedTuple):
    """An enclosing node: how it binds, its scope number, what it binds, and whether the way comes from its first
    child, from its last."""
    way: Way
    scope: int
    targets: list
    first: bool
    last: bool


class Site(NamedTuple):
    """An Ident with the nodes around it, innermost first."""
    node: int
    name: int
    above: tuple


def reach(a):
    """A Def's or Lambda's names reach its last child, a comprehension's all but its first."""
    if a.way is Way.fn:
        return a.last
    return a.way is Way.compr and not a.first


def declares(n, ts):
    """The first Name that declares n among some targets."""
    return next((t.node for t in ts if t.name == n), None)


def scopes_of(above):
    """The functions whose inside this is, innermost first, and the module."""
    return tuple(a.scope for a in above if a.way is Way.fn and reach(a)) + (0,)


def owner_of(a, up):
    """The scope that a block's variables belong to: a function's own, for a comprehension the function around it."""
    return a.scope if a.way is Way.fn else scopes_of(up)[0]


def declared(n, above):
    """The scope that n belongs to and the Name that declares it, seen from inside these nodes."""
    for i, a in enumerate(above):
        if reach(a) and (name := declares(n, a.targets)) is not None:
            return owner_of(a, above[i + 1:]), name
    return None


def in_type(above):
    """Directly in a Type: no Def, Lambda or Compr between."""
    binders = (a.way for a in above if a.way in (Way.type, Way.fn, Way.compr))
    return next(binders, None) is Way.type


def meaning(out, site):
    """A local of a scope, by the Name that declares it; such a one directly in a type; or from outside."""
    d = declared(site.name, site.above)
    if d is None:
        return Kind.outside, out(site.name)
    return (Kind.refused if in_type(site.above) else Kind.local), d


def sites(N, forest, w, s, ts, up, wanted):
    """The nodes of a wanted kind among the children of a node, in node order; `up` is around that node."""
    for i, x in enumerate(forest):
        here = (Around(w, s, ts, i == 0, i == len(forest) - 1),) + up
        if wanted(x.kind):
            yield Site(x.at, x.value, here)
        yield from sites(N, x.kids, way(x.kind), x.value, targets(N, x.kind, x.kids), here, wanted)


def sites_of(F):
    """The Idents of a file, in node order."""
    return sites(F.names, F.root, Way.plain, 0, [], (), lambda k: way(k) is Way.look)


def names_of(F):
    """The Names of a file, in node order."""
    return sites(F.names, F.root, Way.plain, 0, [], (), lambda k: pick(k) is Pick.name)


def block_around(above):
    """The innermost Def, Lambda or Compr around a place: the scope that owns its variables, its targets. None: the
    module."""
    for i, a in enumerate(above):
        if a.way in (Way.fn, Way.compr):
            return owner_of(a, above[i + 1:]), a.targets
    return None


def block_of(above):
    """A Name's block: a Def's own name, its first child, belongs to the block around the Def."""
    own = above[0].way is Way.fn and above[0].first
    return block_around(above[1:] if own else above)


def made(entry, ts, n):
    """The variable that a module entry, if there is one, and a block's targets make of a name."""
    mine = [t for t in ts if t.name == n]
    return Var(
        name=n,
        source=65535 if entry else mine[0].node,
        entry=entry is not None,
        public=bool(entry and entry.public) or any(t.public for t in mine),
        any=(entry is not None) + len(mine) >= 2 or bool(mine) and mine[0].any,
    )


def follow(incoming, scopes, slot):
    """Where copies lead from a slot of the innermost scope: a scope and its slot. `incoming` gives, for a scope and
    a slot filled by a copy, the slot of the scope outside that it was copied from."""
    for s in scopes:
        if (s, slot) not in incoming:
            return s, slot
        slot = incoming[s, slot]
    raise AssertionError("a copy into scope 0")


def check(F, st):
    """Fail unless a resolved file answers each Ident by its meaning and each Name by its block."""
    check_idents(F, st)
    check_names(F, st)
    check_copies(st)


def check_names(F, st):
    rows = {x.node: x.of for x in st.named}
    entries = {e.name: e for e in F.entries}
    root = collect(F.names, unmarked, F.root)
    for site in names_of(F):
        b, block = rows.pop(site.node), block_of(site.above)
        if block is None:
            assert not b.local and b.var == made(entries.get(site.name), root, site.name), (site, b)
        else:
            assert (b.local, b.owner) == (True, block[0]) and b.var == made(None, block[1], site.name), (site, b)
    assert not rows, f"told, but no Name: {rows}"
    for i, b in enumerate(st.made):
        assert b.id == i and b.local == (i >= sum(not c.local for c in st.made)), b
        if not b.local:
            assert b.var == made(entries.get(b.var.name), root, b.var.name), b
            assert b.slot == (F.entries[i].slot if i < len(F.entries) else i), b


def check_copies(st):
    filled = [(c.scope, c.child) for c in st.copies]
    assert len(filled) == len(set(filled)) and 0 not in {s for s, _ in filled}, "a slot filled twice, or in scope 0"
    own = [(b.owner, b.slot) for b in st.made if b.local]
    assert len(own) == len(set(own)) and not set(own) & set(filled), "a binding's own slot, filled or shared"


def check_idents(F, st):
    out = outer_of(F)
    events = {e.node: e for e in st.log}
    incoming = {(c.scope, c.child): c.parent for c in reversed(st.copies)}
    needed = set()
    for site in sites_of(F):
        e = events.pop(site.node)
        kind, what = meaning(out, site)
        assert e.name == site.name and e.scopes == scopes_of(site.above), (e, site)
        assert e.found.kind is kind, (e, kind)
        if kind is Kind.outside:
            assert e.found.of == what, (e, what)
            continue
        b = e.found.of
        assert (b.owner, b.var.source) == what and b.var.name == site.name and st.made[b.id] is b, (e, what)
        assert follow(incoming, e.scopes, e.found.slot) == (b.owner, b.slot), e
        needed |= {(s, b.id) for s in e.scopes[:e.scopes.index(b.owner)]}
    assert not events, f"looked up, but no Ident: {events}"
    assert sorted(needed) == sorted((c.scope, c.id) for c in st.copies), "copies that no Ident needs"
