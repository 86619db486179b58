"""Document 01's rules of the walks, each with a way to get it wrong.

A Rule quotes the document and edits one text of lexical.py so that the mirror breaks that rule
and keeps the others. The side-by-side runs must find each broken mirror, and the fixed files
in fixed/listed/ tell each of them from the right one.
"""

import importlib
import sys
import types
from pathlib import Path
from typing import NamedTuple
from unittest import mock

import readings


class Rule(NamedTuple):
    name: str
    says: str
    old: str
    new: str


RULES = [
    # First, the module.
    Rule("entry-visibility", "Each module entry makes a from-module binding: its visibility.",
         "entry=True, public=e.public", "entry=True, public=True"),
    Rule("entry-once", "Each module entry makes a from-module binding: at most once.",
         "public=e.public, any=False", "public=e.public, any=True"),
    Rule("def-body-entered", "Targets of the root are collected without entering Def bodies.",
         "return [target(N, m, x.kids[0].at, x.kids[0].value)]", "return collect(N, m, x.kids)"),
    Rule("lambda-entered", "Targets are collected without entering lambdas.",
         "if p is Pick.through:", "if p is Pick.through or x.kind in (1, 12, 14):"),
    Rule("compr-entered", "Targets are collected without entering comprehensions.",
         "if p is Pick.through:", "if p is Pick.through or x.kind in (13, 14):"),
    Rule("modify-not-collected", "Targets are collected: Modify.",
         "if p is Pick.through:", "if p is Pick.through and x.kind != 3:"),
    Rule("for-body-first", "Targets are collected: For (target, then body).",
         "return collect(N, m._replace(loop=True), x.kids)", "return collect(N, m._replace(loop=True), x.kids[::-1])"),
    Rule("tuple-backwards", "Targets are collected in order.",
         "return [t for x in forest for t in gather(N, m, x)]",
         "return [t for x in forest for t in (gather(N, m, x)[::-1] if x.kind == 9 else gather(N, m, x))]"),
    Rule("for-target-once", "It is \"any\" if first met inside a For, its own target included.",
         "return collect(N, m._replace(loop=True), x.kids)",
         "return collect(N, m, x.kids[:1]) + collect(N, m._replace(loop=True), x.kids[1:])"),
    Rule("for-body-once", "It is \"any\" if first met inside a For.",
         "return collect(N, m._replace(loop=True), x.kids)",
         "return collect(N, m._replace(loop=True), x.kids[:1]) + collect(N, m, x.kids[1:])"),
    Rule("def-in-for-once", "A Def's name met inside a For is any, too.",
         "return [target(N, m, x.kids[0].at, x.kids[0].value)]",
         "return [target(N, unmarked, x.kids[0].at, x.kids[0].value)]"),
    Rule("again-once", "A name already bound becomes \"any\".",
         "public=v.public or t.public, any=True", "public=v.public or t.public, any=v.any or t.any"),
    Rule("entry-again-once", "A name already bound, from-module included, becomes \"any\".",
         "public=v.public or t.public, any=True", "public=v.public or t.public, any=not v.entry"),
    Rule("hidden-public", "Visibility of a target: Private if the name begins with `_`.",
         "(not N.hidden[n] and (not m.load or N.reexport))", "not m.load or N.reexport"),
    Rule("load-public", "Private if bound by Load with reexport 0.",
         "(not m.load or N.reexport)", "True"),
    Rule("load-private", "With reexport 1 a Load is Public.",
         "(not m.load or N.reexport)", "not m.load"),
    Rule("load-hidden-public", "With reexport 1 a Load of a name that begins with `_` is Private.",
         "(not N.hidden[n] and (not m.load or N.reexport))", "(N.reexport if m.load else not N.hidden[n])"),
    Rule("no-promotion", "A Public target promotes a Private binding.",
         "public=v.public or t.public, any=True", "any=True"),
    Rule("entry-not-promoted", "A Public target promotes a Private binding, an entry's too.",
         "public=v.public or t.public, any=True", "public=v.public or (t.public and not v.entry), any=True"),
    Rule("demoted", "None is demoted.",
         "public=v.public or t.public, any=True", "public=t.public, any=True"),
    Rule("last-source", "A new name makes a binding; a name already bound keeps it.",
         "public=v.public or t.public, any=True", "public=v.public or t.public, any=True, source=t.node"),
    Rule("entry-slot-lost", "An old entry keeps its slot.",
         "slot=kept[i] if i < len(kept) else i)", "slot=i)"),
    Rule("new-slot-above", "A new entry's slot is the number of entries so far.",
         "slot=kept[i] if i < len(kept) else i)",
         "slot=kept[i] if i < len(kept) else max(kept, default=-1) + 1 + i - len(kept))"),
    # Second, each Def and Lambda.
    Rule("children-first", "Parent before children.",
         "            rows[x.value] = block(x.value, targets(N, x.kind, x.kids), st)\n"
         "        declare(N, x.kids, rows, st)",
         "            declare(N, x.kids, rows, st)\n"
         "            rows[x.value] = block(x.value, targets(N, x.kind, x.kids), st)\n"
         "        else:\n"
         "            declare(N, x.kids, rows, st)"),
    Rule("by-scope-number", "Each Def and Lambda in node order, not by scope number.",
         "    for x in forest:\n        if way(x.kind) is Way.fn:\n            rows",
         "    for x in sorted(forest, key=lambda x: x.value if x.kind == 6 else 0):\n"
         "        if way(x.kind) is Way.fn:\n            rows"),
    Rule("param-private", "Each named Param makes a binding, always Public.",
         "public=m.param or (", "public=("),
    Rule("param-any", "Each named Param makes a binding, once.",
         "any=m.loop,", "any=m.loop or m.param,"),
    Rule("params-last", "Params first, then the body.",
         "return collect(N, unmarked, kids[1:])", "return collect(N, unmarked, kids[-1:] + kids[1:-1])"),
    Rule("lambda-backwards", "A Lambda's Params in order.",
         "        return collect(N, unmarked, kids)\n", "        return collect(N, unmarked, kids[::-1])\n"),
    Rule("def-binds-itself", "A Def's own name is bound outside it.",
         "return collect(N, unmarked, kids[1:])", "return collect(N, unmarked, kids)"),
    Rule("unnamed-counted", "Parameter variables are the named Params.",
         "return sum(x.kind == 17 and x.kids != [] for x in kids)", "return sum(x.kind == 17 for x in kids)"),
    Rule("for-around-def", "A For around the Def doesn't count as a loop.",
         "rows, st):\n"
         "    \"\"\"Walk two: the variables of each Def and Lambda, in node order.\"\"\"\n"
         "    for x in forest:\n"
         "        if way(x.kind) is Way.fn:\n"
         "            rows[x.value] = block(x.value, targets(N, x.kind, x.kids), st)\n"
         "        declare(N, x.kids, rows, st)",
         "rows, st, loop=False):\n"
         "    for x in forest:\n"
         "        if way(x.kind) is Way.fn:\n"
         "            ts = [t._replace(any=t.any or loop) for t in targets(N, x.kind, x.kids)]\n"
         "            rows[x.value] = block(x.value, ts, st)\n"
         "        declare(N, x.kids, rows, st, loop or x.kind == 5)"),
    Rule("slots-from-one", "Each then gets a local slot from 0 upwards.",
         "return st.counts.get(s, 0)", "return st.counts.get(s, 1 if s else 0)"),
    # Third, resolving.
    Rule("value-first", "Assign: target's expressions, type, value.",
         "        else:\n            self.each(kids, c, st)",
         "        elif kids[0].kind in (8, 9, 10) and kids[-1].kind in (11, 12, 13, 14):\n"
         "            self.each(kids[-1:] + kids[:-1], c, st)\n"
         "        else:\n            self.each(kids, c, st)"),
    Rule("defaults-inside", "All Params' types and defaults in the scope outside.",
         "            self.each(kids[:-1], c, st)\n", "            self.each(kids[:-1], enter(s, self.D[s], c), st)\n"),
    Rule("return-type-inside", "Then the return type, in the scope outside.",
         "            self.each(kids[:-1], c, st)\n            self.each(kids[-1:], ",
         "            self.each([x for x in kids[:-1] if x.kind != 18], c, st)\n"
         "            self.each([x for x in kids if x.kind == 18] + kids[-1:], "),
    Rule("return-type-first", "All Params' types and defaults, then the return type.",
         "            self.each(kids[:-1], c, st)\n",
         "            self.each(sorted(kids[:-1], key=lambda x: x.kind == 17), c, st)\n"),
    Rule("body-outside", "Then the body inside.",
         "self.each(kids[-1:], enter(s, self.D[s], c), st)", "self.each(kids[-1:], inner(self.D[s], c), st)"),
    Rule("body-first", "All Params' types and defaults before the body.",
         "            self.each(kids[:-1], c, st)\n            self.each(kids[-1:], enter(s, self.D[s], c), st)",
         "            self.each(kids[-1:], enter(s, self.D[s], c), st)\n            self.each(kids[:-1], c, st)"),
    Rule("bound-before-in", "The first clause's expression, before any variable exists.",
         "            self.each(kids[:1], c, st)\n            bs = block(c.scopes[0], ts, st)\n",
         "            bs = block(c.scopes[0], ts, st)\n            self.each(kids[:1], inner(bs, c), st)\n"),
    Rule("first-target-inside", "Then its target's expressions, before any variable exists.",
         "            self.each(kids[:1], c, st)\n            bs = block(c.scopes[0], ts, st)\n",
         "            self.each(kids[0].kids[1:], c, st)\n            bs = block(c.scopes[0], ts, st)\n"
         "            self.each(kids[0].kids[:1], inner(bs, c), st)\n"),
    Rule("slots-before-in", "The variables' slots are made after the first clause.",
         "            self.each(kids[:1], c, st)\n            bs = block(c.scopes[0], ts, st)\n",
         "            bs = block(c.scopes[0], ts, st)\n            self.each(kids[:1], c, st)\n"),
    Rule("clause-by-clause", "Then all clauses' variables are bound, before the later clauses.",
         "            bs = block(c.scopes[0], ts, st)\n            self.each(kids[1:], inner(bs, c), st)",
         "            for x in kids:\n"
         "                if x is not kids[0]:\n"
         "                    self.each([x], c, st)\n"
         "                c = inner(block(c.scopes[0], collect(self.N, looping, [x]), st), c)"),
    Rule("compr-once", "All clauses' variables are bound, as inside a loop.",
         "return collect(N, looping, kids)", "return collect(N, unmarked, kids)"),
    Rule("clauses-backwards", "All clauses' variables are bound, in order.",
         "return collect(N, looping, kids)", "return collect(N, looping, kids[::-1])"),
    Rule("twice-in-compr", "Each name a fresh slot, a name twice in one comprehension the same.",
         "            bs = block(c.scopes[0], ts, st)\n",
         "            bs = [b for t in ts for b in block(c.scopes[0], [t], st)]\n"),
    Rule("compr-in-scope-0", "A fresh slot of the current scope.",
         "bs = block(c.scopes[0], ts, st)", "bs = block(c.scopes[-1], ts, st)"),
    Rule("slot-reused", "Slots are never used again.",
         "            self.each(kids[1:], inner(bs, c), st)\n",
         "            self.each(kids[1:], inner(bs, c), st)\n"
         "            st.counts[c.scopes[0]] = fresh(c.scopes[0], st) - len(bs)\n"),
    Rule("target-before-in", "A ForClause: expression, then target's expressions.",
         "            self.each(kids[1:], c, st)\n            self.each(kids[:1], c, st)",
         "            self.each(kids[:1], c, st)\n            self.each(kids[1:], c, st)"),
    Rule("elements-first", "Then later clauses in turn, then the elements.",
         "self.each(kids[1:], inner(bs, c), st)",
         "self.each(sorted(kids[1:], key=lambda x: x.kind), inner(bs, c), st)"),
    Rule("meanings-stay", "At the end earlier meanings return.",
         "        for x in forest:\n            w = way(x.kind)\n",
         "        for x in forest:\n            w = way(x.kind)\n"
         "            if w is Way.compr:\n"
         "                self.each([x.kids[0]], c, st)\n"
         "                c = inner(block(c.scopes[0], targets(self.N, 13, x.kids), st), c)\n"
         "                self.each(x.kids[1:], c, st)\n"
         "                continue\n"),
    Rule("outermost-binding", "A name means the innermost binding.",
         "for names in c.env if", "for names in c.env[::-1] if"),
    Rule("globals-first", "Then module, then globals.",
         "    if n in mods:\n        return Outer.module, mods[n]\n    if n in globals_:\n"
         "        return Outer.global_, globals_[n]\n",
         "    if n in globals_:\n        return Outer.global_, globals_[n]\n    if n in mods:\n"
         "        return Outer.module, mods[n]\n"),
    Rule("globals-by-name", "A global by its number in the list.",
         "globals_ = {n: i for i, n in enumerate(F.globals)}", "globals_ = {n: n for n in F.globals}"),
    Rule("not-captured", "A local found in an outer scope becomes captured.",
         "return e.found.of.id if e.found.of.owner != e.scopes[0] else None", "return None"),
    Rule("captured-at-home", "Only a local found in an outer scope becomes captured.",
         "return e.found.of.id if e.found.of.owner != e.scopes[0] else None", "return e.found.of.id"),
    Rule("copied-twice", "Copied into each scope once.",
         "    if k is None:\n", "    if k is None or s != b.owner:\n"),
    Rule("innermost-copy-first", "Copied into each scope inside that one, outermost first.",
         "        parent = bring(scopes[1:], b, st)\n        k = fresh(s, st)\n        add_slot(s, k, b, st)\n"
         "        st.copies.append(Copy(s, parent, k, b.id))\n",
         "        k, at = fresh(s, st), len(st.copies)\n        add_slot(s, k, b, st)\n"
         "        parent = bring(scopes[1:], b, st)\n        st.copies.insert(at, Copy(s, parent, k, b.id))\n"),
    Rule("scope-left-out", "Copied into each scope inside that one.",
         "parent = bring(scopes[1:], b, st)",
         "parent = bring(scopes[1:] if b.owner == scopes[1] else scopes[2:], b, st)"),
    Rule("copied-from-owner", "Each copy is taken from the scope directly outside.",
         "        parent = bring(scopes[1:], b, st)\n",
         "        bring(scopes[1:], b, st)\n        parent = b.slot\n"),
    Rule("module-not-captured", "A module name met inside a function becomes captured.",
         "where is Outer.module and len(e.scopes) > 1", "False"),
    Rule("module-captured-at-top", "A module name met outside functions does not become captured.",
         "where is Outer.module and len(e.scopes) > 1", "where is Outer.module"),
    Rule("local-in-type", "Directly in a Type, a local gives error 2.",
         "Kind.refused if c.ty else Kind.local", "Kind.local"),
    Rule("refused-not-captured", "The answer stays empty, yet capture remains.",
         "return e.found.of.id if e.found.of.owner != e.scopes[0] else None",
         "return e.found.of.id if e.found.kind is Kind.local and e.found.of.owner != e.scopes[0] else None"),
    Rule("refused-not-copied", "The answer stays empty, yet copies remain.",
         "b, bring(c.scopes, b, st))", "b, None if c.ty else bring(c.scopes, b, st))"),
    Rule("refused-answered", "The answer stays empty.",
         "    if e.found.kind is Kind.refused:\n        return None\n",
         "    if e.found.kind is Kind.refused:\n        return (e.node, 2, e.found.slot, e.found.of.id)\n"),
    Rule("module-in-type", "Directly in a Type, a module name or a global is no error.",
         "found = Found(Kind.outside, self.out(x.value))",
         "found = Found(Kind.outside, (Outer.missing, None) if c.ty else self.out(x.value))"),
    Rule("lambda-in-type", "A Lambda inside the type is free of this.",
         "if w in (Way.fn, Way.compr):", "if w is Way.compr:"),
    Rule("compr-in-type", "A Compr inside the type is free of this.",
         "if w in (Way.fn, Way.compr):", "if w is Way.fn:"),
    Rule("clause-in-type", "A Compr inside the type is free of this, its first clause too.",
         "            self.each(kids[:1], c, st)\n            bs",
         "            self.each(kids[:1], c._replace(ty=True), st)\n            bs"),
    Rule("type-lasts", "Directly in a Type, not after it.",
         "            w = way(x.kind)\n",
         "            w = way(x.kind)\n            c = below(w, c) if w is Way.type else c\n"),
]

EDITED = Path(__file__).resolve().parent / "lexical.py"


class Broken:
    """The mirror with one rule broken, to be asked as a program is."""

    def __init__(self, rule):
        source = EDITED.read_text()
        if source.count(rule.old) != 1:
            raise ValueError(f"{rule.name}: its text stands {source.count(rule.old)} times in {EDITED.name}")
        lexical = types.ModuleType("readings.lexical")
        known = {"readings.lexical": lexical}
        with mock.patch.dict(sys.modules, known), mock.patch.dict(vars(readings), lexical=lexical):
            exec(compile(source.replace(rule.old, rule.new), EDITED.name, "exec"), vars(lexical))
            for module in ("meaning", "mirror"):
                sys.modules.pop(f"readings.{module}", None)
                vars(readings).pop(module, None)
            self.answer = importlib.import_module("readings.mirror").answer

    def answers(self, files):
        return [self.answer(data, full=True) for data in files]
