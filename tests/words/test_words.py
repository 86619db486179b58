"""The second readings of document 02: on document 01's examples, by their laws, and told from wrong ones."""

import struct
import subprocess
import sys
import unittest
from contextlib import nullcontext
from itertools import accumulate, chain
from pathlib import Path
from unittest import mock

import words
from files.corners import corners
from files.examples import EXAMPLES, LISTING
from files.generate import FILES
from readings import meaning, mirror
from readings.lexical import Kind, Way, outer_of
from readings.meaning import sites_of
from words import answer, declaration, plan, plan_bytes, readers

HERE = Path(__file__).resolve().parent
EXAMPLE = {what.split(":")[0]: data for what, data, _ in EXAMPLES}
ZERO = "0" * 16


def told(word, example):
    """The lines for an example, but for those of a node that is no Ident."""
    text = words.module(word).text(EXAMPLE[example]).decode()
    return [line for line in text.splitlines() if not line.endswith("not an Ident")]


def accepted(count, seed):
    """What accepted files are resolved to."""
    for data in FILES["accepted"](count, seed):
        number, r = mirror.resolved(data)
        if number == 0:
            yield data, r


class Examples(unittest.TestCase):
    """Written down by hand."""

    def test_readers(self):
        for example, lines in {
            "1": ["answer 0 bindings 3 globals 0", "R 0 0 0:", "R 1 0 1: 9", "R 2 1 1: 10"],
            "6": ["answer 0 bindings 1 globals 1", "R 0 0 1: 5", "G 0 0 1: 4"],
            "7": ["answer 0 bindings 2 globals 0", "R 0 0 0:", "R 1 0 2: 7 8"],
            "8": ["answer 0 bindings 4 globals 0", "R 0 0 0:", "R 1 0 0:", "R 2 0 0:", "R 3 0 0:"],
            "10": ["answer 0 bindings 4 globals 0", "R 0 0 0:", "R 1 0 1: 9", "R 2 1 0:", "R 3 1 0:"],
        }.items():
            self.assertEqual(told("readers", example), lines)

    def test_declaration(self):
        for example, lines in {
            "1": ["answer 0 nodes 12", "D 9 name 3", "D 10 name 7", "D 11 not found"],
            "6": ["answer 0 nodes 6", "D 4 global", "D 5 name 3"],
            "7": ["answer 0 nodes 9", "D 7 name 6", "D 8 name 6"],
            "8": ["answer 0 nodes 11", "D 9 name 3"],
            "9": ["answer 0 nodes 8", "D 6 not found"],
            "10": ["answer 0 nodes 10", "D 9 name 3"],
        }.items():
            self.assertEqual(told("declaration", example), lines)
        text = declaration.text(EXAMPLE["1"]).splitlines()
        self.assertEqual((len(text), text[1], text[13]), (14, b"D 0 not an Ident", b"D 12 not an Ident"))

    def test_plan(self):
        first, second = "8" + "0" * 15, "4" + "0" * 15  # the masks of slots 0 and 1
        for example, lines in {
            "1": ["answer 0 scopes 3 module 1", f"F 0 0 0 {ZERO} {ZERO} 0", f"F 1 1 1 {ZERO} {first} 1",
                  f"F 2 2 1 {second} {second} 1"],
            "2": ["answer 0 scopes 1 module 1", f"F 0 0 0 {ZERO} {ZERO} 0"],
            "6": ["answer 0 scopes 1 module 0", f"F 0 1 0 {ZERO} {ZERO} 0"],
            "8": ["answer 0 scopes 3 module 1", f"F 0 0 0 {ZERO} {ZERO} 0", f"F 1 2 1 {ZERO} {first} 1",
                  f"F 2 2 0 {second} {second} 1"],
            "10": ["answer 0 scopes 4 module 1", f"F 0 0 0 {ZERO} {ZERO} 0", f"F 1 2 1 {ZERO} {first} 1",
                   f"F 2 2 0 {second} {second} 1", f"F 3 1 0 {first} {first} 1"],
        }.items():
            self.assertEqual(told("plan", example), lines)

    def test_base(self):
        self.assertEqual("\n".join(told("list", "1")) + "\n", LISTING)
        self.assertEqual(told("judge", "1"), ["answer 0"])
        found = answer.text(EXAMPLE["1"])
        self.assertEqual(struct.unpack_from(answer.HEAD, found), (0, 3, 1, 3, 1, 1, 0, 0))
        self.assertEqual(found[32 + 4 * 9:][:4].hex(), "80008001")            # node 9: local, slot 1, binding 1
        self.assertEqual(found[32 + 8192 + 8:][:8].hex(), "0001000358000000")  # a: node 3, public, captured, local

    def test_refused(self):
        for word in words.WORDS:
            said = {"answer": answer.text(b""), "plan-bytes": b"standard error: answer 2\n"}.get(word, b"answer 2\n")
            self.assertEqual(words.module(word).text(b""), said)
        self.assertEqual(answer.text(b""), bytes([0, 0, 0, 2]) + bytes(77852))
        self.assertEqual([plan.text(data) for data in corners("plan")].count(b"answer 15\n"), 12)

    def test_program(self):
        done = subprocess.run([sys.executable, HERE / "vaib", "readers"], input=EXAMPLE["1"], capture_output=True)
        self.assertEqual(done.stdout, readers.text(EXAMPLE["1"]))


class Laws(unittest.TestCase):

    def test_readers(self):
        """By the meanings: a local's readers are the Idents that mean its declaration and are not refused."""
        for _, r in accepted(300, 1):
            of_binding, of_global = readers.readers(r.records, r.file.globals)
            self.assertEqual(sorted(chain(*of_binding, *of_global)), sorted(row[0] for row in r.records.answers))
            meant = {}
            for site in sites_of(r.file):
                kind, what = meaning.meaning(outer_of(r.file), site)
                if kind is Kind.local:
                    meant.setdefault(what[1], []).append(site.node)
            for row, nodes in zip(r.records.bindings, of_binding):
                if row[plan.LOCAL]:
                    self.assertEqual(nodes, meant.get(row[1], []))

    def test_declaration(self):
        """Where resolving accepts the file: the source of the binding that the Ident's record or refusal names."""
        for _, r in accepted(300, 2):
            found = declaration.declarations(r.file)
            for e in r.state.log:
                if e.found.kind is not Kind.outside:
                    self.assertEqual(found[e.node], b"name %d" % e.found.of.var.source)
            for node, class_, _, binding in r.records.answers:
                if class_ == readers.MODULE:
                    source = r.records.bindings[binding][1]
                    self.assertEqual(found[node], b"module list" if source == 65535 else b"name %d" % source)
            for what, nodes in ((b"global", [row[0] for row in r.records.answers if row[1] == readers.GLOBAL]),
                                (b"not found", [node for node, code in r.records.errors if code == 1])):
                self.assertEqual({node for node in found if found[node] == what}, set(nodes))

    def test_plan(self):
        """A copy leads from a boxed slot to a boxed slot; reading the packed plan gives it again."""
        for data, r in accepted(300, 3):
            around = {e.scopes[i]: e.scopes[i + 1] for e in r.state.log for i in range(len(e.scopes) - 1)}
            if found := plan.frames(r):
                boxed = [{slot for slot in range(64) if frame.boxed >> 63 - slot & 1} for frame in found]
                for scope, parent, child in r.records.copies:
                    self.assertIn(child, boxed[scope])
                    self.assertIn(parent, boxed[around[scope]])
                packed = plan_bytes.packed(data)
                self.assertEqual([plan.Frame(*record) for record in struct.iter_unpack(">BBQQ", packed)], found)


def last(n, ts):
    return next((t.node for t in reversed(ts) if t.name == n), None)


def unreached(n, above):
    """The first block that declares the name decides, reached or not."""
    for i, a in enumerate(above):
        if (name := meaning.declares(n, a.targets)) is not None:
            return (meaning.owner_of(a, above[i + 1:]), name) if meaning.reach(a) else None
    return None


def with_refused(records, globals_, right=readers.readers):
    of_binding, of_global = right(records, globals_)
    refused = [node for node, code in records.errors if code == 2]
    return [of_binding[0] + refused] + of_binding[1:] if of_binding else [], of_global


def mixed_up(records, globals_, right=readers.readers):
    of_binding, of_global = right(records, globals_)
    none = [[]] * max(len(of_binding), len(of_global))
    return [one + two for one, two in zip(of_binding, of_global + none)], none[:len(of_global)]


def frames_with(change, right=plan.frames):
    return mock.patch("words.plan.frames", lambda r: (found := right(r)) and [change(frame) for frame in found])


# Programs that someone in a hurry would write.
WRONG = {
    "readers": {
        "the first reader left out": mock.patch(
            "words.readers.rows", lambda c, lists, right=readers.rows: right(c, [nodes[1:] for nodes in lists])),
        "a global's readers under the binding of its number": mock.patch("words.readers.readers", mixed_up),
        "starts counted from 1": mock.patch(
            "words.readers.accumulate", lambda counts, initial: accumulate(counts, initial=1)),
        "a refused Ident listed": mock.patch("words.readers.readers", with_refused),
        "readers in the order of resolving": mock.patch("words.readers.sorted", list, create=True),
    },
    "declaration": {
        "the last Name of the block": mock.patch("readings.meaning.declares", last),
        "a comprehension's variable reaching its first clause": mock.patch(
            "readings.meaning.reach", lambda a, right=meaning.reach: right(a) or a.way is Way.compr),
        "a default looking into its own function": mock.patch(
            "readings.meaning.reach", lambda a, right=meaning.reach: right(a) or a.way is Way.fn),
        "stopping at a block that does not reach the node": mock.patch("words.declaration.declared", unreached),
        "an entry that is bound again has that Name": mock.patch(
            "words.declaration.module_vars", lambda F, right=declaration.module_vars: right(F._replace(entries=[]))
            + [v for v in right(F) if v.name not in {w.name for w in right(F._replace(entries=[]))}]),
    },
    "plan": {
        "slot 0 lowest": mock.patch("words.plan.mask", lambda slots: sum(1 << slot for slot in slots)),
        "a captured parameter not boxed": frames_with(
            lambda f: f._replace(boxed=f.boxed & (1 << 64 - f.parameters) - 1)),
        "the copy boxed but not its source": frames_with(lambda f: f._replace(boxed=f.boxed & f.copied)),
        "the copy not boxed": frames_with(lambda f: f._replace(boxed=f.boxed & ~f.copied)),
        "bare parameters counted": mock.patch(
            "readings.lexical.params", lambda kids: sum(kid.kind == 17 for kid in kids)),
        "65 slots accepted": mock.patch("words.plan.MOST_SLOTS", 65),
        "64 slots refused": mock.patch("words.plan.MOST_SLOTS", 63),
    },
}


class Wrong(unittest.TestCase):

    def test_each_is_found(self):
        for word, ways in WRONG.items():
            files = [*corners(word), *FILES["mixed"](100, 1)]
            right = list(map(words.module(word).text, files))
            for what, wrong in {"nothing": nullcontext(), **ways}.items():
                with self.subTest(f"{word}: {what}"), wrong:
                    differ = sum(words.module(word).text(data) != text for data, text in zip(files, right))
                    self.assertEqual(differ > 0, what != "nothing")
