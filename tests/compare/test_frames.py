"""Frames by the plan: every local Ident finds its variable's last mark; without boxes some do not."""

import struct
import sys
import unittest
from itertools import chain
from pathlib import Path

import compare.frames
from compare.frames import Run
from files.corners import corners
from files.generate import FILES
from files.handwritten import Assign, Block, Def, Ident, Lambda, Name, Other, Plain, script
from words import answer, plan_bytes

HERE = Path(__file__).resolve().parent
# x is bound again after the closure was made
AGAIN = script(Def(Name("f"), Block(Assign(Name("x"), Other()), Assign(Name("g"), Lambda(Ident("x"))),
                                    Assign(Name("x"), Other()), Plain(Ident("x")))))


def asked(data):
    return data, answer.text(data), plan_bytes.packed(data)


class Frames(unittest.TestCase):

    @classmethod
    def setUpClass(cls):
        files = chain(corners("plan"), FILES["accepted"](300, 5), FILES["exhaustive"](300, 5))
        cls.planned = [one for one in map(asked, files) if one[2]]

    def test_enough(self):
        runs = [Run(*one) for one in self.planned]
        self.assertEqual([run.wrong for run in runs], [[]] * len(runs))
        self.assertGreater(sum(run.reads for run in runs), 400)

    def test_without_boxes(self):
        self.assertEqual(Run(*asked(AGAIN), boxes=False).wrong, [9])
        self.assertGreater(sum(Run(*one, boxes=False).wrong != [] for one in self.planned), 1)

    def test_a_plan_without_boxes(self):
        data, answers, plan = asked(AGAIN)
        unboxed = b"".join(struct.pack(">BBQQ", *record[:3], 0) for record in struct.iter_unpack(">BBQQ", plan))
        self.assertEqual((Run(data, answers, plan).wrong, Run(data, answers, unboxed).wrong), ([], [9]))

    def test_program(self):
        vaib = f"{sys.executable} {HERE.parent}/words/vaib"
        self.assertEqual(compare.frames.Frames(vaib, boxes=True).answers([AGAIN, b""]), [b"", b""])
        self.assertEqual(compare.frames.Frames(vaib, boxes=False).answers([AGAIN]), [b"Ident 9 reads something else\n"])
