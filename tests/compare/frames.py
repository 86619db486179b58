#!/usr/bin/env python3
"""Is the frame plan enough for an interpreter? Frames made by `vaib plan-bytes` and the copies of `vaib answer`.

No interpreter: it goes over the tree once. A function gets its frame by the plan and the copy records alone: slots,
boxes, copies from the frame directly around. Where a Name binds a local, a mark is put into its slot; where an Ident
was answered local, its slot must hold the last mark of the variable that it means (readings/meaning.py). A function is
called when the frame that made it has come to its end, so that variables are bound again after the closure was made.
With --no-boxes the box mask is ignored and values are copied, which must not be enough. The last line counts the files
on which an Ident reads something else, and the exit status is 1 if there are any.
"""

import argparse
import struct
import sys
from collections import defaultdict
from itertools import chain
from pathlib import Path

sys.path.insert(0, str(Path(__file__).resolve().parents[1]))

from compare.comparison import Comparison  # noqa: E402
from compare.programs import VAIB, Each  # noqa: E402
from files.corners import corners  # noqa: E402
from files.generate import KINDS_HELP, chosen  # noqa: E402
from readings import mirror, second_judge  # noqa: E402
from readings.lexical import Way, targets, way  # noqa: E402
from readings.meaning import declared, declares, sites_of  # noqa: E402
from words.answer import rows  # noqa: E402
from words.plan import FIRST, Frame  # noqa: E402

PARAM, NAME, IDENT = 17, 8, 11
LOCAL = 2  # the class of a local


class Box:
    """A cell that several frames share."""
    value = None


def variables(F):
    """For each local Name and Ident the Name that declares what it means."""
    found = {}
    for site in sites_of(F):
        if local := declared(site.name, site.above):
            found[site.node] = local[1]
    waiting = list(F.root)
    while waiting:
        x = waiting.pop()
        waiting += x.kids
        bound = targets(F.names, x.kind, x.kids)
        found |= {t.node: declares(t.name, bound) for t in bound}
    return found


class Run:
    """Goes over an accepted file's tree, with the frames of a packed plan."""

    def __init__(self, data, answer, plan, boxes=True):
        F = mirror.file_of(second_judge.judged(data)[1])
        self.plans = [Frame(*record) for record in struct.iter_unpack(">BBQQ", plan)]
        self.slots = {node: slot for node, (kind, slot, _) in enumerate(rows(answer, "nodes")) if kind == LOCAL}
        self.copies = defaultdict(list)
        for scope, parent, child in rows(answer, "copies"):
            if scope:  # zeros behind the records: no copy leads into scope 0
                self.copies[scope].append((parent, child))
        self.variables, self.boxes = variables(F), boxes
        self.last, self.wrong, self.reads, self.marks = {}, [], 0, 0
        self.call(0, [], F.root, {})

    def frame(self, scope, arrived):
        """A new frame: what arrives by copy, boxes, and empty slots."""
        plan = self.plans[scope]
        frame = [Box() if self.boxes and plan.boxed & FIRST >> slot else None for slot in range(plan.slots)]
        for slot in range(plan.slots):
            if plan.copied & FIRST >> slot:
                frame[slot] = arrived[slot]
        return frame

    def call(self, scope, params, body, arrived):
        """A function's body in a frame of its own; then the functions that were made there."""
        frame, made = self.frame(scope, arrived), []
        for param in params:
            for name in param.kids[:1]:
                self.bind(name, frame)
        for x in body:
            self.go(x, frame, made)
        for function in made:
            self.call(*function)

    def go(self, x, frame, made):
        if x.kind == NAME:
            self.bind(x, frame)
        elif x.kind == IDENT:
            self.read(x, frame)
        elif way(x.kind) is Way.fn:
            self.make(x, frame, made)
        else:
            for kid in x.kids:
                self.go(kid, frame, made)

    def make(self, x, frame, made):
        """A Def or Lambda: all but its body and its Params' Names stands outside; it copies from this frame."""
        params = [kid for kid in x.kids[:-1] if kid.kind == PARAM]
        for kid in x.kids[:-1]:
            for part in kid.kids[1:] if kid.kind == PARAM else [kid]:
                self.go(part, frame, made)
        made.append((x.value, params, x.kids[-1:], {child: frame[parent] for parent, child in self.copies[x.value]}))

    def bind(self, x, frame):
        if x.at in self.slots:
            slot = self.slots[x.at]
            self.marks += 1
            self.last[self.variables[x.at]] = self.marks
            if isinstance(frame[slot], Box):
                frame[slot].value = self.marks
            else:
                frame[slot] = self.marks

    def read(self, x, frame):
        if x.at in self.slots:
            cell = frame[self.slots[x.at]]
            found = cell.value if isinstance(cell, Box) else cell
            self.reads += 1
            if found != self.last.get(self.variables[x.at]):
                self.wrong.append(x.at)


class Frames:
    """Asks `vaib` twice about each file; the answer to it is a line for each Ident that reads something else."""

    def __init__(self, program, boxes):
        self.answer, self.plan = (Each(f"{program} {word}", (0, 1)) for word in ("answer", "plan-bytes"))
        self.boxes, self.reads = boxes, 0

    def answers(self, files):
        return [self.lines(*asked) for asked in zip(files, self.answer.answers(files), self.plan.answers(files))]

    def lines(self, data, answer, plan):
        if not plan:  # refused
            return b""
        done = Run(data, answer, plan, self.boxes)
        self.reads += done.reads
        return b"".join(b"Ident %d reads something else\n" % node for node in done.wrong)


class Right:
    """Every Ident reads its variable."""

    def texts(self, files):
        return [b""] * len(files)


def main():
    parser = argparse.ArgumentParser(description=__doc__, formatter_class=argparse.RawDescriptionHelpFormatter)
    parser.add_argument("count", type=int, help="how many files, besides those made for the plan")
    parser.add_argument("seed", type=int)
    parser.add_argument("--program", default=VAIB, help="the command, without its word (tools/run vaib)")
    parser.add_argument("--no-boxes", action="store_true", help="ignore the box mask")
    parser.add_argument("--kind", nargs="+", default=["accepted"], metavar="KIND", help=f"{KINDS_HELP} (accepted)")
    parser.add_argument("--save", default="difference.nodes", help="where to save a file on which it is not enough")
    options = parser.parse_args()
    frames = Frames(options.program, not options.no_boxes)
    comparison = Comparison(frames, Right())
    comparison.run(chain(corners("plan"), chosen(parser, options.kind, options.count, options.seed)))
    print(f"{frames.reads} local Idents read")
    sys.exit(comparison.report(options.save))


if __name__ == "__main__":
    main()
