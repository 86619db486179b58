"""What docs/BELIEVE.md is held to: the definitions that contracts and theorems reach, and things that exist."""

import unittest

from documents import believe

SPECS = """-- A file.
use Rattle.std.specs.Prelude.{List}
use Rattle.lexical.specs.Tree.{Forest, way}
use Rattle.lexical.proofs.Laws.Rows.{◌⊗◌}

-- a data type
pub data Turn : Type 0 where
  once twice : Turn
  often : (n : ℕ) → Turn

unfoldable pub ◌⊕◌ : Forest → Forest → Forest
◌⊕◌ f g = f

module _ (F : Forest) where
  pub law : (t : Turn)
      → t ≡ once
  law t = other
    where
      inner : Turn
      inner = once
"""


class Believe(unittest.TestCase):

    def test_declarations(self):
        turn, plus, law = believe.declarations(SPECS)
        self.assertEqual((turn.name, turn.defines, turn.members), ("Turn", True, ("once", "twice", "often")))
        self.assertEqual((plus.name, plus.defines, len(plus.lines)), ("◌⊕◌", True, 2))
        self.assertEqual((law.name, law.defines), ("law", False))
        self.assertEqual([line.strip() for line in law.statement], ["pub law : (t : Turn)", "→ t ≡ once", "module _ (F : Forest) where"])
        found = {"List": ("std", "specs/Prelude", "List"), "Forest": ("lexical", "specs/Tree", "Forest"), "way": ("lexical", "specs/Tree", "way")}
        rows = ("lexical", "proofs/Laws/Rows", "◌⊗◌")
        self.assertEqual(believe.imports(SPECS), {**found, "◌⊗◌": rows, "⊗": rows})

    def test_words(self):
        self.assertEqual(set(believe.words(["s.offset ≤ (resolved F).log"])), {"s.offset", "s", "offset", "≤", "resolved", "F", ".log", "log"})

    def test_reached(self):
        reached = believe.believed(believe.Specs())
        wanted = {("lexical", "specs/Meaning", "declared"), ("lexical", "specs/Claims", "ancestors"), ("lexical", "specs/Order", "steps")}
        self.assertLessEqual(wanted, reached)
        self.assertFalse([r for r in reached if r[0] == "store" or r[1].split("/")[1] in ("Theory", "Laws")])

    def test_faults(self):
        reached = {("lexical", "specs/Meaning", "declared"), ("lexical", "specs/Order", "steps")}
        found = list(believe.faults(believe.Specs(), "| `lexical/specs/Tree`, `Meaning` | `no-such-thing` |\n`Order`", reached))
        self.assertEqual(found, ["docs/BELIEVE.md:1: there is no `no-such-thing`", "docs/BELIEVE.md: does not name `lexical/specs/Order`: steps"])


if __name__ == "__main__":
    unittest.main()
