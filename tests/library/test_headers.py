"""The headers for C: what C++ can use by its bare name, and one version for headers and crate."""

import re
import unittest
from pathlib import Path

ROOT = Path(__file__).resolve().parents[2]
HEADERS = {path.name: path.read_text() for path in (ROOT / "include").glob("*.h")}


class Headers(unittest.TestCase):

    def test_no_function_hides_a_type(self):
        text = "\n".join(HEADERS.values())
        types = set(re.findall(r"(?:struct|enum) (vaib_\w+) \{", text))
        functions = set(re.findall(r"(?m)^(?:static inline )?[\w ]+[ *](vaib_\w+)\(", text))
        self.assertLessEqual({"vaib_node", "vaib_answer", "vaib_kind"}, types)
        self.assertLessEqual({"vaib_judge", "vaib_get_node", "vaib_number_text"}, functions)
        self.assertEqual(types & functions, set())

    def test_one_version(self):
        defined = dict(re.findall(r"(?m)^#define (VAIB_VERSION\w*) (\S+)$", HEADERS["vaibmusan_version.h"]))
        version = f"{defined['VAIB_VERSION_MAJOR']}.{defined['VAIB_VERSION_MINOR']}"
        crate = re.search(r'(?m)^version = "(.*)"$', (ROOT / "rust/vaibmusan/Cargo.toml").read_text())[1]
        self.assertEqual(defined["VAIB_VERSION"], f'"{version}"')
        self.assertEqual(crate, f"{version}.0")
