"""The picture as a page: read back by a parser, and in a browser where one is installed."""

import re
import subprocess
import tempfile
import unittest
from html.parser import HTMLParser
from pathlib import Path

from browser import Browser, installed
from drawing import TOP, counted, drawn, drawn_file, sample
from nodefile import ASSIGN, IDENT, NAME, File, Node
from picture import page
from picture.page import page_of

EMPTY = {"meta", "path", "input"}


class Parsed(HTMLParser):
    """A page's elements: attributes and text by id, and every start tag."""

    def __init__(self, text):
        super().__init__()
        self.tags, self.open, self.texts, self.attributes = [], [], {}, {}
        self.feed(text)
        self.close()

    def handle_starttag(self, tag, attrs):
        attrs = dict(attrs)
        self.tags.append((tag, attrs))
        if tag not in EMPTY:
            self.open.append((tag, attrs.get("id")))
        if "id" in attrs:
            assert attrs["id"] not in self.attributes, attrs["id"]
            self.attributes[attrs["id"]] = attrs
            self.texts[attrs["id"]] = ""

    def handle_endtag(self, tag):
        assert self.open.pop()[0] == tag, (tag, self.getpos())

    def handle_data(self, data):
        for _, key in self.open:
            if key:
                self.texts[key] += data


def node(script, name, occurrence):
    """The id of a name in the text, counted from 0."""
    return f"n{[mark.node for mark in script.resolved.marks if mark.name == name][occurrence]}"


class Page(unittest.TestCase):
    def setUp(self):
        self.script = sample()
        self.page = Parsed(page_of(self.script, "offsets.star"))

    def card(self, name, occurrence):
        attributes = self.page.attributes[node(self.script, name, occurrence)]
        self.assertEqual(attributes["aria-describedby"], attributes["data-card"])
        return re.sub(r"\s+", " ", self.page.texts[attributes["data-card"]])

    def test_it_is_whole_and_loads_nothing(self):
        self.assertEqual([tag for tag, _ in self.page.open], [])
        for tag, attributes in self.page.tags:
            self.assertNotIn(tag, ("link", "img", "iframe"))
            self.assertNotIn("src", attributes)
            self.assertTrue(attributes.get("href", "#").startswith("#"))

    def test_every_link_has_its_end(self):
        for _, attributes in self.page.tags:
            ends = [attributes[key] for key in ("data-declared", "data-card") if key in attributes]
            ends += attributes.get("data-copies", "").split() + [attributes.get("href", "#code")[1:]]
            for end in ends:
                self.assertIn(end, self.page.attributes)

    def test_the_lambda_takes_the_loops_own_offset(self):
        module, own, loop, inside = (node(self.script, b"offset", number) for number in range(4))
        attributes = self.page.attributes
        self.assertEqual(attributes[inside]["data-declared"], loop)
        self.assertEqual(attributes[own]["data-declared"], module)
        self.assertEqual(attributes[inside]["data-of"], attributes[loop]["data-of"])
        self.assertNotEqual(attributes[inside]["data-of"], attributes[module]["data-of"])
        self.assertEqual(attributes[inside]["data-copies"], "s3")
        self.assertIn("in 3.1, slot 1 of scope 3, lambda at 15:19, inside scope 2"
                      "copied from 2.5, slot 5 of scope 2, def corrected at 11:1", self.card(b"offset", 3))
        self.assertIn("Declared14:9offset = clock(neighbour)", self.card(b"offset", 3))

    def test_readers_and_globals(self):
        self.assertIn("Bound at12:5, 16:9Read at17:12", self.card(b"events", 0))
        self.assertIn("global 0Read at20:12", self.card(b"sorted", 0))

    def test_names_of_the_module_list(self):
        script = drawn(b"x = y", entries=[(b"y", True, 0), (b"x", False, 0)])
        page = Parsed(page_of(script, "x"))
        for name, row in ((b"x", "#row-b1"), (b"y", "#row-b0")):
            self.assertEqual(page.attributes[node(script, name, 0)]["href"], row)
        self.assertIn("in the module's list", page.texts["card-b0"])

    def test_errors_stand_out(self):
        script = drawn(b"def f(t):\n  x: t = y\n")
        page = Parsed(page_of(script, "x"))
        wrong = [attributes["id"] for tag, attributes in page.tags
                 if tag == "a" and attributes.get("class") == "name error"]
        self.assertEqual([page.texts[name] for name in wrong], ["t!local in a type", "y!not found"])
        self.assertIn("y: not found at 2:10", page.texts["script"])

    def test_errors_of_one_name_stand_together(self):
        script = drawn(b"def f(t): x: t = y + z + y\n" + b"y\n" * 50)
        page = Parsed(page_of(script, "x"))
        entries = [page.texts[key] for key in page.texts if key.startswith("row-e")]
        self.assertEqual(entries[0::2], ["t: local in a type at 1:14", "z: not found at 1:22"])
        self.assertRegex(entries[1], r"^y: not found at 1:18, 1:26, 2:1, .*39:1 and 12 more$")
        first, last = node(script, b"y", 0), node(script, b"y", 51)
        self.assertEqual(page.attributes[first]["data-card"], page.attributes[last]["data-card"])
        self.assertIn("Read at1:18, 1:26, 2:1", page.texts[page.attributes[first]["data-card"]])

    def test_names_to_be_found(self):
        script = drawn(b"b = a + c\ndef f(B): return c\n", globals=[b"a"], entries=[(b"d", True, 7)])
        text = page_of(script, "x")
        found = re.search('<ul id="found".*?</ul>', text, re.DOTALL)[0]
        self.assertEqual([re.sub("<.*?>", "", entry) for entry in re.findall("<li hidden>(.*?)</li>", found)],
                         ["a g0, 1 place", "b m1, 1 place", "B 1.0, 1 place", "c !not found, 2 places",
                          "d m7, 0 places", "f m2, 1 place"])
        ends = [f"#{node(script, name, 0)}" for name in (b"b", b"B", b"c", b"f")]
        self.assertEqual(re.findall('href="(.*?)"', found), ["#row-g0", *ends[:3], "#row-b0", ends[3]])

    def test_names_that_are_never_read(self):
        source = b"_a = 1\ndef f(b, c, _d): return b\n"
        script = drawn(source, listing=counted)
        page = Parsed(page_of(script, "x"))
        self.assertEqual(page.texts["unread"], "2 never read: _a 1:1, c 2:10.")
        self.assertIn("∅ never read", page.texts["legend"])
        marked = [attributes["id"] for _, attributes in page.tags if "unread" in attributes.get("class", "")
                  and "id" in attributes]
        self.assertEqual(marked, [node(script, b"_a", 0), node(script, b"c", 0)])
        self.assertEqual(page.texts[marked[0]], "_am0 ∅")
        self.assertIn("private, bound once, never read", page.texts[page.attributes[marked[0]]["data-card"]])
        self.assertNotIn("never read", page_of(drawn(source), "x"))

    def test_names_and_text_are_escaped(self):
        name = b"<script>\"'&\xff\x1b\xe2\x80\xae"
        source = name + b" = " + name + b" # </code><b>"
        tree = Node(ASSIGN, 0, 0, [Node(NAME, 0, 0), Node(IDENT, 0, len(name) + 3)])
        text = page_of(drawn_file(source, File(False, tree, [name])), "<i>&.star")
        self.assertEqual(text.count("<script>"), 1)
        self.assertNotIn("\x1b", text)
        self.assertNotIn("\u202e", text)
        page = Parsed(text)
        self.assertEqual(page.texts["n1"], "<script>\"'&\\xff\\x1b\\u202em0")
        self.assertFalse({"b", "i"} & {tag for tag, _ in page.tags})

    def test_colours_can_be_read(self):
        """Contrast of at least 4.5 (WCAG AA) on every ground a colour stands on, light and dark."""
        light, dark = re.findall(r":root \{(.*?)\}", (Path(page.__file__).parent / "page.css").read_text(), re.DOTALL)
        for scheme in (light, dark):
            colours = dict(re.findall(r"--(\w+): (#\w{6})", scheme))
            for front in ("text", "quiet", "module", "local", "copied", "global", "error"):
                for ground in ("back", "panel", "lit", "found"):
                    with self.subTest(f"{colours[front]} on {colours[ground]}"):
                        self.assertGreaterEqual(contrast(colours[front], colours[ground]), 4.5)
            self.assertGreaterEqual(contrast(colours["error"], colours["wrong"]), 4.5)


def contrast(one, other):
    def light(colour):
        parts = (int(colour[at:at + 2], 16) / 255 for at in (1, 3, 5))
        red, green, blue = (part / 12.92 if part <= 0.04045 else ((part + 0.055) / 1.055) ** 2.4 for part in parts)
        return 0.2126 * red + 0.7152 * green + 0.0722 * blue
    low, high = sorted((light(one), light(other)))
    return (high + 0.05) / (low + 0.05)


def runs_of_ink(rows, column):
    """How many stretches of a column differ from its top."""
    return len(re.findall("#+", "".join(".#"[row[column] != rows[0][column]] for row in rows)))


# In place of the page's timers: rested() is the mouse that has come to rest.
STAND_STILL = """
setTimeout = act => { rested = act; };
clearTimeout = () => { rested = () => {}; };
clearTimeout();
"""


@unittest.skipUnless(installed(), "no Chromium is installed: the page is not tried in a browser")
class InBrowser(unittest.TestCase):
    @classmethod
    def setUpClass(cls):
        cls.browser = cls.enterClassContext(Browser())
        cls.path = Path(cls.enterClassContext(tempfile.TemporaryDirectory()), "page.html")

    def setUp(self):
        self.script = self.open(sample())
        self.module, self.own, self.loop, self.inside = (node(self.script, b"offset", number) for number in range(4))

    def open(self, script):
        """Show a script's page."""
        self.path.write_text(page_of(script, "offsets.star"), encoding="utf-8")
        self.browser.open(self.path)
        self.browser.value(STAND_STILL)
        return script

    def shown(self):
        """The texts of the cards that can be seen."""
        return self.browser.value("[...document.querySelectorAll('.card')].filter(c => c.offsetHeight)"
                                  ".map(c => c.innerText)")

    def marked(self, kind):
        return self.browser.value(f"[...document.querySelectorAll('#code .{kind}')].map(found => found.id)")

    def focused(self):
        """The id of what has the keyboard, or its text; None without one."""
        return self.browser.value("(({id, textContent}) => document.activeElement === document.body ? null"
                                  " : id || textContent)(document.activeElement)")

    def rest(self):
        self.browser.value("rested()")

    def go_to_code(self):
        """Move with the Tab key to the script's one stop."""
        self.browser.press("Tab")
        self.assertEqual(self.focused(), self.module)

    def test_pointing_at_a_name(self):
        self.assertEqual(self.shown(), [])
        self.browser.point(f"#{self.inside}")
        (card,) = self.shown()
        self.assertRegex(card, r"in 3\.1, slot 1 of scope 3, lambda at 15:19[^$]*copied from 2\.5[^$]*offset = clock")
        self.assertEqual(self.marked("lit"), [self.loop, self.inside])
        self.assertEqual(self.marked("declares"), [self.loop])
        self.assertEqual(self.marked("here"), [self.inside])
        self.assertEqual(self.marked("copying"), ["s3"])
        self.assertEqual(self.browser.value("document.querySelectorAll('#code svg > path').length"), 2)
        self.browser.point(f"#{self.own}")
        self.rest()
        self.assertIn("Slot 0 of the module", *self.shown())
        self.assertEqual(self.marked("lit"), [self.module, self.own])

    def test_a_mouse_on_its_way_to_the_card_does_not_swap_it(self):
        self.browser.point(f"#{node(self.script, b'stamp', 0)}")
        for name in (b"offset", b"car", b"stamp", b"car", b"log"):
            self.browser.point(f"#{node(self.script, name, 1)}")
            self.assertIn("slot 1 of scope 1", *self.shown())
        self.browser.point("aside")
        self.rest()
        self.assertIn("slot 1 of scope 1", *self.shown())

    def test_a_card_is_pinned(self):
        self.browser.click(f"#{self.inside}")
        self.assertEqual(self.browser.value("document.getElementById('pinned').innerText.slice(0, 6)"), "Pinned")
        self.assertEqual(self.marked("name[aria-current]"), [self.inside])
        self.browser.point(f"#{self.own}")
        self.rest()
        self.browser.press("ArrowLeft")
        self.assertIn("copied from 2.5", *self.shown())
        self.browser.click(f"#{self.own}")
        self.assertIn("Slot 0 of the module", *self.shown())
        self.browser.click("#pinned button")
        self.assertEqual(self.shown(), [])

    def test_pinned_and_let_go_with_the_keyboard(self):
        self.go_to_code()
        self.browser.press("ArrowRight", "Enter", "ArrowRight")
        self.assertIn("Slot 1 of the module", *self.shown())
        self.browser.press("Tab", "Tab", "Tab")
        self.assertEqual(self.focused(), "8:5")
        self.browser.press("Escape")
        self.assertEqual((self.shown(), self.focused()), ([], node(self.script, b"own", 0)))

    def test_a_second_click_goes_to_the_declaration(self):
        self.browser.click(f"#{self.inside}")
        self.assertEqual(self.focused(), self.inside)
        self.browser.click(f"#{self.inside}")
        self.assertEqual(self.focused(), self.loop)
        self.assertIn("copied from 2.5", *self.shown())

    def test_the_tab_key_stops_once_in_each_region(self):
        self.open(drawn(b"x = y + z\n_w = x + y\n" * 20, listing=counted))
        stops = []
        while self.focused() is not None or not stops:
            self.browser.press("Tab")
            stops.append(self.focused())
        # The line of names never read, the errors, the script, the search, the card, the tables.
        self.assertEqual(stops, ["2:1", "1:5", "n2", "", "1:1", "1:1", None])

    def test_arrow_keys(self):
        self.go_to_code()
        found = []
        for key in ("ArrowRight", "ArrowRight", "ArrowDown", "ArrowDown", "ArrowUp", "ArrowLeft", "End", "Home"):
            self.browser.press(key)
            found.append(self.focused())
        named = [(b"own", 0), (b"log", 0), (b"stamp", 0), (b"logs", 0), (b"stamp", 0), (b"log", 0), (b"clock", 3),
                 (b"offset", 0)]
        self.assertEqual(found, [node(self.script, *each) for each in named])
        self.assertIn("Slot 0 of the module", *self.shown())

    def test_search(self):
        self.browser.press("/")
        self.browser.type("LOG")
        listed = "[...document.querySelectorAll('#found li')].filter(e => e.offsetHeight).map(e => e.innerText)"
        self.assertEqual(self.browser.value(listed), [
            "log 1.0, 2 places", "log 2.4, 2 places", "log 4.0, 2 places", "logs 2.0, 2 places", "logs 4.1, 2 places"])
        self.assertEqual(len(self.marked("found")), 10)
        self.browser.press("Tab", "ArrowDown", "Enter")
        self.assertEqual(self.focused(), node(self.script, b"log", 2))
        self.assertIn("slot 4 of scope 2", *self.shown())
        self.browser.press("/")
        self.browser.type("ock")
        self.browser.press("Enter")
        self.assertEqual(self.focused(), node(self.script, b"clock", 0))
        self.browser.press("Enter", "/", "Escape")
        self.assertEqual((self.browser.value(listed), self.marked("found")), ([], []))
        self.assertIn("slot 1 of scope 2", *self.shown())

    def test_an_underline_is_not_taken_for_an_underscore(self):
        """Down through an `_`: its ink, paper, the line's ink."""
        script = self.open(drawn(b"no_a = 1\ndef f(b_c): return lambda: b_c + d_e\n"))
        self.browser.press("/")
        self.browser.type("no_")
        places = [(f"#n{mark.node}", mark.name) for mark in script.resolved.marks if b"_" in mark.name]
        for place, name in [*places, ("#found li:not([hidden]) a", b"no_a")]:
            rows = self.browser.pixels(place, below=6)
            letter, at = len(rows[0]) / len(name), name.index(b"_")
            columns = range(round((at + 0.2) * letter), round((at + 0.8) * letter))
            with self.subTest(place):
                self.assertTrue(any(runs_of_ink(rows, column) > 1 for column in columns))

    def test_rows_of_the_tables_light_up_too(self):
        self.browser.point("[id='row-2.5'] td")
        self.assertEqual(self.marked("lit"), [self.loop, self.inside])

    def test_no_complaint_and_no_request(self):
        self.browser.requests.clear()
        self.browser.open(self.path)
        self.browser.click(f"#{self.inside}")
        self.assertEqual(self.browser.complaints, [])
        self.assertEqual(self.browser.requests, [self.path.resolve().as_uri()])

    def test_light_and_dark(self):
        ground = "getComputedStyle(document.body).backgroundColor"
        self.assertEqual(self.browser.value(ground), "rgb(255, 255, 255)")
        with Browser(dark=True) as browser:
            browser.open(self.path)
            self.assertEqual(browser.value(ground), "rgb(21, 24, 29)")


@unittest.skipUnless(installed(), "no Chromium is installed: no screenshot is made")
class Screenshot(unittest.TestCase):
    """The command screenshot."""

    def test_it_scrolls_to_where_it_points(self):
        script = drawn(b"x = 1\n" * 100 + b"y = 2\n")
        with tempfile.TemporaryDirectory() as folder:
            page, image, far = (Path(folder, name) for name in ("page.html", "image.png", "far.png"))
            page.write_text(page_of(script, "x"), encoding="utf-8")
            command = [TOP / "tools/screenshot", page]
            subprocess.run([*command, image, "--point", node(script, b"x", 0)], check=True)
            subprocess.run([*command, far, "--point", node(script, b"y", 0)], check=True)
            self.assertNotEqual(image.read_bytes(), far.read_bytes())
            run = subprocess.run([*command, image, "--point", "n999"], capture_output=True)
            self.assertEqual((run.returncode, run.stderr), (1, b"screenshot: nothing there has the id n999\n"))


if __name__ == "__main__":
    unittest.main()
