"""What `vaib WORD` must print, a module for each word, written from document 02 over the mirror's records.

`text(data)` is what the word prints for a file; what goes to standard error stands behind `standard error: `.
Where there is one, `ask(library, data)` has the same text out of the static library's functions, and `further(data)`
gives the words behind the word (`WORD`, if the module's name is another) for this file: text, or the bytes of a file
whose path is the word. A module is named after its word, with an underscore for a dash.
"""

import importlib
from pathlib import Path

WORDS = sorted(path.stem.replace("_", "-") for path in Path(__file__).parent.glob("[a-z]*.py")
               if not path.stem.startswith("test_"))


def module(word):
    """The module for a word."""
    return importlib.import_module(f"words.{word.replace('-', '_')}")


def lines(texts):
    return b"".join(text + b"\n" for text in texts)
