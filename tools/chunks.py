"""The chunks of a test file: several scripts in one, between lines of `---`."""

import re

BETWEEN = re.compile(rb"(?m)^---[ \t]*\r?(?:\n|\Z)")


def chunks(data):
    """The scripts of a chunked file, each with blank lines before it, so that its lines keep their numbers."""
    start, ends = 0, [*(mark.span() for mark in BETWEEN.finditer(data)), (len(data), len(data))]
    for end, following in ends:
        yield b"\n" * data.count(b"\n", 0, start) + data[start:end]
        start = following


def split_files(folder):
    """Replace each .star file that has chunks by one file a chunk: a.star by a-1.star, a-2.star and so on."""
    for script in sorted(folder.rglob("*.star")):
        parts = list(chunks(script.read_bytes()))
        if len(parts) > 1:
            script.unlink()
            for number, part in enumerate(parts, 1):
                script.with_stem(f"{script.stem}-{number}").write_bytes(part)
