"""Streams of byte strings: each is preceded by its length, 4 bytes, most significant first.

Files to be judged or listed are handed to a program this way, many in one run, and
listings come back the same way.
"""


def read(source):
    """The byte strings of a stream, one by one."""
    while head := source.read(4):
        length = int.from_bytes(head, "big")
        data = source.read(length)
        if len(head) < 4 or len(data) < length:
            raise EOFError("the stream ends within a byte string")
        yield data


def framed(data):
    """A byte string as it stands in a stream."""
    return len(data).to_bytes(4, "big") + data


def write(target, strings):
    """Write byte strings as a stream."""
    for data in strings:
        target.write(framed(data))
    target.flush()
