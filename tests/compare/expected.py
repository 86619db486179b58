"""What is expected of a file, from something that is not the program under test.

Each class here gives a text for each of a list of files.
"""

from readings.second_judge import judge, judged


class Beginning(bytes):
    """How an answer must begin; the rest of it is not compared."""


def agrees(answer, expected):
    return answer.startswith(expected) if isinstance(expected, Beginning) else answer == expected


def utf8(reading):
    """Are all names of an accepted file UTF-8?"""
    pool = reading.data[reading.pool_at:]
    try:
        for offset, length in reading.names:
            pool[offset:offset + length].decode()
    except UnicodeDecodeError:
        return False
    return True


class Original:
    """The oracle's whole text of an accepted file, the second judge's number of a refused one. Where a name is not
    UTF-8 the oracle has no answer, and the number alone counts."""

    def __init__(self, oracle):
        self.oracle = oracle

    def texts(self, files):
        judgements = {data: judged(data) for data in files}
        for_oracle = [data for data, (number, reading) in judgements.items() if number == 0 and utf8(reading)]
        texts = dict(zip(for_oracle, self.oracle.answers(for_oracle))) if for_oracle else {}
        for data in files:
            number = judgements[data][0]
            yield texts.get(data, b"answer %d\n" % number if number else Beginning(b"answer 0 "))


class Judgement:
    """The second judge's number, for a program that judges and no more."""

    def texts(self, files):
        return (b"answer %d\n" % judge(data) for data in files)


class Word:
    """What a module of words/ says of `vaib WORD`."""

    def __init__(self, module):
        self.module = module

    def texts(self, files):
        return map(self.module.text, files)
