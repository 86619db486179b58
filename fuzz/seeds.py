#!/usr/bin/env python3
"""Writes the files of tests/fixed/listed, tests/fixed/judged and samples into a folder, for the fuzzer to start from: seeds.py FOLDER."""

import sys
from pathlib import Path

TOP = Path(__file__).resolve().parent.parent


def listed():
    data = (TOP / "tests/fixed/listed/files.bin").read_bytes()
    while data:
        length = int.from_bytes(data[:4], "big")
        yield data[4:4 + length]
        data = data[4 + length:]


def judged():
    data = (TOP / "tests/fixed/judged/cases.bin").read_bytes()[4:]
    while data:
        length = int.from_bytes(data[1:5], "big")
        yield data[5:5 + length]
        data = data[5 + length:]


def main():
    folder = Path(sys.argv[1])
    folder.mkdir(parents=True, exist_ok=True)
    for kind, files in (("listed", listed()), ("judged", judged())):
        for number, data in enumerate(files):
            (folder / f"{kind}-{number}").write_bytes(data)
    for sample in (TOP / "samples").glob("*.nodes"):
        (folder / sample.name).write_bytes(sample.read_bytes())


main()
