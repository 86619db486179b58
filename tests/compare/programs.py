"""Asking what is compared: a command that is handed streams, one that is handed a file at a time, or a library.

A command that stops early has `no answer` to the file it stopped at, which is found by
handing it fewer files.
"""

import ctypes
import io
import shlex
import subprocess
import tempfile
from concurrent.futures import ThreadPoolExecutor
from contextlib import ExitStack
from pathlib import Path

from files import stream

END = b"\xff" * 4
ON_ERROR = b"standard error: "
JOBS = 2  # commands that run at the same time
VAIB = f"{Path(__file__).resolve().parents[2]}/tools/run vaib"


class Batch:
    """A command that reads a stream of files and writes the stream of its answers."""

    def __init__(self, command):
        self.command = shlex.split(command)

    def split(self, output):
        return list(stream.read(io.BytesIO(output)))

    def answers(self, files):
        done = subprocess.run(self.command, input=b"".join(map(stream.framed, files)), stdout=subprocess.PIPE)
        if done.returncode == 0:
            answers = self.split(done.stdout)
            if len(answers) != len(files):
                raise SystemExit(f"{shlex.join(self.command)}: {len(answers)} answers to {len(files)} files")
            return answers
        if len(files) == 1:
            return [no_answer(done.returncode)]
        half = len(files) // 2
        return self.answers(files[:half]) + self.answers(files[half:])


class Ended(Batch):
    """A command that reads a stream of files and writes the byte 255 four times behind each answer."""

    def split(self, output):
        *answers, rest = output.split(END)
        if rest:
            raise SystemExit(f"{shlex.join(self.command)}: an answer without end")
        return answers


class Numbers(Batch):
    """A command that reads a stream of files and writes a number a line."""

    def split(self, output):
        return [b"answer %d\n" % int(number) for number in output.split()]


class Each:
    """A command that reads one file and writes its answer; it may end with one of these statuses. `further` gives more
    words for a file; bytes among them are put into a file, whose path is the word. With `errors` what it writes to
    standard error belongs to its answer."""

    def __init__(self, command, statuses=(0,), further=lambda data: [], errors=False):
        self.command, self.statuses, self.further, self.errors = shlex.split(command), statuses, further, errors

    def answers(self, files):
        with ThreadPoolExecutor(JOBS) as pool:
            return list(pool.map(self.answer, files))

    def answer(self, data):
        with ExitStack() as lent:
            words = [path_of(lent, word) if isinstance(word, bytes) else word for word in self.further(data)]
            done = subprocess.run(self.command + words, input=data, capture_output=True)
        if done.returncode not in self.statuses:
            return no_answer(done.returncode) + done.stderr
        return done.stdout + (ON_ERROR + done.stderr if self.errors and done.stderr else b"")


def path_of(lent, data):
    """The path of a file with these bytes, which is there as long as it is lent."""
    file = lent.enter_context(tempfile.NamedTemporaryFile())
    file.write(data)
    file.flush()
    return file.name


class Library:
    """A library for this machine's processor, shared or static; `ask` has the answer to a file from it."""

    def __init__(self, path, ask):
        self.library, self.ask = loaded(Path(path).resolve()), ask

    def answers(self, files):
        return [self.ask(self.library, data) for data in files]


def loaded(path):
    """A library, loaded; a static one is made a shared one before."""
    if path.suffix != ".a":
        return ctypes.CDLL(str(path))
    with tempfile.TemporaryDirectory() as folder:
        shared = f"{folder}/library.so"
        whole = ["-Wl,--whole-archive", path, "-Wl,--no-whole-archive"]
        subprocess.run(["cc", "-shared", "-o", shared, *whole], check=True)
        return ctypes.CDLL(shared)


def no_answer(status):
    return b"no answer: status %d\n" % status
