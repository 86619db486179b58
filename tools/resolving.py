"""A node file's listing, by the proved program or a command that answers as it does."""

import shlex
import subprocess
from pathlib import Path

VAIB_READERS = shlex.join([str(Path(__file__).with_name("run")), "vaib", "readers"])
SCOPELIST = shlex.join([str(Path(__file__).with_name("run")), "scopelist"])


def add_scopelist_option(parser):
    parser.add_argument("--scopelist", metavar="COMMAND", default=SCOPELIST,
                        help="reads a node file and prints its listing (default: %(default)s)")


def add_readers_option(parser):
    parser.add_argument("--readers", metavar="COMMAND",
                        help="reads a node file and prints the readers of each variable (default: %s, where the listing "
                             "is the proved program's too; else they are taken from the listing)" % VAIB_READERS)


def readers_of(options, nodes):
    """The nodes that read each variable, by `b` and its binding or `g` and its global; None where nobody is asked."""
    command = options.readers or (VAIB_READERS if options.scopelist == SCOPELIST else None)
    if command is None:
        return None
    lines = [line.split() for line in listed(command, nodes).decode().splitlines()[1:]]
    return {("b" if letter == "R" else "g") + number: [int(node) for node in nodes]
            for letter, number, _, _, *nodes in lines}


def listed(command, nodes):
    """What the command prints for a node file's bytes."""
    return subprocess.run(shlex.split(command), input=nodes, stdout=subprocess.PIPE, check=True).stdout
