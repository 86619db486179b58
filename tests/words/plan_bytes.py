"""`vaib plan-bytes` (document 02, P6): the packed plan; for a refused file its number, on standard error.

"One packed record a scope, from scope 0: slots 8, parameters 8, copied mask 64, box mask 64, most
significant first."
"""

import struct

from compare.programs import ON_ERROR
from readings import mirror
from words import plan


def packed(data):
    """The records; nothing for a refused file."""
    _, found, _ = plan.planned(data)
    return b"".join(struct.pack(">BBQQ", *frame) for frame in found or [])


def text(data):
    return packed(data) or ON_ERROR + mirror.refusal(plan.planned(data)[0])
