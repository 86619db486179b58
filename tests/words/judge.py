"""`vaib judge`: the number of judging alone."""

import ctypes

from readings import mirror, second_judge


def text(data):
    return mirror.refusal(second_judge.judge(data))


def ask(library, data, symbol="vaib_judge"):
    function = getattr(library, symbol)
    function.argtypes, function.restype = (ctypes.c_char_p, ctypes.c_size_t), ctypes.c_uint64
    return mirror.refusal(function(data, len(data)))
