"""`vaib list`: document 01's listing, as scopelist prints it."""

import ctypes

from readings import mirror

WINDOW = 4096  # bytes of the listing at a time


def text(data):
    return mirror.answer(data)


def ask(library, data):
    listing = library.vaib_listing
    size = listing.restype = ctypes.c_size_t
    listing.argtypes = [ctypes.c_char_p, size, size, ctypes.c_char_p, size]
    window, found = ctypes.create_string_buffer(WINDOW), b""
    while True:
        count = listing(data, len(data), len(found), window, WINDOW)
        found += window.raw[:count]
        if count < WINDOW:
            return found
