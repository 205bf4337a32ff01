"""Towercloak from Python, over its shared library: tells what each function of a log took.

python3 docs/example.py LIBRARY LOG [big]    as in: python3 docs/example.py target/lib/libtowercloak.so samples/node.fdr

The last word names the byte order of a log whose numbers lie with the highest byte first; any other lies lowest first.
"""

import ctypes
import sys
from fractions import Fraction

ROW, TABLE = 6, 6144
ORDERS = {"little": 0, "big": 1}
NUMBER = ctypes.POINTER(ctypes.c_uint64)


def load(path):
    """The library, with the types of the two functions that are called here: see include/towercloak.h."""
    library = ctypes.CDLL(path)
    log = [ctypes.c_char_p, ctypes.c_size_t, ctypes.c_uint32]
    library.towercloak_header.argtypes = log + [NUMBER] * 4
    library.towercloak_replay.argtypes = log + [NUMBER, ctypes.c_size_t] + [NUMBER] * 5
    for function in library.towercloak_header, library.towercloak_replay:
        function.restype = ctypes.c_uint32
    return library


def lent(count):
    return [ctypes.c_uint64() for _ in range(count)]


def header(library, log, order):
    """frequency, constant_tsc, nonstop_tsc and buffer_size."""
    fields = lent(4)
    refused = library.towercloak_header(log, len(log), order, *map(ctypes.byref, fields))
    if refused:
        raise ValueError(f"refused {refused} at 0")
    return [field.value for field in fields]


def replay(library, log, order):
    """The rows: id, entered, closed, backward, abandoned and ticks of each function."""
    table = (ctypes.c_uint64 * TABLE)()
    counts, place = lent(4), ctypes.c_uint64()
    refused = library.towercloak_replay(log, len(log), order, table, TABLE, *map(ctypes.byref, [*counts, place]))
    if refused:
        raise ValueError(f"refused {refused} at {place.value}")
    rows = counts[0].value
    return [table[at * ROW:(at + 1) * ROW] for at in range(rows)]


def main(path, name, order="little"):
    library, order = load(path), ORDERS[order]
    with open(name, "rb") as file:
        log = file.read()
    frequency, constant_tsc, _, _ = header(library, log, order)
    for function, _, closed, backward, _, ticks in replay(library, log, order):
        unit = f"{Fraction(ticks * 10**9, frequency)} ns" if frequency and constant_tsc else f"{ticks} ticks"
        print(f"function {function}: {closed - backward} measured, {unit}")


if __name__ == "__main__":
    try:
        main(*sys.argv[1:])
    except (ValueError, OSError) as error:
        sys.exit(str(error))
