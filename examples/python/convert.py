"""Converts between NAD 27 and NAD 83 in Python, with ctypes alone: the same steps as in the C example.

    LIBRARY=../../target/library python3 convert.py ../bulletin/sheet.txt
"""

import os
import sys
from ctypes import CDLL, POINTER, c_int64, c_size_t, c_uint8, c_uint64
from pathlib import Path

library = Path(os.environ.get("LIBRARY") or Path(__file__).resolve().parents[2] / "target/library")
dagglehurst = CDLL(str((library / "lib/libdagglehurst.so").resolve()))

# A slice is a pointer and the number of its elements. Without these lists ctypes would pass 32-bit numbers.
NUMBERS = [POINTER(c_int64), c_size_t]
BYTES = [POINTER(c_uint8), c_size_t]
GRID = 3 * NUMBERS
POINT = [c_int64, c_int64]
TO83 = 1  # the way to NAD 83 in dagglehurst.h; 2 is the way back
for name, argtypes in {
    "read": BYTES + GRID,
    "to83": GRID + POINT + NUMBERS,
    "to27": GRID + POINT + NUMBERS,
    "convert": GRID + BYTES + NUMBERS + NUMBERS + BYTES,
}.items():
    function = getattr(dagglehurst, "dagglehurst_" + name)
    function.argtypes = argtypes
    function.restype = c_uint64


class Refusal(Exception):
    def __init__(self, number, place):
        super().__init__(f"refusal {number}, place {place}")


def call(name, *arguments):
    """Calls a function, each array lent with its length. Returns the value of the reply, or raises its refusal."""
    lent = []
    for argument in arguments:
        lent += [argument] if isinstance(argument, int) else [argument, len(argument)]
    reply = getattr(dagglehurst, "dagglehurst_" + name)(*lent)
    if reply & 255:
        raise Refusal(reply & 255, reply >> 8)
    return reply >> 8


def to83(grid, north, east):
    """Returns the NAD 83 figure, latitude and longitude, and the two signs of its shifts, the latitude's first. A sign is read so:
    -1, the rounded shift is below the exact one; 0, the shift is exact; 1, the rounded shift is above the exact one."""
    answer = (c_int64 * 4)()
    call("to83", *grid, north, east, answer)
    return answer


def to27(grid, north, east):
    answer = (c_int64 * 2)()
    call("to27", *grid, north, east, answer)
    return answer


def show(what, function, *arguments):
    try:
        north, east = function(*arguments)
        print(f"{what}: {north},{east}")
    except Refusal as refusal:
        print(f"{what}: {refusal}")


text = Path(sys.argv[1]).read_bytes()
# A header, and node slices that take every grid.
grid = (c_int64 * 6)(), (c_int64 * 2048)(), (c_int64 * 2048)()
print("grid:", call("read", (c_uint8 * len(text))(*text), *grid), "nodes")

north, east, lat_sign, lon_sign = to83(grid, 118210250, -298581930)
print(f"mast in NAD 83: {north},{east} signs {lat_sign},{lon_sign}")
show("mast taken back", to27, grid, north, east)
show("one figure north", to27, grid, north + 1, east)

# Southwest corner, middle of the cell, a thousandth of an arc second off the grid, northeast corner. Each has a way and a refusal of its
# own, and four numbers for its answer.
ways = (c_uint8 * 4)(TO83, TO83, TO83, TO83)
points = (c_int64 * 8)(117900000, -298800000, 118125000, -298575000, 118350001, -298350000, 118350000, -298350000)
answers, refusals = (c_int64 * 16)(), (c_uint8 * 4)()
print("array:", call("convert", *grid, ways, points, answers, refusals), "points")
for k, refusal in enumerate(refusals):
    north, east, lat_sign, lon_sign = answers[4 * k : 4 * k + 4]
    print(f"point {k}:", f"refusal {refusal}" if refusal else f"{north},{east} signs {lat_sign},{lon_sign}")

# A semicolon for the first comma: line 9, the first node, is no longer of its form.
damaged = text.replace(b",", b";", 1)
show("damaged text", call, "read", (c_uint8 * len(damaged))(*damaged), *grid)
