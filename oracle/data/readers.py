#!/usr/bin/python3
"""Has numcodecs read what encode_interleaved of the archive writes, and times both writers.

    readers.py OBJECT [TABLES]    the archive as a shared object; so many random tables, 10,000 if not said

Needs the Debian package python3-numcodecs. Each table is written by the archive, and read by VLenBytes; every second one is text, and read by VLenUTF8
too. The items must be the same, and the bytes must be those that numcodecs writes. The exit status is 0 where they are.
"""
import ctypes
import random
import sys
import time

import numcodecs
import numpy
from numcodecs import VLenBytes, VLenUTF8

RAGGED = 1
ALPHABET = "aZ09 ,-\0é€😀"


class Kind(ctypes.Structure):
    _fields_ = [(name, ctypes.c_uint64) for name in ("depth", "form", "size", "order", "mask")]


def numbers(items):
    return (ctypes.c_uint64 * len(items))(*items)


class Archive:
    def __init__(self, path):
        self.call = ctypes.CDLL(path).dpx_encode_interleaved
        slices = [ctypes.c_void_p, ctypes.c_size_t] * 5
        self.call.argtypes = [Kind] + slices + [ctypes.c_void_p]
        self.call.restype = ctypes.c_uint32

    def prepared(self, items, shape, width, place):
        """A call on these items, with the output that it writes to and the length that it names."""
        offsets = [0]
        for item in items:
            offsets.append(offsets[-1] + len(item))
        values = b"".join(items)
        need = 4 + 4 * len(items) + len(values)
        out = ctypes.create_string_buffer(need)
        length = numbers([0])
        kept = (numbers(shape), numbers(offsets), values)
        kind = Kind(0, RAGGED, width, place, 0)

        def call():
            return self.call(kind, kept[0], len(shape), None, 0, kept[2], len(values), kept[1], len(offsets), out, need, length)

        return call, out, length

    def encode(self, items, shape, width, place):
        call, out, length = self.prepared(items, shape, width, place)
        answer = call()
        assert answer == 0, "refused with %d" % answer
        assert length[0] == len(out), "%d bytes, not %d" % (length[0], len(out))
        return out.raw


def objects(items):
    array = numpy.empty(len(items), dtype=object)
    array[:] = items
    return array


def shape_of(rng, cells):
    """One to four sides of so many cells."""
    shape = []
    for _ in range(rng.randrange(4)):
        side = rng.choice([side for side in range(1, cells + 1) if cells % side == 0])
        shape.append(side)
        cells //= side
    return shape + [cells]


def read_alike(archive, rng, number):
    cells = rng.choice([1, 2, 3, rng.randint(1, 40), rng.randint(1, 300)])
    most = rng.choice([0, 1, 3, 8, 31, 32, 33, 64, 200])
    texts = None
    if number % 2:
        texts = ["".join(rng.choice(ALPHABET) for _ in range(rng.randint(0, most))) for _ in range(cells)]
        items = [text.encode("utf-8") for text in texts]
    else:
        items = [rng.randbytes(rng.randint(0, most)) for _ in range(cells)]
    stored = archive.encode(items, shape_of(rng, cells), rng.choice([4, 8]), rng.choice([0, 1]))
    assert [bytes(item) for item in VLenBytes().decode(stored)] == items, "VLenBytes, table %d" % number
    assert stored == bytes(VLenBytes().encode(objects(items))), "other bytes, table %d" % number
    if texts is not None:
        assert list(VLenUTF8().decode(stored)) == texts, "VLenUTF8, table %d" % number
    return cells


def best(run, rounds=9):
    """Nanoseconds of the best of some rounds."""
    times = []
    for _ in range(rounds):
        start = time.perf_counter_ns()
        run()
        times.append(time.perf_counter_ns() - start)
    return min(times)


def timed(archive, rng):
    print("nanoseconds a cell, 65,536 cells: the archive by way of ctypes, and VLenBytes of numcodecs")
    for name, length in [("empty", lambda: 0), ("0 to 16 bytes", lambda: rng.randint(0, 16)), ("200 bytes", lambda: 200)]:
        items = [rng.randbytes(length()) for _ in range(65536)]
        array = objects(items)
        codec = VLenBytes()
        call, _, _ = archive.prepared(items, [65536], 4, 0)
        ours, theirs = best(call), best(lambda: codec.encode(array))
        print("  %-14s %8.2f %8.2f   %.1f times" % (name, ours / 65536, theirs / 65536, theirs / ours))


def main():
    archive = Archive(sys.argv[1])
    tables = int(sys.argv[2]) if len(sys.argv) > 2 else 10000
    rng = random.Random(2)
    cells = sum(read_alike(archive, rng, number) for number in range(tables))
    print("numcodecs %s reads %d tables of %d cells alike, and writes the same bytes" % (numcodecs.__version__, tables, cells))
    timed(archive, rng)


main()
