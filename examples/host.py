#!/usr/bin/env python3
"""host.py FILE [LIBRARY]: judges a table file from Python; of a turning table it plays both words.

LIBRARY: the path of libsandgusset.so, where the loader doesn't know it. Status: 0 judged, 1 refused, 2 anything else."""
import struct
import sys
from ctypes import CDLL, c_size_t, c_uint32, c_uint64, create_string_buffer


def call(function, *lent):
    """Lends every buffer with its length, hands on a number as a stamp; answers status, first, second and steps."""
    function.restype = c_uint64
    pairs = [(each, c_size_t(len(each))) if hasattr(each, "__len__") else (c_uint32(each),) for each in lent]
    return struct.unpack("<4H", struct.pack("<Q", function(*sum(pairs, ()))))


def order(library, table, trace, stamps):
    """The steps of the trace, counted from 1, in the order of their responses."""
    steps, due = create_string_buffer(len(trace)), create_string_buffer(len(stamps))
    if call(library.sandgusset_replay, table, trace, 0, stamps, steps, due)[0] != 0:
        raise OSError("the replay of a shown word was refused")
    return struct.unpack("<%dH" % (len(trace) // 2), steps)


def main(file, path="libsandgusset.so"):
    library, table = CDLL(path), open(file, "rb").read()
    trace, stamps = create_string_buffer(540), create_string_buffer(2160)
    status, first, second, n = call(library.sandgusset_judge, table, trace, stamps)
    if status == 0:
        print("strict")
    elif status == 256:
        print("split", first, second)
    elif status == 257:
        print("turning", first, second)
        print("late order:", *order(library, table, trace[:2 * n], stamps[:4 * n]))
        print("early order:", *order(library, table, trace[:2 * n], stamps[4 * n:8 * n]))
    else:
        print("refused", status, "at", first)
    return int(1 <= status <= 255)


if __name__ == "__main__":
    if sys.argv[1:] == ["--help"]:
        sys.exit(print(__doc__))
    try:
        if len(sys.argv) not in (2, 3):
            raise OSError("wrong call; " + __doc__)
        sys.exit(main(*sys.argv[1:]))
    except OSError as why:
        print("host.py:", why, file=sys.stderr)
        sys.exit(2)
