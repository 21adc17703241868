#!/usr/bin/env python3
"""Writes a script for `rehearse` that is one long list of packed rows, to measure how fast they are read.

usage: python3 tools/many_rows.py ROWS [--no-list] > SCRIPT

One `raw` line has the records, of rows with a name of some twenty bytes and two import records; the last record is cut
by a byte, so that `list` reads all of them and shows none. With --no-list the script ends before it.
"""
import struct
import sys


def record(n):
    number = n % 65536
    name = b"/src/pages/module%d.js" % n
    stable = b"module%d.js" % n
    imports = [(1, (number + 1) % 65535), (3, 65535)]
    payload = struct.pack("<HBBBQ", number, 0, 0, 1, n)
    payload += struct.pack("<H", len(name)) + name + struct.pack("<H", len(stable)) + stable
    payload += struct.pack("<H", len(imports)) + b"".join(struct.pack("<BH", *i) for i in imports)
    return struct.pack("<IH", len(payload), 1) + payload


def main():
    rows = int(sys.argv[1])
    packed = b"".join(record(n) for n in range(rows))[:-1]
    print(len(packed), "packed bytes", file=sys.stderr)
    print("raw " + packed.hex())
    if "--no-list" not in sys.argv:
        print("list")


if __name__ == "__main__":
    main()
