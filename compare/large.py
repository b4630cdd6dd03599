#!/usr/bin/env python3
"""Makes a type stream of at least so many records out of a smaller one: its header, and its records again and again, with the maximum fitted to them. For runs
at sizes that no sample has: R-10 of document 02 is of more than 524,280 records.

    large.py STREAM RECORDS OUT
"""
import struct
import sys


def main():
    if len(sys.argv) != 4 or not sys.argv[2].isdigit():
        print(__doc__)
        return 2
    with open(sys.argv[1], "rb") as f:
        s = f.read()
    size, low, high = struct.unpack_from("<3I", s, 4)
    times = -(-int(sys.argv[2]) // (high - low))
    with open(sys.argv[3], "wb") as f:
        f.write(s[:12] + struct.pack("<I", low + times * (high - low)) + s[16:size])
        for _ in range(times):
            f.write(s[size:])
    print(f"{times * (high - low)} records")
    return 0


if __name__ == "__main__":
    sys.exit(main())
