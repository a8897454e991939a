#!/usr/bin/env -S kitty +launch
"""kitty.py process ROWS COLS CAPACITY TIMES FILE: parses FILE TIMES times with kitty's parser, without a
window, in chunks of 4096 bytes. See bench/time. Needs kitty 0.26 (Debian 12), whose extension module has
`parse_bytes`.
"""
import sys

from kitty.fast_data_types import Screen, parse_bytes

CHUNK = 4096


def main():
    if len(sys.argv) != 7 or sys.argv[1] != "process":
        print("usage: kitty.py process ROWS COLS CAPACITY TIMES FILE", file=sys.stderr)
        return 2
    rows, cols, capacity, times = map(int, sys.argv[2:6])
    with open(sys.argv[6], "rb") as file:
        data = file.read()
    screen = Screen(None, rows, cols, capacity)
    for _ in range(times):
        for start in range(0, len(data), CHUNK):
            parse_bytes(screen, data[start:start + CHUNK])
    return 0


sys.exit(main())
