"""play.py SECONDS PATIENCE RATE STREAM..: the program of serve.py. It writes recorded streams at RATE bytes per second.

Begins when there is a file "open", and creates "started", and "late" after half of the time. After SECONDS, goes on
until there is a file "calm", but for at most PATIENCE more seconds. Adds the number of bytes and the time to the file
"stamps" before each write.
"""
import os
import struct
import sys
import time
import tty


def play(seconds, patience, rate, paths):
    streams = [open(path, "rb").read() for path in paths]
    pieces = [data[at : at + 256] for data in streams for at in range(0, len(data), 256)]
    stamps = open("stamps", "ab", buffering=0)
    while not os.path.exists("open"):
        time.sleep(0.02)
    open("started", "w").close()
    start, sent, turn = time.monotonic(), 0, 0
    while (now := time.monotonic() - start) < seconds + patience:
        if now >= seconds and os.path.exists("calm"):
            break
        if now > seconds / 2:
            os.close(os.open("late", os.O_CREAT))
        if sent > now * rate:
            time.sleep(0.005)
            continue
        piece = pieces[turn % len(pieces)]
        sent, turn = sent + len(piece), turn + 1
        stamps.write(struct.pack("<QQ", sent, time.monotonic_ns()))
        while piece:
            piece = piece[os.write(1, piece) :]


tty.setraw(1)
play(*map(float, sys.argv[1:4]), sys.argv[4:])
