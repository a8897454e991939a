"""stamped.py SECONDS RATE COPY: the program of share/bench/relays. Scrolls lines at RATE bytes per second, and writes its
output to the file COPY, too.

Begins when there is a file "go". Every line ends with the time in nanoseconds, in letters: each digit is one of two, in
turn, so that an update contains all letters of a new time.
"""
import os
import sys
import time
import tty

DIGITS, LETTERS = b"0123456789", (b"ABCDEFGHIJ", b"KLMNOPQRST")


def stamp(number):
    text = b"%019d" % time.monotonic_ns()
    return text.translate(bytes.maketrans(DIGITS, LETTERS[number % 2]))


def scroll(seconds, rate, copy):
    while not os.path.exists("go"):
        time.sleep(0.02)
    start, sent, number = time.monotonic(), 0, 0
    while (now := time.monotonic() - start) < seconds:
        if sent > now * rate:
            time.sleep(0.005)
            continue
        number += 1
        line = b"/usr/share/doc/package-%d/%08x/%s %s\r\n" % (
            number // 40, number * 2654435761 % 2**32, b"name" * (number % 7), stamp(number))
        sent += len(line)
        copy.write(line)
        while line:
            line = line[os.write(1, line) :]


tty.setraw(1)
with open(sys.argv[3], "wb") as file:
    scroll(float(sys.argv[1]), float(sys.argv[2]), file)
