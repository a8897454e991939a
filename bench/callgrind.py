"""Counts instructions with valgrind's callgrind, for the scripts in this directory.

A program that is counted is called as `PROGRAM WHAT ROWS COLS CAPACITY TIMES FILE`, like the built tool_bench, and may
contain blanks. A screen is written as ROWSxCOLS. A count is the difference between two runs, so that startup does not
count.
"""
import glob
import os
import re
import shlex
import subprocess

TOP = os.path.dirname(os.path.dirname(os.path.abspath(__file__)))
COUNTER = ["valgrind", "--tool=callgrind", "--callgrind-out-file=/dev/null"]


def counted_run(words):
    """Returns the number of instructions of a run, and its output."""
    done = subprocess.run(COUNTER + words, stdin=subprocess.DEVNULL, capture_output=True, text=True, check=True)
    return int(re.search(r"refs:\s*([\d,]+)", done.stderr)[1].replace(",", "")), done.stdout


def instructions(program, what, screen, capacity, times, path):
    """Returns the number of instructions of a run."""
    return counted_run([*shlex.split(program), what, *screen.split("x"), str(capacity), str(times), path])[0]


def per_byte(program, screen, capacity, path, less=0, more=1, what="process"):
    """Returns the instructions per byte, from the difference between runs with `less` and with `more` passes."""
    few, many = (instructions(program, what, screen, capacity, times, path) for times in (less, more))
    return (many - few) / ((more - less) * os.path.getsize(path))


def counts_in(name):
    """Returns the counts in a table that bench/calls prints, by call, screen and capacity, and then by input."""
    with open(os.path.join(TOP, "bench", f"{name}.tsv"), encoding="utf-8") as file:
        rows = [line.split() for line in file]
    return {tuple(row[:3]): {it.split("=")[0]: int(it.split("=")[1]) for it in row[3:]} for row in rows}


def ratio(count, other):
    """Returns another count, and the ratio to it, as text after a count; nothing if there is no other count."""
    return f"/{other}={count / other:.2f}" if other else ""


def write_inputs(script, folder, *arguments):
    """Runs a script of this directory that writes inputs into a directory."""
    subprocess.run([os.path.join(TOP, "bench", script), folder, *arguments], check=True)


def write_recorded(path, most=-1):
    """Writes at most `most` bytes of the recorded streams in STREAMS, with RIS after each. Returns whether there are any."""
    if "STREAMS" not in os.environ:
        return False
    text = b""
    for stream in sorted(glob.glob(os.path.join(os.environ["STREAMS"], "*.bin"))):
        with open(stream, "rb") as part:
            text += part.read() + b"\x1bc"
    with open(path, "wb") as file:
        file.write(text[:most] if most >= 0 else text)
    return True
