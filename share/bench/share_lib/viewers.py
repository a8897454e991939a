"""The viewers of load.c, for share/bench/share and share/bench/relays: how they are compiled, and what they have read."""
import collections
import os
import resource
import struct
import subprocess
import sys
import typing
import zlib

HERE = os.path.dirname(os.path.abspath(__file__))
CHECKOUT = os.path.join(HERE, "..", "..", "..")
PACKAGE = os.path.join(CHECKOUT, "bindings", "python")
#: The value of PYTHONPATH with which another process finds the packages.
PACKAGES = os.pathsep.join([os.path.join(CHECKOUT, "share"), PACKAGE])
sys.path.insert(0, PACKAGE)
import vt100  # noqa: E402 (from this checkout)

FIGURES, ARRIVAL = struct.Struct("<QQII"), struct.Struct("<QQQII")
#: How long viewers may take for the last update, in seconds.
PATIENCE = 60


def compile_load(folder, viewers):
    """Compiles load.c into a directory, and returns the path of the program. This process and those that it starts may
    then open as many files as a server of so many viewers needs."""
    needed, (_, hard) = viewers + 400, resource.getrlimit(resource.RLIMIT_NOFILE)
    if hard < needed:
        sys.exit(f"a process may open {hard} files, but {needed} are needed (ulimit -n)")
    resource.setrlimit(resource.RLIMIT_NOFILE, (needed, hard))
    load = os.path.join(folder, "load")
    subprocess.run(["cc", "-std=gnu11", "-O2", "-o", load, os.path.join(HERE, "load.c"), "-lz"], check=True)
    return load


def usage(process):
    """Returns the processor time of a process in seconds, and its resident memory in MB."""
    with open(f"/proc/{process.pid}/stat", encoding="utf-8") as file:
        fields = file.read().rpartition(")")[2].split()
    ticks = int(fields[11]) + int(fields[12])
    return ticks / os.sysconf("SC_CLK_TCK"), int(fields[21]) * resource.getpagesize() / 1e6


def quantile(ages, part):
    """Returns the age below which a part of sorted ages lies, such as 0.5 for the median, or 0 if there are none."""
    return ages[int(len(ages) * part)] if ages else 0.0


def key_of(message):
    """Returns the number by which load.c tells messages apart."""
    return len(message) << 32 | zlib.crc32(message)


class Viewer(typing.NamedTuple):
    """What a viewer has got: bytes, updates, whether the end of the program, and the numbers of the messages that its
    terminal has read."""

    size: int
    updates: int
    has_end: int
    read: bytes


class Results:
    """What load.c has written into a directory."""

    def __init__(self, folder):
        self.folder = folder
        self.viewers, data, at = [], self.data("viewers"), 0
        while at < len(data):
            *figures, count = FIGURES.unpack_from(data, at)
            start, at = at + FIGURES.size, at + FIGURES.size + 4 * count
            self.viewers.append(Viewer(*figures, data[start:at]))
        self.messages, data, at = {}, self.data("messages"), 0
        while at < len(data):
            number, count = struct.unpack_from("<II", data, at)
            self.messages[number], at = data[at + 8 : at + 8 + count], at + 8 + count

    def data(self, name):
        """Returns what a file contains."""
        with open(os.path.join(self.folder, name), "rb") as file:
            return file.read()

    def ages(self, times, start, end, is_read=False):
        """Returns the sorted ages of messages on arrival at the sockets of the viewers from `start` to before `end`, or
        when these have read them, in ms. The age of a message counts from its time in `times`, which is by keys. The
        first message of a viewer has none."""
        return sorted(
            ((read if is_read else arrived) - times[key]) / 1e6
            for key, arrived, read, viewer, is_first in ARRIVAL.iter_unpack(self.data("arrivals"))
            if start <= viewer < end and not is_first and key in times
        )

    def _displays(self, read, screen):
        parser = None
        for (number,) in struct.iter_unpack("<I", read):
            message = self.messages[number]
            if message[:1] == b"F":
                parser = vt100.Parser(*struct.unpack_from(">HH", message, 1))
            parser.process(message[5 if message[:1] == b"F" else 1 :])
        return parser.state_formatted() == screen

    def compare(self, screen):
        """Returns how many of the viewers that have got the end display a screen, and how many do not."""
        reads = collections.Counter(it.read for it in self.viewers if it.has_end)
        same = sum(count for read, count in reads.items() if self._displays(read, screen))
        return same, sum(reads.values()) - same
