"""Runs tests as processes: each with a time limit, measured, and counted with what it leaves out."""

import collections
import os
import re
import select
import signal
import subprocess
import threading
import time
from concurrent.futures import ThreadPoolExecutor

LEFT_OUT = re.compile(r"^left out: (.*)$", re.M)
COUNTS = re.compile(r"([0-9]+) passed, ([0-9]+) failed")
# The seconds that a test has to end what it has started, once it is told to end.
GRACE = 10

# A test: its command, the seconds that it may take, and variables that are added to its environment.
Test = collections.namedtuple("Test", "words limit env", defaults=(1800, {}))


def named(test):
    """Returns the command of a test without the files and directories of this run, and the options before them."""
    words = test.words[:1]
    for word in test.words[1:]:
        if os.path.isabs(word):
            return " ".join(words[:-1] if words[-1].startswith("--") else words)
        words.append(word)
    return " ".join(words)


class Run:
    """A process that runs a test. It ends, with all processes of its group, after the time limit of the test.

    It is first told to end, so that a script can end the processes of other groups that it has started.
    """

    def __init__(self, test):
        self.test = test
        self.is_late = False
        self.process = subprocess.Popen(
            test.words, env={**os.environ, **test.env}, stdin=subprocess.DEVNULL, stdout=subprocess.PIPE,
            stderr=subprocess.STDOUT, start_new_session=True,
        )
        self.clock = self.started(test.limit, self.end_late)

    @staticmethod
    def started(seconds, action):
        clock = threading.Timer(seconds, action)
        clock.daemon = True
        clock.start()
        return clock

    def end_late(self):
        self.is_late = True
        self.clock = self.started(GRACE, self.end)
        self.send(signal.SIGTERM)

    def end(self):
        self.send(signal.SIGKILL)

    def send(self, number):
        """Sends a signal to all processes of the group."""
        try:
            os.killpg(self.process.pid, number)
        except ProcessLookupError:
            pass

    def has_ended(self):
        try:
            return os.waitid(os.P_PID, self.process.pid, os.WEXITED | os.WNOHANG | os.WNOWAIT) is not None
        except ChildProcessError:  # `wait` has returned
            return True

    def lines(self):
        """Yields the lines of the output, up to its end. A process that the test leaves behind may keep the output
        open; it then ends with what is there a second after the test.
        """
        pipe, rest = self.process.stdout.fileno(), b""
        while True:
            has_ended = self.has_ended()
            data = os.read(pipe, 65536) if select.select([pipe], [], [], 1)[0] else None
            if data:
                *whole, rest = (rest + data).split(b"\n")
                yield from (line.decode("utf-8", "replace") + "\n" for line in whole)
            elif data == b"" or has_ended:
                break
        if rest:
            yield rest.decode("utf-8", "replace")

    def wait(self):
        """Waits for the end of the process. Returns its exit status, or the negative number of the signal that ended
        it, and the seconds of processor time that it and its children took.
        """
        _, status, usage = os.wait4(self.process.pid, 0)
        self.clock.cancel()
        self.end()
        self.process.stdout.close()
        self.process.returncode = -os.WTERMSIG(status) if os.WIFSIGNALED(status) else os.WEXITSTATUS(status)
        return self.process.returncode, usage.ru_utime + usage.ru_stime


class Gate:
    """The tests that were run: how many passed and failed, what they left out, and the time that they took.

    `status` is 0 if all tests passed, the exit status of a test that was run with `run_counted` if that failed, and 1
    if only other tests failed.
    """

    def __init__(self, clock):
        self.clock = clock
        self.passed = self.failed = self.status = 0
        self.left_out = {}
        self.rows = []
        self.lock = threading.Lock()
        self.runs = set()

    def run(self, test):
        """Runs a test, and prints its output when it has ended. Returns whether it passed."""
        output, status, is_late = self.measured(test, lambda line: None)
        with self.lock:
            print(output, end="", flush=True)
            self.count(test, status, is_late, status == 0, status != 0)
        return status == 0

    def run_counted(self, test):
        """Runs a test whose last line is `N passed, N failed`, and adds these counts. Prints its other lines as they
        come, and the last one only if it has a different form, which counts as a failed test.
        """
        last = []

        def show(line):
            for before in last:
                print(before, end="", flush=True)
            last[:] = [line]

        _, status, is_late = self.measured(test, show)
        found = COUNTS.fullmatch("".join(last).rstrip("\n"))
        if not found:
            print(*last, sep="", end="", flush=True)
        passed, failed = map(int, found.groups()) if found else (0, 1)
        with self.lock:
            self.status = status or self.status
            self.count(test, status, is_late, passed, failed or int(status != 0))

    def run_together(self, tests, jobs):
        """Runs tests, this many at a time. Returns whether all passed."""
        with ThreadPoolExecutor(jobs) as pool:
            try:
                return all([*pool.map(self.run, tests)])
            except BaseException:
                self.end()
                raise

    def measured(self, test, show):
        """Runs a test, and calls `show` with each line. Returns the output, the status, and whether it was late."""
        begun, lines = self.clock(), []
        try:
            run = Run(test)
        except OSError as error:
            return f"{error}\n", 127, False
        self.runs.add(run)
        for line in run.lines():
            lines.append(line)
            show(line)
        status, processor_time = run.wait()
        output = "".join(lines)
        with self.lock:
            self.runs.discard(run)
            self.rows.append((self.clock() - begun, processor_time, named(test)))
            self.left_out.update(dict.fromkeys(LEFT_OUT.findall(output)))
        return output, status, run.is_late

    def count(self, test, status, is_late, passed, failed):
        """Adds counts, and names a test that failed."""
        self.passed += passed
        self.failed += failed
        if status == 0 and not failed:
            return
        why = f"ended after {test.limit} s, which is its time limit" if is_late else f"failed with status {status}"
        print(f"{named(test)}: {why}", flush=True)
        self.status = self.status or 1

    def skip(self, tests, why):
        """Counts tests that cannot be run as failed."""
        for test in tests:
            print(f"{named(test)}: not run, since {why}", flush=True)
            self.failed += 1
            self.status = self.status or 1

    def end(self):
        """Ends the tests that still run."""
        for run in [*self.runs]:
            run.send(signal.SIGTERM)
        until = time.monotonic() + GRACE
        while not all(run.has_ended() for run in [*self.runs]) and time.monotonic() < until:
            time.sleep(0.1)
        for run in [*self.runs]:
            run.end()

    def report(self):
        """Returns the lines of a table of the times, and of what was left out, and the last line with the counts."""
        yield "seconds  processor time  test"
        yield from (f"{took:7.0f}  {used:14.0f}  {name}" for took, used, name in self.rows)
        yield f"{self.clock():7.0f}  {sum(row[1] for row in self.rows):14.0f}  all"
        yield from (f"left out: {what}" for what in self.left_out)
        yield f"{self.passed} passed, {self.failed} failed, {len(self.left_out)} left out"
