"""Calls of the program in which something fails, and what it has to write then."""
import errno
import os
import shutil
import signal
import subprocess
import time

HERE = os.path.dirname(os.path.abspath(__file__))
EXAMPLES = os.path.join(os.path.dirname(os.path.dirname(HERE)), "examples")
INPUTS = [
    (["run"], "tree.fst"), (["equiv"], "tree-then-answer.question"), (["check"], "quitting.fst"),
    (["equiv", "--proof"], "stream.question"), (["equiv", "--proof"], "two-trees.question"), (["audit"], "stream.proof"),
    (["show"], "tree.fst"), (["run", "--events"], "tree.fst"), (["run", "--workers", "4"], "tree.fst"), (["run", "--buffer", "1"], "unread.fst"),
    (["make", "20"], None), (["equiv"], "counter.question"), (["nothing"], None),
]
READING, WRITING, MEMORY = 6, 7, 9
READ_ERRORS = ["EIO", "EINTR", "EAGAIN", "EBADF", "EISDIR", "ENOMEM"]
WRITE_ERRORS = ["EIO", "EINTR", "EAGAIN", "EBADF", "ENOSPC", "EPIPE", "EFBIG", "ENOMEM"]
PIECES = [1, 2, 3, 7, 64, 4095]
HARMLESS = ["SIGCONT", "SIGCHLD", "SIGWINCH", "SIGURG"]
ENDING = ["SIGTERM", "SIGINT", "SIGHUP", "SIGKILL", "SIGQUIT"]


def library(path, folder):
    """The library, compiled into the folder, or None and why there is none."""
    compiler = shutil.which("gcc") or shutil.which("cc")
    if not compiler:
        return None, "there is no gcc or cc"
    made, counts = os.path.join(folder, "faulty.so"), os.path.join(folder, "counts")
    found = subprocess.run([compiler, "-O1", "-shared", "-fPIC", "-o", made, os.path.join(HERE, "faulty.c")], stderr=subprocess.PIPE)
    if found.returncode:
        return None, compiler + " doesn't compile trials/faulty.c"
    subprocess.run([path], env={**os.environ, "LD_PRELOAD": made, "FAULTY_COUNTS": counts}, stdin=subprocess.DEVNULL,
                   stdout=subprocess.DEVNULL, stderr=subprocess.DEVNULL)
    return (made, None) if os.path.exists(counts) else (None, path + " doesn't load a library in front of the C library")


class Trial:
    """All that is tried with one input; `seconds` of the clock are given to each call of the program."""

    def __init__(self, path, library, folder, number, most, random, seconds):
        self.words, name = INPUTS[number]
        self.path, self.library, self.most, self.random, self.seconds = path, library, most, random, seconds or 60
        self.counts_path, self.input = os.path.join(folder, "counts"), os.path.join(EXAMPLES, name) if name else os.devnull
        self.failures, self.calls, self.counts = 0, 0, None
        began = time.monotonic()
        self.right = self.call({"FAULTY_COUNTS": self.counts_path})
        self.time = time.monotonic() - began
        if library:
            with open(self.counts_path) as file:
                self.counts = [int(count) for count in file.read().split()]

    # Calls and what they have to give.

    def started(self, variables, stdin=None, stdout=subprocess.PIPE):
        given = {**os.environ, **variables, **({"LD_PRELOAD": self.library} if self.library else {})}
        file = os.open(stdin or self.input, os.O_RDONLY)
        try:
            return subprocess.Popen([self.path, *self.words], stdin=file, stdout=stdout, stderr=subprocess.DEVNULL, env=given)
        finally:
            os.close(file)

    def call(self, variables, act=None, **files):
        """The status and what was written; None and that where the program was stopped. `act` is done to it once it has begun."""
        self.calls += 1
        with self.started(variables, **files) as started:
            try:
                if act:
                    act(started)
                out, _ = started.communicate(timeout=self.seconds)
            except subprocess.TimeoutExpired:
                started.kill()
                return None, started.communicate()[0]
            except BaseException:
                started.kill()
                raise
        return started.returncode, out or b""

    def expect(self, what, answer, status, prefix=True):
        """Tells what the program does where that is neither the right answer nor a prefix of it, or nothing, with this status."""
        status_fits = answer[0] == status and (status != WRITING or answer[1] != self.right[1])
        if answer == self.right or status_fits and (self.right[1] if prefix else b"").startswith(answer[1]):
            return
        self.failures += 1
        print("faults: freest %s < %s, %s: the status is %s with %r" % (" ".join(self.words), self.input, what, answer[0], answer[1][-80:]),
              flush=True)

    def numbers(self, count):
        """The calls that fail in turn: each, or the most that are wanted, spread evenly."""
        most = min(count, self.most or count)
        return sorted({1 + k * (count - 1) // max(1, most - 1) for k in range(most)})

    # What is tried.

    def try_all(self):
        self.files_that_fail()
        if self.library:
            requests, reads, writes = self.counts
            for number in self.numbers(requests):
                for variables in ({}, {"FAULTY_BEHIND": "1"}):
                    self.expect("request %d for memory%s fails" % (number, " and all behind it" * len(variables)),
                                self.call({"FAULTY_MEMORY": str(number), **variables}), MEMORY)
            self.moves_that_fail("READ", reads, READ_ERRORS, READING)
            self.moves_that_fail("WRITE", writes, ["0", *WRITE_ERRORS], WRITING)
            for piece in PIECES:
                self.expect("all reads and writes move at most %d bytes" % piece, self.call({"FAULTY_PIECE": str(piece)}), None)
        for _ in range(min(20, self.most or 20)):
            self.signalled(self.random.choice(HARMLESS + ENDING), self.random.random() * 1.2 * self.time)

    def moves_that_fail(self, kind, count, errors, status):
        for number in self.numbers(count):
            for error in errors:
                code = 0 if error == "0" else getattr(errno, error)
                self.expect("%s %d fails with %s" % (kind, number, error),
                            self.call({"FAULTY_" + kind: str(number), "FAULTY_ERROR": str(code)}), status, prefix=kind == "WRITE")
            for piece in PIECES:
                self.expect("%s %d moves at most %d bytes" % (kind, number, piece),
                            self.call({"FAULTY_" + kind: str(number), "FAULTY_PIECE": str(piece)}), None)

    def files_that_fail(self):
        """A folder as the input, and an output that is full or closed."""
        self.expect("a folder as input", self.call({}, stdin=EXAMPLES), READING, prefix=False)
        with open("/dev/full", "wb") as full:
            self.expect("/dev/full as output", self.call({}, stdout=full), WRITING)
        reading, writing = os.pipe()
        os.close(reading)
        try:
            self.expect("a pipe that nobody reads", self.call({}, stdout=writing), WRITING)
        finally:
            os.close(writing)

    def signalled(self, name, after):
        def send(started):
            time.sleep(after)
            started.send_signal(getattr(signal, name))
        status = None if name in HARMLESS else -getattr(signal, name)
        self.expect("%s after %.4f s" % (name, after), self.call({}, send), status)

    def summary(self):
        counts = "%d requests for memory, %d reads, %d writes; " % tuple(self.counts) if self.counts else ""
        return "freest %s < %s: %s%d calls: %s" % (" ".join(self.words), os.path.basename(self.input), counts, self.calls,
                                                   "%d failures" % self.failures if self.failures else "each as promised")
