"""Calls of the program, and of the reference, which works in a process of its own so that it can be stopped."""
import multiprocessing
import os
import resource
import signal
import subprocess

STOPPED = None
BOUNDED = 'ulimit -c 0; ulimit -v 4194304; exec "$@"'


class Program:
    """The program at a path. An answer is its status, STOPPED after so many seconds, and what it wrote."""

    def __init__(self, path, seconds=30):
        self.seconds = seconds
        self.calls = 0
        self.start = [path] if os.environ.get("FREEST_NO_MEMORY_LIMIT") == "1" else ["sh", "-c", BOUNDED, "sh", path]

    def answer(self, words, data):
        self.calls += 1
        try:
            ended = subprocess.run([*self.start, *words], input=data, stdout=subprocess.PIPE, stderr=subprocess.PIPE, timeout=self.seconds)
        except subprocess.TimeoutExpired:
            return STOPPED, b""
        return ended.returncode, ended.stdout + ended.stderr


def serve(pipe):
    """Answers what comes over the pipe, as the reference does, on a deep stack."""
    signal.signal(signal.SIGINT, signal.SIG_IGN)
    signal.signal(signal.SIGTERM, signal.SIG_DFL)
    resource.setrlimit(resource.RLIMIT_AS, (6 << 30, 6 << 30))
    from semantics import answers

    def loop():
        while True:
            words, data = pipe.recv()
            try:
                pipe.send(answers.answer(words, data))
            except MemoryError:
                pipe.send((9, b""))
            except Exception as fault:
                pipe.send(("error", ("%s: %s" % (type(fault).__name__, fault)).encode()))
    answers.deeply(loop)


class Reference:
    """The second implementation in reference/semantics. `ask` sends a call to it, and `answer` takes what it says."""

    def __init__(self, seconds=30):
        self.seconds = seconds
        self.worker = None

    def ask(self, words, data):
        if self.worker is None:
            self.pipe, other = multiprocessing.Pipe()
            self.worker = multiprocessing.Process(target=serve, args=(other,), daemon=True)
            self.worker.start()
            other.close()
        self.pipe.send((words, data))

    def answer(self):
        try:
            if self.pipe.poll(self.seconds):
                return self.pipe.recv()
        except EOFError:
            self.stop()
            return "error", b"the reference ended"
        self.stop()
        return STOPPED, b""

    def stop(self):
        if self.worker is not None:
            self.worker.kill()
            self.worker.join()
            self.worker = None
