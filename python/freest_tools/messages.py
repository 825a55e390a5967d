"""What a server of JSON-RPC on standard input and output stands on: messages with a header in front, and work in other
processes.

All is done in one thread. What takes long is Work: a function that is called in a process forked for it, so that it can
be dropped at any time, which ends that process and the program that it has called. What is no message is answered so,
and the next one is read.

A client that has gone away needs nothing more: the server ends where its input ends, where nobody reads its output, and
where the process that it was told to watch has ended. Where the server itself is killed, its Work ends with it.
"""
import ctypes
import json
import math
import os
import re
import select
import signal
import sys
import time

LONGEST, LONGEST_HEADER = 64 << 20, 1 << 16  # bytes
MOST_AT_ONCE = 4  # processes
SECONDS_TO_WRITE = 0.2  # what is left, once the input has ended
SECONDS_TO_END = 2  # for the processes to end by themselves
GONE = select.POLLERR | select.POLLHUP | select.POLLNVAL
DIE_WITH_PARENT = 1  # PR_SET_PDEATHSIG of prctl
LIBRARY = ctypes.CDLL(None)
SIGNALS = {signal.SIGTERM, signal.SIGINT, signal.SIGHUP}
PARSE_ERROR, INVALID_REQUEST = -32700, -32600


class Inbox:
    """Takes bytes as they come, and gives the bodies of messages, and None for each text that has no header."""

    def __init__(self):
        self.bytes, self.length = b"", None

    def feed(self, part):
        self.bytes += part
        while self.length is not None or self.header():
            if self.length is None:
                yield None
            elif len(self.bytes) < self.length:
                return
            else:
                body, self.bytes, self.length = self.bytes[: self.length], self.bytes[self.length :], None
                yield body

    def header(self):
        """Reads a header, and returns whether one has come; where its length isn't known it is none."""
        end = re.search(rb"\r?\n\r?\n|\Z", self.bytes)
        if not end[0] and len(self.bytes) < LONGEST_HEADER:
            return False
        found = re.search(rb"(?i)content-length:[ \t]*(\d{1,9})\s", self.bytes[: end.end()])
        self.bytes = self.bytes[end.end() :]
        self.length = int(found[1]) if found and int(found[1]) <= LONGEST else None
        return True


class Work:
    """What `asked` returns, which is called in another process: `then` is called here with it, as JSON has it.
    `subject` says of what this work is, and `request` is the request that it answers, or None."""

    def __init__(self, subject, request, asked, then):
        self.subject, self.request, self.asked, self.then = subject, request, asked, then
        self.process = self.pipe = None
        self.heard, self.is_dropped = b"", False

    def start(self):
        self.pipe, out = os.pipe()
        # (a signal that comes here waits, until it is known what there is to be ended)
        signal.pthread_sigmask(signal.SIG_BLOCK, SIGNALS)
        server = os.getpid()
        self.process = os.fork()
        if self.process == 0:
            answer(self.asked, out, server)
        signal.pthread_sigmask(signal.SIG_UNBLOCK, SIGNALS)
        os.close(out)

    def hear(self):
        """Reads what was written. Returns whether that was all."""
        part = os.read(self.pipe, 1 << 16)
        self.heard += part
        if not part:
            os.close(self.pipe)
            os.waitpid(self.process, 0)
        return not part

    def drop(self):
        self.is_dropped = True
        if self.process:
            os.kill(self.process, signal.SIGTERM)


def answer(asked, out, server):
    """Writes what is asked for, and ends this process."""
    try:
        for it in SIGNALS:
            signal.signal(it, end_with_children)
        LIBRARY.prctl(DIE_WITH_PARENT, signal.SIGTERM)
        signal.pthread_sigmask(signal.SIG_UNBLOCK, SIGNALS)
        if os.getppid() != server:
            end_with_children()
        nothing = os.open(os.devnull, os.O_RDWR)
        os.dup2(nothing, 0)
        os.dup2(nothing, 1)
        with open(out, "wb") as pipe:
            pipe.write(json.dumps(asked()).encode())
    except BaseException as error:
        complain(error)
    finally:
        os._exit(0)


def end_with_children(*_):
    """Ends this process and those that it has begun, each with its group."""
    for entry in filter(str.isdigit, os.listdir("/proc")):
        try:
            with open(f"/proc/{entry}/stat", "rb") as stat:
                parent = int(stat.read().rpartition(b")")[2].split()[1])
            if parent == os.getpid():
                os.kill(int(entry), signal.SIGKILL)
                os.killpg(int(entry), signal.SIGKILL)
        except OSError:
            pass
    os._exit(1)


def complain(error):
    print(f"{os.path.basename(sys.argv[0])}: {type(error).__name__}: {error}", file=sys.stderr, flush=True)


class Serving:
    """Reads messages, waits for work and for alarms, and writes messages. A server is a subclass with
    `receive(message)`, `ring(subject)` for each of the `alarms` whose time has come, and `fail(work)` for work that
    gave no answer."""

    def __init__(self):
        self.poll, self.watched, self.inbox, self.outbox = select.poll(), {}, Inbox(), bytearray()
        self.running, self.waiting, self.alarms = [], [], {}
        self.has_ended, self.status = False, 1

    def run(self):
        """Serves until it has ended or the client is gone, ends all work, and returns the status."""
        for it in SIGNALS:
            signal.signal(it, lambda *_: sys.exit(0))
        self.watch(0, select.POLLIN, self.read)
        # (without anything to write, it is heard that nobody reads)
        self.watch(1, 0, self.write)
        try:
            while not self.has_ended:
                self.turn(min(self.alarms.values(), default=None))
            self.leave(0)
            self.alarms.clear()
            end = time.monotonic() + SECONDS_TO_WRITE
            while self.outbox and time.monotonic() < end:
                self.turn(end)
        finally:
            self.end_all()
        return self.status

    def watch(self, descriptor, events, told):
        """Calls `told` with what happens to a descriptor: one of these events, or GONE."""
        self.poll.register(descriptor, events)
        self.watched[descriptor] = told

    def leave(self, descriptor):
        if self.watched.pop(descriptor, None):
            self.poll.unregister(descriptor)

    def watch_process(self, process):
        """Ends once this process has ended, as far as the system tells."""
        try:
            self.watch(os.pidfd_open(process), select.POLLIN, self.end)
        except (AttributeError, OSError, TypeError, OverflowError):
            pass

    def end(self, *_):
        self.has_ended = True

    def turn(self, until):
        for descriptor, events in self.poll.poll(
            None if until is None else max(0, math.ceil((until - time.monotonic()) * 1000))
        ):
            if descriptor in self.watched:
                self.watched[descriptor](events)
        for subject in [it for it, at in self.alarms.items() if at <= time.monotonic()]:
            del self.alarms[subject]
            self.ring(subject)

    def read(self, _):
        try:
            part = os.read(0, 1 << 16)
        except OSError:
            part = b""
        self.has_ended = self.has_ended or not part
        for body in self.inbox.feed(part):
            try:
                message = json.loads(body or "")
            except (ValueError, RecursionError):
                self.send(id=None, error={"code": PARSE_ERROR, "message": "this is no message"})
                continue
            if isinstance(message, dict):
                self.receive(message)
            else:
                self.send(id=None, error={"code": INVALID_REQUEST, "message": "a message is an object"})

    def send(self, **message):
        if not self.outbox:
            self.watch(1, select.POLLOUT, self.write)
        body = json.dumps({"jsonrpc": "2.0", **message}).encode()
        self.outbox += b"Content-Length: %d\r\n\r\n%s" % (len(body), body)

    def write(self, events):
        try:
            if events & GONE:
                raise BrokenPipeError
            # (a pipe that takes any bytes takes so many at once)
            del self.outbox[: os.write(1, self.outbox[: select.PIPE_BUF])]
        except BlockingIOError:
            return
        except OSError:
            self.outbox.clear()
            self.leave(1)
            self.end()
            return
        if not self.outbox:
            self.watch(1, 0, self.write)

    def begin(self, work=None):
        """Begins this work, once there is room for it."""
        self.waiting += [work] if work else []
        while self.waiting and len(self.running) < MOST_AT_ONCE:
            work = self.waiting.pop(0)
            work.start()
            self.running.append(work)
            self.watch(work.pipe, select.POLLIN, lambda _, work=work: self.hear(work))

    def hear(self, work):
        if not work.hear():
            return
        self.leave(work.pipe)
        self.running.remove(work)
        if work.heard and not work.is_dropped:
            work.then(json.loads(work.heard))
        elif not work.is_dropped:
            self.fail(work)
        self.begin()

    def drop(self, is_meant):
        """Drops the work that is meant, and returns it."""
        found = [it for it in self.running + self.waiting if not it.is_dropped and is_meant(it)]
        for it in found:
            it.drop()
        self.waiting = [it for it in self.waiting if not it.is_dropped]
        return found

    def end_all(self):
        for it in SIGNALS:
            signal.signal(it, signal.SIG_IGN)
        self.drop(lambda _: True)
        end = time.monotonic() + SECONDS_TO_END
        for it in self.running:
            while os.waitpid(it.process, os.WNOHANG) == (0, 0):
                if time.monotonic() > end:
                    os.kill(it.process, signal.SIGKILL)
                time.sleep(0.005)
