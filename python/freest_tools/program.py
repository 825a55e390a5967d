"""The program: where it is, and calls of it that are bounded in time, memory and output."""
import collections
import math
import os
import selectors
import shutil
import signal
import subprocess
import tempfile
import time

HERE = os.path.dirname(os.path.realpath(__file__))
TOP = os.path.dirname(os.path.dirname(HERE))  # the top of a clone, or PREFIX/share/freest where it is installed
HOW_TO_BUILD = (
    "there is no program to ask: ./freest at the top of a clone proves and builds it, and ./install copies it from there; "
    "the variable FREEST may name it"
)
COMMANDS = {".question": "equiv", ".proof": "audit", ".certificate": "audit"}
INTERRUPTS = {signal.SIGINT, signal.SIGTERM, signal.SIGHUP}
BOUNDED = 'ulimit -c 0; ulimit -t "$1"; [ -z "$2" ] || ulimit -v "$2"; shift 2; exec "$@"'

# `status` is the exit status, and None where the program was stopped; `out` and `err` are what it wrote, as far as it
# was read. `stopped` is None where it ended by itself, and else says why it was stopped or didn't begin: "clock",
# "processor", "output", "missing".
Answer = collections.namedtuple("Answer", "status out err stopped")


def find():
    """Returns the path of the program, or None: FREEST names it, or a clone has built it, or it is installed beside
    this or on PATH."""
    if os.environ.get("FREEST"):
        places = [os.environ["FREEST"]]
    else:
        places = [
            f"{TOP}/crates/freest/out/freest",
            f"{TOP}/bin/freest",
            f"{TOP}/../../bin/freest",
            shutil.which("freest") or "",
        ]
    found = next((place for place in places if os.path.isfile(place) and os.access(place, os.X_OK)), None)
    return found and os.path.abspath(found)


def command_of(file):
    """Returns the command that a file is for."""
    return COMMANDS.get(os.path.splitext(file)[1], "check")


def call(words, text, *, path=None, seconds=10, memory=2 << 30, output=4 << 20):
    """Returns the Answer to these words and this text, a str or bytes. It is stopped after so many seconds of a
    processor, after twice as many by the clock, and where it writes more bytes than `output`. More bytes of memory than
    `memory` it can't have, and then says so itself, by status 9; FREEST_NO_MEMORY_LIMIT=1 leaves this bound out."""
    path = path or find()
    if not path:
        return Answer(None, "", HOW_TO_BUILD, "missing")
    kibibytes = "" if os.environ.get("FREEST_NO_MEMORY_LIMIT") == "1" else str(memory >> 10)
    command = ["sh", "-c", BOUNDED, "sh", str(math.ceil(seconds)), kibibytes, path, *words]
    called, written, stopped = None, {}, "interrupted"
    # (a signal waits until it is known what there is to be ended)
    before = signal.pthread_sigmask(signal.SIG_BLOCK, INTERRUPTS)
    try:
        called = begun(command, text if isinstance(text, bytes) else text.encode("utf-8", "surrogateescape"))
        written = {called.stdout: bytearray(), called.stderr: bytearray()}
        signal.pthread_sigmask(signal.SIG_SETMASK, before)
        stopped = take(called, written, time.monotonic() + 2 * seconds, output)
    finally:
        if called and stopped:
            end(called)
        signal.pthread_sigmask(signal.SIG_SETMASK, before)
    status = called.wait()
    called.stdout.close()
    called.stderr.close()
    if status == -signal.SIGXCPU or status == -signal.SIGKILL and not stopped:
        stopped = "processor"
    out, err = (bytes(part[:output]).decode("utf-8", "replace") for part in written.values())
    return Answer(None if stopped else status, out, err, stopped)


def begun(command, given):
    """Begins a command in a session of its own, which reads these bytes."""
    with tempfile.TemporaryFile() as file:
        file.write(given)
        file.seek(0)
        return subprocess.Popen(
            command, stdin=file, stdout=subprocess.PIPE, stderr=subprocess.PIPE, start_new_session=True
        )


def take(called, written, end_of_time, output):
    """Reads what the program writes until it has ended, and returns None, or why it has to be stopped."""
    with selectors.DefaultSelector() as pipes:
        for pipe in written:
            pipes.register(pipe, selectors.EVENT_READ)
        while pipes.get_map():
            ready = pipes.select(end_of_time - time.monotonic())
            if time.monotonic() > end_of_time:
                return "clock"
            for key, _ in ready:
                part = os.read(key.fd, 1 << 16)
                written[key.fileobj] += part
                if not part:
                    pipes.unregister(key.fileobj)
            if sum(map(len, written.values())) > output:
                return "output"
    try:
        called.wait(max(0, end_of_time - time.monotonic()))
    except subprocess.TimeoutExpired:
        return "clock"
    return None


def end(called):
    """Ends the program and all that it began."""
    try:
        os.killpg(called.pid, signal.SIGKILL)
    except ProcessLookupError:
        pass
