"""How freest-lsp ends: at once where its client has gone, whichever way, and it leaves nothing behind."""
import os
import signal
import subprocess
import sys
import tempfile
import time

import client

SECONDS = 5  # for a server to end, on a busy machine
TEXT = "f : !Int -> Int\nf c = 5\nmain : Int\nmain = True\n"


def tried():
    """Returns faults, and what was tried in some words."""
    ends = [
        closed_input,
        closed_output,
        closed_both,
        full_output,
        told_to_exit,
        exit_alone,
        by_a_signal,
        at_work,
        killed_client,
        killed_with_a_pipe_left,
    ]
    faults = []
    for it in ends:
        try:
            faults += it()
        except TimeoutError as error:
            faults.append(f"{it.__name__}: {error}")
    return faults, f"{len(ends)} ends of the server"


def ended(server, status, name):
    """Returns faults of a server that has to end by itself, with this status or, where that is None, any."""
    began = time.monotonic()
    while server.poll() is None and time.monotonic() - began < SECONDS:
        time.sleep(0.01)
    if server.poll() is None:
        return [f"{name}: the server stays"]
    return [
        f"{name}: the server ends with {server.returncode} in place of {status}"
    ] if server.returncode != status else []


def closed_input():
    with client.Client(TEXT) as it:
        it.diagnostics(2)
        it.server.stdin.close()
        return ended(it.server, 1, "closed input")


def closed_output():
    with client.Client(TEXT) as it:
        it.diagnostics(2)
        it.server.stdout.close()
        return ended(it.server, 1, "closed output")


def closed_both():
    with client.Client(TEXT) as it:
        it.server.stdout.close()
        it.server.stdin.close()
        return ended(it.server, 1, "both closed")


def full_output():
    """Nobody reads what the server writes, and then its input ends."""
    with client.Client(TEXT) as it:
        request = client.bytes_of(id=5, method="textDocument/documentSymbol", params={"textDocument": {"uri": it.uri}})
        os.set_blocking(it.server.stdin.fileno(), False)
        try:
            for _ in range(2000):
                os.write(it.server.stdin.fileno(), request)
        except BlockingIOError:
            pass
        it.server.stdin.close()
        return ended(it.server, 1, "full output")


def told_to_exit():
    with client.Client(TEXT) as it:
        it.ask("shutdown", {})
        it.tell("exit", {})
        return ended(it.server, 0, "exit")


def exit_alone():
    with client.Client(TEXT) as it:
        it.tell("exit", {})
        return ended(it.server, 1, "exit without shutdown")


def by_a_signal():
    with client.Client(TEXT) as it:
        it.diagnostics(2)
        it.server.send_signal(signal.SIGTERM)
        return ended(it.server, 0, "SIGTERM")


def at_work():
    """The server is killed, or its input ends, while the program works: that ends too."""
    faults = []
    with tempfile.TemporaryDirectory() as folder:
        sleeper, said = f"{folder}/sleeper", f"{folder}/said"
        with open(sleeper, "w", encoding="utf-8") as opened:
            opened.write(f"#!/bin/sh\necho $$ > {said}\nexec sleep 8\n")
        os.chmod(sleeper, 0o755)
        before, os.environ["FREEST"] = os.environ["FREEST"], sleeper
        try:
            for is_killed in (False, True):
                with client.Client(TEXT) as it:
                    began = number_in(said)
                    it.server.kill() if is_killed else it.server.stdin.close()
                    faults += ended(it.server, -9 if is_killed else 1, "at work")
                faults += gone(
                    began, "what the program was asked for, killed" if is_killed else "what the program was asked for"
                )
        finally:
            os.environ["FREEST"] = before
    return faults


def killed_client():
    """The client is killed: both pipes are closed then."""
    return killed([sys.executable, "-S", client.__file__], "killed client")


def killed_with_a_pipe_left():
    """The client is killed, and another process still has its ends of the pipes."""
    fork = "import os, sys, time\nif os.fork() == 0:\n os.closerange(0, 3)\n time.sleep(8)\n os._exit(0)\n"
    code = f"import sys; sys.path.insert(0, {os.path.dirname(client.__file__)!r})\nimport client\n"
    late = "pause = client.signal.pause\ndef forked():\n" + "".join(
        f" {line}\n" for line in fork.splitlines()[1:]
    ) + " pause()\n"
    command = [
        sys.executable, "-S", "-c", f"{code}import os, time\n{late}client.signal.pause = forked\nclient.main()\n"
    ]
    return killed(command, "killed client whose pipes are held")


def killed(command, name):
    with tempfile.NamedTemporaryFile("w", suffix=".fst") as file:
        file.write(TEXT)
        file.flush()
        process = subprocess.Popen([*command, file.name], stdout=subprocess.PIPE)
        try:
            server = process.stdout.readline().strip().decode()
        finally:
            time.sleep(0.2)
            process.kill()
            process.wait()
            process.stdout.close()
    return gone(server, name)


def number_in(file):
    """Returns the number that a process writes into this file, which is taken away."""
    end = time.monotonic() + client.SECONDS
    while time.monotonic() < end:
        if os.path.exists(file) and os.path.getsize(file):
            with open(file, encoding="utf-8") as opened:
                number = opened.read().strip()
            os.remove(file)
            return number
        time.sleep(0.02)
    raise TimeoutError("the program isn't called")


def gone(number, name):
    """Returns faults where the process with this number doesn't end; then it is ended."""
    end = time.monotonic() + SECONDS
    while time.monotonic() < end:
        try:
            with open(f"/proc/{int(number)}/stat", encoding="utf-8") as opened:
                if opened.read().rpartition(")")[2].split()[0] in "ZX":
                    return []
        except OSError:
            return []
        time.sleep(0.02)
    os.kill(int(number), signal.SIGKILL)
    return [f"{name}: the process stays"]
