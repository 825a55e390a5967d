"""freest-lsp in Neovim and in Emacs, without anyone's settings, where they are installed."""
import os
import shutil
import signal
import subprocess
import tempfile

import client
import ends

SECONDS = 50
FILES = os.path.dirname(os.path.realpath(__file__))
MODULE = """-- a comment with é
type C = !Int;Close
f : C -> ()
f c = close (send True c)
g : forall a:*T. a -> a
g x = x
main : Int
main = g 5
"""
# What is shown of it, then behind a mend, and then behind a change by hand.
SAID = """fault 4:14 no move !Bool in !Int;Close
fault 8:8 type arguments 0 wanted 1
hover c : !Int;Close
definition 4
symbols 4
mend g @Int
line main = g @Int 5
fault 4:14 no move !Bool in !Int;Close
end 0
"""
EMACS = ["-q", "--batch", "-f", "package-initialize"]
CLIENTS = [
    ("Neovim", "nvim", ["--headless", "-u", "NONE", "-i", "NONE", "-n", "-S", f"{FILES}/try-nvim.lua"]),
    ("Emacs", "emacs", [*EMACS, "-l", f"{FILES}/try-eglot.el"]),
]


def tried():
    """Returns faults, and in which editors the server was tried; of one that isn't there a line says so."""
    faults, used = [], []
    for name, command, words in CLIENTS:
        if not shutil.which(command):
            print(f"editors/try-lsp: no {command}, so the server was not tried in {name}", flush=True)
        elif name == "Emacs" and called(["emacs", *EMACS, "--eval", "(require 'eglot)"], {})[0]:
            print("editors/try-lsp: no eglot, so the server was not tried in Emacs", flush=True)
        else:
            faults += of_client(name, [command, *words])
            used.append(name)
    return faults, " and ".join(used) or "no editor"


def called(command, variables):
    """Returns the status of a command in a folder of its own, or None where it takes too long, and what it writes."""
    with tempfile.TemporaryDirectory() as home:
        own = {
            **os.environ,
            **variables,
            "HOME": home,
            "XDG_CONFIG_HOME": home,
            "XDG_DATA_HOME": home,
            "XDG_STATE_HOME": home,
        }
        pipe = {"stdin": subprocess.DEVNULL, "stdout": subprocess.PIPE, "stderr": subprocess.STDOUT}
        process = subprocess.Popen(
            command, cwd=home, env=own, encoding="utf-8", errors="replace", start_new_session=True, **pipe
        )
        try:
            out, _ = process.communicate(timeout=SECONDS)
            return process.returncode, out
        except subprocess.TimeoutExpired:
            return None, "it takes too long"
        finally:
            if process.poll() is None:
                os.killpg(process.pid, signal.SIGKILL)
                process.communicate()


def of_client(name, command):
    """Returns faults of an editor that runs its script; what it starts notes its number, and has to end with it."""
    with tempfile.TemporaryDirectory() as folder:
        file, said, server, number = (f"{folder}/{it}" for it in ("a.fst", "said", "server", "number"))
        with open(file, "w", encoding="utf-8") as opened:
            opened.write(MODULE)
        with open(server, "w", encoding="utf-8") as opened:
            opened.write(f"#!/bin/sh\necho $$ > {number}\nexec {' '.join(client.SERVER)}\n")
        os.chmod(server, 0o755)
        status, out = called(command, {"FILE": file, "SAID": said, "SERVER": server})
        found = ""
        if os.path.exists(said):
            with open(said, encoding="utf-8") as opened:
                found = opened.read()
        faults = [] if found == SAID else [f"{name} shows {found!r} in place of {SAID!r}: {status} {out[-500:]}"]
        return faults + (ends.gone(ends.number_in(number), f"the server of {name}") if os.path.exists(number) else [])
