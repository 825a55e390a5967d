"""freest-explain as it is called: its forms, its statuses, and what it says of bad input."""
import json
import os
import re
import signal
import subprocess
import sys
import tempfile
import time

from freest_tools import explain, program

from . import differ

FILES = {
    "good.fst": b"main : Int\nmain = 5\n",
    "two.fst": b"f : !Int -> Int\nf c = 5\nmain : Int\nmain = True\n",
    "slip.fst": b"main : Int\nmain = -3\n",
    "a,b%:\n.fst": b"main : Int\nmain = \xff\n",
    "wide.fst": "main : Int\nmain = '日' + \x1b[31m\n".encode(),
    "no.question": b"!Int ~ ?Int\n",
    "bad.question": b"Int ~ !Int\n",
    "bad.proof": b"!Int ~ !Int\npairs 01\n",
    "long.fst": b" " * 1_048_577,
}
# The words, the status, and what has to stand in the output, or what the output has to be where it begins with `=`.
CALLS = [
    (["--help"], 0, ["--github", "usage: "]), ([], 2, []), (["--plain", "--json", "good.fst"], 2, []), (
        ["--pla", "good.fst"], 2, []
    ),
    (["--plain", "good.fst"], 0, ["="]), (["good.fst"], 0, ["good.fst: accepted\n"]), (
        ["missing.fst"], 2, []
    ), (["."], 2, []),
    (["two.fst"], 1, ["two.fst:2:3: unused c\n  2 | f c = 5\n    |   ^\n", "why: the linear variable c isn't used", "two.fst:4:8: type Bool wanted Int"]),
    (
        ["--plain", "slip.fst", "good.fst", "two.fst"],
        1,
        ["slip.fst:2:8: syntax; why: `-` stands between two numbers", "\ntwo.fst:2:3: ", "\ntwo.fst:4:8: "],
    ),
    (["slip.fst"], 1, ["here: could stand a term, or `not`"]),
    (["--github", "two.fst"], 1, ["::error file=two.fst,line=2,col=3,title=unused c::why: ", "%0Amend: "]),
    (["--github", "a,b%:\n.fst"], 1, ["::error file=a%2Cb%25%3A%0A.fst,line=2,col=8,title=not utf-8::"]),
    (["wide.fst"], 1, ["\n  2 | main = '日' + \ufffd[31m\n    |               ^"]),
    (["no.question"], 0, ["no.question: no !Int left", "at once the left one alone goes on by !Int"]),
    (["bad.question"], 1, ["bad.question:1:1: kind *T wanted 1S"]), (["bad.proof"], 1, ["bad.proof:2:1: certificate"]),
    (["long.fst"], 8, ["limit length"]), (["-"], 1, ["-:1:1: no main"]),
]


def tried():
    faults = []
    with tempfile.TemporaryDirectory() as folder:
        for name, text in FILES.items():
            with open(os.path.join(os.fsencode(folder), os.fsencode(name)), "wb") as opened:
                opened.write(text)
        for words, status, wanted in CALLS:
            faults += of_call(folder, words, status, wanted)
        faults += pages() + as_json(folder) + without_program(folder) + interrupted(folder)
    return faults, f"{len(CALLS) + 5} calls of freest-explain"


def begun(folder, words, **more):
    command = [sys.executable, "-S", f"{program.TOP}/freest-explain", *words]
    pipe = subprocess.PIPE
    return subprocess.Popen(
        command, cwd=folder, stdin=subprocess.DEVNULL, stdout=pipe, stderr=pipe, encoding="utf-8", **more
    )


def of_call(folder, words, status, wanted):
    called = begun(folder, words)
    out, err = called.communicate(timeout=50)
    faults = differ(f"the status of {words}", called.returncode, status) + differ(
        f"lines of errors of {words}", err.count("\n"), int(status == 2)
    )
    for text in wanted:
        if text == "=" and out or text not in out and text != "=":
            faults.append(f"{words} write {out!r} without {text!r}")
    return faults


def pages():
    """Returns faults of the man page, whose options are those of the command, and of the hook for pre-commit."""
    with open(f"{program.TOP}/docs/freest-explain.1", encoding="utf-8") as opened:
        options = set(re.findall(r"--\w+", opened.read().replace("\\-", "-")))
    faults = differ("options of the man page", options, set(re.findall(r"--\w+", explain.ABOUT)))
    with open(f"{program.TOP}/.pre-commit-hooks.yaml", encoding="utf-8") as opened:
        hook = dict(re.findall(r"(?m)^(?:- |  )(\w+): (.*)$", opened.read()))
    command, *words = hook["entry"].split()
    faults += differ("what the hook calls", os.access(f"{program.TOP}/{command}", os.X_OK) and words, ["--plain"])
    taken = [name for name in ("a/b.fst", "b.question", "c.proof", "d.certificate", "e.fst.txt", "fst") if re.search(hook["files"], name)]
    return faults + differ("files of the hook", len(taken), 4)


def as_json(folder):
    out, _ = begun(folder, ["--json", "good.fst", "two.fst", "a,b%:\n.fst"]).communicate(timeout=50)
    found = json.loads(out)
    faults = differ(
        "files in JSON",
        [(it["file"], it["status"], len(it["faults"])) for it in found],
        [("good.fst", 0, 0), ("two.fst", 1, 2), ("a,b%:\n.fst", 1, 1)],
    )
    keys = sorted(found[1]["faults"][0])
    return faults + differ(
        "a fault in JSON", keys, ["column", "here", "kind", "line", "mend", "notes", "phrase", "why"]
    )


def without_program(folder):
    called = begun(folder, ["good.fst"], env={**os.environ, "FREEST": "/nonexistent"})
    _, err = called.communicate(timeout=50)
    return differ("the status without a program", called.returncode, 2) + differ(
        "lines without a program", err.count("\n"), 1
    )


def interrupted(folder):
    """Returns faults of a call that is interrupted while the program runs, and of one whose reader has gone."""
    faults, sleeper = [], os.path.join(folder, "sleeper")
    with open(sleeper, "w", encoding="utf-8") as opened:
        opened.write(f"#!/bin/sh\necho $$ > {folder}/began\nexec sleep 30\n")
    os.chmod(sleeper, 0o755)
    for number in (signal.SIGINT, signal.SIGTERM):
        called = begun(folder, ["good.fst"], env={**os.environ, "FREEST": sleeper})
        process = begun_process(f"{folder}/began")
        called.send_signal(number)
        _, err = called.communicate(timeout=20)
        faults += differ(f"the status behind {number!r}", called.returncode, 128 + number) + differ(
            "what is said behind a signal", err, ""
        )
        if process and os.path.exists(f"/proc/{process}") and not is_dead(process):
            faults.append(f"what was begun goes on behind {number!r}")
    called = begun(folder, ["good.fst"] * 3)
    called.stdout.close()
    called.wait(50)
    return faults + differ("what is said without a reader", called.stderr.read(), "")


def begun_process(file):
    """Returns the number of the process that writes it to this file, which is taken away, or None where none does."""
    end = time.monotonic() + 20
    while time.monotonic() < end:
        if os.path.exists(file) and os.path.getsize(file):
            with open(file, encoding="utf-8") as opened:
                number = opened.read().strip()
            os.remove(file)
            return number
        time.sleep(0.02)
    return None


def is_dead(process):
    try:
        with open(f"/proc/{process}/stat", encoding="utf-8") as opened:
            return re.search(r"\) ([ZX])", opened.read()) is not None
    except OSError:
        return True
