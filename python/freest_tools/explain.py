"""The command freest-explain: what the program says of files, and of each fault why it is one and what mends it."""
import argparse
import collections
import json
import os
import signal
import sys
import unicodedata

from . import findings, program, questions, source, types

MOST_BYTES = 1_048_577  # one more than the language takes, so that the program says so itself
SECONDS = 10
NO_ANSWER = 9  # the status where the program was stopped, as where memory is wanting
USAGE = "freest-explain [--plain | --github | --json] FILE.."
ABOUT = f"""usage: {USAGE}

Says of each FILE what `freest check` says of a module, `freest equiv` of NAME.question, and `freest audit` of NAME.proof and
NAME.certificate; and of each fault where it is, why it is one and what mends it. `-` is a module on standard input.

  --plain    a line `FILE:LINE:COLUMN: TEXT` for each fault
  --github   a line for each fault as GitHub shows it beside the source
  --json     a list with an object for each file
  --help     writes this

The first fault of a file is the program's answer; further ones are its answers where the first are moved aside. Explanations are a
help and prove nothing. The status is the program's, the greatest of all files: 0 accepted, 1 refused, 5 undecided, 8 a limit, 9 no
answer; and 2 where a FILE can't be read, the words are wrong, or there is no program."""

# What is said of one file: `answer` is the first line of the program's answer, `text` the file's.
Told = collections.namedtuple("Told", "file text command status answer findings")


def told(file, given, path):
    """Returns what is said of a file with these bytes."""
    command, text = program.command_of(file), given.decode("utf-8", "surrogateescape")
    answer = program.call([command], given, path=path, seconds=SECONDS)
    first = answer.out.split("\n")[0]
    if answer.stopped or answer.status == NO_ANSWER:
        why = f"stopped by its bound on {answer.stopped}" if answer.stopped else "out of memory"
        return Told(file, text, command, NO_ANSWER, f"no answer: {why}", [])
    faults = questions.faults(text, path) if command == "check" else [
        it for it in [questions.placed(answer.out, text)] if it
    ]
    names = types.aliases(text, path) if command == "check" and faults else {}
    return Told(
        file, text, command, answer.status, first, [findings.finding(text, it, command, names) for it in faults]
    )


def drawn(text, fault):
    """Returns the line of a fault, with a sign below the token that begins there."""
    lines = text.split("\n")
    line = lines[min(fault.line, len(lines)) - 1].rstrip("\r")
    at = min(fault.offset - (text.rfind("\n", 0, fault.offset) + 1), len(line))
    token = source.token_at(text, fault.offset)
    length = token.end - fault.offset if token and token.start == fault.offset else 1
    front = "".join("\t" if sign == "\t" else " " * width(sign) for sign in line[:at])
    number = str(fault.line)
    return [
        f"  {number} | {printable(line)}",
        f"  {' ' * len(number)} | {front}{'^' * max(1, sum(map(width, line[at : at + length])))}",
    ]


def width(sign):
    """Returns how many columns of a terminal a character takes."""
    if unicodedata.combining(sign) or unicodedata.category(sign) == "Cf":
        return 0
    return 2 if unicodedata.east_asian_width(sign) in "WF" else 1


def printable(text):
    """Returns a text without what a terminal would obey."""
    return "".join(sign if sign.isprintable() or sign == "\t" else "\ufffd" for sign in text)


def of_answer(it):
    """Returns what an answer without a place says, in other words."""
    words = it.answer.split(" ")
    if it.command == "equiv" and words[0] == "no":
        *labels, last, side = words[1:]
        front = f"behind {' '.join(labels)}, which both perform," if labels else "at once"
        return [("why", f"the two types differ: {front} the {side} one alone goes on by {last}")]
    return []


def whole(it):
    """Returns the lines for people about a file."""
    name = printable(it.file)
    lines = [] if it.findings else [
        f"{name}: {printable(it.answer)}", *(f"  {what}: {text}" for what, text in of_answer(it))
    ]
    for found in it.findings:
        lines += [
            f"{name}:{found.fault.line}:{found.fault.column}: {printable(found.phrase)}", *drawn(it.text, found.fault)
        ]
        lines += [f"  {what}: {printable(text)}" for what, text in findings.reasons(found)] + [""]
    return lines


def plain(it):
    """Returns a line for each fault, as compilers write it."""
    lines = [
        f"{printable(it.file)}:{found.fault.line}:{found.fault.column}: "
        + "; ".join([printable(found.phrase), *(f"{what}: {printable(text)}" for what, text in findings.reasons(found) if what != "here")])
        for found in it.findings
    ]
    return lines or [f"{printable(it.file)}:1:1: {printable(it.answer)}"] * (it.status != 0)


def github(it):
    """Returns a workflow command of GitHub for each fault."""

    def escaped(text, signs):
        return "".join(f"%{ord(sign):02X}" if sign in signs else sign for sign in text)

    def line(place, title, text, kind):
        where = f"file={escaped(it.file, '%:,' + LINES)},line={place[0]},col={place[1]},title={escaped(title, '%:,' + LINES)}"
        return f"::{kind} {where}::{escaped(text, '%' + LINES)}"

    lines = [
        line(
            found.fault[2:4],
            found.phrase,
            "\n".join(f"{what}: {text}" for what, text in findings.reasons(found)),
            "warning" if found.fault.kind == "undecided" else "error",
        )
        for found in it.findings
    ]
    return lines or [line((1, 1), it.answer, it.answer, "error")] * (it.status != 0)


LINES = "\r\n"


def as_object(it):
    """Returns what JSON has of a file."""
    faults = [{**found.fault._asdict(), **found._asdict(), "fault": None} for found in it.findings]
    for fault in faults:
        del fault["fault"], fault["offset"]
    return {"file": it.file, "command": it.command, "status": it.status, "answer": it.answer, "faults": faults}


class Parser(argparse.ArgumentParser):
    def error(self, message):
        sys.exit(complain(message))

    def print_help(self, file=None):
        print(ABOUT, file=file)


def complain(text):
    """Writes what is wrong in one line, and returns the status for it."""
    print(f"freest-explain: {printable(text)}", file=sys.stderr)
    return 2


def read(file):
    if file == "-":
        return sys.stdin.buffer.read(MOST_BYTES)
    with open(file, "rb") as opened:
        return opened.read(MOST_BYTES)


def main():
    parser = Parser(allow_abbrev=False, usage=USAGE)
    forms = parser.add_mutually_exclusive_group()
    for form in ("plain", "github", "json"):
        forms.add_argument(f"--{form}", dest="form", action="store_const", const=form)
    parser.add_argument("files", nargs="+", metavar="FILE")
    words = parser.parse_args()
    signal.signal(signal.SIGTERM, lambda *_: sys.exit(128 + signal.SIGTERM))
    sys.stdout.reconfigure(errors="backslashreplace")
    path = program.find()
    if not path:
        return complain(program.HOW_TO_BUILD)
    try:
        status = explain(words.files, words.form, path)
        sys.stdout.flush()
        return status
    except KeyboardInterrupt:
        return 128 + signal.SIGINT
    except BrokenPipeError:
        # (nobody reads any more, and Python would say so when it ends)
        os.dup2(os.open(os.devnull, os.O_WRONLY), sys.stdout.fileno())
        return 128 + signal.SIGPIPE


def explain(files, form, path):
    """Writes what is said of the files in this form, and returns the status."""
    status, all_told = 0, []
    for file in files:
        try:
            given = read(file)
        except OSError as error:
            status = max(status, complain(f"{file}: {error.strerror}"))
            continue
        it = told(file, given, path)
        status = max(status, it.status)
        if form == "json":
            all_told.append(as_object(it))
        else:
            for line in {None: whole, "plain": plain, "github": github}[form](it):
                print(line)
    if form == "json":
        print(json.dumps(all_told, indent=1))
    return status
