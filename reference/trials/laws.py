"""What has to hold of the program's answers to one input, whatever the reference says.

A law takes a function that calls the program, the words and the input of a call, and its status and what it wrote; it gives None
where it holds, and else says how it fails.
"""
import functools
import re
import tempfile

from trials import texts, traces

ANSWERED, UNDECIDED, STEPS = 0, 5, 4
DUALS = {"!": "?", "?": "!", "+": "&", "&": "+", "Close": "Wait", "Wait": "Close"}


def is_answered(status):
    return status in (ANSWERED, UNDECIDED)


def exchanged_text(data):
    pieces = texts.pieces_of(data.decode())
    start = pieces.index(".") + 1 if texts.tokens_of(data.decode())[0] == "forall" else 0
    middle = pieces.index("~")
    return "".join([*pieces[:start], " ", *pieces[middle + 1:], "\n~\n", *pieces[start:middle]]).encode()


def sides_exchanged(call, words, data, status, out):
    """The same difference, on the other side."""
    new_status, new = call(words, exchanged_text(data))
    wanted = re.sub(rb"left$|right$", lambda side: b"right" if side.group() == b"left" else b"left", out.rstrip(b"\n")) + b"\n"
    if is_answered(new_status) and new != wanted and b"no " in (out[:3], new[:3]):
        return "with its sides exchanged it is %r" % new


def duals(call, words, data, status, out):
    """A difference that is as long, or none, between the duals."""
    pieces = texts.pieces_of(data.decode())
    start = pieces.index(".") if texts.tokens_of(data.decode())[0] == "forall" else 0
    new_status, new = call(words, "".join([*pieces[:start], *(DUALS.get(piece, piece) for piece in pieces[start:])]).encode())
    if status == new_status == ANSWERED and len(out.split()) != len(new.split()):
        return "of the duals it is %r" % new


def names_changed(call, words, data, status, out):
    pieces = texts.pieces_of(data.decode())
    new = [piece + "_1" if is_lower(piece) else piece for piece in pieces]
    answer = call(words, "".join(new).encode())
    if answer != (status, out):
        return "with other names of variables it is %r" % answer[1]


def is_lower(piece):
    return (piece[0].isalpha() or piece[0] == "_") and not "A" <= piece[0] <= "Z" and piece not in ("rec", "forall")


def difference_shown(call, words, data, status, out):
    """The trace of a no is performed by its side alone, and none that so many pairs show comes before it."""
    *trace, side = out.decode().split()[1:]
    if not traces.is_performed_alone(data.decode(), trace, side):
        return "the trace isn't performed by that side alone"
    least = traces.least_difference(data.decode(), 400)
    if least is not None and least != out.decode().strip():
        return "a search finds " + least


def no_difference_found(call, words, data, status, out):
    least = traces.least_difference(data.decode(), 400)
    if least is not None and least.startswith("no"):
        return "a search finds " + least


def certified(call, words, data, status, out):
    """A yes has a certificate, which the program and examples/audit.py call valid, in front of which stands the same question."""
    new_status, certificate = call([*words, "--proof"], data)
    if new_status != status:
        return "with --proof it is %r" % certificate
    said = call(["audit"], certificate)[1], other_audit(certificate)
    if said != (b"valid\n", "valid") and len(certificate) <= 1048576:
        return "of its certificate audit says %r, and examples/audit.py %s" % said
    again = call(words, certificate.split(b"\n")[0])
    if again != (status, out):
        return "of the question in front of the certificate it is %r" % again[1]


def other_audit(certificate):
    with tempfile.NamedTemporaryFile() as file:
        file.write(certificate)
        file.flush()
        return traces.audit.answer(file.name)


def audited_alike(call, words, data, status, out):
    """examples/audit.py says the same, where no number is too wide for the program: of that it knows nothing."""
    if re.search(rb"\d{10}", data) or not out.startswith((b"valid", b"refused 1:1 no basis", b"refused")) or status not in (0, 1):
        return None
    if status == 1 and b" no basis" not in out and not out.endswith(b" certificate\n"):
        return None
    wanted = "valid" if status == 0 else "no basis" if b"no basis" in out else "refused"
    said = other_audit(data)
    if said != wanted:
        return "examples/audit.py says " + said


def shown_again(call, words, data, status, out):
    new_status, new = call(["show"], out)
    if (new_status, new) != (status, out) and new[:5] != b"limit":
        return "what it shows is shown as %r" % new


def shown_checked(call, words, data, status, out):
    """The text that `show` writes is checked alike, but for places."""
    shown_status, shown = call(["show"], data)
    new_status, new = call(words, shown)
    if shown_status == 0 and without_place(new) != without_place(out) and new[:5] != b"limit":
        return "of the text that is shown it is %r" % new


def without_place(line):
    return re.sub(rb"^(\w+) \d+:\d+", rb"\1", line)


@functools.lru_cache(maxsize=None)
def workers(number):
    def law(call, words, data, status, out):
        new = call([*words, "--workers", str(number)], data)
        if new != (status, out):
            return "on %d threads it is %r" % (number, new[1][-200:])
    law.__name__ = "workers_%d" % number
    return law


def events(call, words, data, status, out):
    """With --events the report stands in front, and the run has as many events as it needs steps."""
    new_status, new = call([*words, "--events"], data)
    if new_status != status or not new.startswith(out):
        return "with --events it is %r" % new[:200]
    lines = new[len(out):].splitlines()
    stamps = [int(line.split()[1]) for line in lines]
    if stamps != sorted(stamps):
        return "the stamps of its events fall"
    steps = [word for word in words if word not in ("--steps", words[words.index("--steps") + 1])] if "--steps" in words else words
    if call([*steps, "--steps", str(len(lines))], data) != (status, out):
        return "with as many steps as events it is another"
    if lines and call([*steps, "--steps", str(len(lines) - 1)], data) != (STEPS, b"out of steps\n"):
        return "with fewer steps than events it isn't out of steps"


@functools.lru_cache(maxsize=None)
def buffers(number):
    def law(call, words, data, status, out):
        new = call([*words, "--buffer", str(number)], data)
        if new[0] not in (STEPS, 8, 9) and new != (status, out):
            return "with channels that hold %d it is %r" % (number, new[1][-200:])
    law.__name__ = "buffer_%d" % number
    return law


def laws_of(words, status, out):
    """The laws that speak of such an answer."""
    command, options = words[0] if words else "", words[1:]
    if command == "equiv" and is_answered(status) and "--proof" not in options:
        kinds = [sides_exchanged, duals, names_changed]
        return kinds + ([difference_shown] * 3 if out.startswith(b"no") else [no_difference_found, certified, certified] if status == 0 else [])
    if command == "show" and status == 0:
        return [shown_again]
    if command == "check" and status in (0, 1, 5) and not re.search(rb" (syntax|bad character|not utf-8|too wide|too long)", out):
        return [shown_checked]
    if command == "audit":
        return [audited_alike]
    if command == "run" and status in (0, 3) and not {"--workers", "--events", "--buffer"} & set(options):
        return [workers(number) for number in range(2, 9)] + [events] * 3 + [buffers(number) for number in (1, 2, 3, 64) if status == 0]
    if command == "run" and status == STEPS and not {"--workers", "--events", "--buffer"} & set(options):
        return [workers(number) for number in range(2, 9)]
    return []
