"""What the program writes of its words and its input, and the status with which it ends (docs/LANGUAGE.md, Answers)."""
import os
import sys
import threading

from . import kinds, types
from .bases import BadLine, CertificateReader, certificate_text, is_proof
from .checking import check
from .equivalence import ask
from .faults import MOST_BYTES, STATUSES, Fault, OutOfMemory
from .grammars import Grammar
from .modules import read_module
from .names import Resolver, resolve_question
from .options import USAGE, parse
from .reading import read_question
from .reports import event_lines, made_text, report_text, summary_lines
from .runs import BufferedRun, Run
from .texts import declaration_text, kinds_text, trace_text, type_text
from .tokens import lex, text_of

STACK, MOST_CALLS = 512 << 20, 10 ** 6
WAITING, OUT_OF_STEPS, READ_FAULT, WRITE_FAULT, MEMORY = 3, 4, 6, 7, 9


def answer(words, data):
    """`IsAnswered`: the status, and the bytes that are written. The deepest inputs need a stack as `deeply` gives one."""
    command = parse(words)
    if command is None:
        return 2, USAGE
    types.forget()
    kinds.known.clear()
    if len(data) > MOST_BYTES:
        return STATUSES["limit"], b"limit length\n"
    try:
        status, text = COMMANDS[command[0]](data, command[1])
    except Fault as fault:
        return STATUSES[fault.word], fault_text(fault, data).encode()
    except OutOfMemory:
        return MEMORY, b""
    return status, text.encode()


def fault_text(fault, data):
    """`finding_text`: the line of a fault, with its place as a line and a column, both from 1 on."""
    before = data[:fault.at]
    return "%s %d:%d %s\n" % (fault.word, before.count(b"\n") + 1, fault.at - before.rfind(b"\n"), fault.phrase)


def show(data, options):
    """`ShowsModule`"""
    return 0, "".join(declaration_text(d) + "\n" for d in read_module(lex(data)))


def asked(data):
    """`AreAsked`: the question of two session types that the bytes are."""
    question = resolve_question(read_question(lex(data)))
    for t, at in ((question.left, question.left_at), (question.right, question.right_at)):
        kinds.need_below(kinds.kind_of(t, question.kinds, at), "1S", at)
    return question


def equiv(data, options):
    """`AnswersQuestion`"""
    question = asked(data)
    verdict = ask(question.left, question.right, options["budget"], question.left_at)
    if verdict.answer == "undecided":
        return STATUSES["undecided"], "undecided %d\n" % options["budget"]
    if verdict.answer == "no":
        return 0, "no " + trace_text(verdict.trace, verdict.side) + "\n"
    return 0, question_text(question) + certificate_text(*verdict.proof()) if "proof" in options else "yes\n"


def question_text(question):
    """The question on one line, with its names resolved."""
    variables = [("a%d" % (k + 1), kind) for k, kind in enumerate(question.kinds)]
    return kinds_text(variables) + type_text(question.left, ()) + " ~ " + type_text(question.right, ()) + "\n"


def audit(data, options):
    """`AuditsCertificate`"""
    text_of(data)
    first, _, rest = data.partition(b"\n")
    question = asked(first)
    grammar = Grammar(question.left, question.right, question.left_at)
    try:
        proof = CertificateReader(rest.decode())
    except BadLine as bad:
        return 1, "refused %d:1 certificate\n" % (bad.args[0] + 1)
    words = map(grammar.pruned, grammar.words)
    return (0, "valid\n") if is_proof(grammar, *words, proof.basis, proof.chains) else (1, "refused 1:1 no basis\n")


def accepted(data, options):
    """`FindsModule`: the module that the bytes stand for, which is well typed."""
    module = Resolver(read_module(lex(data))).module()
    check(module, options["budget"])
    return module


def check_module(data, options):
    """`SaysAccepted`"""
    accepted(data, options)
    return 0, "accepted\n"


def run(data, options):
    """`SaysOutcome`, `SaysBuffered`: what so many steps of the least run come to."""
    module = accepted(data, options)
    run_of = BufferedRun(module, options["buffer"]) if "buffer" in options else Run(module)
    if not run_of.ends_within(options["steps"]):
        return OUT_OF_STEPS, "out of steps\n"
    lines = report_text(run_of, module.families) + (event_lines(run_of) if "events" in options else [])
    return WAITING if run_of.tasks else 0, "".join(line + "\n" for line in lines)


def make(data, options):
    """`WritesMade`"""
    made = made_text(options["n"]).encode()
    run_of = Run(accepted(made, options))
    run_of.ends_within(options["steps"])
    return 0, "".join(line + "\n" for line in summary_lines(made, run_of))


COMMANDS = {"equiv": equiv, "show": show, "check": check_module, "run": run, "make": make, "audit": audit}


def deeply(function, *arguments):
    """What the function gives, on a thread with a deep stack."""
    found = []

    def run():
        try:
            found.append(function(*arguments))
        except MemoryError:
            found.append((MEMORY, b""))
    threading.stack_size(STACK)
    sys.setrecursionlimit(MOST_CALLS)
    thread = threading.Thread(target=run)
    thread.start()
    thread.join()
    return found[0]


def main(words):
    """`top`: reads, answers and writes, and ends with the status; of 6, 7 and 9 as far as Python tells."""
    command = parse(words)
    try:
        data = sys.stdin.buffer.read(MOST_BYTES + 1) if command and command[0] != "make" else b""
    except OSError:
        sys.exit(READ_FAULT)
    status, out = deeply(answer, words, data)
    try:
        sys.stdout.buffer.write(out)
        sys.stdout.buffer.flush()
    except OSError:
        os._exit(WRITE_FAULT)
    sys.exit(status)
