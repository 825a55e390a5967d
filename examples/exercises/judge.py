"""How a solution is judged. Each check asks the program about what was handed in, and raises the first Fault that it finds.

Nothing here is proved: a check tries some inputs, and what answers these right passes. What a type says, such as whether it is the
wanted protocol, the program decides.
"""
import collections
import functools
import re

from freest_tools import program, source

MOST_EVENTS = 100_000  # of one run
LONGEST = 200  # characters of what came, in a message
VALUES = {"Int": "0", "Bool": "True", "Char": "'c'", "()": "()"}
LABEL = re.compile(r"[!?](?:Int|Bool|Char|\(\))|[+&][A-Z][\w']*|Close|Wait")
ANSWER = re.compile(r"yes|no( .+)? (left|right)")
DIFFER = re.compile(r"refused \d+:\d+ type .* wanted .* word (.*) (left|right)\n")
WAITS = "result none"  # a first line of a report, wanted where all tasks have to wait


class Fault(Exception):
    """What was tried, what came and what was wanted."""

    def __init__(self, tried, came, wanted):
        super().__init__(tried, came, wanted)
        self.tried, self.came, self.wanted = tried, came if len(came) <= LONGEST else f"{came[:LONGEST]}..", wanted


class Handed:
    """What was handed in: its text, and the text to start from, which is the file `name`."""

    def __init__(self, text, start, name):
        self.text, self.start, self.name = text, start, name

    @functools.cached_property
    def lines(self):
        """Returns the declarations of the module, as `show` writes them: one a line, without comments."""
        answer = program.call(["show"], self.text)
        if answer.status != 0:
            raise Fault("`show`", in_words(answer), "a module")
        return answer.out.splitlines()

    def types(self):
        """Returns the data types and aliases of the module, as lines."""
        return [line for line in self.lines if line.startswith(("data ", "type "))]

    def with_main(self, text):
        """Returns the module with these declarations, a `main` among them. Its own `main` gets another name."""
        own = [re.sub(r"(?<![\w'])main(?![\w'])", "try_own", line) for line in self.lines]
        return "\n".join([*own, text.strip(), ""])


def in_words(answer):
    """Returns what the program answered, in words where it is no answer of one line."""
    first = answer.out.partition("\n")[0]
    waiting = re.findall(r"(?m)^waiting (\S+) at (.*)$", answer.out)
    if answer.stopped:
        return "it wrote too much, and was stopped" if answer.stopped == "output" else "it took too long, and was stopped"
    return {
        3: "it waits for ever: " + ", ".join(f"task {task} at {end}" for task, end in waiting),
        4: f"it doesn't end within {MOST_EVENTS} events",
        5: f"whether two types are equivalent isn't decided: {first}",
        8: f"it is over a limit of the language: {first}",
        9: "it ran out of memory",
    }.get(answer.status, first or f"no answer, and the status {answer.status}")


# Of modules.


def key(line):
    """Returns what a line of `show` declares: `data D`, `type N`, `f :` for a signature or `f =` for an equation."""
    one, two = line.split()[:2]
    return f"{one} {two}" if one in ("data", "type") or two == ":" else f"{one} ="


def only(*may):
    """Of the declarations of the file to start from just these may differ. Others may be added, but no names that begin with `try_`."""

    def check(handed):
        now = {key(line): line for line in handed.lines}
        for line in Handed(handed.start, "", "").lines:
            what = f"the declaration `{key(line)}`"
            if key(line) not in now:
                raise Fault(what, "it is missing", "all that there are in " + handed.name)
            if key(line) not in may and now[key(line)] != line:
                raise Fault(what, "it was changed", f"it is as in {handed.name}")
        taken = next((it.text for it in source.tokens(handed.text) if it.text.lower().startswith("try_")), None)
        if taken:
            raise Fault("the names", f"`{taken}`", "none that begins with `try_`, which the trials use")

    return check


def protocol(name, wanted):
    """The alias of this name has to be equivalent to the wanted type."""

    def check(handed):
        asked = [f"try_type : {name} -> {wanted}", "try_type c = c", "main : Int", "main = 5", ""]
        answer = program.call(["check"], "\n".join(handed.types() + asked))
        differ = DIFFER.fullmatch(answer.out)
        if differ and differ[2] == "left":
            raise Fault(f"`type {name}`", f"`{differ[1]}` is a trace of it", "no such trace")
        if differ:
            raise Fault(f"`type {name}`", f"`{differ[1]}` is no trace of it", "that trace")
        if answer.status != 0:
            raise Fault(f"`type {name}`", without_place(answer), "the protocol of the task")

    return check


def one_of(name, *wanted):
    """The signature of this global has to be one of these types."""

    def check(handed):
        signature = next(line for line in handed.lines if key(line) == f"{name} :")
        for type in wanted:
            asked = [signature, f"{name} = {name}", f"try_it : {type}", f"try_it = {name}", "main : Int", "main = 5", ""]
            answer = program.call(["check"], "\n".join(handed.types() + asked))
            if answer.status == 0:
                return
        raise Fault(f"the signature of `{name}`", without_place(answer), "types with the same traces as before")

    return check


def without_place(answer):
    """Returns the answer in words without its place, which is in no file that anyone sees."""
    return re.sub(r"^(refused|limit) \d+:\d+ ", "refused: ", in_words(answer))


def accepted(handed):
    """The module has to be accepted."""
    answer = program.call(["check"], handed.text)
    if answer.status != 0:
        raise Fault("`check`", in_words(answer), "accepted")


def compare(tried, answer, wanted):
    """The report of a run has to have these lines, of which the first is that of the result."""
    if answer.status not in ((3,) if wanted[0] == WAITS else (0,)):
        came = answer.out.partition("\n")[0] if answer.status == 0 else without_place(answer)
        raise Fault(tried, came, "all tasks wait" if wanted[0] == WAITS else wanted[0])
    lines = answer.out.splitlines()
    for line in wanted:
        if line not in lines:
            front = line.split(":")[0] if ":" in line else line.split()[0]
            raise Fault(tried, next((it for it in lines if it.startswith(front)), f"no `{front.strip()}`"), line)


def trial(tried, main, *wanted, options=()):
    """With this `main` the report of the run has to have the wanted lines."""

    def check(handed):
        answer = program.call(["run", f"--steps={MOST_EVENTS}", *options], handed.with_main(main))
        compare(tried, answer, wanted)

    return check


def runs(*wanted):
    """The report of the module as it is has to have the wanted lines."""

    def check(handed):
        answer = program.call(["run", f"--steps={MOST_EVENTS}"], handed.text)
        compare("`run`", answer, wanted)

    return check


def within(most, tried, main, *wanted):
    """With this `main` the last stamp of the run may not be over a number, either."""

    def check(handed):
        answer = program.call(["run", f"--steps={MOST_EVENTS}", "--events"], handed.with_main(main))
        compare(tried, answer, wanted)
        last = max((int(stamp) for stamp in re.findall(r"(?m)^event (\d+)", answer.out)), default=0)
        if last > most:
            raise Fault(tried, f"the last stamp is {last}", f"at most {most}")

    return check


def same_words(handed):
    """The words of the module have to be those of the file to start from, in any order."""
    now, start = (collections.Counter(it.text for it in source.tokens(text)) for text in (handed.text, handed.start))
    more, less = " ".join((now - start).elements()), " ".join((start - now).elements())
    if more or less:
        raise Fault("the words of the program", f"new are `{more}`, gone are `{less}`", "the same words, in another order")


# Of questions.


def sides(text):
    """Returns the texts of both types of a question."""
    left, _, right = source.without_comments(text).partition("~")
    return left.strip(), right.strip()


def written_once(base):
    """The left type has to be equivalent to that of the file to start from, and the right one to the left, with this message once."""

    def check(handed):
        left, right = sides(handed.text)
        for tried, question in (("the left type", f"{left} ~ {sides(handed.start)[0]}"), ("the two types", handed.text)):
            answer = program.call(["equiv"], question)
            if answer.out != "yes\n":
                raise Fault(tried, in_words(answer), f"as in {handed.name}" if tried == "the left type" else "yes")
        times = "".join(it.text for it in source.tokens(right)).count(base)
        if times != 1:
            raise Fault("the right type", f"`{base}` stands in it {times} times", "once")

    return check


def after(type, label):
    """Returns what is left of a type behind a label, or None where it can't move so. The program writes what is left where the end that a
    move gives back is applied; for a move of the other side this is the other end."""
    name = label.strip("!?+&")
    end = "a" if label[0] in "!+C" else "b"
    move = f"close {end}" if name in ("Close", "Wait") else f"select {name} {end}" if label[0] in "+&" else f"send {VALUES[name]} {end}"
    left = end_of(type, f"({move}) ()")
    if left == "()":
        return "Skip"
    return end_of(left, "b ()") if left and end == "b" else left


def end_of(type, term):
    """Returns the type of what this term applies, where a and b are the ends of a channel of a type, or None."""
    answer = program.call(["check"], f"type T = {type}\nmain : Int\nmain = let (a, b) = new T in {term}\n")
    found = re.fullmatch(r"refused \d+:\d+ not a function (.*)\n", answer.out)
    return found and found[1]


def performs(type, trace):
    """Returns whether a type performs a trace."""
    for label in trace:
        type = type and after(type, label)
    return bool(type)


def predicted(handed):
    """Behind each question has to stand, after `=>`, what `equiv` answers to it."""
    now, start = (lines_of(text) for text in (handed.text, handed.start))
    if len(now) != len(start):
        raise Fault("the questions", f"there are {len(now)}", f"the {len(start)} of {handed.name}, each on a line of its own")
    for number, (line, given) in enumerate(zip(now, start), 1):
        (question, _, said), (asked, _, _) = line.partition("=>"), given.partition("=>")
        if question.split() != asked.split():
            raise Fault(f"question {number}", "it was changed", f"it is as in {handed.name}")
        compare_answer(number, question, " ".join(said.split()))


def lines_of(text):
    """Returns the lines of a text without comments and without what is empty."""
    return [line for line in source.without_comments(text).splitlines() if line.strip()]


def compare_answer(number, question, said):
    """What is said of a question has to be the answer of `equiv`."""
    tried, wanted = f"question {number}", "what `equiv` answers"
    form = ANSWER.fullmatch(said)
    trace = (form[1] or "").split() if form else []
    if not form or not all(map(LABEL.fullmatch, trace)):
        raise Fault(tried, f"`{said}`", "`yes`, or `no`, a trace and its side")
    if said + "\n" == program.call(["equiv"], question).out:
        return
    if said == "yes":
        raise Fault(tried, "`yes`, and a trace is performed by just one side", wanted)
    left, right = (performs(type, trace) for type in sides(question))
    why = "both sides perform that" if left and right else "no side performs that" if not left and not right else (
        "a lesser trace shows it, too" if (form[2] == "left") == left else "just the other side performs that"
    )
    raise Fault(tried, f"`{said}`, and {why}", wanted)


# Of certificates.


def certificate(most):
    """The question has to be that of the file to start from, the certificate valid, and its pairs at most so many."""

    def check(handed):
        now, start = (source.tokens(text.partition("\n")[0]) for text in (handed.text, handed.start))
        if [it.text for it in now] != [it.text for it in start]:
            raise Fault("line 1, the question", "it was changed", f"it is as in {handed.name}")
        answer = program.call(["audit"], handed.text)
        if answer.out != "valid\n":
            raise Fault("`audit`", in_words(answer), "valid")
        pairs = int(handed.text.split("\n")[1].split()[1])
        if pairs > most:
            raise Fault("the certificate", f"it is valid, and has {pairs} pairs", f"at most {most}")

    return check
