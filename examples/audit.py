#!/usr/bin/env python3
"""audit.py FILE...: checks certificates that two session types are equivalent; shares no code with freest.

A file (or the standard input) has a question `T ~ U` on its first line, then a certificate. Printed is
`valid`, `no basis`, or `refused` where one can't be read; the status is 0 where all are valid, and else 1.
Done here: syntax, translation to words of one grammar, unnormed non-terminals, each rewrite of each chain.
Trusted: Python, that words which a basis joins perform the same, and that the question is well formed (kinds,
contractivity, spelling of names and sizes aren't tested). Too wide a number is no basis here."""
import re
import sys

TOKENS = re.compile(r"--.*|[!?][ \t\r]*(?:(?:Int|Bool|Char)(?![\w'\x80-\U0010ffff])|\([ \t\r]*\))"
                    r"|[0-9]+|[\w\x80-\U0010ffff][\w'\x80-\U0010ffff]*|[^ \t\r]", re.ASCII)
CERTIFICATE = re.compile(re.sub("N", "(?:0|[1-9][0-9]*)", (
    r"pairs (N)\n((?:pair(?: N)+ ~(?: N)+\n)*)chains (N)\n((?:chain(?: [fb]N:N| [cg]N(?:[.]N)*)*\n)*)")))
NAMED = [sign + base for sign in "!?" for base in ("Int", "Bool", "Char", "()")] + ["Close", "Wait"]

def require(condition):
    if not condition:
        raise ValueError

def read_question(line):
    """Both types as (form, what it holds, part, ..), and the labels of names: places in NAMED or behind."""
    tokens = [re.sub(r"[ \t\r]|^0+(?=1$)", "", t) for t in TOKENS.findall(line) if not t.startswith("--")]
    tokens, names, labels = ["", *reversed(tokens)], [*NAMED], set()
    def take(*wanted):  # where nothing is wanted, a name
        require(tokens[-1] in wanted if wanted else tokens[-1].replace("'", "").isidentifier())
        return tokens.pop()

    def read(binders, depth):
        require(depth <= 200)
        token = tokens.pop()
        if token == "rec":
            binder, _ = take(), take(".")
            return "rec", (), read((binder, *binders), depth + 1)
        if token == "(":
            first, _ = read(binders, depth + 1), take(")")
        elif token in ("+", "&"):
            branches, separator = {}, take("{")
            while separator != "}":
                label, _ = token + take(), take(":")
                require(label not in branches)
                branches[label], separator = read(binders, depth + 1), take(",", "}")
            first = token, tuple(sorted(branches)), *(branches[label] for label in sorted(branches))
        elif token == "Skip":
            first = "Skip", ()
        elif token in binders:
            first = "back", binders.index(token)
        else:
            first = "name", names.index(token)
            labels.add(first[1])
        return (take(";"), (), first, read(binders, depth + 1)) if tokens[-1] == ";" else first

    separator = take("forall") if tokens[-1] == "forall" else "."
    while separator != ".":
        names.append(take())
        _, _, _, separator = take(":"), take("*", "1"), take("S", "T"), take(",", ".")
    left, _, right, _ = read((), 1), take("~"), read((), 1), take("")
    return left, right, labels

def open_depth(t):  # how many binders around the type its recursion variables ask for
    return t[1] + 1 if t[0] == "back" else max(0, max(map(open_depth, t[2:]), default=0) - (t[0] == "rec"))

def is_terminated(t):
    return t[0] == "Skip" or t[0] in (";", "rec") and all(map(is_terminated, t[2:]))

def grammar_of(left, right, labels):
    """Each non-terminal's words by letter, the non-terminals without a norm, and both types' pruned words."""
    numbers = {label: n for n, label in enumerate(sorted(labels))}
    rows = {n: {label: ()} for label, n in numbers.items()}  # and for a `rec`, at first, the word of its body
    def word_of(t, whole, place, binders):  # the place is that in the smallest closed type around
        if is_terminated(t):
            return ()
        if t[0] == "name":
            return (numbers[t[1]],)
        if t[0] == "back":
            return (numbers[whole, binders[t[1]]],)
        if t[0] == ";":
            return word_of(t[2], whole, (*place, 0), binders) + word_of(t[3], whole, (*place, 1), binders)
        if open_depth(t) == 0:
            whole, place, binders = t, (), ()
        if (whole, place) not in numbers:
            n = numbers[whole, place] = len(numbers)
            binders = (place, *binders) if t[0] == "rec" else binders
            words = [word_of(part, whole, (*place, k), binders) for k, part in enumerate(t[2:])]
            rows[n] = words[0] if t[0] == "rec" else dict(zip(t[1], words))
        return (numbers[whole, place],)

    def row_of(n):
        if isinstance(rows[n], tuple):
            rows[n] = {letter: word + rows[n][1:] for letter, word in row_of(rows[n][0]).items()}
        return rows[n]
    words = word_of(left, left, (), ()), word_of(right, right, (), ())
    for label in labels & {NAMED.index("Close"), NAMED.index("Wait")}:  # behind which nothing is reached
        rows[numbers[label]], rows[len(numbers)] = {label: (len(numbers),)}, {}
    rows = {n: row_of(n) for n in rows}
    unnormed = set(rows)
    while normed := {n for n in unnormed if any(unnormed.isdisjoint(word) for word in rows[n].values())}:
        unnormed -= normed
    cuts = [next((k for k, n in enumerate(word) if n in unnormed), len(word)) + 1 for word in words]
    return rows, unnormed, [[*word[:cut]] for word, cut in zip(words, cuts)]

def read_certificate(text):
    """The pairs of words, and the chains; a rewrite has a kind, a place, and a pair's number or a tail."""
    require(found := CERTIFICATE.fullmatch(text))
    count, pairs, total, chains = found.groups()
    require(int(count) == pairs.count("\n") and int(total) == chains.count("\n"))
    basis = [[[*map(int, word.split())] for word in line[5:].split("~")] for line in pairs.splitlines()]
    return basis, [[(step[0], *map(int, re.split("[:.]", step[1:]))) for step in line.split()[1:]]
                   for line in chains.splitlines()]

def joins(chain, word, goal, basis, unnormed):
    """Whether the rewrites of the chain can be made on the word, which they change, and lead to the goal."""
    for kind, at, *what in chain:
        if kind in "fb" and what[0] < len(basis):
            old, new = basis[what[0]] if kind == "f" else reversed(basis[what[0]])
            end = at + len(old)
        elif kind in "cg" and at < len(word) and word[at] in unnormed:
            old, new = (what, []) if kind == "c" else ([], what)
            at, end = at + 1, len(word)
        else:
            return False
        if word[at:end] != old:
            return False
        word[at:end] = new
    return word == goal

def is_proof(rows, unnormed, words, basis, chains):
    """Whether the first chain joins the words, and the others show that the pairs are a basis."""
    after = (([*word, *left[1:]], [*rows[right[0]][letter], *right[1:]])
             for left, right in basis for letter, word in rows[left[0]].items())
    return (all(n < len(rows) for pair in basis for word in pair for n in word)
            and all(n < len(rows) for c in chains for kind, _, *tail in c if kind in "cg" for n in tail)
            and len(chains) == 1 + sum(len(rows[left[0]]) for left, _ in basis)
            and all(rows[left[0]].keys() == rows[right[0]].keys() for left, right in basis)
            and joins(chains[0], *words, basis, unnormed)
            and all(joins(chain, *pair, basis, unnormed) for chain, pair in zip(chains[1:], after)))

def answer(path):
    try:
        line, _, text = open(path, "rb").read().decode().partition("\n")
        return "valid" if is_proof(*grammar_of(*read_question(line)), *read_certificate(text)) else "no basis"
    except (OSError, ValueError, IndexError, RecursionError):
        return "refused"

if __name__ == "__main__":
    sys.setrecursionlimit(10000)
    answers = [answer(path) for path in sys.argv[1:] or [0]]
    print(*answers, sep="\n")
    sys.exit({*answers} != {"valid"})
