"""docs/LANGUAGE.md as freest_tools reads it: each row of its tables by itself, its words, and its grammar on the
examples."""
import glob
import re

from freest_tools import grammar, program, refusals, source

from . import differ

MOST_TOKENS = 150  # of a declaration that is followed by the grammar
ELSEWHERE = r"\b(?:above|below(?! `)|the same(?=,)|rows?|table|here and)\b"


def tried():
    rows, said = rows_by_themselves()
    words, parsed = words_of_page(), declarations_by_grammar()
    return [*rows, *words, *parsed[0]], f"{said} rows of docs/LANGUAGE.md, {parsed[1]} declarations by its grammar"


def answers():
    """Returns the answers that the page shows under its tables, each with the command."""
    shown = refusals.page().partition("\n## Refusals\n")[2].partition("\n## Answers\n")[0]
    found = re.findall(r"(?m)^\$ .*\./freest (\w+).*\n((?:refused|undecided|limit) .*)$", shown)
    return [(command, re.sub(r"^(refused )?(\w+ )??\d+:\d+ ", r"\2", answer)) for command, answer in found]


def rows_by_themselves():
    faults, rows, used = [], refusals.rows(), set()
    table = refusals.page().partition("\n## Refusals\n")[2].partition("\n## Answers\n")[0]
    faults += differ("rows that are read", len(rows), len(re.findall(r"(?m)^\| `", table)))
    for row in rows:
        if re.search(ELSEWHERE, f"{row.means} {row.cure}"):
            faults.append(f"a row says nothing by itself: {row.means} / {row.cure}")
    for command, phrase in answers():
        causes = refusals.causes(phrase, command)
        if not causes:
            faults.append(f"no row of the page is for {phrase!r}")
        used.update(it.pattern for it in rows if it.pattern.fullmatch(phrase))
        for cause in causes:
            if re.search(r"(?<![\w'`@])[GW](?![\w'])", cause.means):
                faults.append(f"of {phrase!r} a name stands for nothing: {cause.means}")
    faults += [f"no answer on the page is of the row {it.pattern.pattern!r}" for it in rows if it.pattern not in used]
    return faults, len(rows)


def words_of_page():
    words = re.search(r"\| reserved word \| `(.*?)` \|", refusals.page())[1].split()
    signs = re.search(r"\| sign \| `(.*?)` \|\n", refusals.page())[1].replace("\\|", "|").split()
    faults = differ("reserved words", source.WORDS, set(words))
    for sign in signs:
        faults += differ(f"the sign {sign}", [(it.kind, it.text) for it in source.tokens(sign)], [("sign", sign)])
    return faults


def declarations_by_grammar():
    """Returns the faults of declarations in the examples that the grammar doesn't follow to their end, and how many
    there were."""
    faults, count = [], 0
    for file in sorted(glob.glob(f"{program.TOP}/examples/*.fst"))[::4]:
        with open(file, encoding="utf-8") as opened:
            parts = source.declarations(opened.read())
        for part in parts:
            tokens = source.tokens(part.text)
            if len(tokens) <= MOST_TOKENS and part.kind != "other":
                expected, count = grammar.expected(tokens), count + 1
                if not expected or "end" not in expected.symbols:
                    faults.append(f"{file}: the grammar doesn't end with the declaration of {part.name}")
    return faults, count
