"""What docs/LANGUAGE.md says of each refusal, in the tables of its last part: what it means, and what mends it."""
import collections
import functools
import os
import re

from .program import TOP

PLACES = f"{TOP}/docs/LANGUAGE.md", f"{TOP}/../doc/freest/LANGUAGE.md"  # in a clone, and where it is installed
LONGEST = 24  # characters of a part of a phrase that is put in place of its name; a longer one would hide the sentence

# A row of a table: the pattern of its phrase, the names of the pattern's groups, what the phrase means and what mends
# it. `kind` is "question" or "module" where the row is of one of them alone.
Row = collections.namedtuple("Row", "pattern names kind means cure")
Cause = collections.namedtuple("Cause", "means cure")


@functools.lru_cache(maxsize=None)
def page():
    """Returns the text of the page, or nothing where there is none."""
    for place in PLACES:
        try:
            with open(place, encoding="utf-8") as found:
                return found.read()
        except OSError:
            pass
    return ""


@functools.lru_cache(maxsize=None)
def rows():
    """Returns the rows of the page's tables."""
    return rows_of(page())


def rows_of(page):
    """Returns the rows of the tables in this text of the page."""
    found = []
    tables = page.partition("\n## Refusals\n")[2].partition("\n## Answers\n")[0]
    for line in tables.split("\n"):
        cells = [cell.strip().replace("\\|", "|") for cell in re.split(r"(?<!\\)\|", line)[1:-1]]
        phrase = cells and re.match(r"`(.+?)`", cells[0])
        if phrase and len(cells) == 3:
            # (a row that begins so goes on with what the one above it says up to its last comma)
            means = re.sub("^the same, ", lambda _: found[-1].means.rpartition(", ")[0] + ", ", cells[1])
            found.append(row_of(phrase[1], means, cells[2]))
    return found


def row_of(phrase, means, cure):
    part = r"(?<![^ !+])(?:[A-Z]|x)(?![^ ])"
    phrase = phrase.replace("L:C ", "")
    pattern = "(.+)".join(re.escape(text) for text in re.split(part, phrase)).replace("left", "(?:left|right)")
    kind = re.match(r"in a (question|module): ", means)
    means = re.sub(r"; (?:at|where) [^;]*$", "", means[kind.end() if kind else 0 :])
    return Row(re.compile(pattern, re.S), re.findall(part, phrase), kind and kind[1], means, cure)


def causes(phrase, command="check"):
    """Returns what this phrase may mean, answered by this command, each with what mends it. No phrase is wrong: of one
    that the page doesn't have nothing is said."""
    other = "module" if command in ("equiv", "audit") else "question"
    fit = [(row, row.pattern.fullmatch(phrase)) for row in rows() if row.kind != other]
    fit = [(row, found) for row, found in fit if found]
    # (`no move ? in T` fits two patterns, and belongs to the one with more words of its own)
    most = max((len(row.pattern.pattern) for row, _ in fit), default=0)
    return [
        Cause(filled(row.means, row.names, found), filled(row.cure, row.names, found))
        for row, found in fit if len(row.pattern.pattern) == most
    ]


def cure(phrase, command="check"):
    """Returns what mends the fault with this phrase, or None where nothing is known."""
    return "; or ".join(dict.fromkeys(cause.cure for cause in causes(phrase, command))) or None


def filled(text, names, found):
    """Returns a text of the page with the parts of a phrase in place of their names."""
    parts = {name: part for name, part in zip(names, found.groups()) if len(part) <= LONGEST}
    return re.sub(r"(?<![\w'])(?:[A-Z]|x)(?![\w'])", lambda name: parts.get(name[0], name[0]), text)
