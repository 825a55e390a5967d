"""The words of the command line (docs/LANGUAGE.md, at its top)."""
import re

USAGE = b"usage: freest equiv|show|check|run|make|audit\n"
NUMBERS = {"budget": (1, 10000), "steps": (0, 2000000), "workers": (1, 8), "buffer": (1, 64)}
DEFAULTS = {"budget": 1000, "steps": 1000000}
COMMANDS = {
    "equiv": ("budget", "proof"), "show": (), "check": ("budget",), "audit": (), "make": (),
    "run": ("steps", "workers", "budget", "buffer", "events"),
}
MOST_MADE = 5000
DIGITS = re.compile("[0-9]{1,9}", re.ASCII)


def number(word, least, most):
    """`IsNumber`: the number that the word is, from the least to the most, or None."""
    return int(word) if word is not None and DIGITS.fullmatch(word) and least <= int(word) <= most else None


def parse(words):
    """`IsCommand`: the command and its values, or None where the words are no command's (`NoCommand`)."""
    if not words or words[0] not in COMMANDS:
        return None
    command, rest, given = words[0], list(words[1:]), {}
    if command == "make":
        n = number(rest[0], 0, MOST_MADE) if len(rest) == 1 else None
        return None if n is None else (command, {**DEFAULTS, "n": n})
    while rest:
        name, has_value, value = rest.pop(0).partition("=")
        option = name[2:]
        if name[:2] != "--" or option not in COMMANDS[command] or option in given:
            return None
        if option in NUMBERS:
            given[option] = number(value if has_value else rest.pop(0) if rest else None, *NUMBERS[option])
        else:
            given[option] = None if has_value else True
        if given[option] is None:
            return None
    if "buffer" in given and ("workers" in given or "events" in given):
        return None
    return command, {**DEFAULTS, **given}
