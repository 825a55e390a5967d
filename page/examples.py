"""The examples and exercises that the page lists. An answer of an exercise isn't among them."""
import os
import re

from tasks import TASKS

COMMANDS = {".fst": "run", ".question": "equiv", ".proof": "audit", ".certificate": "audit"}


def read(*path):
    """Returns the text of a file, or nothing where it isn't there."""
    try:
        with open(os.path.join(*path), encoding="utf-8", errors="replace") as file:
            return file.read()
    except OSError:
        return ""


def files(folder):
    """Returns the names of the programs, questions and certificates in a folder, by their numbers and letters."""
    found = os.listdir(folder) if os.path.isdir(folder) else []
    pieces = {name: [int(it) if it.isdigit() else it for it in re.split(r"(\d+)", name)] for name in found}
    return sorted((name for name in found if os.path.splitext(name)[1] in COMMANDS), key=pieces.get)


def entry(folder, file, about, prefix=""):
    """Returns what the page needs of a file: its name, what it is about, the command that takes it, and its text."""
    name, end = os.path.splitext(file)
    command = "check" if end == ".fst" and os.path.exists(f"{folder}/{name}.refused") else COMMANDS.get(end, "")
    return {"name": prefix + file, "about": about, "command": command, "text": read(folder, file)}


def examples(folder):
    """Returns the examples by their groups, in the order of the page that tells their ideas."""
    page = read(folder, "README.md")
    ideas = dict(re.findall(r"^\| `([\w-]+)` \| (.*) \|$", page, re.M))
    kinds = {name: kind for kind, row in re.findall(r"^- (.*?): (.*)$", page, re.M) for name in re.findall(r"`([\w-]+)`", row)}
    told = {".fst": ideas, ".question": kinds, ".certificate": ideas, ".proof": {}}
    found = []
    for file in files(folder):
        name, end = os.path.splitext(file)
        place = [*told[end]].index(name) if name in told[end] else len(told[end])
        found.append((place, entry(folder, file, told[end].get(name, ""))))
    found = [it for _, it in sorted(found, key=lambda pair: pair[0])]
    titles = {"run": "Programs", "check": "Programs that are refused", "equiv": "Questions", "audit": "Certificates"}
    return [[title, [it for it in found if it["command"] == command]] for command, title in titles.items()]


def exercises(folder):
    """Returns the exercises, each with its number and its title. A text that isn't of the program has no command."""
    found = []
    for number, task in TASKS.items():
        one = entry(f"{folder}/exercises", task.start, f"Exercise {number}: {task.title}", "exercises/")
        found.append({**one, "exercise": number})
    return found


def groups(folder):
    """Returns all groups that have an entry, each with its title."""
    return [group for group in [*examples(folder), ["Exercises", exercises(folder)]] if group[1]]
