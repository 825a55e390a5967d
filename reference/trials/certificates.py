"""Certificates that the program writes, and changed ones."""
import re

from trials import texts

NUMBERS = ["0", "1", "2", "3", "5", "9", "00", "01", "4294967295", "4294967296", "18446744073709551615", "18446744073709551616", "-1", ""]
LINES = ["", "chain", "pair 0 ~ 0", "pair 0 ~", "pairs 0", "chains 1", "chain ", "chain f0:0", "chain c0", "chain g0.0", "pair 0 0 ~ 1",
         "chain b0:0", "chain f0:0 b0:0", "chain f0", "chain c0.1 g0.1", "-- a comment", "chain\r"]


def changed(random, text):
    """The text of a certificate with a small change: of a number, a rewrite, a line, a space or the question."""
    lines = text.split("\n")
    place = random.randrange(1, len(lines)) if len(lines) > 1 else 0
    change = random.randrange(9)
    if change == 0:
        del lines[place]
    elif change == 1:
        lines.insert(place, random.choice([*lines, *LINES]))
    elif change == 2:
        another = random.randrange(len(lines))
        lines[place], lines[another] = lines[another], lines[place]
    elif change in (3, 4):
        lines[place] = number_changed(random, lines[place])
    elif change == 5:
        lines[place] = rewrites_changed(random, lines[place])
    elif change == 6:
        lines[0] = texts.laid_out(random, texts.tokens_of(lines[0]), " ")
    elif change == 7:
        lines[place] = texts.disturbed(random, lines[place])
    else:
        lines[0] = sides_exchanged(lines[0]) if random.random() < 0.5 else texts.disturbed(random, lines[0])
    return "\n".join(lines)


def number_changed(random, line):
    numbers = list(re.finditer(r"\d+", line))
    if not numbers:
        return line + " " + random.choice(NUMBERS)
    found = random.choice(numbers)
    near = str(max(0, int(found.group()) + random.choice([-1, 1])))
    new = random.choice([near, near, random.choice(numbers).group(), random.choice(NUMBERS)])
    return line[:found.start()] + new + line[found.end():]


def rewrites_changed(random, line):
    steps = line.split(" ")
    place = random.randrange(len(steps))
    change = random.randrange(4)
    if change == 0:
        del steps[place]
    elif change == 1:
        steps.insert(place, random.choice(steps))
    elif change == 2:
        steps[place] = steps[place].translate(str.maketrans("fbcg", "bfgc"))
    else:
        steps.append(random.choice(["f0:0", "b0:0", "c0", "g0", "c1.0", "f1:0", "g0.0.0"]))
    return " ".join(steps)


def sides_exchanged(line):
    left, _, right = line.partition("~")
    return line if left.startswith("forall") else "%s ~ %s" % (right.strip(), left.strip())
