"""Inputs at the limits of the language and past them: nesting, names, numbers, sizes, lengths, budgets, and what grows fast."""
MOST_BYTES = 1048576
TYPE_LEVELS = [("(", ")"), ("+{A:", "}"), ("&{B:Skip,A:", "}"), ("rec x.", ""), ("Skip;", ""), ("!Int;", ""), ("Close;", ""), ("(", ");?Int")]
PLAIN_LEVELS = [("(Int,", ")"), ("(", ",Skip)"), ("(Int->", ")"), ("(", "1->Int)"), ("Int->Int->", "")]
TERM_LEVELS = [("(", ")"), ("(1,", ")"), ("(", ",x)"), ("let x=1 in ", ""), ("let x=", " in x"), ("let (x,y)=p in ", ""), ("if ", " then 1 else 2"),
               ("if x then ", " else 3"), ("if x then 1 else ", ""), ("\\x:Int->", ""), ("\\x:!Int;Skip 1->", ""), ("case ", " of {A->1}"),
               ("case x of {A->1,B y->", "}"), ("match ", " with {A c->c}"), ("match x with {A c->", "}"), ("1;", ""), ("not (", ")"),
               ("f (", ")"), ("f x (", ")"), ("1+(", ")"), ("2*(", ")*3"), ("x||(", ")"), ("x&&y&&(", ")"), ("(", ")<1"), ("send 1 (", ")"),
               ("send (", ") c"), ("receive (", ")"), ("select A (", ")"), ("fork (", ")"), ("A (", ")"), ("f @(", ")"), ("close (", ")")]
CHAINS = [("1", "+1", ""), ("1", "*1", ""), ("x", "||x", ""), ("x", "&&x", ""), ("f", " x", ""), ("f", "@Int", ""), ("A", " x", ""), ("1", "-1", ""),
          ("", "not ", "x"), ("x", ";x", "")]


def near(random, number):
    return max(0, number + random.choice([-2, -1, -1, 0, 0, 1, 1, 2]))


def levels(random, choices, many):
    """What opens so many levels and what closes them: of one sort, or of two or of any, mixed."""
    sorts = random.sample(choices, random.choice([1, 1, 2, len(choices)]))
    chosen = [random.choice(sorts) for _ in range(many)]
    return "".join(opens for opens, _ in chosen), "".join(closes for _, closes in reversed(chosen))


def deep_question(random):
    opens, closes = levels(random, TYPE_LEVELS + PLAIN_LEVELS * (random.random() < 0.1), near(random, random.choice([66, 100, 199, 199])))
    deep = opens + random.choice(["Skip", "!Int", "x", "Close"]) + closes
    return ["equiv"], random.choice(["%s~Skip", "Skip~%s", "rec x.!Int;(%s)~Skip", "!Int;%s~!Int;Skip"]) % deep


def deep_term(random):
    opens, closes = levels(random, TERM_LEVELS, near(random, random.choice([50, 99, 199, 199])))
    start, more, end = random.choice(CHAINS)
    core = start + more * random.choice([0, 0, 1, 50, near(random, 199)]) + end
    return [random.choice(["show", "show", "check"])], "main : Int\nmain = %s%s%s\n" % (opens, core, closes)


def deep_declaration(random):
    opens, closes = levels(random, TYPE_LEVELS + PLAIN_LEVELS, near(random, random.choice([99, 198, 199])))
    start = random.choice(["type T = ", "main : ", "data D = C (", "f : forall a:1S. ", "main = \\x:"])
    end = {"data": ")", "main = \\x:": " -> x"}.get(start if start[-1] == ":" else start[:4], "")
    return [random.choice(["show", "check"])], "%s%sSkip%s%s\nmain : Int\nmain = 5\n" % (start, opens, closes, end)


def long_name(random):
    letter = random.choice(["a", "é", "ñ", "語", "𝒳"])
    upper = random.random() < 0.5
    room = near(random, 255) - upper
    long = "A" * upper + letter * (room // len(letter.encode())) + "a" * (room % len(letter.encode()))
    shapes = ["+{%s: Skip} ~ Skip"] if upper else ["rec %s. !Int ~ !Int", "forall %s:1S. Skip ~ Skip"]
    if random.random() < 0.5:
        return ["equiv"], random.choice(shapes) % long
    shapes = ["data D = %s\n", "type %s = Int\n", "f = %s\n"] if upper else ["%s : Int\n", "f %s = 1\n", "f = x;%s\n"]
    return [random.choice(["show", "check"])], random.choice(shapes) % long


def wide_number(random):
    number = "0" * random.choice([0, 0, 1, 300]) + str(near(random, random.choice([2 ** 63 - 1, 2 ** 63 - 1, 2 ** 64, 10 ** 19, 1])))
    shape = random.choice(["main : Int\nmain = %s\n", "main : Int\nmain = %s + 1\n", "main : Bool\nmain = %s * 3 < 0\n", "f : Int %s-> Int\nf x = x\n",
                           "f : forall a:%sS. Int\nf = 1\n", "main : Int\nmain = 0 - %s - 1\n", "main : Int\nmain = %sx\n"])
    return [random.choice(["show", "check", "run"])], shape % number


def nodes(random, many):
    """The text of a protocol with so many nodes, but one more where it doesn't come out even, within the nesting."""
    if many < 3:
        return "Skip"
    wide = min(random.choice([2, 3, 30, 600]), (many - 1) // 2)
    if random.random() < 0.5 and many < 300:
        return ";".join(["!Int"] * min(150, (many + 1) // 2))
    share = (many - 1 - wide) // wide
    parts = ["L%d:%s" % (number, nodes(random, share)) for number in range(wide)]
    parts[-1] = "L%d:%s" % (wide, nodes(random, many - 1 - wide - share * (wide - 1)))
    return "%s{%s}" % (random.choice("+&"), ",".join(parts))


def large_question(random):
    large = nodes(random, near(random, random.choice([4095, 4096, 4100])))
    return ["equiv"], "%s ~ %s" % ((large, "Skip") if random.random() < 0.5 else ("!Int", large))


def large_alias(random):
    """Aliases that double a protocol, up to some 4,096 nodes."""
    many = near(random, random.choice([256, 512]))
    small = ";".join(["!Int"] * min(many, 150)) + ";Skip" * random.randint(0, 20)
    lines = ["type A0 = " + small]
    for level in range(random.randint(2, 6)):
        lines.append("type A%d = %s" % (level + 1, ";".join(["A%d" % level] * random.randint(2, 3))))
    last = lines[-1].split()[1]
    use = random.choice(["main = 5", "main = let (a, b) = new %s in 5", "main = f @(%s)", "f : forall a:1S. a -> %s;a\nf c = c\nmain = 5"])
    lines.append("main : Int\n" + (use % last if "%" in use else use))
    return ["check"], "\n".join(lines) + "\n"


def many_letters(random):
    """`rec`s inside one another around a wide choice: a grammar with about a million letters on its right sides."""
    depth, tail = random.randint(20, 60), random.randint(1, 30)
    wide = max(1, near(random, 1048576 // (2 * (depth * depth // 2 * tail + depth))))
    wide = min(wide, 1900)
    choice = "+{%s}" % ",".join("L%d:Skip" % number for number in range(wide))
    text = choice
    for level in range(depth):
        text = "rec x%d.((%s);%s)" % (level, text, ";".join(["!Int"] * min(tail, 3900 // (2 * depth))))
    return ["equiv"], "%s ~ %s" % (text, random.choice([text, "Skip", text + ";!Int"]))


def growing(random):
    """Residuals that grow with each step: each of many `rec`s names all those around it."""
    many = random.randint(3, 18)
    names = ["x%d" % number for number in range(many)]
    body = "+{A: Skip, B: %s}" % ";".join(names)
    left = "".join("rec %s. " % name for name in names) + body
    right = random.choice([left, left.replace("A: Skip", "A: !Int"), left + ";!Int", "rec y. +{A: Skip, B: y;y}"])
    return ["equiv", "--budget", str(random.choice([10, 100, 1000]))], "%s ~ %s" % (left, right)


def long_ways(random):
    """Shortest ways to an end that grow with each level: each `rec` can end only by those around it."""
    depth, times = random.randint(2, 20), random.randint(1, 3)
    last = random.choice(["!Bool", "!Bool", "!Char", "!Bool;Skip"])

    def nested(level, leaf):
        if level == depth:
            return "x%d" % (level - 1)
        before = ";".join(["x%d" % (level - 1)] * times) if level else leaf
        return "rec x%d. +{A: %s, B: %s}" % (level, before, nested(level + 1, leaf))
    words = ["equiv"] + ["--budget=10000"] * (random.random() < 0.2)
    return words, "%s ~ %s" % (nested(0, "!Int;!Bool"), nested(0, "!Int;" + last))


def different_far_in(random):
    """Two types that can end and differ only far in, behind long parts."""
    many = random.randint(1, 17)
    def side(first, second):
        return "rec x.+{A:x;(%s%s),B:Skip,C:x;(%s%s)}" % ("!Int;" * many, first, "?Int;" * many, second)
    return ["equiv"], "%s ~ %s" % (side("!Bool", "!Bool"), side(*random.choice([("!Bool", "!Bool"), ("!Char", "!Char"), ("!Bool", "!Char")])))


def spent_budget(random):
    """A counter against a loop that agrees with it for some time."""
    count = random.randint(1, 6)
    loop = "rec y. +{D: y, U: y}"
    left = "(rec x. +{D: Skip, U: %s});(%s)" % (";".join(["x"] * random.randint(2, 3)), loop)
    right = "+{D: " * count + loop + ", U: rec y. +{D: y, U: y}}" * count
    return ["equiv", "--budget", str(random.choice([1, 2, 5, 20, 100]))], random.choice(["%s ~ %s", "%s;!Int ~ %s"]) % (left, right)


def not_text(random):
    """Bytes that are no UTF-8 in front of, within or behind an input, which may have faults of its own."""
    wrong = random.choice([b"\x80", b"\xc0\x80", b"\xc3", b"\xe2\x82", b"\xed\xa0\x80", b"\xf4\x90\x80\x80", b"\xf0\x9f\x98", b"\xff", b"\xfe", b"\xe2\x28\xa1",
                           "\ufeff".encode(), "\u0085".encode(), "\u2028".encode(), b"\x00", b"\x0b", b"\x0c", b"\xc2\xa0"])
    words, text = random.choice([(["equiv"], b"!Int ~ Skip\n"), (["check"], b"main : Int\nmain = 5\n"), (["show"], b"f = x -- \xc3\xa9\n"),
                                 (["equiv"], b"# ~ Skip"), (["audit"], b"Skip ~ Skip\npairs 0\nchains 1\nchain\n")])
    place = random.randrange(len(text) + 1)
    return words, text[:place] + wrong + text[place:]


def characters(random):
    """Letters that begin names or go on with them in some versions of Unicode, and others that don't."""
    ranges = [(0x80, 0x250), (0x300, 0x600), (0x1E00, 0x2100), (0x2E80, 0x3400), (0xA640, 0xA900), (0xFB00, 0x10000), (0x10000, 0x1F900), (0xE0100, 0xE01F0)]
    letters = [chr(random.randrange(*random.choice(ranges))) for _ in range(random.randint(1, 3))]
    letters = "".join(letter for letter in letters if not 0xD800 <= ord(letter) < 0xE000)
    shape = random.choice(["f = %s\n", "f = x%s\n", "f = '%s'\n", "f = A%s\n", "f = 5%s\n", "f = 5 -- %s\n", "f%s = 5\n"])
    return ["show"], shape % letters


def long_input(random):
    words, text = random.choice([(["equiv"], "!Int ~ !Int"), (["check"], "main : Int\nmain = 5"), (["show"], "f = x"), (["equiv"], "~"),
                                 (["audit"], "Skip ~ Skip\npairs 0\nchains 1\nchain\n"), (["run"], "main : Int\nmain = 5")])
    filler = random.choice([" ", "\n", "\t", "-- ", "é ", "x ", "("])
    if filler in ("-- ", "é "):
        text += " --"
    room = near(random, MOST_BYTES) - len(text)
    text += filler * (room // len(filler.encode()))
    return words, text + " " * (room % len(filler.encode()))


def made(random):
    return ["make", str(random.choice([near(random, 5000), random.randint(100, 400)]))], ""


def deep_run(random):
    """Calls within calls, long lists, tasks within tasks, and many channels, some hundreds or thousands of them."""
    many = random.choice([10, 300, 2000])
    text = random.choice([
        "f : Int -> Int\nf n = if n == 0 then 0 else 1 + f (n - 1)\nmain : Int\nmain = f %d\n",
        "data L = N | C Int L\nf : Int -> L -> L\nf n l = if n == 0 then l else f (n - 1) (C n l)\nmain : L\nmain = f %d N\n",
        "f : Int -> ()\nf n = if n == 0 then () else fork (f (n - 1))\nmain : ()\nmain = f %d\n",
        "f : Int -> Int\nf n = if n == 0 then 0 else let (a, b) = new !Int in fork (send n a); let (x, c) = receive b in x + f (n - 1)\n"
        "main : Int\nmain = f %d\n",
        "data N = Z | S N\nf : Int -> N\nf n = if n == 0 then Z else S (f (n - 1))\nmain : N\nmain = f %d\n"])
    words = ["run", "--steps", str(random.choice([100, 5000, 100000]))]
    words += random.choice([[], ["--workers", str(random.randint(2, 8))], ["--buffer", str(random.randint(1, 64))], ["--events"]])
    return words, text % many


def long_word(random):
    """A certificate in which a word grows with each rewrite."""
    long, many = random.choice([(10, 20), (100, 100), (1000, 400)])
    pair = "pair 0 ~ 0%s" % (" 0" * long)
    chain = "chain" + " f0:0" * many
    back = " b0:0" * (many if random.random() < 0.5 else many - 1)
    return ["audit"], "!Int ~ !Int\npairs 1\n%s\nchains 2\n%s%s\nchain\n" % (pair, chain, back)


CHEAP = [deep_question, deep_term, deep_declaration, long_name, wide_number, growing, long_ways, different_far_in, spent_budget, not_text,
         characters, large_alias]
DEAR = [large_question, many_letters, long_input, made, deep_run, long_word]


def hostile(random):
    maker = random.choice(DEAR) if random.random() < 0.03 else random.choice(CHEAP)
    words, data = maker(random)
    return words, data if isinstance(data, bytes) else data.encode("utf-8", "surrogatepass")
