"""Random words of the command line, with an input that is small."""

NUMBERS = ["0", "1", "2", "5", "8", "9", "64", "65", "1000", "10000", "10001", "000000001", "0000000001", "2000000", "2000001", "5000",
           "5001", "-1", "+1", "1.0", "", "x", "１", "1 ", " 1", "0x1", "99999999999999999999"]
WORDS = ["equiv", "show", "check", "run", "make", "audit", "--proof", "--events", "--budget", "--steps", "--workers", "--buffer",
         "--help", "--version", "-", "--", "", "equiv ", "EQUIV", "--budget=", "--steps==1", "--proof=1", "--Budget", "-b", "r\u0301un"]
OPTIONS = {"equiv": ["--budget", "--proof"], "check": ["--budget"], "run": ["--steps", "--workers", "--budget", "--events", "--buffer"],
           "show": [], "make": [], "audit": []}
INPUTS = [b"", b"Skip ~ Skip", b"!Int ~ ?Int", b"rec x. x ~ Skip", b"main : Int\nmain = 5\n", b"main : Int\nmain = main\n",
          b"main : Int\nmain = let (a, b) = new !Int in fork (send 1 a); let (n, c) = receive b in n\n", b"main : Int\nmain = True\n",
          b"main : Int\nmain = let (a, b) = new !Int in let (n, c) = receive b in let c = send n a in n\n",
          b"!Int ~ !Int\npairs 0\nchains 1\nchain\n", b"\xff", b"rec x. +{D: Skip, U: x; x};(rec y. +{D: y, U: y}) ~ rec y. +{D: y, U: y}"]


def option(random, name):
    if name in ("--proof", "--events") and random.random() < 0.9:
        return [name]
    number = random.choice(NUMBERS[:16] if random.random() < 0.7 else NUMBERS)
    return random.choice([[name, number], [name + "=" + number]])


def any_words(random):
    """Words of a command with its options in any order, or words that are none; and an input."""
    command = random.choice(sorted(OPTIONS))
    words = [command]
    if command == "make":
        words.append(random.choice([str(random.randint(0, 60)), "100", *NUMBERS]))
    names = random.sample(OPTIONS[command], random.randint(0, len(OPTIONS[command])))
    if random.random() < 0.1:
        names += random.choices(["--budget", "--steps", "--workers", "--events", "--proof", "--buffer"], k=random.randint(1, 2))
    for name in names:
        words += option(random, name)
    if random.random() < 0.25:
        place = random.randrange(len(words) + 1)
        words[place:place + random.randint(0, 1)] = [random.choice(WORDS + NUMBERS)] * random.randint(0, 1)
    if random.random() < 0.05:
        words.insert(random.randrange(len(words) + 1), "\udcff")
    if "--steps" not in " ".join(words) and words[:1] == ["run"]:
        words += ["--steps", "500"]
    return words, random.choice(INPUTS)
