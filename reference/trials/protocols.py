"""Session types as trees: random ones, their text, and changes that keep what they perform, or that don't.

A tree is a tuple, whose first item is its form:
("Skip",) ("Close",) ("Wait",) ("!", base) ("?", base) ("+", branches) ("&", branches) (";", first, rest) ("rec", name, body)
("name", name). Branches are a tuple of (label, tree).
"""
SKIP = ("Skip",)
BASES = ("Int", "Bool", "Char", "()")
LABELS = ("A", "B", "C", "Leaf", "Node", "Zé", "A'", "A1")
BINDERS = ("x", "y", "z", "x'", "größe")


def parts(tree):
    """The trees directly within this one."""
    if tree[0] in "+&":
        return [part for _, part in tree[1]]
    return list(tree[1:] if tree[0] == ";" else tree[2:])


def with_parts(tree, new):
    if tree[0] in "+&":
        return tree[0], tuple((label, part) for (label, _), part in zip(tree[1], new))
    return (tree[0], *new) if tree[0] == ";" else (*tree[:2], *new)


def size(tree):
    return 1 + sum(map(size, parts(tree)))


def free(tree):
    """The names in the tree that no `rec` in it binds."""
    if tree[0] == "name":
        return {tree[1]}
    return set().union(*map(free, parts(tree))) - ({tree[1]} if tree[0] == "rec" else set())


def guards(tree, variables=()):
    """Whether a move comes before what stands behind the tree: a name moves where it is of a `rec`, none of the variables."""
    if tree[0] == ";":
        return guards(tree[1], variables) or guards(tree[2], variables)
    if tree[0] == "rec":
        return guards(tree[2], variables)
    return tree[0] in ("!", "?", "+", "&", "Close", "Wait") or tree[0] == "name" and tree[1] not in variables


def reaches(tree, name):
    """Whether the name stands at the front of the tree, with no move before it."""
    if tree[0] == ";":
        return reaches(tree[1], name) or not guards(tree[1]) and reaches(tree[2], name)
    if tree[0] == "rec":
        return tree[1] != name and reaches(tree[2], name)
    return tree == ("name", name)


def is_contractive(tree):
    return not (tree[0] == "rec" and reaches(tree[2], tree[1])) and all(map(is_contractive, parts(tree)))


def put(tree, name, what, taken=None):
    """The tree with `what` in place of the free `name`; a `rec` that would bind a name of `what` is renamed."""
    taken = free(what) if taken is None else taken
    if tree[0] == "name":
        return what if tree[1] == name else tree
    if tree[0] == "rec":
        binder, body = tree[1:]
        if binder == name:
            return tree
        if binder in taken and name in free(body):
            fresh = fresh_name(taken | free(body) | {name})
            binder, body = fresh, put(body, binder, ("name", fresh))
        return "rec", binder, put(body, name, what, taken)
    return with_parts(tree, [put(part, name, what, taken) for part in parts(tree)])


def fresh_name(taken):
    return next(name for name in ("v%d" % number for number in range(len(taken) + 1)) if name not in taken)


def dual(tree):
    form = {"!": "?", "?": "!", "+": "&", "&": "+", "Close": "Wait", "Wait": "Close"}.get(tree[0], tree[0])
    return (form, *with_parts(tree, [dual(part) for part in parts(tree)])[1:])


# Random trees.

class Style:
    """What random trees are made of: bases, labels, names of `rec`s, ends, and variables of the `forall`."""

    def __init__(self, random, recursive=False, ends=False, variables=()):
        self.random = random
        self.bases = random.sample(BASES, random.randint(1, 3))
        self.labels = random.sample(LABELS, random.randint(1, 4))
        self.binders = random.sample(BINDERS, random.randint(1, 3)) if recursive else []
        self.ends = ends
        self.variables = variables


def random_tree(style, many, ready=(), waiting=()):
    """A tree of about so many parts; names that are `waiting` are ready behind a move."""
    random = style.random
    if many <= 1:
        return random_leaf(style, ready)
    form = random.choice(";;;++&&" + "rrr" * bool(style.binders))
    if form == "r":
        binder = random.choice(style.binders)
        ready = tuple(name for name in ready if name != binder)
        return "rec", binder, random_tree(style, many - 1, ready, (*waiting, binder))
    if form == ";":
        share = random.randint(1, many - 1)
        first = random_tree(style, share, ready, waiting)
        if guards(first, style.variables):
            ready, waiting = ready + waiting, ()
        return ";", first, random_tree(style, many - share, ready, waiting)
    labels = random.sample(style.labels, random.randint(1, min(3, len(style.labels), many)))
    return form, tuple((label, random_tree(style, (many - 1) // len(labels), ready + waiting)) for label in labels)


def random_leaf(style, ready):
    random = style.random
    leaves = [SKIP, random_message(style), random_message(style)]
    leaves += [("name", name) for name in ready for _ in range(3)]
    leaves += [("name", name) for name in style.variables]
    if style.ends:
        leaves += [("Close",), ("Wait",)]
    return random.choice(leaves)


def random_message(style):
    return style.random.choice("!?"), style.random.choice(style.bases)


# A grammar in which each non-terminal can end, as a type: a `rec` for each, that stands where it is first met.

def random_grammar(style, many):
    """A tree in which each part can end, from a random grammar with so many non-terminals."""
    random = style.random
    names = ["n%d" % number for number in range(many)]
    messages = [random_message(style) for _ in range(random.randint(1, 3))]
    rows = {}
    for place, name in enumerate(names):
        words = [random_word(random, names, messages, random.randint(1, 3)) for _ in range(random.randint(0, 2))]
        last = [names[place + 1]] if place + 1 < many and random.random() < 0.7 else []
        words.append([random.choice(messages) for _ in range(random.randint(0, 2))] + last)
        rows[name] = random.choice("+&"), words
    return written_out(rows, names[0], (), [60])


def random_word(random, names, messages, length):
    return [random.choice(names) if random.random() < 0.6 else random.choice(messages) for _ in range(length)]


def written_out(rows, name, around, left):
    """The `rec` of a non-terminal; `left` has how many more may be written out, and then a message stands for one."""
    left[0] -= 1
    form, words = rows[name]
    branches = []
    for label, word in zip("ABCD", words):
        trees = []
        for item in word:
            if not isinstance(item, str):
                trees.append(item)
            elif item == name or item in around:
                trees.append(("name", item))
            else:
                trees.append(written_out(rows, item, (*around, name), left) if left[0] > 0 else ("!", "Int"))
        branches.append((label, sequence(trees)))
    return "rec", name, (form, tuple(branches))


def sequence(trees):
    """The trees one after another, grouped to the right."""
    if not trees:
        return SKIP
    return trees[0] if len(trees) == 1 else (";", trees[0], sequence(trees[1:]))


# Changes that keep what a tree performs. Each rule takes a tree and gives another one, or none where it doesn't apply.

def skip_in_front(random, tree):
    return ";", SKIP, tree


def skip_behind(random, tree):
    return ";", tree, SKIP


def without_skip(random, tree):
    if tree[0] == ";":
        return tree[2] if tree[1] == SKIP else tree[1] if tree[2] == SKIP else None


def to_the_left(random, tree):
    if tree[0] == ";" and tree[2][0] == ";":
        return ";", (";", tree[1], tree[2][1]), tree[2][2]


def to_the_right(random, tree):
    if tree[0] == ";" and tree[1][0] == ";":
        return ";", tree[1][1], (";", tree[1][2], tree[2])


def distributed(random, tree):
    if tree[0] == ";" and tree[1][0] in "+&":
        return with_parts(tree[1], [(";", part, tree[2]) for part in parts(tree[1])])


def collected(random, tree):
    rests = {part[2] if part[0] == ";" else None for part in parts(tree)} if tree[0] in "+&" else set()
    if len(rests) == 1 and rests != {None}:
        return ";", with_parts(tree, [part[1] for part in parts(tree)]), rests.pop()


def something_behind_an_end(random, tree):
    if tree[0] in ("Close", "Wait"):
        return ";", tree, random.choice([SKIP, ("!", "Int"), tree, ("Wait",), ("+", (("A", SKIP), ("B", ("Close",))))])


def nothing_behind_an_end(random, tree):
    if tree[0] == ";" and tree[1][0] in ("Close", "Wait"):
        return tree[1]


def unfolded(random, tree):
    if tree[0] == "rec":
        return put(tree[2], tree[1], tree)


def unfolded_within(random, tree):
    if tree[0] == "rec":
        return "rec", tree[1], put(tree[2], tree[1], tree[2])


def turned_round(random, tree):
    """`rec x. S;x` as `S; rec x. R;..`, for a message at the front: `rec x. !B;R` is `!B; rec x. R[!B;x]`."""
    if tree[0] == "rec" and tree[2][0] == ";" and tree[2][1][0] in "!?":
        return ";", tree[2][1], ("rec", tree[1], put(tree[2][2], tree[1], (";", tree[2][1], ("name", tree[1]))))


def renamed(random, tree):
    if tree[0] == "rec":
        name = random.choice(BINDERS)
        if name not in free(tree[2]):
            return "rec", name, put(tree[2], tree[1], ("name", name))


def recursive_in_vain(random, tree):
    return "rec", fresh_name(free(tree)), tree


def without_vain_recursion(random, tree):
    if tree[0] == "rec" and tree[1] not in free(tree[2]):
        return tree[2]


def two_recursions_as_one(random, tree):
    if tree[0] == "rec" and tree[2][0] == "rec" and tree[1] != tree[2][1]:
        return "rec", tree[1], put(tree[2][2], tree[2][1], ("name", tree[1]))


def moved_into_recursion(random, tree):
    """`(rec x. S);R` with each x at an end of S: R goes behind the other ends of S."""
    if tree[0] == ";" and tree[1][0] == "rec":
        _, name, body = tree[1]
        if name in free(tree[2]):
            fresh = fresh_name(free(tree[2]) | free(body))
            name, body = fresh, put(body, name, ("name", fresh))
        moved = behind_ends(body, name, tree[2])
        return moved and ("rec", name, moved)


def behind_ends(tree, name, rest):
    """The tree with `rest` behind each end but the name, or none where the name stands elsewhere."""
    if tree == ("name", name):
        return tree
    if name not in free(tree):
        return ";", tree, rest
    if tree[0] == ";" and name not in free(tree[1]):
        last = behind_ends(tree[2], name, rest)
        return last and (";", tree[1], last)
    if tree[0] in "+&":
        ends = [behind_ends(part, name, rest) for part in parts(tree)]
        return with_parts(tree, ends) if all(ends) else None


KEEPING = [skip_in_front, skip_behind, without_skip, to_the_left, to_the_right, distributed, collected, something_behind_an_end,
           nothing_behind_an_end, unfolded, unfolded_within, turned_round, renamed, recursive_in_vain, without_vain_recursion,
           two_recursions_as_one, moved_into_recursion]


def changed_somewhere(random, tree, rules):
    """The tree with one of the rules applied at a random place, or the tree itself where none applies there."""
    inner = parts(tree)
    if inner and random.random() < 0.75:
        place = random.randrange(len(inner))
        inner[place] = changed_somewhere(random, inner[place], rules)
        return with_parts(tree, inner)
    return random.choice(rules)(random, tree) or tree


def equivalent(random, tree, changes, most=120):
    """A tree that performs what this one does, after so many changes that keep that."""
    for _ in range(changes):
        other = changed_somewhere(random, tree, KEEPING)
        tree = other if size(other) <= most else tree
    return tree


# Changes that mostly don't.

def another_message(random, tree):
    if tree[0] in "!?":
        return random.choice([(tree[0], random.choice(BASES)), ("?" if tree[0] == "!" else "!", tree[1]), SKIP])


def exchanged(random, tree):
    if tree[0] == ";":
        return ";", tree[2], tree[1]


def branch_changed(random, tree):
    if tree[0] in "+&":
        branches = list(tree[1])
        place = random.randrange(len(branches))
        if len(branches) > 1 and random.random() < 0.4:
            del branches[place]
        else:
            branches[place] = random.choice([branches[place][0], "D"]), random.choice(branches)[1]
        return random.choice([tree[0], tree[0], "&" if tree[0] == "+" else "+"]), tuple(branches)


def part_left_out(random, tree):
    if tree[0] == ";":
        return random.choice(tree[1:])


def part_twice(random, tree):
    return ";", tree, tree


def something_else(random, tree):
    return random.choice([SKIP, ("Close",), ("Wait",), ("!", "Int")])


DIFFERING = [another_message, another_message, exchanged, branch_changed, branch_changed, part_left_out, part_twice, something_else]


def other(random, tree):
    """A tree with a small change, which mostly performs something else."""
    for _ in range(20):
        new = changed_somewhere(random, tree, DIFFERING)
        if new != tree and is_contractive(new):
            return new
    return tree
