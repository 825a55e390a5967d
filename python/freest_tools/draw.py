"""Draws session types as SVG, and in the language of Graphviz.

`svg(text, program)` reads a type, or a question `T ~ U` of which both types are drawn, the least trace of a `no`
marked on both. `drawing` and `of_alias` make a `Drawing`, which `as_svg` and `as_dot` write. `program` has
`call(words, text)`, as the module `program` of this package. It reads the types first, so that what it refuses isn't
drawn, and then checks the diagrams: `faults` of protocol.py says how. What isn't confirmed is marked in the picture and
told below it. `Refused` is raised where there is nothing to draw; its text is a line that says why.
"""
import functools
import math
import re
import unicodedata

from .layout import Layout
from .protocol import Protocol, Refused, aliases_of, faults, question, said, text_of, walk

# In an SVG a monospaced letter of the size 13 is as wide as this, and a line as high.
LETTER, LINE = 7.9, 17
MOST_DRAWN = 200
MOST_IN_STATE, MOST_IN_TITLE = 26, 64
# Two protocols stand side by side where they are at most as wide as this, and else one below the other.
MOST_BESIDE = 1200
SIDES = "left", "right"
OUTPUT, INPUT, TRACE, WRONG = "#c2611f", "#2f81c4", "#c24fbb", "#dc4a42"
# A picture that stands alone has a background; within a page it takes the colours of that.
STYLE = (
    "svg:root { background: #fff; color: #222 } "
    "@media (prefers-color-scheme: dark) { svg:root { background: #1b1c1e; color: #ddd } }"
)


def xml(text):
    """Returns a text for XML, with `\\u{1}` in place of a control character or another one that XML forbids."""
    text = re.sub(r"[^\t\n\r -~\xa0-\ud7ff\ue000-\ufffd\U00010000-\U0010ffff]", lambda it: f"\\u{{{ord(it[0]):x}}}", text)
    return text.replace("&", "&amp;").replace("<", "&lt;").replace(">", "&gt;").replace('"', "&quot;")


def dot_text(text):
    """Returns a text as a string of Graphviz, which reads `&amp;` as XML does, and passes on what XML forbids."""
    return '"' + xml(text).replace("\\", "\\\\").replace("&quot;", '\\"').replace("\n", "\\n") + '"'


def clipped(text, most):
    return text if len(text) <= most else f"{text[: most - 1]}…"


def width_of(text):
    wide = sum(unicodedata.east_asian_width(letter) in "WF" for letter in text)
    return LETTER * (len(text) + wide - sum(map(bool, map(unicodedata.combining, text))))


class Side:
    """A protocol in a drawing: what isn't confirmed of it, by the numbers of diagrams and states; and of the trace of a
    `no` its steps on each edge, by the numbers of the diagram, the state and the edge, its calls, and the place at which
    it can't go on, with the label."""

    def __init__(self, protocol, wrong):
        self.protocol, self.wrong = protocol, {(diagram, state): line for diagram, state, line in wrong}
        self.steps, self.calls, self.stuck = {}, set(), {}

    def mark(self, trace):
        taken, places = walk(self.protocol, trace)
        steps = [step for *_, step in taken if step]
        for diagram, state, nth, step in taken:
            self.steps.setdefault((diagram, state, nth), []).append(step)
        self.calls = {*places[:-1], *((diagram, state) for diagram, state, _, step in taken if step is None)}
        if len(steps) < len(trace):
            self.stuck = {places[-1]: trace[len(steps)]}
        return len(steps)


class Drawing:
    """One protocol, or two and the answer of the program; and a line for each thing that isn't confirmed."""

    def __init__(self, sides, answer=None):
        self.sides, self.answer = sides, answer
        self.lines = [
            f"not confirmed: {side.protocol.short_text(state_of(side, place))}: {line}"
            for side in sides
            for place, line in side.wrong.items()
        ]
        if answer and answer.startswith("no "):
            self.mark()

    def mark(self):
        """Marks the trace on both sides: all of it on the one that the answer names, all but its end on the other one."""
        *trace, least = self.answer.split()[1:]
        variables = self.sides[0].protocol.variables
        trace = [variables[int(label[1:]) - 1] if re.fullmatch(r"a\d+", label) else label for label in trace]
        for name, side in zip(SIDES, self.sides):
            if side.mark(trace) != len(trace) - (name != least):
                self.lines.append(f"not confirmed: the trace isn't found in the diagrams of the {name} type")


def state_of(side, place):
    return side.protocol.diagrams[place[0]][place[1]]


def bounded(make):
    """Has a call say that a type is too deep, where Python says so."""

    @functools.wraps(make)
    def made(*words):
        try:
            return make(*words)
        except RecursionError:
            raise Refused("it is nested too deep") from None

    return made


@bounded
def drawing(text, program):
    """Makes the drawing of a type or a question."""
    front, variables, texts = question(text)
    answer = answer_of(program, text if len(texts) > 1 else f"{text}\n~ Skip")
    protocols = [Protocol(it, variables) for it in texts]
    return Drawing([Side(it, faults(it, front, program)) for it in protocols], answer if len(texts) > 1 else None)


def answer_of(program, text):
    answer = said(program, ["equiv"], text)
    if not answer.startswith(("yes", "no ", "undecided ")) or answer.startswith("no answer"):
        raise Refused(answer)
    return answer


@bounded
def of_alias(name, module, program):
    """Makes the drawing of what an alias of a module stands for. The program compares it with the alias itself, in a
    module with the aliases that it leads to, so other faults of the module don't count."""
    aliases, declared = aliases_of(name, module, program)
    answer = said(program, ["check"], declared)
    if answer != "accepted":
        raise Refused(f"{name}: {re.sub('^refused [0-9:]+ ', '', answer)}")

    def entry_holds(first):
        answer = said(program, ["check"], f"{declared}f : {name} -> {first}\nf c = c\n")
        return "yes" if answer == "accepted" else answer

    protocol = Protocol(name, (), aliases)
    return Drawing([Side(protocol, faults(protocol, "", program, entry_holds))])


def svg(text, program):
    """Returns the picture of a type or a question as SVG."""
    return as_svg(drawing(text, program))


# What both kinds of picture show.


def kind_of(label):
    """Returns how an edge is drawn: what it sends, what it receives, a variable of a `forall`, or what follows a call."""
    if label is None:
        return "next"
    if label[0] in "!+" or label == "Close":
        return "output"
    return "input" if label[0] in "?&" or label == "Wait" else "variable"


def form_of(state):
    if state.word is None:
        return "closed"
    return "call" if state.calls is not None else "state" if state.word else "end"


def label_of(protocol, state):
    """Returns what stands in a state: of a call the name of the diagram that is called, and else what is left."""
    return clipped(protocol.short_text(state) if state.calls is None else protocol.name(state.calls), MOST_IN_STATE)


def notes_of(side, place):
    """Returns what stands below a state: that a trace can't go on, and that it isn't confirmed."""
    notes = [f"no {side.stuck[place]} here"] if place in side.stuck else []
    return notes + ["not confirmed"] * (place in side.wrong)


def title_of(protocol, number):
    name, text = protocol.name(number), protocol.full_text(protocol.diagrams[number][0])
    return (name, text) if name else ("protocol", text)


def legend(drawing):
    """Returns the lines below a picture: the answer, what was checked, and what its lines mean."""
    states = [state for side in drawing.sides for diagram in side.protocol.diagrams for state in diagram]
    kinds = {kind_of(label) for state in states for label, _ in state.edges}
    lines = [drawing.answer] if drawing.answer else []
    lines += drawing.lines or ["checked: each state is equivalent to what is drawn from it"]
    lines += ["solid: ! sends, + selects"] * ("output" in kinds) + ["dashed: ? receives, & offers"] * ("input" in kinds)
    lines += ["dotted: what a variable stands for"] * ("variable" in kinds)
    return lines + ["double sides: through the diagram of that name, then on"] * ("next" in kinds)


# SVG.


class Canvas:
    """Lines of SVG, and how far they reach."""

    def __init__(self):
        self.lines, self.width, self.height = [], 0, 0

    def add(self, name, text=None, **words):
        """Adds an element; `_` in the name of a word stands for `-`."""
        written = "".join(f' {word.strip("_").replace("_", "-")}="{xml(digits(it))}"' for word, it in words.items())
        self.lines.append(f"<{name}{written}/>" if text is None else f"<{name}{written}>{text}</{name}>")

    def write(self, x, y, text, **words):
        self.add("text", xml(text), x=x, y=y, **words)
        self.reach(x + width_of(text) * words.get("font_size", 13) / 13, y + 4)

    def reach(self, x, y):
        self.width, self.height = max(self.width, x), max(self.height, y)

    def place(self, other, x, y):
        self.lines += [f'<g transform="translate({digits(x)} {digits(y)})">', *other.lines, "</g>"]
        self.reach(x + other.width, y + other.height)

    def line(self, path, kind, marked):
        dashes = {"input": "7 4", "variable": "2 4"}.get(kind)
        words = {"stroke_dasharray": dashes} if dashes else {}
        self.add("path", d=path, fill="none", stroke=colour_of(kind, marked), stroke_width=3.2 if marked else 1.5, **words)

    def tip(self, x, y, across, down, kind, marked):
        """Adds the head of an arrow that ends here, in this direction."""
        size = 10 if marked else 8
        sides = [(x - size * across + half * down, y - size * down + half * across) for half in (size / 2, -size / 2)]
        points = " ".join(f"{digits(one)},{digits(two)}" for one, two in ((x, y), *sides))
        self.add("polygon", points=points, fill=colour_of(kind, marked))


def digits(it):
    """Returns a number with at most one digit behind the point, or a text as it is."""
    return it if isinstance(it, str) else f"{it:.1f}".replace(".0", "")


class Bundle:
    """The edges between two states, drawn as one line: their labels, each with its steps in the trace, or None."""

    def __init__(self, labels):
        self.labels = labels
        self.kind = kind_of(labels[0][0])
        self.marked = any(steps is not None for _, steps in labels)
        self.width = max(width_of(f"{label or ''} {steps_text(steps)}") for label, steps in labels)
        self.height = LINE * len(labels) if labels[0][0] else 0

    def write(self, canvas, x, y):
        """Writes the labels above this place."""
        for nth, (label, steps) in enumerate(reversed(self.labels)):
            if label:
                behind = f'<tspan dx="5" font-weight="bold" fill="{TRACE}">{steps_text(steps)}</tspan>' if steps else ""
                canvas.add("text", xml(label) + behind, x=x, y=y - LINE * nth, text_anchor="middle", class_="label")


class Sketch(Canvas):
    """A diagram as SVG. `boxes` has the width of each state, half its height, and how far it reaches up and down."""

    HALF, LEFT, TOP = 14, 34, 30

    def __init__(self, side, nth):
        super().__init__()
        self.side, self.nth, self.diagram = side, nth, side.protocol.diagrams[nth]
        self.bundles = self.bundled()
        self.boxes = [self.box(place) for place in range(len(self.diagram))]
        between = {ends: it for ends, it in self.bundles.items() if ends[0] != ends[1]}
        self.layout = Layout(
            [(width, above, below) for width, _, above, below in self.boxes],
            [(*ends, it.width, it.height) for ends, it in between.items()],
        )
        self.title()
        for ends, (stretches, at) in zip(between, self.layout.routes):
            self.edge(ends, [(one + self.LEFT, two + self.LEFT, y + self.TOP) for one, two, y in stretches], at)
        for place, item in enumerate(self.layout.nodes):
            self.state(place, item.x + self.LEFT, item.y + self.TOP)
        self.reach(self.layout.width + self.LEFT, self.layout.height + self.TOP)

    def bundled(self):
        """Returns the edges by the numbers of their two states."""
        found = {}
        for source, state in enumerate(self.diagram):
            for nth, (label, target) in enumerate(state.edges):
                found.setdefault((source, target), []).append((label, self.side.steps.get((self.nth, source, nth))))
        return {ends: Bundle(labels) for ends, labels in found.items()}

    def box(self, place):
        state, notes = self.diagram[place], notes_of(self.side, (self.nth, place))
        loop = self.bundles.get((place, place))
        text = width_of(label_of(self.side.protocol, state)) + (32 if form_of(state) == "call" else 20)
        width = max([text, *map(width_of, notes), loop.width if loop else 0])
        lines = max(sum(ends[end] == place for ends in self.bundles) for end in (0, 1))
        half = max(self.HALF, 5 * lines + 2)
        return width, half, half + (loop.height + 24 if loop else 0), half + LINE * len(notes)

    def title(self):
        name, text = title_of(self.side.protocol, self.nth)
        text = clipped(f"{name} = {text}", max(MOST_IN_TITLE, int(self.layout.width / LETTER)))[len(name) :]
        self.add("text", f'<tspan font-weight="bold">{xml(name)}</tspan>{xml(text)}', x=0, y=13)
        self.reach(width_of(name + text), 13)

    def edge(self, ends, stretches, at):
        """Draws edges along these stretches, their labels at one of them."""
        bundle, (begin, _, first), (_, end, last) = self.bundles[ends], stretches[0], stretches[-1]
        ahead = 1 if end > begin else -1
        begin, end = begin - ahead * self.inset(ends[0], first), end + ahead * self.inset(ends[1], last)
        path = f"M{digits(begin)} {digits(first)}"
        for (_, one, above), (two, _, y) in zip(stretches, stretches[1:]):
            middle = digits((one + two) / 2)
            path += f"H{digits(one)}C{middle} {digits(above)} {middle} {digits(y)} {digits(two)} {digits(y)}"
        self.line(f"{path}H{digits(end - 6 * ahead)}", bundle.kind, bundle.marked)
        self.tip(end, last, ahead, 0, bundle.kind, bundle.marked)
        begin, end, y = stretches[at]
        bundle.write(self, (begin + end) / 2, y - 5)

    def inset(self, place, y):
        """Returns how far the side of a state at this height lies within its width, at a rounded corner."""
        radius = self.radius(place)
        beyond = abs(y - self.TOP - self.layout.nodes[place].y) - self.boxes[place][1] + radius
        return radius - math.sqrt(radius**2 - min(max(beyond, 0), radius) ** 2)

    def radius(self, place):
        return 4 if form_of(self.diagram[place]) in ("call", "closed") else self.HALF

    def state(self, place, x, y):
        state, side = self.diagram[place], self.side
        width, half, *_ = self.boxes[place]
        wrong, marked = (self.nth, place) in side.wrong, (self.nth, place) in side.calls or (self.nth, place) in side.stuck
        colour = WRONG if wrong else TRACE if marked else "currentColor"
        self.lines.append(f'<g class="{form_of(state)}"><title>{xml(side.protocol.full_text(state))}</title>')
        self.frame(place, x, y, fill="none", stroke=colour, stroke_width=3 if wrong or marked else 1.3)
        self.add("text", xml(label_of(side.protocol, state)), x=x, y=y + 4.5, text_anchor="middle")
        for nth, note in enumerate(notes_of(side, (self.nth, place))):
            self.add("text", xml(note), x=x, y=y + half + 13 + LINE * nth, text_anchor="middle", font_weight="bold", fill=colour)
        self.lines.append("</g>")
        if place == 0:
            self.begin(x - width / 2, y)
        if (place, place) in self.bundles:
            self.loop(self.bundles[place, place], x, y - half)

    def frame(self, place, x, y, **words):
        """Draws the frame of a state: one line, two around an end, and a box with double sides for a call."""
        form, radius, (width, half, *_) = form_of(self.diagram[place]), self.radius(place), self.boxes[place]
        for within in (0, 4) if form in ("end", "closed") else (0,):
            size = {"width": width - 2 * within, "height": 2 * (half - within)}
            self.add("rect", x=x - width / 2 + within, y=y - half + within, **size, rx=max(radius - within, 1), **words)
        if form == "call":
            sides = (f"M{digits(x + it * (width / 2 - 7))} {digits(y - half)}v{2 * half}" for it in (-1, 1))
            self.add("path", d="".join(sides), **words)

    def begin(self, x, y):
        """Draws where the diagram begins, in front of its first state."""
        self.add("circle", cx=x - 27, cy=y, r=4, fill="currentColor")
        self.line(f"M{digits(x - 27)} {digits(y)}h20", "next", False)
        self.tip(x, y, 1, 0, "next", False)

    def loop(self, bundle, x, y):
        """Draws edges from a state to itself, above it."""
        self.line(f"M{digits(x + 9)} {digits(y)}c6 -26 -24 -26 -18 -8", bundle.kind, bundle.marked)
        self.tip(x - 9, y, 0, 1, bundle.kind, bundle.marked)
        bundle.write(self, x, y - 26)


def colour_of(kind, marked):
    return TRACE if marked else {"output": OUTPUT, "input": INPUT}.get(kind, "currentColor")


def steps_text(steps):
    return ",".join(str(step) for step in steps or () if step)


def as_svg(drawing):
    """Returns a drawing as SVG."""
    count = sum(len(diagram) for side in drawing.sides for diagram in side.protocol.diagrams)
    if count > MOST_DRAWN:
        raise Refused(f"it has {count} states; over {MOST_DRAWN} aren't drawn as SVG, but are written for Graphviz")
    columns = [column_of(drawing, nth) for nth in range(len(drawing.sides))]
    beside = sum(it.width for it in columns) <= MOST_BESIDE
    page = Canvas()
    for column in columns:
        page.place(column, page.width + 60 if beside and page.width else 16, 10 if beside else page.height + 20)
    below = page.height + 32
    for nth, line in enumerate(legend(drawing)):
        page.write(16, below + 15 * nth, clipped(line, MOST_IN_TITLE + 30), font_size=11, fill_opacity=0.8)
    title = clipped(" ~ ".join(" ".join(side.protocol.text.split()) for side in drawing.sides), MOST_IN_TITLE)
    width, height = (f"{it:.0f}" for it in (page.width + 16, page.height + 12))
    first = (
        f'<svg xmlns="http://www.w3.org/2000/svg" width="{width}" height="{height}" viewBox="0 0 {width} {height}" role="img" '
        'font-family="ui-monospace, monospace" font-size="13" fill="currentColor">'
    )
    return "\n".join([first, f"<title>{xml(title)}</title>", f"<style>{STYLE}</style>", *page.lines, "</svg>", ""])


def column_of(drawing, nth):
    """Returns the diagrams of one protocol, one below the other."""
    side, column = drawing.sides[nth], Canvas()
    if drawing.answer:
        column.write(0, 13, SIDES[nth], font_style="italic")
    for diagram in range(len(side.protocol.diagrams)):
        column.place(Sketch(side, diagram), 0, column.height + 14)
    return column


# Graphviz.


def as_dot(drawing):
    """Returns a drawing in the language of Graphviz."""
    # (behind `\\l` a line is set to the left)
    legend_text = dot_text("\n".join([*legend(drawing), ""])).replace("\\n", "\\l")
    lines = [
        "digraph protocol {",
        '    rankdir=LR; compound=true; labelloc=b; labeljust=l; fontname="monospace";',
        f"    label={legend_text};",
        '    node [shape=box, style=rounded, fontname="monospace"]; edge [fontname="monospace"];',
    ]
    for place, side in enumerate(drawing.sides):
        for nth in range(len(side.protocol.diagrams)):
            lines += [f"    {line}" for line in cluster(drawing, place, nth)]
    return "\n".join([*lines, "}", ""])


def cluster(drawing, place, nth):
    """Returns the lines of a diagram."""
    side, names = drawing.sides[place], {}
    title = " = ".join(title_of(side.protocol, nth))
    heading = f"{SIDES[place]}: {title}" if drawing.answer else title
    yield f"subgraph cluster_{place}_{nth} {{"
    yield f"    label={dot_text(clipped(heading, MOST_IN_TITLE))};"
    yield f"    n{place}_{nth} [shape=point];"
    for at, state in enumerate(side.protocol.diagrams[nth]):
        names[at] = f"n{place}_{nth}_{at}"
        yield f"    {names[at]} [{words_of_state(side, (nth, at), state)}];"
    yield f"    n{place}_{nth} -> {names[0]};"
    for at, state in enumerate(side.protocol.diagrams[nth]):
        for edge, (label, target) in enumerate(state.edges):
            yield f"    {names[at]} -> {names[target]} [{words_of_edge(label, side.steps.get((nth, at, edge)))}];"
    yield "}"


def words_of_state(side, place, state):
    form, marked = form_of(state), place in side.calls or place in side.stuck
    label = "\n".join([label_of(side.protocol, state), *notes_of(side, place)])
    words = [f"label={dot_text(label)}", f"tooltip={dot_text(side.protocol.full_text(state))}"]
    words += ["peripheries=2"] * (form in ("end", "closed", "call")) + ["style=solid"] * (form in ("closed", "call"))
    words += [f'color="{WRONG}", penwidth=3'] if place in side.wrong else [f'color="{TRACE}", penwidth=3'] * marked
    return ", ".join(words)


def words_of_edge(label, steps):
    kind = kind_of(label)
    style = {"input": "dashed", "variable": "dotted"}.get(kind, "solid")
    words = [f"style={style}", f'color="{colour_of(kind, steps is not None).replace("currentColor", "black")}"']
    words += ["penwidth=3"] * (steps is not None)
    if label:
        words.append("label=" + dot_text(f"{label} {steps_text(steps)}" if steps else label))
    return ", ".join(words)
