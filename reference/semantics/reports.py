"""Reports, the events behind them, and made modules (docs/LANGUAGE.md, Run and Make)."""
from .runs import end_of
from .texts import character_text, in_order, type_text


def value_text(value):
    """The text of a value, of which a field may need parentheses."""
    return in_order((value, False), value_pieces)


def value_pieces(value, is_field):
    """What stands in a value one after the other: texts, and parts of it, each with whether it is a constructor's field."""
    if value == () or isinstance(value, (bool, str)):
        return ["()" if value == () else str(value) if isinstance(value, bool) else character_text(value)]
    if isinstance(value, int):
        return ["(%d)" % value if is_field and value < 0 else str(value)]
    if value[0] == "pair":
        return ["(", (value[1], False), ", ", (value[2], False), ")"]
    pieces = [value[1], *(piece for field in value[2] for piece in (" ", (field, True)))]
    return ["(", *pieces, ")"] if is_field and value[2] else pieces


def path_text(path):
    return ".".join(map(str, path))


def channel_text(name):
    return path_text(name[0]) + "#" + str(name[1])


def entry_text(side, event):
    """An entry of a history, as the left end sees it."""
    kind, what = event
    if kind == "value":
        return "!?"[side == "right"] + value_text(what)
    return "closed" if kind == "closed" else "+&"[side == "right"] + what


def result_line(run):
    return "result " + ("none" if run.result is None else value_text(run.result.what))


def report_text(run, families):
    """`report_text`, `buffered_text`: what was put into a channel and not taken stands behind `unread`."""
    lines = [result_line(run)]
    for path in sorted(run.tasks):
        _, channel, side = end_of(run.tasks[path].request)
        lines.append("waiting %s at %s %s" % (path_text(path), channel_text(channel.name), side))
    for channel in sorted(run.channels, key=lambda channel: channel.name):
        name = channel_text(channel.name)
        lines.append("channel %s : %s" % (name, type_text(channel.declared, families)))
        entries = [" " + entry_text(*entry) for entry in channel.history]
        taken = run.taken(channel)
        if taken < len(entries):
            entries.insert(taken, " unread")
        lines.append("history %s :%s" % (name, "".join(entries)))
    return lines


def event_lines(run):
    """`events_text`: by stamps, and then by paths."""
    lines = []
    for stamp, _, (kind, *names) in sorted(run.events, key=lambda event: event[:2]):
        texts = [channel_text(name) if isinstance(name[0], tuple) else path_text(name) for name in names]
        lines.append(" ".join(["event", str(stamp), kind, *texts]))
    return lines


def made_text(n):
    """`made_text`: the module of n channels."""
    lines = ["main : Int", "main = r1 0"]
    for i in range(1, n + 1):
        lines += ["p%d : !Int -> Skip" % i, "p%d c = send %d c" % (i, i), "r%d : Int -> Int" % i,
                  "r%d s = let (a, b) = new !Int in fork (p%d a); let (x, d) = receive b in r%d (s + x)" % (i, i, i + 1)]
    lines += ["r%d : Int -> Int" % (n + 1), "r%d s = s" % (n + 1)]
    return "".join(line + "\n" for line in lines)


def summary_lines(data, run):
    """`summary_text`"""
    return ["bytes %d" % len(data), "events %d" % run.count, "channels %d" % len(run.channels), result_line(run)]
