"""All tasks of a run (docs/SEMANTICS.md, Configurations and events, Reports, Channels that hold messages)."""
from heapq import heappop, heappush

from .evaluation import pause
from .reading import Node

OTHER = {"left": "right", "right": "left"}


class Task:
    """`Task`: its path, its clock, what it asks for, what waits for a value in it, and how much it has made and forked."""

    def __init__(self, path, clock):
        self.path, self.clock, self.request, self.frames, self.made, self.forked = path, clock, None, [], 0, 0


class Channel:
    """`Channel`: its maker's path and its number there, its type, and what passed, each time with the side that it came from."""

    def __init__(self, maker, number, declared):
        self.name, self.declared, self.history, self.stamp = (maker, number), declared, [], 0
        self.waiting, self.seen = {}, {"left": 0, "right": 0}


class Run:
    """`Config`: the tasks that haven't ended and the channels; `ready` are the moves that are possible, the least path first."""

    def __init__(self, module):
        self.bodies = {g.name: body_of(g) for g in module.globals}
        self.tasks, self.channels, self.ready, self.events, self.count, self.result = {}, [], [], [], 0, None
        self.start((0,), (self.bodies["main"], None), 0)

    def start(self, path, now, clock):
        self.tasks[path] = Task(path, clock)
        self.go_on(self.tasks[path], now)

    def go_on(self, task, now):
        """On to what the task asks for next, and then to where it can move or waits."""
        task.request = pause(now, task.frames)
        if task.request.kind == "ended":
            del self.tasks[task.path]
            if task.path == (0,):
                self.result = task.request
        elif task.request.kind in ("put", "get"):
            self.arrive(task, *end_of(task.request)[1:])
        else:
            heappush(self.ready, (task.path, (task,)))

    def ends_within(self, steps):
        """`RunsLeast`: the least run, if it has no more than so many events (`IsAnswer`)."""
        while self.ready:
            if self.count == steps:
                return False
            self.count += 1
            _, tasks = heappop(self.ready)
            getattr(self, tasks[0].request.kind)(*tasks)
        return True

    def note(self, kind, task, what=()):
        """`moved`: the task's clock goes on, and that is the stamp of the event."""
        task.clock += 1
        self.events.append((task.clock, task.path, (kind, task.path, *what)))

    def step(self, task):
        """`DoesStep`"""
        then = task.request.then
        self.note("local", task)
        self.go_on(task, (self.bodies[then], None) if isinstance(then, str) else then)

    def new(self, task):
        """`DoesNew`"""
        task.made += 1
        channel = Channel(task.path, task.made, task.request.what)
        self.channels.append(channel)
        self.note("new", task, [channel.name])
        self.go_on(task, task.request.then(("end", channel, "left"), ("end", channel, "right")))

    def fork(self, task):
        """`DoesFork`"""
        task.forked += 1
        child = (*task.path, task.forked)
        self.note("fork", task, [child])
        self.start(child, task.request.what, task.clock)
        self.go_on(task, task.request.then)

    def taken(self, channel):
        """How much of a history both sides have in view."""
        return len(channel.history)

    def arrive(self, task, channel, side):
        """Where another task is at the other end both can move, and count as the lesser one."""
        other = channel.waiting.pop(OTHER[side], None)
        if other is None:
            channel.waiting[side] = task
        else:
            tasks = (task, other) if task.request.kind == "put" else (other, task)
            heappush(self.ready, (min(task.path, other.path), tasks))

    def put(self, sender, receiver):
        """`DoesMeet`"""
        (_, channel, side), event = sender.request.what
        channel.stamp = sender.clock = receiver.clock = max(sender.clock, receiver.clock, channel.stamp) + 1
        channel.history.append((side, event))
        paths = sender.path, receiver.path
        self.events.append((channel.stamp, min(paths), ("meet", channel.name, *paths)))
        self.go_on(sender, sender.request.then)
        self.go_on(receiver, receiver.request.then(event))


class BufferedRun(Run):
    """`Channels`: a channel holds up to so many events; `seen` says how much of its history each side has put in or taken."""

    def __init__(self, module, capacity):
        self.capacity = capacity
        super().__init__(module)

    def taken(self, channel):
        return min(channel.seen.values())

    def arrive(self, task, channel, side):
        if self.can_move(task, channel, side):
            heappush(self.ready, (task.path, (task,)))
        else:
            channel.waiting[side] = task

    def can_move(self, task, channel, side):
        """`IsWhole` and `HasRoom`, or `IsNext`."""
        held, seen = len(channel.history), channel.seen
        if task.request.kind == "get":
            return seen[side] < held
        return seen[side] == held < seen[OTHER[side]] + self.capacity

    def put(self, task):
        (_, channel, side), event = task.request.what
        channel.history.append((side, event))
        self.moved(task, channel, side, task.request.then)

    def get(self, task):
        _, channel, side = task.request.what
        self.moved(task, channel, side, task.request.then(channel.history[channel.seen[side]][1]))

    def moved(self, task, channel, side, now):
        """The side has one event more in view; whoever waits at the other end is looked at again."""
        channel.seen[side] += 1
        other = channel.waiting.pop(OTHER[side], None)
        if other is not None:
            self.arrive(other, channel, OTHER[side])
        self.go_on(task, now)


def body_of(g):
    """`main_body`, `bodies`: an equation as a function for each of its parameters."""
    body = g.body
    for parameter in reversed(g.parameters):
        body = Node(parameter.at, "lambda", None, (body,))
    return body


def end_of(request):
    """The end at which a task asks."""
    return request.what[0] if request.kind == "put" else request.what
