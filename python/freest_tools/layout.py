"""Places the nodes and edges of a diagram in columns, from left to right, so that few edges cross.

Nodes stand in every other column, as far to the right as the longest way to them is long, and the labels of edges in the
columns between, so that no label meets another. An edge over several columns bends in each, and one that leads back is
laid like one that leads on, but for its arrow. In each column the order of nodes, labels and bends is made better in
rounds, and then their heights.
"""
# Between columns, beside nodes for the heads of arrows, between items of a column, and between links on one side of a node.
GAP_ACROSS, BESIDE, GAP_DOWN, PORT = 24, 9, 14, 9
ROUNDS = 12


class Item:
    """A node, a label or a bend of an edge: how far it reaches above and below its height `y`; the items to which it is
    linked on the left and on the right, and how far from its height each of these links ends."""

    def __init__(self, width, above, below, column):
        self.width, self.above, self.below, self.column = width, above, below, column
        self.x, self.y, self.place = 0, 0, 0
        self.left, self.right, self.ports = [], [], {}

    def set_ports(self):
        for side in (self.left, self.right):
            side.sort(key=lambda it: it.place)
            space = min(PORT, (2 * self.below - 8) / max(len(side) - 1, 1)) if self.width else 0
            for nth, it in enumerate(side):
                self.ports[it] = (nth - (len(side) - 1) / 2) * space


class Layout:
    """`nodes` has of each node its width, and how far it reaches above and below its middle; `edges` has of each edge the
    numbers of its nodes, which are two different ones, and the width and height of its label, and no other edge leads
    from the one to the other. All begins at the first node. Found are `nodes`, items with their middle `x` and `y`;
    `routes`, of each edge its horizontal stretches in its direction, the first and the last one at its nodes, and which
    of them has the label; `width` and `height`."""

    def __init__(self, nodes, edges):
        self.edges = edges
        self.order, self.back = visited(len(nodes), edges)
        layers = self.layers(len(nodes))
        self.nodes = [Item(*size, 2 * layer) for size, layer in zip(nodes, layers)]
        self.columns = [[] for _ in range(2 * max(layers) + 1)]
        for number in self.order:
            self.columns[2 * layers[number]].append(self.nodes[number])
        self.chains = [self.chain(nth) for nth in range(len(edges))]
        self.sort()
        for item in self.items():
            item.set_ports()
        self.set_heights()
        self.set_columns()
        self.routes = [self.route(nth) for nth in range(len(edges))]

    def items(self):
        return [item for column in self.columns for item in column]

    def layers(self, count):
        """Returns for each node the length of the longest way to it along edges that don't lead back."""
        layers = [0] * count
        for number in self.order:
            for nth, (source, target, *_) in enumerate(self.edges):
                if source == number and nth not in self.back:
                    layers[target] = max(layers[target], layers[source] + 1)
        return layers

    def chain(self, nth):
        """Makes the label and the bends of an edge. Returns its items from left to right, and which of them is the label."""
        source, target, width, height = self.edges[nth]
        ends = [self.nodes[source], self.nodes[target]]
        if nth in self.back:
            ends.reverse()
        inner = [Item(0, 2, 2, column) for column in range(ends[0].column + 1, ends[1].column)]
        label = len(inner) - 1 if nth in self.back else 0
        inner[label] = Item(width, height + 2, 3, inner[label].column)
        for item in inner:
            self.columns[item.column].append(item)
        chain = [ends[0], *inner, ends[1]]
        for one, two in zip(chain, chain[1:]):
            one.right.append(two)
            two.left.append(one)
        return chain, label + 1

    def sort(self):
        """Orders each column by the middle of the places to which it is linked, and keeps the order with the fewest crossings."""
        best = None
        for turn in range(2 * ROUNDS):
            self.number()
            crossings = sum(map(crossings_right, self.columns))
            if best is None or crossings < best[0]:
                best = crossings, [[*column] for column in self.columns]
            side = "left" if turn % 2 else "right"
            for column in self.columns if turn % 2 else self.columns[::-1]:
                column.sort(key=lambda item: middle([it.place for it in getattr(item, side)], item.place))
                self.number(column)
        self.columns = best[1]
        self.number()

    def number(self, *columns):
        for column in columns or self.columns:
            for place, item in enumerate(column):
                item.place = place

    def set_heights(self):
        for turn in range(4 * ROUNDS):
            last = turn >= 2 * ROUNDS
            for column in self.columns[::-1] if turn % 2 else self.columns:
                links = [item.left + item.right if last else item.right if turn % 2 else item.left for item in column]
                wanted = [
                    middle([it.y + it.ports[item] - item.ports[it] for it in each], item.y)
                    for item, each in zip(column, links)
                ]
                gaps = [one.below + GAP_DOWN + two.above for one, two in zip(column, column[1:])]
                for item, y in zip(column, settled(wanted, gaps)):
                    item.y = y
        top = min(item.y - item.above for item in self.items())
        for item in self.items():
            item.y = round(item.y - top, 1)
        self.height = max(item.y + item.below for item in self.items())

    def set_columns(self):
        self.spans, x = [], 0
        for nth, column in enumerate(self.columns):
            width = max(item.width for item in column) + (0 if nth % 2 else 2 * BESIDE)
            self.spans.append((x, x + width))
            for item in column:
                item.x = x + width / 2
            x += width + GAP_ACROSS
        self.width = x - GAP_ACROSS

    def route(self, nth):
        chain, label = self.chains[nth]
        stretches = []
        for place, item in enumerate(chain):
            begin, end = self.spans[item.column]
            y = item.y
            if place == 0:
                begin, y = item.x + item.width / 2, item.y + item.ports[chain[1]]
            elif place == len(chain) - 1:
                end, y = item.x - item.width / 2, item.y + item.ports[chain[-2]]
            stretches.append((begin, end, y))
        if nth in self.back:
            stretches = [(end, begin, y) for begin, end, y in reversed(stretches)]
            label = len(chain) - 1 - label
        return stretches, label


def visited(count, edges):
    """Returns the numbers of the nodes in an order in which each edge leads on, but for those that lead back, and these."""
    targets = [[] for _ in range(count)]
    for nth, (source, target, *_) in enumerate(edges):
        targets[source].append((nth, target))
    done, seen, on_path, back = [], {0}, {0}, set()
    path = [(0, iter(targets[0]))]
    while path:
        number, left = path[-1]
        nth, target = next(left, (None, None))
        if nth is None:
            path.pop()
            on_path.remove(number)
            done.append(number)
        elif target in on_path:
            back.add(nth)
        elif target not in seen:
            seen.add(target)
            on_path.add(target)
            path.append((target, iter(targets[target])))
    return done[::-1], back


def middle(places, otherwise):
    return sum(places) / len(places) if places else otherwise


def crossings_right(column):
    """Returns how many pairs of the links to the right of a column cross."""
    links = [(item.place, it.place) for item in column for it in item.right]
    return sum((one[0] - two[0]) * (one[1] - two[1]) < 0 for nth, one in enumerate(links) for two in links[:nth])


def settled(wanted, gaps):
    """Returns heights near those that are wanted, by least squares, of which each is at least its gap below the one before."""
    shifts = [0]
    for gap in gaps:
        shifts.append(shifts[-1] + gap)
    blocks = []
    for want, shift in zip(wanted, shifts):
        blocks.append([want - shift, 1])
        while len(blocks) > 1 and blocks[-2][0] / blocks[-2][1] > blocks[-1][0] / blocks[-1][1]:
            total, count = blocks.pop()
            blocks[-1][0] += total
            blocks[-1][1] += count
    means = [total / count for total, count in blocks for _ in range(count)]
    return [mean + shift for mean, shift in zip(means, shifts)]
