"""A graph in layers: where its nodes stand, and which way its lines take between them."""

SWEEPS = 24


def reduced(below):
    """Without each edge that others lead along too."""
    far = {}

    def all_below(node):
        if node not in far:
            far[node] = set(below[node]).union(*map(all_below, below[node]))
        return far[node]

    return {node: [each for each in below[node] if not any(each in all_below(other) for other in below[node])] for node in below}


def layers_of(below, groups):
    """Each node's layer: above those that it stands on, a group above all groups before it, and its lines as short as may be."""
    layer, floor = {}, 0
    for group in groups:
        for node in sorted(group, key=lambda node: depth(below, node)):
            layer[node] = max([floor, *(layer[each] + 1 for each in below[node])])
        floor = max(layer.values()) + 1
    above = {node: [each for each in below if node in below[each]] for node in below}
    for group in groups:
        for node in sorted(group, key=lambda node: -layer[node]):
            # Up to right below those that stand on it, where more lines lead up than down.
            if len(above[node]) > len(below[node]):
                layer[node] = min([layer[each] - 1 for each in above[node]], default=layer[node])
    return layer


def depth(below, node):
    return 1 + max((depth(below, each) for each in below[node]), default=-1)


class Drawing:
    """The nodes of each layer from left to right, with one more node for each layer that a line passes."""

    def __init__(self, below, layer, width_of, gap):
        self.layer, self.width_of, self.gap = dict(layer), width_of, gap
        self.ways = {(upper, lower): self.way(upper, lower) for upper in below for lower in below[upper]}
        self.rows = [[] for _ in range(max(layer.values()) + 1)]
        for node in self.layer:
            self.rows[self.layer[node]].append(node)
        self.near = {node: ([], []) for node in self.layer}
        for way in self.ways.values():
            for upper, lower in zip(way, way[1:]):
                self.near[upper][0].append(lower)
                self.near[lower][1].append(upper)
        self.order()
        self.x = self.places()

    def way(self, upper, lower):
        passed = [(upper, lower, at) for at in range(self.layer[upper] - 1, self.layer[lower], -1)]
        self.layer.update({node: node[2] for node in passed})
        return [upper, *passed, lower]

    def order(self):
        """The order of least crossings that these sweeps meet: each node to the middle of those that it hangs on."""
        best, fewest = [list(row) for row in self.rows], self.crossings()
        for sweep in range(SWEEPS):
            up = sweep % 2 == 0
            for at in range(1, len(self.rows)) if up else range(len(self.rows) - 2, -1, -1):
                other = self.rows[at - 1 if up else at + 1]
                place = {node: number for number, node in enumerate(other)}
                own = {node: number for number, node in enumerate(self.rows[at])}
                self.rows[at].sort(key=lambda node: (middle([place[each] for each in self.near[node][0 if up else 1]], own[node]), own[node]))
            self.swap()
            if self.crossings() < fewest:
                best, fewest = [list(row) for row in self.rows], self.crossings()
        self.rows = best

    def swap(self):
        """Neighbours change places while that takes crossings away."""
        better = True
        while better:
            better = False
            for row in self.rows:
                places = {node: number for each in self.rows for number, node in enumerate(each)}
                for at in range(len(row) - 1):
                    left, right = row[at], row[at + 1]
                    if self.crossed(left, right, places) > self.crossed(right, left, places):
                        row[at], row[at + 1] = right, left
                        better = True

    def crossed(self, left, right, places):
        """How often their lines cross, where they stand in this order."""
        return sum(places[one] > places[two] for side in (0, 1) for one in self.near[left][side] for two in self.near[right][side])

    def crossings(self):
        count = 0
        for row, lower in zip(self.rows[1:], self.rows):
            place = {node: number for number, node in enumerate(lower)}
            ends = [place[each] for node in row for each in sorted(self.near[node][0], key=place.get)]
            count += sum(one > two for at, one in enumerate(ends) for two in ends[at + 1 :])
        return count

    def places(self):
        """Where each node's middle is: as near to those that it hangs on as its neighbours let it, lines that pass layers straight."""
        x = {}
        for row in self.rows:
            at = 0.0
            for node in row:
                x[node] = at + self.width_of(node) / 2
                at += self.width_of(node) + self.gap
        for sweep in range(4 * SWEEPS):
            for row in self.rows if sweep % 2 else reversed(self.rows):
                wished = []
                for node in row:
                    ends = [(x[each], self.weight(node, each)) for side in (0, 1) for each in self.near[node][side]]
                    total = sum(weight for _, weight in ends) or 1
                    wished.append((sum(place * weight for place, weight in ends) / total if ends else x[node], total))
                x.update(zip(row, self.spread(row, wished)))
        least = min(x[node] - self.width_of(node) / 2 for node in x)
        return {node: round(x[node] - least) for node in x}

    def weight(self, one, two):
        return 1 + 2 * isinstance(one, tuple) + 2 * isinstance(two, tuple)

    def spread(self, row, wished):
        """The places nearest to those that are wished for, in this order and without overlaps."""
        shifts, at = [], 0.0
        for left, right in zip([None, *row], row):
            at += (self.width_of(left) + self.width_of(right)) / 2 + self.gap if left is not None else 0
            shifts.append(at)
        blocks = []
        for (place, weight), shift in zip(wished, shifts):
            blocks.append([place - shift, weight, 1])
            while len(blocks) > 1 and blocks[-2][0] > blocks[-1][0]:
                (one, much, few), (two, more, many) = blocks[-2:]
                blocks[-2:] = [[(one * much + two * more) / (much + more), much + more, few + many]]
        starts = [start for start, _, count in blocks for _ in range(count)]
        return [start + shift for start, shift in zip(starts, shifts)]


def middle(numbers, own):
    return sum(numbers) / len(numbers) if numbers else own
