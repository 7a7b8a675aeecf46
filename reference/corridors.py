"""Random corridors: sound networks of every shape, as rows of a corridor file.

Used by compare.py and by benches/bench.py. docs/file-format.md and docs/model.md have the words.
"""

MOST_NODES = 32


class Corridor:
    """A sound network. Nodes and links are numbered from 1; a link is (from, to, f, b, Q, J)."""

    def __init__(self, nodes, links, routes=(), rule="fair", meters=()):
        self.nodes, self.links, self.rule = nodes, list(links), rule
        self.routes, self.meters = list(routes), list(meters)  # (node, exit, link), (node, rate, period)
        self.entering = {n: [] for n in range(1, nodes + 1)}
        self.leaving = {n: [] for n in range(1, nodes + 1)}
        for i, link in enumerate(self.links, 1):
            self.leaving[link[0]].append(i)
            self.entering[link[1]].append(i)
        self.entrances, self.exits, self.merges, self.diverges = (
            self.of_kind(0, 1), self.of_kind(1, 0), self.of_kind(2, 1), self.of_kind(1, 2))
        self.reach = {}

    def of_kind(self, entering, leaving):
        return [n for n in self.entering if (len(self.entering[n]), len(self.leaving[n])) == (entering, leaving)]

    def room_needed(self):
        return sum(link[5] for link in self.links) + 500 * len(self.entrances)

    def reached(self, link):
        """The exits that can be reached by way of this link."""
        node = self.links[link - 1][1]
        if node not in self.reach:
            out = self.leaving[node]
            self.reach[node] = set().union(*(self.reached(i) for i in out)) if out else {node}
        return self.reach[node]

    def served(self):
        """The pairs that may be booked."""
        route = {(n, x): i for n, x, i in self.routes}
        pairs = []
        for e in self.entrances:
            for x in self.exits:
                link = self.leaving[e][0]
                while link:
                    node = self.links[link - 1][1]
                    out = self.leaving[node]
                    link = out[0] if len(out) == 1 else route.get((node, x)) if out else None
                if node == x:
                    pairs.append((e, x))
        return pairs

    def head(self):
        rows = [f"net {self.nodes} {len(self.links)}"]
        rows += ["link " + " ".join(map(str, link)) for link in self.links]
        rows += [f"route {n} {x} {i}" for n, x, i in self.routes]
        rows += [f"merge {self.rule}"]
        rows += [f"meter {n} {rate} {period}" for n, rate, period in self.meters]
        return rows + ["go"]


def shape(rng, nodes, entrances=MOST_NODES, branching=1.0):
    """Random (from, to) pairs in which every node has one of the five kinds.

    Nodes are placed in number order. Each takes up some of the open ends that earlier nodes left and leaves some itself;
    no more ends are opened than the nodes still to come can close, each of which closes at most one more than it opens.
    """
    ends, pairs = [], []
    for node in range(1, nodes + 1):
        later = nodes - node
        kinds = []
        for weight, entering, leaving in ((1, 0, 1), (0.6, 1, 0), (1, 1, 1), (branching, 2, 1), (branching, 1, 2)):
            left = len(ends) - entering + leaving
            if entering <= len(ends) and left <= later and (left, later) != (0, 1) and (entering or entrances):
                # an early end of everything would force an entrance on the next node
                if left or not later or entrances > (entering == 0):
                    kinds.append((weight, entering, leaving))
        _, entering, leaving = rng.choices(kinds, [k[0] for k in kinds])[0]
        entrances -= entering == 0
        for _ in range(entering):
            pairs.append((ends.pop(rng.randrange(len(ends))), node))
        ends += [node] * leaving
    rng.shuffle(pairs)
    return pairs


def lattice(pairs_of_branches):
    """One entrance, that many diverges each followed by a merge of its two branches, and an exit."""
    pairs = [(1, 2)]
    for k in range(pairs_of_branches):
        split = 2 + 2 * k
        pairs += [(split, split + 1), (split, split + 1), (split + 1, split + 2)]
    return pairs


def uniform(most, least=(1, 1, 1, 1)):
    """f, b, Q and J at random within bounds."""
    return lambda rng: tuple(rng.randint(lo, hi) for lo, hi in zip(least, most))


def flowing(rng):
    """Short links of small capacities with storage enough to pass them, so that queues come from the nodes."""
    f, b, q = rng.randint(1, 4), rng.randint(1, 4), rng.choice((1, 2, 3, 4, 6))
    return f, b, q, q * (f + b) + rng.choice((0, 0, 1, 5))


def dress(rng, pairs, numbers, room=4000, rule=None, routed=1.0, metered=0.3):
    """A corridor of this shape, its links by `numbers` with J cut until they fit the room, with routes and meters."""
    nodes = max(to for _, to in pairs)
    bare = Corridor(nodes, [(*pair, *numbers(rng)) for pair in pairs])
    while bare.room_needed() > room and any(link[5] > 1 for link in bare.links):
        bare.links = [(*link[:5], max(1, link[5] // 2)) for link in bare.links]
    routes = []
    for n in bare.diverges:
        for x in bare.exits:
            good = [i for i in bare.leaving[n] if x in bare.reached(i)]
            if rng.random() < routed:
                routes.append((n, x, rng.choice(good or bare.leaving[n])))
    rng.shuffle(routes)
    meters = [(n, rng.choice((1, 1, 2, 3, rng.randint(1, 200))), rng.choice((1, 2, 3, 5, rng.randint(1, 63))))
              for n in bare.merges if rng.random() < metered]
    rng.shuffle(meters)
    return Corridor(nodes, bare.links, routes, rule or rng.choice(("fair", "ramp", "zip")), meters)
