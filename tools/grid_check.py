#!/usr/bin/env python3
"""Works out what the program grid_check prints, from the rules of the grid: sets of strings, and nothing of the program.

usage: grid_check.py > crates/grid_check/stdout
"""


class Grid:
    """Filters are (label, destination, source, cost), prefixes are strings of 0 and 1."""

    def __init__(self, filters):
        self.filters = filters
        self.destinations = {d[:i] for _, d, _, _ in filters for i in range(len(d) + 1)}
        self.sources = {(d, s[:i]) for _, d, s, _ in filters for i in range(len(s) + 1)}
        self.best = {}
        for label, d, s, cost in filters:
            self.best[d, s] = min(self.best.get((d, s), (cost, label)), (cost, label))
        self.known = {}

    def nodes(self):
        return len(self.destinations) + len(self.sources)

    def kept(self, d, s):
        """Cost and label of the best filter with prefixes of d and s, or None."""
        if (d, s) not in self.known:
            found = [self.best[d[:i], s[:j]] for i in range(len(d) + 1) for j in range(len(s) + 1) if (d[:i], s[:j]) in self.best]
            self.known[d, s] = min(found, default=None)
        return self.known[d, s]

    def onward(self, d, s):
        """The node that a search goes to from (d, all of s but its last bit): the child, or where the switch leads."""
        for i in range(len(d), -1, -1):
            if (d[:i], s) in self.sources:
                return d[:i]
        return None

    def search(self, destination, source):
        """The label, or 0 for none, and the visits."""
        if not self.filters:
            return 0, 0
        way = [destination[:i] for i in range(len(destination) + 1) if destination[:i] in self.destinations]
        rooted = [d for d in way if (d, "") in self.sources]
        if not rooted:
            return 0, len(way)
        d, best, visits = rooted[-1], None, len(way)
        for k in range(len(source) + 1):
            d = self.onward(d, source[:k])
            if d is None:
                break
            visits += 1
            kept = self.kept(d, source[:k])
            if kept is not None and (best is None or kept < best):
                best = kept
        return (0 if best is None else best[1]), visits

    def linear(self, destination, source):
        found = [(c, label) for label, d, s, c in self.filters if destination.startswith(d) and source.startswith(s)]
        return min(found)[1] if found else 0


class Generator:
    def __init__(self, seed):
        self.state = seed

    def draw(self):
        self.state = (self.state * 6364136223846793005 + 1442695040888963407) % 2 ** 64
        return self.state // 2 ** 32

    def prefix(self, width):
        length = self.draw() % (width + 1)
        return format(self.draw(), "032b")[:length]

    def filters(self, width, count):
        made = []
        for label in range(count, 0, -1):
            d = self.prefix(width)
            s = self.prefix(width)
            made.append((label, d, s, self.draw() % 64))
        return made

    def within(self, prefix):
        return prefix + format(self.draw(), "032b")[len(prefix):]

    def pair(self, filters):
        d = self.within(filters[self.draw() % 4095][1])
        s = self.within(filters[self.draw() % 4095][2])
        return d, s


def told(what, grid, destination, source, width=16):
    label, visits = grid.search(destination.ljust(width, "0"), source.ljust(width, "0"))
    choice = f"label {label}" if label else "none"
    print(f"{what}: {choice} in {visits} visits")


def built(what, filters):
    grid = Grid(filters)
    print(f"{what}: {grid.nodes()} nodes")
    return grid


def tally(what, grid, pairs):
    count = labels = visits = 0
    for destination, source in pairs:
        label, some = grid.search(destination, source)
        assert label == grid.linear(destination, source)
        count, labels, visits = count + 1, labels + label, visits + some
    print(f"{what}: {count} compared, 0 differed (labels {labels}, visits {visits})")


WORKED = [(1, "1", "0", 5), (2, "10", "11", 7), (3, "", "110", 3), (4, "1", "", 9), (5, "1", "11", 7)]


def worked():
    told("before the build", Grid([]), "10", "1101")
    grid = built("the worked book", WORKED)
    for d, s in [("10", "1101"), ("10", "111"), ("11", "01"), ("0", "110"), ("0", "0"), ("10", "00")]:
        told(f"{d}, {s}", grid, d, s)
    rest = [f for f in WORKED if f[0] != 3]
    told("10, 1101", built("filter 3 withdrawn", rest), "10", "1101")
    told("10, 1101", built("filter 3 at cost 30", rest + [(3, "", "110", 30)]), "10", "1101")


def edges():
    grid = built("a filter of everything", [(1, "", "", 1)])
    told("0, 0", grid, "0", "0")
    told("1..., 1...", grid, "1" * 16, "1" * 16)
    told("100, 0", built("a filter of destination 101", [(1, "101", "", 1)]), "100", "0")
    told("101, 0", built("no filter", []), "101", "0")
    zeros, ones = "0" * 32, "1" * 32
    for places in (131, 130):
        print(f"{places} node places")
        grid = built("one filter", [(1, zeros, zeros, 1)])
        if places < 1 + 2 * 65:
            print("two filters: refused 8")
        else:
            grid = built("two filters", [(1, zeros, zeros, 1), (2, ones, ones, 1)])
        told("the first filter's addresses", grid, zeros, zeros, 32)
        told("the second filter's addresses", grid, ones, ones, 32)


def reuse():
    every = [format(n, "08b") for n in range(256)]
    pairs = [(d, s) for d in every for s in every]
    generator = Generator(1)
    tally("with linear search", built("a long table", generator.filters(8, 120)), pairs)
    short = generator.filters(8, 12)
    tally("with linear search", built("a short table in the same memory", short), pairs)
    tally("with the fresh grid", built("the short table in fresh memory", short), pairs)


def large():
    generator = Generator(2)
    filters = generator.filters(32, 4095)
    grid = built("4095 filters", filters)
    tally("with linear search", grid, [generator.pair(filters) for _ in range(2000)])


if __name__ == "__main__":
    worked()
    edges()
    reuse()
    large()
