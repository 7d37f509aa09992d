"""Elimination along the tree of a market's cliques, over any numbers: sums and minima of products, or of sums of logarithms."""
from itertools import product


class Flow:
    """Factors over the questions of a market. `times` joins two of them and `plus` two results; None stands for what cannot come.

    A clique's table is a flat list, the last question's value changing fastest. `total` is the `plus` over all states. Only messages
    that a factor made stale are made again.
    """

    def __init__(self, market, times, plus, one):
        self.market, self.plus, self.one, self.known = market, plus, one, {}
        self.times = lambda a, b: None if a is None or b is None else times(a, b)
        count = len(market.cliques)
        self.parent = [None] + [link - 1 for link in market.links]
        self.children = [[at for at in range(count) if self.parent[at] == up] for up in range(count)]
        self.tables = [[one] * market.size(clique) for clique in market.cliques]
        self.shared = [[name for name in clique if up is not None and name in market.cliques[up]] for clique, up in zip(market.cliques, self.parent)]
        self.below = [self.places(at, self.shared[at]) for at in range(count)]
        self.above = [None if up is None else self.places(up, self.shared[at]) for at, up in enumerate(self.parent)]
        self.messages = [None] * count

    def places(self, clique, names):
        """For each cell of a clique the place of its values in a table over some of its questions."""
        members = self.market.cliques[clique]
        strides, step = {}, 1
        for name in reversed(names):
            strides[name] = step
            step *= len(self.market.values(name))
        cells = [0]
        for name in members:
            stride = strides.get(name, 0)
            cells = [cell + value * stride for cell in cells for value in range(len(self.market.values(name)))]
        return cells

    def cells_of(self, clique, names):
        """For each list of values of these questions the cells of a clique that have it."""
        if (clique, names) not in self.known:
            if len(self.known) > 500:
                self.known.clear()
            found = [[] for _ in range(self.market.size(names))]
            for cell, at in enumerate(self.places(clique, names)):
                found[at].append(cell)
            self.known[clique, names] = found
        return self.known[clique, names]

    def place(self, names, table):
        """Multiplies by a factor: a flat list over these questions, the last one's value changing fastest."""
        home = self.market.homes(names)[0]
        cells, found = self.tables[home], self.cells_of(home, tuple(names))
        for at, factor in enumerate(table):
            if factor != self.one:
                for cell in found[at]:
                    cells[cell] = self.times(cells[cell], factor)
        while home is not None:
            self.messages[home] = None
            home = self.parent[home]

    def joined(self, clique, parts):
        """A clique's table, times the messages of some of its children and others over it."""
        cells = self.tables[clique]
        for places, message in parts:
            cells = [self.times(cell, message[at]) for cell, at in zip(cells, places)]
        return cells

    def reduced(self, cells, places, size):
        found = [None] * size
        for cell, at in zip(cells, places):
            if cell is not None:
                found[at] = cell if found[at] is None else self.plus(found[at], cell)
        return found

    def message(self, clique):
        """What the cliques from here downwards say of the questions that this one shares with its parent."""
        stale = [clique]
        while stale:
            at = stale[-1]
            wanted = [child for child in self.children[at] if self.messages[child] is None]
            if wanted:
                stale += wanted
                continue
            cells = self.joined(at, [(self.above[child], self.messages[child]) for child in self.children[at]])
            self.messages[at] = self.reduced(cells, self.below[at], self.market.size(self.shared[at]))
            stale.pop()
        return self.messages[clique]

    def total(self):
        return self.message(0)[0]

    def marginals(self):
        """For each question the `plus` over the states with each of its values."""
        self.message(0)
        found, downwards = {}, [None] * len(self.tables)
        for at, clique in enumerate(self.market.cliques):
            above = [(self.below[at], downwards[at])] if at else []
            messages = [(self.above[child], self.messages[child]) for child in self.children[at]]
            # the tables with the messages before a child, and then those behind it, so that its own is left out
            before = [self.joined(at, above)]
            for part in messages:
                before.append([self.times(cell, part[1][place]) for cell, place in zip(before[-1], part[0])])
            behind = None
            for child, (places, message), cells in reversed(list(zip(self.children[at], messages, before))):
                if behind is not None:
                    cells = [self.times(cell, other) for cell, other in zip(cells, behind)]
                downwards[child] = self.reduced(cells, places, self.market.size(self.shared[child]))
                own = [message[place] for place in places]
                behind = own if behind is None else [self.times(cell, other) for cell, other in zip(behind, own)]
            for name in clique:
                if name not in found:
                    found[name] = self.reduced(before[-1], self.places(at, [name]), len(self.market.values(name)))
        return found


def place_rows(flow, number=lambda entry: entry):
    """Places the rows of every question."""
    for question in flow.market.questions.values():
        flow.place([*question.parents, question.name], [number(entry) for row in question.rows for entry in row])


def priors(market):
    """The weight of each value of each question, out of a million to the power of their number."""
    flow = Flow(market, lambda a, b: a * b, lambda a, b: a + b, 1)
    place_rows(flow, lambda entry: entry or None)
    return {name: [weight or 0 for weight in weights] for name, weights in flow.marginals().items()}


def least_weight(market):
    """The least weight of the states that can come, exactly."""
    flow = Flow(market, lambda a, b: a * b, min, 1)
    place_rows(flow, lambda entry: entry or None)
    return flow.total()


def possible_states(market):
    """How many states can come: those whose every row has an entry above 0 for them."""
    flow = Flow(market, lambda a, b: a * b, lambda a, b: a + b, 1)
    place_rows(flow, lambda entry: 1 if entry else None)
    return flow.total()


def pairs_together(market):
    """For each question those that some clique holds with it."""
    found = {name: set() for name in market.questions}
    for clique in market.cliques:
        for name, other in product(clique, clique):
            if name != other:
                found[name].add(other)
    return found


def floor_log2(above, below, times):
    """The greatest whole k with 2^k * below^times <= above^times, for whole numbers above >= below >= 1."""
    if above % below == 0 and (above // below).bit_count() == 1:
        return times * ((above // below).bit_length() - 1)
    digits = 64
    while True:
        low, high = (enclosed_log2(above, below, digits, side) for side in (0, 1))
        if low * times >> digits == high * times >> digits:
            return low * times >> digits
        digits *= 2


def enclosed_log2(above, below, digits, side):
    """The binary logarithm of above / below in units of 2^-digits, rounded down for the side 0 and up for 1."""
    scale = 2 * digits + 64
    whole = above.bit_length() - below.bit_length()
    whole -= above < below << whole
    # the rest is from 1 to below 2, in units of 2^-scale
    above, below = above << max(0, scale - whole), below << max(0, whole - scale)
    rest = -(-above // below) if side else above // below
    found = whole
    for _ in range(digits):
        rest = -(-rest * rest >> scale) if side else rest * rest >> scale
        found <<= 1
        if rest >> scale + 1:
            rest = -(-rest >> 1) if side else rest >> 1
            found += 1
    return found + side
