"""The smallest parts of two trees that differ.

A part of one tree becomes a part of the other at the least cost: nodes of one
kind are aligned part by part, a part may have been put around or taken away,
and what is left is replaced. The cost counts tokens. This is the tool's own
view: the proved program `compare` says at which steps the answers differ.
"""

import sys

from .drawing import is_folded
from .tree import Leaf, Mark, fold, walk

RENAMED = 1
OTHER_TOKEN = 2
REPLACED = 0.5

# A formula of 256 tokens is a tree of at most 128 levels and a few nodes each.
DEEPEST = 20000


class Difference:
    """Parts that differ: one node of each tree, and what is marked in it.

    `sort` is `replaced`, `changed` (parts of a node), `renamed` (a name or a
    number: steps hold none), `put around` or `taken away`.
    """

    def __init__(self, sort, first, second, marked):
        self.sort, self.nodes, self.marked = sort, (first, second), marked

    def spans(self, side):
        """Start and end of what is marked in a text, neighbours joined."""
        spans = []
        for part in self.marked[side]:
            if spans and part.start <= spans[-1][1] + 1:
                spans[-1] = spans[-1][0], max(spans[-1][1], part.end)
            else:
                spans.append((part.start, part.end))
        return spans

    def covered(self, side):
        """Every part that is marked, and its parts."""
        return {p for part in self.marked[side] for p in walk(part)}


def differences(first, second):
    """The differences of two trees, in order of the first's text."""
    sys.setrecursionlimit(max(sys.getrecursionlimit(), DEEPEST))
    found = list(_Matching(first, second).differences(first, second))
    found.sort(key=lambda d: (d.nodes[0].start, d.nodes[1].start))
    return found


def parts_of(part):
    """The parts of a node; a name or a number has none."""
    if isinstance(part, (Leaf, Mark)) or is_folded(part):
        return []
    return part.parts


def is_node(part):
    return bool(parts_of(part))


class _Matching:
    def __init__(self, first, second):
        self.numbers = {}
        self.whole, self.bare, self.size = {}, {}, {}
        for root in (first, second):
            fold(root, self._measure)
        self.best = {}

    def _measure(self, part, _):
        below = getattr(part, 'parts', ())
        text = getattr(part, 'text', '')
        self.whole[part] = self._number(part, text, self.whole, below)
        self.bare[part] = self._number(part, '', self.bare, below)
        self.size[part] = (sum(self.size[p] for p in parts_of(part)) or 1)

    def _number(self, part, text, numbers, below):
        sort = part.words if isinstance(part, Mark) else part.kind
        key = type(part).__name__, sort, text, *(numbers[p] for p in below)
        return self.numbers.setdefault(key, len(self.numbers))

    # -------------------------------------------------------------- the cost

    def cost(self, one, other):
        if self.whole[one] == self.whole[other]:
            return 0
        return self.choice(one, other)[0]

    def choice(self, one, other):
        """The least cost, the sort of the difference and what goes on."""
        if (one, other) not in self.best:
            self.best[one, other] = min(self.choices(one, other),
                                        key=lambda choice: choice[0])
        return self.best[one, other]

    def choices(self, one, other):
        if self.bare[one] == self.bare[other] and not is_node(one):
            yield RENAMED, 'renamed', None
        if is_node(one) and is_node(other):
            if one.kind == other.kind:
                yield self.aligned(one, other)
            for inner in filter(is_node, parts_of(other)):
                yield (self.cost(one, inner) + self.size[other]
                       - self.size[inner], 'put around', inner)
            for inner in filter(is_node, parts_of(one)):
                yield (self.cost(inner, other) + self.size[one]
                       - self.size[inner], 'taken away', inner)
        yield (max(self.size[one], self.size[other]) + REPLACED,
               'replaced', None)

    def aligned(self, one, other):
        """The parts of two nodes, side by side at the least cost."""
        ones, others = parts_of(one), parts_of(other)
        row = [(0, None)]
        for q in others:
            row.append((row[-1][0] + self.size[q], (None, q, row[-1])))
        for p in ones:
            below = [(row[0][0] + self.size[p], (p, None, row[0]))]
            for index, q in enumerate(others):
                below.append(min((
                    (row[index][0] + self.pair_cost(p, q),
                     (p, q, row[index])),
                    (row[index + 1][0] + self.size[p],
                     (p, None, row[index + 1])),
                    (below[index][0] + self.size[q],
                     (None, q, below[index]))), key=lambda c: c[0]))
            row = below
        return row[-1][0], 'changed', _pairs(row[-1])

    def pair_cost(self, p, q):
        if self.whole[p] == self.whole[q]:
            return 0
        leaves = isinstance(p, Leaf), isinstance(q, Leaf)
        if any(leaves):
            return OTHER_TOKEN if all(leaves) else float('inf')
        return self.cost(p, q)

    # ------------------------------------------------------- the differences

    def differences(self, first, second):
        todo = [(first, second)]
        while todo:
            one, other = todo.pop()
            if self.whole[one] == self.whole[other]:
                continue
            _, sort, more = self.choice(one, other)
            if sort == 'changed':
                kept, ours, theirs = self.split(more)
                todo += kept
                if ours or theirs:
                    yield Difference(sort, one, other, (ours, theirs))
            elif sort == 'put around':
                todo.append((one, more))
                yield Difference(sort, one, other, ([], without(other, more)))
            elif sort == 'taken away':
                todo.append((more, other))
                yield Difference(sort, one, other, (without(one, more), []))
            else:
                yield Difference(sort, one, other, ([one], [other]))

    def split(self, pairs):
        """The pairs of nodes to look into, and parts that differ here."""
        kept, ours, theirs = [], [], []
        for p, q in pairs:
            if p and q and (self.whole[p] == self.whole[q]
                            or not isinstance(p, Leaf)):
                kept.append((p, q))
            else:
                ours += [p] if p else []
                theirs += [q] if q else []
        return kept, ours, theirs


def _pairs(cell):
    pairs = []
    while cell[1]:
        p, q, cell = cell[1]
        pairs.append((p, q))
    return pairs[::-1]


def without(part, inner):
    """The parts of a node but one."""
    return [p for p in parts_of(part) if p is not inner]
