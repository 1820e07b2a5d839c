"""Which part of a certificate fails, by its tree alone: the second reading of part 6 and part 7. The parts before are taken to hold."""

from valued_leaves import Node, points_of, price_of
from valued_records import read
from valued_windows import sides_of, windows_of

MOST_SPLITS, MOST_NARROWINGS = 100_000, 50_000


class Tree:
    """The tree of a certificate, whose leaves are tested in preorder."""

    def __init__(self, text):
        self.problem, self.stated = read(text)
        self.windows = windows_of(self.problem)

    def is_one(self):
        """Whether the lines are one tree, with narrowings before its nodes."""
        pending = 1
        for kind, *_ in self.stated.tree:
            if not pending:
                return False
            pending += {"split": 1, "leaf": -1, "narrow": 0}[kind]
        counts = [sum(it[0] == kind for it in self.stated.tree) for kind in ("split", "narrow")]
        return not pending and counts[0] <= MOST_SPLITS and counts[1] <= MOST_NARROWINGS

    def node(self, kind, number, mode, sides):
        points = points_of(self.problem, self.stated.points, int(number))
        return Node(self.problem, self.stated.scale, self.windows, points, sides, price_of(self.stated.tables, kind, mode))

    def reaches(self, value, money):
        """Whether a value is worth so much, in whole units of money, rounded up, and up to a multiple of the unit."""
        whole = -(-value // self.stated.scale)
        return -(-whole // self.stated.unit) * self.stated.unit >= money

    def bars(self, fields, sides):
        """What a narrowing bars at a node under sides."""
        kind, number, mode, *worth = fields
        money = max(self.stated.claim, *map(int, worth), 0)
        return self.node(kind, number, mode, sides).bars(lambda value: self.reaches(value, money))

    def is_leaf_worth(self, fields, bars, sides):
        kind, number, mode, *count = fields
        if self.node(kind, number, mode, bars + sides).is_empty():
            return True
        valued = sides[: int(count[0])] if count else sides
        value = self.node(kind, number, mode, bars + valued).value()
        return value is not None and self.reaches(value, self.stated.claim)

    def are_leaves_worth(self):
        pending = [([], [])]  # of each tree that is to come the bars and the sides
        for kind, *fields in self.stated.tree:
            bars, sides = pending.pop()
            if kind == "narrow":
                pending.append((bars + self.bars(fields, bars + sides), sides))
            elif kind == "split":
                first, second = sides_of(self.problem, fields)
                pending += [(bars, [*sides, second]), (bars, [*sides, first])]
            elif not self.is_leaf_worth(fields, bars, sides):
                return False
        return True


def failing_part(text):
    """The part that fails of an instance's certificate, 6 or 7, or None."""
    tree = Tree(text)
    if not tree.is_one():
        return 6
    return None if tree.are_leaves_worth() else 7
