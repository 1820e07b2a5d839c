"""Whole numbers that a seed gives, the same on every machine."""


class Draws:
    """Whole numbers drawn one after the other from a seed."""

    def __init__(self, seed):
        self.state = seed

    def below(self, bound):
        self.state = (6364136223846793005 * self.state + 1442695040888963407) % 2**64
        return (self.state >> 33) % bound

    def weighted(self, choices):
        """One of some (choice, weight), the more often the more it weighs."""
        rest = self.below(sum(weight for _, weight in choices))
        for choice, weight in choices:
            if rest < weight:
                return choice
            rest -= weight
        raise AssertionError
