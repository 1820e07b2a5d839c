"""Small trees of splits at their greatest claims, beside all plans of small instances: no claim is accepted that some plan is cheaper than.

The program and the second reading of values are asked the same, and have to agree on each claim.
"""

import pathlib
import random
import subprocess
import sys
import unittest
from itertools import combinations, islice

sys.dont_write_bytecode = True
sys.path.insert(0, str(pathlib.Path(__file__).resolve().parent))
from programs import TOP, proved  # noqa: E402
from small_plans import Detour, Small  # noqa: E402
from valued_trees import failing_part  # noqa: E402

SCALE = 12
KINDS = ((Small, 30), (Detour, 16))
MOST_PLANS = 10_000
VERDICTS = {"accepted,optimal\n": None, "accepted,unfinished\n": None, "rejected,6\n": 6, "rejected,7\n": 7}
SEARCHES = ("--rounds 0 --branches 0 --spans", "--rounds 0 --branches 1 --spans", "--rounds 2 --branches 3 --spans", "--rounds 0 --branches 2")


def charge_of(small, arc, money, weights):
    """What the weights of any shipments pass the money of their trucks by at most."""
    sizes = {it[0]: it[3] for it in small.shipments}
    sets = [chosen for count in range(1, len(weights) + 1) for chosen in combinations(weights, count)]
    over = [sum(weights[it] for it in chosen) - money * -(-sum(sizes[it] for it in chosen) // arc[3]) for chosen in sets]
    return max([0, *over])


def table_of(draw, small, runs):
    """The word of a table and its spans and gifts: on some arcs one span over all time, with a gift for each of some sides of splits by trucks.

    By moments a span may have no charge: it pays at a leaf whose sides part its shipments.
    """
    word = draw.choice(("", ",moments"))
    spans, gifts = [], []
    for arc in small.arcs:
        given = [(side, draw.randrange(SCALE * arc[4] + 1)) for run, side in runs if run == arc[:2]]
        off, more = (sum(amount for side, amount in given if side == which) for which in ("least", "most"))
        if off > SCALE * arc[4] or (not given and draw.random() < 0.3):
            continue
        money = SCALE * arc[4] - off + draw.randrange(more + 1)
        weights = {it[0]: draw.randrange(1, money + 2) for it in small.shipments if draw.random() < 0.8}
        charge = 0 if word and draw.random() < 0.7 else charge_of(small, arc, money, weights)
        spans.append(f"span,{arc[0]},{arc[1]},0,100001,{money},{charge}")
        spans += [f"weight,{name},{weight}" for name, weight in weights.items()]
        gifts += [f"gift,{arc[0]},{arc[1]},0,100001,{side},{amount}" for side, amount in given]
    return word, spans + gifts


def split_of(draw, small):
    """A split, and for one by trucks its arc."""
    arc, shipment = draw.choice(small.arcs), draw.choice(small.shipments)[0]
    kind = draw.choice(("arc", "time", "trucks", "trucks", "way", "way"))
    if kind == "time":
        return f"split,time,{shipment},{draw.choice(small.names)},{draw.randrange(1, 9)}", None
    if kind == "trucks":
        return f"split,trucks,{arc[0]},{arc[1]},0,100001,{draw.randrange(3)}", arc[:2]
    return f"split,{kind},{shipment},{arc[0]},{arc[1]}", None


def price_of(draw, small, runs, tables):
    """The kind, the round and the mode of a price, below these sides by trucks. It may add a table of its own."""
    kind = draw.choice(("linear", "even", "own", "own"))
    if kind == "own":
        tables.append(table_of(draw, small, runs))
        kind = len(tables)
    return f"{kind},0,{draw.choice(('plain', 'forced'))}"


def narrowings_of(draw, small, runs, tables):
    """The lines of some narrowings at a node, often of none."""
    count = draw.choice((0, 0, 0, 1, 1, 2))
    return [f"narrow,{price_of(draw, small, runs, tables)}{draw.choice(('', '', f',{draw.randrange(300)}'))}" for _ in range(count)]


def tree_of(draw, small, depth, runs, tables):
    """The lines of a tree below these sides by trucks, with narrowings before its nodes."""
    before = narrowings_of(draw, small, runs, tables)
    if depth and draw.random() < 0.8:
        line, arc = split_of(draw, small)
        sides = [[*runs, (arc, side)] if arc else runs for side in ("most", "least")]
        return [*before, line] + [it for side in sides for it in tree_of(draw, small, depth - 1, side, tables)]
    return [*before, f"leaf,{price_of(draw, small, runs, tables)}"]


def random_tree(draw, small):
    """The lines of an answer after its plan: tables, narrowings, splits and leaves."""
    tables = []
    tree = tree_of(draw, small, 2, [], tables)
    return [line for number, (word, table) in enumerate(tables, 1) for line in (f"table,{number}{word}", *table)] + tree + ["end", ""]


def with_narrowings(draw, tree):
    """A search's own tree with narrowings by its own prices before some of its nodes, a leaf's by that of the leaf."""
    prices = [it.split(",")[1:4] for it in tree if it.startswith("leaf,")]
    lines = []
    for line in tree:
        if line.startswith(("split,", "leaf,")) and draw.random() < 0.7:
            own = line.split(",")[1:4] if line.startswith("leaf,") else draw.choice(prices)
            lines.append(",".join(["narrow", *own]))
        lines.append(line)
    return lines


def instances(draw, kind):
    """Instances that have plans of different costs, and not too many, with these."""
    while True:
        small = kind(draw)
        plans = list(islice(small.plans(), MOST_PLANS + 1))
        costs = [small.cost(it) for it in plans[:MOST_PLANS]]
        if len(plans) <= MOST_PLANS and len(set(costs)) > 1:
            yield small, costs, plans


def with_claim(text, cost, claim, lines):
    """A certificate of an instance with a claim, beside a plan of this cost."""
    first = f"answer,optimal,{cost}" if claim == cost else f"answer,unfinished,{cost},{claim},branches"
    return text + "\n".join([first, *lines])


def greatest(is_accepted, most):
    """The greatest claim up to this one that is accepted, where a lesser claim is accepted too; -1 where none is."""
    least = -1
    while least < most:
        middle = (least + most + 1) // 2
        least, most = (middle, most) if is_accepted(middle) else (least, middle - 1)
    return least


@unittest.skipIf(proved() is None, "the proved program of these sources isn't here")
class Trees(unittest.TestCase):
    def said(self, words, text):
        return subprocess.run([proved(), *words.split()], input=text.encode(), capture_output=True).stdout.decode()

    def is_accepted(self, text):
        """Whether a certificate is accepted, by the second reading too; where it isn't, a leaf is worth less."""
        verdict = self.said("check", text)
        self.assertIn(verdict, VERDICTS, text)
        self.assertEqual(failing_part(text), VERDICTS[verdict], text)
        return verdict.startswith("accepted")

    def greatest(self, text, cost, lines):
        """The greatest claim that is accepted, beside a plan of this cost; -1 where none is."""
        return greatest(lambda claim: self.is_accepted(with_claim(text, cost, claim, lines)), cost)

    def test_claims(self):
        draw = random.Random(1)
        for kind, count in KINDS:
            for small, costs, plans in islice(instances(draw, kind), count):
                dear = max(range(len(plans)), key=costs.__getitem__)
                with self.subTest(instance=small.text()):
                    self.claims_of_trees(draw, small, [f"scale,{SCALE}", *small.lines(plans[dear])], costs[dear], min(costs))
                    self.claims_of_searches(draw, small, small.lines(plans[dear]), costs[dear], min(costs))

    def claims_of_trees(self, draw, small, plan, dear, cheap):
        for _ in range(3):
            lines = plan + random_tree(draw, small)
            self.assertLessEqual(self.greatest(small.text(), dear, lines), cheap, lines)
            self.assertFalse(self.is_accepted(with_claim(small.text(), dear, cheap + 1, lines)), lines)

    def claims_of_searches(self, draw, small, plan, dear, cheap):
        """A search's own tree, beside a dear plan; the same with all its tables by moments, and both with narrowings."""
        for options in SEARCHES:
            head, *answer = self.said(f"plan {options}", small.text()).splitlines()
            _, kind, cost, *rest = head.split(",")
            bound = int(rest[0]) if kind == "unfinished" else int(cost)
            heads = [it for it in answer if it.startswith(("scale,", "unit,"))]
            tree = [it for it in answer if not it.startswith(("scale,", "unit,", "leg,", "truck,"))]
            claim = self.greatest(small.text(), dear, [*heads, *plan, *tree, ""])
            self.assertTrue(bound <= claim <= cheap <= int(cost), (options, head, claim, cheap))
            timed = [f"{it},moments" if it.startswith("table,") else it for it in tree]
            for lines in (timed, with_narrowings(draw, tree), with_narrowings(draw, timed)):
                self.assertLessEqual(self.greatest(small.text(), dear, [*heads, *plan, *lines, ""]), cheap, (options, head, lines))


class Reading(unittest.TestCase):
    """The same of the second reading alone, which needs no program; and that narrowings are worth something by it."""

    def test_examples(self):
        for path in (TOP / "examples").glob("*.csv.stdout"):
            printed, example = path.read_text(), path.with_suffix("")
            if printed in VERDICTS and "\nkept," not in example.read_text():
                with self.subTest(example=example.name):
                    self.assertEqual(failing_part(example.read_text()), VERDICTS[printed])

    def test_claims(self):
        draw, raised = random.Random(2), 0
        for kind, count in KINDS:
            for small, costs, _ in islice(instances(draw, kind), count):
                with self.subTest(instance=small.text()):
                    raised += self.is_raised(draw, small, max(costs), min(costs))
        self.assertGreater(raised, 0)

    def is_raised(self, draw, small, dear, cheap):
        """Whether the greatest claim of a drawn tree is greater by its narrowings."""
        lines = [f"scale,{SCALE}", *random_tree(draw, small)]
        bare = [it for it in lines if not it.startswith("narrow,")]
        self.assertEqual(failing_part(with_claim(small.text(), dear, cheap + 1, lines)), 7, lines)
        with_them, without = (greatest(lambda claim: failing_part(with_claim(small.text(), dear, claim, its)) is None, dear) for its in (lines, bare))
        self.assertLessEqual(with_them, cheap, lines)
        return with_them > without


if __name__ == "__main__":
    unittest.main()
