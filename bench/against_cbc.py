#!/usr/bin/env python3
"""`plan` beside a mixed-integer solver: cost, bound, ending, seconds and memory of both on the same instances.

    bench/against_cbc.py [SECONDS [PROGRAM]]

PROGRAM is the built program; without it the proved one in crates/freight/out is taken, or the one in dist/. The solver is CBC
(Debian's `coinor-cbc`). It has SECONDS (60) for each instance and is used as the method was published: Boland, Hewitt, Marshall and Savelsbergh, "The
Continuous-Time Service Network Design Problem", Operations Research 65, 2017. A program with a whole number of trucks for each class
of a partially time-expanded network is solved; its bound is a bound of all plans; its routes are timed with as many of its shared
departures as can be; and the network gets the points of its too-short legs, until the two meet or the time is over. Its figures are
floating point, and nothing of it is proved.
"""
import bisect
import csv
import io
import math
import os
import re
import shutil
import subprocess
import sys
import tempfile
import time

sys.path.insert(0, os.path.dirname(os.path.abspath(__file__)))
from instances import cases
from kit import HEADS, built_program, measured, planned, row_of


class Instance:
    """The records of an instance, and for each shipment and arc its window."""

    def __init__(self, text):
        names, self.holds, self.arcs, self.shipments = {}, [], [], []
        for record in csv.reader(io.StringIO(text)):
            if record[0] == "terminal":
                names[record[1]] = len(names)
                self.holds.append(int(record[2]) if len(record) > 2 else 0)
            elif record[0] == "arc":
                self.arcs.append((names[record[1]], names[record[2]]) + tuple(map(int, record[3:])))
            else:
                self.shipments.append((names[record[2]], names[record[3]]) + tuple(map(int, record[4:])))
        self.steps = [arc[2] + self.holds[arc[1]] for arc in self.arcs]
        least = self._least_times()
        self.windows = [[self._window(least, shipment, a) for a in range(len(self.arcs))] for shipment in self.shipments]

    def _least_times(self):
        """From each terminal to each, with the hold of the last one."""
        count = len(self.holds)
        least = [[0 if i == j else math.inf for j in range(count)] for i in range(count)]
        for arc, step in zip(self.arcs, self.steps):
            least[arc[0]][arc[1]] = min(least[arc[0]][arc[1]], step)
        for via in range(count):
            for i in range(count):
                for j in range(count):
                    least[i][j] = min(least[i][j], least[i][via] + least[via][j])
        return least

    def _window(self, least, shipment, a):
        origin, destination, _, release, due = shipment
        tail, head, minutes = self.arcs[a][:3]
        if tail == destination or head == origin:
            return None
        rest = 0 if head == destination else self.holds[head] + least[head][destination] - self.holds[destination]
        first, last = release + least[origin][tail], due - minutes - rest
        return (first, last) if first <= last else None

    def trucks(self, a, load):
        return -(-load // self.arcs[a][3])

    def cost(self, plan):
        """Of a plan, or of a relaxed plan with classes in place of departures."""
        loads, total = {}, 0
        for shipment, legs in zip(self.shipments, plan):
            for leg in legs:
                loads[leg] = loads.get(leg, 0) + shipment[2]
                total += self.arcs[leg[0]][5] * shipment[2]
        return total + sum(self.arcs[leg[0]][4] * self.trucks(leg[0], load) for leg, load in loads.items())


def least_times(instance, routes, groups):
    """The least departures of routes of arcs in which each group leaves together; None where there are none."""
    together = {member: group for group in groups for member in group}
    times = {(k, i): instance.windows[k][a][0] for k, route in enumerate(routes) for i, a in enumerate(route)}
    waiting = list(times)
    while waiting:
        k, i = waiting.pop()
        moment = times[k, i]
        if moment > instance.windows[k][routes[k][i]][1]:
            return None
        rises = [(member, moment) for member in together.get((k, i), ())]
        if i + 1 < len(routes[k]):
            rises.append(((k, i + 1), moment + instance.steps[routes[k][i]]))
        for member, least in rises:
            if times[member] < least:
                times[member] = least
                waiting.append(member)
    return [[(a, times[k, i]) for i, a in enumerate(route)] for k, route in enumerate(routes)]


def timed(instance, walks):
    """A plan by the walks' routes with as many of their shared departures as can be had one after the other, and whether all could."""
    routes = [[a for a, _ in walk] for walk in walks]
    groups = {}
    for k, walk in enumerate(walks):
        for i, stop in enumerate(walk):
            groups.setdefault(stop, []).append((k, i))
    kept = []
    for group in groups.values():
        if len(group) > 1 and least_times(instance, routes, kept + [group]):
            kept.append(group)
    plan = least_times(instance, routes, kept)
    return plan, len(kept) == sum(len(group) > 1 for group in groups.values())


class Program:
    """A mixed-integer program, written as an MPS file."""

    def __init__(self):
        self.costs, self.whole, self.entries, self.rows = [], [], [], []

    def column(self, cost, most=None):
        self.costs.append(cost)
        self.whole.append(most)
        self.entries.append([])
        return len(self.costs) - 1

    def row(self, sense, side, terms):
        for column, factor in terms:
            self.entries[column].append((len(self.rows), factor))
        self.rows.append((sense, side))

    def write(self, path):
        def fields(*words):
            return "    " + "  ".join(f"{word:8}" for word in words) + "\n"

        with open(path, "w") as file:
            file.write("NAME          TRUCKS\nROWS\n N  COST\n" + "".join(f" {sense}  R{n}\n" for n, (sense, _) in enumerate(self.rows)))
            file.write("COLUMNS\n" + fields("MARKER", "'MARKER'", "", "'INTORG'"))
            for n, entries in enumerate(self.entries):
                rows = [("COST", self.costs[n])] + [(f"R{row}", factor) for row, factor in entries]
                file.write("".join(fields(f"X{n}", row, str(factor)) for row, factor in rows))
            file.write(fields("MARKER", "'MARKER'", "", "'INTEND'") + "RHS\n")
            file.write("".join(fields("RHS", f"R{n}", str(side)) for n, (_, side) in enumerate(self.rows) if side) + "BOUNDS\n")
            file.write("".join(f" PL BND       X{n}\n" if most is None else f" UP BND       {f'X{n}':8}  {most}\n" for n, most in enumerate(self.whole)) + "ENDATA\n")


def relaxation(instance, points):
    """The program over the classes, and for each shipment the class of each of its columns."""
    program, choices, users = Program(), [{} for _ in instance.shipments], {}
    for k, shipment in enumerate(instance.shipments):
        balance, leaving = {}, {}
        for a, arc in enumerate(instance.arcs):
            if instance.windows[k][a] is None:
                continue
            first, last = instance.windows[k][a]
            here, there = points[arc[0]], points[arc[1]]
            for place in range(bisect.bisect_right(here, first) - 1, bisect.bisect_right(here, last)):
                column = program.column(arc[5] * shipment[2], 1)
                choices[k][column] = (a, here[place])
                users.setdefault((a, here[place]), []).append((column, shipment[2]))
                leaving.setdefault(arc[0], []).append((column, 1))
                balance.setdefault((arc[0], here[place]), []).append((column, -1))
                if arc[1] != shipment[1]:
                    head = there[bisect.bisect_right(there, here[place] + instance.steps[a]) - 1]
                    balance.setdefault((arc[1], head), []).append((column, 1))
        program.row("E", 1, leaving[shipment[0]])
        for terminal, terms in leaving.items():
            program.row("L", 1, terms)
        before = None
        for node in sorted(node for node in balance if node[0] != shipment[0]):
            if before is not None and before[0] == node[0]:
                waits = program.column(0, 1)
                balance[before].append((waits, -1))
                balance[node].append((waits, 1))
            before = node
        for node, terms in balance.items():
            if node[0] != shipment[0]:
                program.row("E", 0, terms)
    for (a, _), columns in users.items():
        trucks = program.column(instance.arcs[a][4])
        for column, size in columns:
            program.row("L", 0, [(column, instance.trucks(a, size)), (trucks, -1)])
        program.row("L", 0, columns + [(trucks, -instance.arcs[a][3])])
    return program, choices


def solved(program, seconds):
    """The columns that aren't 0, if the solver found any; its bound; and its megabytes."""
    with tempfile.TemporaryDirectory() as folder:
        model, solution = os.path.join(folder, "model.mps"), os.path.join(folder, "solution")
        program.write(model)
        words = ["stdbuf", "-oL", "cbc", model, "-timeMode", "elapsed", "-seconds", f"{seconds:.1f}", "-allowableGap", "0.99", "-solve", "-solution", solution]
        log, _, megabytes = measured(words, limit=seconds + 10, stderr=subprocess.STDOUT)
        found = [float(n) for pattern in (r"Continuous objective value is (\S+)", r"best possible (\S+?)[ ,)]", r"Lower bound:\s+(\S+)") for n in re.findall(pattern, log)]
        bound = max([n for n in found if abs(n) < 1e40], default=0)
        if not os.path.exists(solution):
            return None, bound, megabytes
        head, *body = open(solution).read().split("\n")
        if "objective value" not in head or "nfeasible" in head or "no integer" in head:
            return None, bound, megabytes
        if head.startswith("Optimal"):
            bound = max(bound, float(head.split("objective value")[1].split()[0]) - 0.99)
        rows = [line.replace("**", "").split() for line in body if line]
        return {int(row[1][1:]) for row in rows if float(row[2]) > 0.5}, bound, megabytes


def walk_of(instance, shipment, stops):
    """The chosen classes in the order in which they are gone by, without ways around."""
    leaves, walk, here = {instance.arcs[a][0]: (a, point) for a, point in stops}, [], shipment[0]
    while here != shipment[1]:
        walk.append(leaves.pop(here))
        here = instance.arcs[walk[-1][0]][1]
    return walk


def by_solver(text, seconds):
    """Cost (None where no plan was found), bound, ending, seconds and megabytes."""
    instance, start, megabytes = Instance(text), time.monotonic(), 0
    points = [{0} for _ in instance.holds]
    for origin, destination, _, release, due in instance.shipments:
        points[origin].add(release)
        points[destination].add(due)
    cost, bound = None, 0
    while seconds - (time.monotonic() - start) > 1 and (cost is None or bound < cost):
        order = [sorted(of_terminal) for of_terminal in points]
        program, choices = relaxation(instance, order)
        columns, found, taken = solved(program, max(1, seconds - (time.monotonic() - start)))
        megabytes = max(megabytes, taken)
        bound = max(bound, math.ceil(found - 1e-6 * max(1, abs(found)) ** 0.5))
        if columns is None:
            break
        walks = [walk_of(instance, shipment, [stop for column, stop in choice.items() if column in columns]) for shipment, choice in zip(instance.shipments, choices)]
        plan, _ = timed(instance, walks)
        if plan is not None and (cost is None or instance.cost(plan) < cost):
            cost = instance.cost(plan)
        before = sum(map(len, points))
        for walk in walks:
            for a, point in walk[:-1]:
                points[instance.arcs[a][1]].add(point + instance.steps[a])
        if sum(map(len, points)) == before:
            break
    bound = bound if cost is None else min(bound, cost)
    return cost, bound, "optimal" if bound == cost else "time", time.monotonic() - start, megabytes


def main():
    if shutil.which("cbc") is None:
        sys.exit("the solver CBC isn't here: apt-get install coinor-cbc")
    seconds = float(sys.argv[1]) if len(sys.argv) > 1 else 60
    del sys.argv[1:2]
    program = built_program()
    print(f"{'':28} | {'plan':{len(HEADS)}} | CBC\n{'instance':28} | {HEADS} | {HEADS}")
    for name, text in cases():
        figures, _ = planned([program, "plan", "--rounds", "40", "--branches", "100"], text)
        print(f"{name:28} | {row_of(*figures)} | {row_of(*by_solver(text, seconds))}", flush=True)


if __name__ == "__main__":
    main()
