#!/usr/bin/env python3
"""Does what `maxband solve STREET.toml CERT [WORK]` does, written a second time from docs/MODEL.md, CERTIFICATES.md, FORMATS.md, SEARCH.md
and README.md alone. The report, the certificate and the status are to be those of the program, to the byte. The description is
taken to be a right one: what is refused, and files that fail, are left to the program.

usage: tests/second/search.py [--cold] STREET.toml CERT [WORK]     WORK is a number or `all`; 100000 where it is left out
       --cold opens each part from its own opening tableau, as if it were the root
"""
import heapq
import math
import sys
import tomllib
from fractions import Fraction

ZERO, ONE = Fraction(0), Fraction(1)
SIZE = 2**127  # a fraction fits where its numerator and its denominator are smaller
TICKS = 2**80  # and so a number of a timing
UNITS_OF_WORK = 100_000


# Fractions that have to fit.


class Wide(Exception):
    """A number doesn't fit: the operation with its operands and, once it is known, the site."""

    def __init__(self, operands, site=None):
        self.operands, self.site = operands, site


def fitting(result, word, left, right):
    if -SIZE < result.numerator < SIZE and result.denominator < SIZE:
        return result
    raise Wide(f"{word} {left} {right}")


def joined(word, left, right, sign):
    """A sum or a difference, which has to fit over the least common denominator before it is reduced."""
    shared = math.gcd(left.denominator, right.denominator)
    kept, other = left.numerator * (right.denominator // shared), right.numerator * (left.denominator // shared)
    numbers = kept, other, kept + sign * other, left.denominator * (right.denominator // shared)
    if all(-SIZE < number < SIZE for number in numbers):
        return Fraction(numbers[2], numbers[3])
    raise Wide(f"{word} {left} {right}")


def add(left, right):
    return joined("add", left, right, 1)


def subtract(left, right):
    return joined("sub", left, right, -1)


def multiply(left, right):
    return fitting(left * right, "mul", left, right)


def divide(left, right):
    return fitting(left / right, "div", left, right)


# The street, its boxes and its rows.


class Street:
    """The numbers of a description; signals and links count from 1, and parts of the cycle are fractions of it."""

    def __init__(self, text):
        self.read(tomllib.loads(text))

    @classmethod
    def of(cls, said):
        """The street of a description that was read."""
        street = cls.__new__(cls)
        street.read(said)
        return street

    def read(self, said):
        artery, signals, links = said["artery"], dict(enumerate(said["signal"], 1)), dict(enumerate(said["link"], 1))
        self.signals, self.links = list(signals), list(links)
        self.columns = self.column_names()
        self.place = {name: j for j, name in enumerate(self.columns)}
        self.parts = parts = artery["parts"]
        self.ratio = Fraction(artery["ratio"])
        self.least = {way: Fraction(artery.get(f"least_{way}", 0)) for way in ("out", "in")}
        self.equal = artery.get("equal", False)
        self.least_cycle, self.greatest_cycle = map(Fraction, artery["cycle"])
        self.name = {i: it["name"] for i, it in signals.items()}
        self.red, self.left_out, self.left_in, self.clear_out, self.clear_in = (
            {i: Fraction(it.get(key, 0), parts) for i, it in signals.items()}
            for key in ("red", "left_out", "left_in", "clear_out", "clear_in")
        )
        # A left turn adds to the red of the opposing direction.
        self.green_out = {i: 1 - self.red[i] - self.left_in[i] for i in signals}
        self.green_in = {i: 1 - self.red[i] - self.left_out[i] for i in signals}
        self.allowed = {i: it.get("patterns", [1, 2, 3, 4]) for i, it in signals.items()}
        self.pattern_of = {}  # for each signal its different shifts, upwards, each with the least pattern that has it
        for i in signals:
            shifts = {1: ZERO, 2: self.left_out[i] + self.left_in[i], 3: self.left_in[i], 4: self.left_out[i]}
            patterns = sorted(self.allowed[i], reverse=True)
            self.pattern_of[i] = dict(sorted({shifts[pattern]: pattern for pattern in patterns}.items()))
        self.shifts = {i: list(patterns) for i, patterns in self.pattern_of.items()}
        self.factor, mile = (Fraction(18, 5), 1000) if artery["units"] == "metric" else (Fraction(15, 22), 5280)
        self.length, self.fast, self.slow, self.change = {}, {}, {}, {}
        for i, it in links.items():
            for way in ("out", "in"):
                self.length[way, i] = it[f"distance_{way}"]
                speeds = map(Fraction, it[f"speed_{way}"])
                self.slow[way, i], self.fast[way, i] = (self.factor * self.length[way, i] / speed for speed in speeds)
                if f"change_{way}" in it:
                    self.change[way, i] = [Fraction(change) / mile for change in it[f"change_{way}"]]
        # What is fixed of the block sum of a link, and the columns that it counts.
        self.fixed = {i: self.red[i] - self.red[i + 1] - self.clear_out[i + 1] - self.clear_in[i] for i in links}
        self.block = {
            i: {f"w_out {i}": 1, f"w_in {i}": 1, f"w_out {i + 1}": -1, f"w_in {i + 1}": -1}
            | {f"y_out {i}": 1, f"y_in {i}": 1, f"s {i}": 1, f"s {i + 1}": -1}
            for i in links
        }

    def column_names(self):
        families = ("w_out", self.signals), ("w_in", self.signals), ("y_out", self.links), ("y_in", self.links), ("s", self.signals)
        return ["b_out", "b_in", "z"] + [f"{word} {i}" for word, numbers in families for i in numbers]

    def goal(self):
        """What each column counts in the value of a timing, where that isn't 0 for all streets."""
        return {"b_out": ONE, "b_in": self.ratio}

    def starts(self):
        """The row of each start pivot, and the column that it brings in."""
        return {"wout 1": "b_out", "win 1": "b_in"}

    def start_leaf(self):
        """The leaf of a root that wasn't finished."""
        leaf = {name: self.goal()[column] for name, column in self.starts().items()}
        return {name: leaf[name] for name, _, _ in self.rows(self.root()) if leaf.get(name)}

    def timing(self, vertex):
        return Timing(self, vertex)

    def root(self):
        """The root box: spans of block sums under `loop`, and of ranks under `turn`."""
        loops = {}
        for i in self.links:
            least = (self.fast["out", i] + self.fast["in", i]) / self.greatest_cycle - self.green_out[i + 1] - self.green_in[i + 1]
            most = (self.slow["out", i] + self.slow["in", i]) / self.least_cycle + self.green_out[i] + self.green_in[i]
            least += self.shifts[i][0] - self.shifts[i + 1][-1] + self.fixed[i]
            most += self.shifts[i][-1] - self.shifts[i + 1][0] + self.fixed[i]
            loops[i] = math.ceil(least), math.floor(most)
        return {"loop": loops, "turn": {i: (0, len(self.shifts[i]) - 1) for i in self.signals}}

    def row(self, name, cells, bound=ZERO):
        """A row: its name, its cells by place without those of 0, and its bound."""
        return name, {self.place[column]: Fraction(cell) for column, cell in cells.items() if cell}, Fraction(bound)

    def rows(self, box):
        """The rows of a box in the order of their names."""
        ways = "out", "in"
        listed = []

        def row(*said):
            listed.append(self.row(*said))

        for way, green in zip(ways, (self.green_out, self.green_in)):
            for i in self.signals:
                row(f"w{way} {i}", {f"w_{way} {i}": 1, f"b_{way}": 1}, green[i])
        for way in ways:
            for i in self.links:
                row(f"fast_{way} {i}", {"z": self.fast[way, i], f"y_{way} {i}": -1})
        for way in ways:
            for i in self.links:
                row(f"slow_{way} {i}", {f"y_{way} {i}": 1, "z": -self.slow[way, i]})
        for word, sign, limit in ("rise", 1, 1), ("drop", -1, 0):
            for way in ways:
                for i in self.links:
                    if (way, i) in self.change:
                        here, after = Fraction(-sign, self.length[way, i]), Fraction(sign, self.length[way, i + 1])
                        row(f"{word}_{way} {i}", {f"y_{way} {i + 1}": after, f"y_{way} {i}": here, "z": -sign * self.change[way, i][limit]})
        row("cycle_low", {"z": -1}, -1 / self.greatest_cycle)
        row("cycle_high", {"z": 1}, 1 / self.least_cycle)
        if self.ratio != 1:
            sign = 1 if self.ratio < 1 else -1
            row("ratio", {"b_out": sign * self.ratio, "b_in": -sign})
        for i in self.links:
            row(f"loop_lo {i}", {column: -cell for column, cell in self.block[i].items()}, self.fixed[i] - box["loop"][i][0])
        for i in self.links:
            row(f"loop_hi {i}", self.block[i], box["loop"][i][1] - self.fixed[i])
        for i in self.signals:
            row(f"turn_lo {i}", {f"s {i}": -1}, -self.shifts[i][box["turn"][i][0]])
        for i in self.signals:
            row(f"turn_hi {i}", {f"s {i}": 1}, self.shifts[i][box["turn"][i][1]])
        for way, least in self.least.items():
            if least:
                row(f"least_{way}", {f"b_{way}": -1}, -least)
        if self.equal:
            row("equal_lo", {"b_out": 1, "b_in": -1})
            row("equal_hi", {"b_out": -1, "b_in": 1})
        return listed


def parts_of(box, kind, i, cut):
    """The low and the high part of a box that is split."""
    least, most = box[kind][i]
    return [{**box, kind: {**box[kind], i: span}} for span in ((least, cut), (cut + 1, most))]


# One box as a linear program.


class Tableau:
    """Rows of nonzero cells by place, the goal row after them; the bound stands at the place after the last column."""

    def __init__(self, street, rows):
        self.width, self.goal = len(street.columns), len(rows)
        goal = {street.place[column]: -share for column, share in street.goal().items()}
        self.rows = [dict(cells) for _, cells, _ in rows] + [goal]
        for row, (_, _, bound) in zip(self.rows, rows):
            row[self.width] = bound
        self.rows = [{at: cell for at, cell in row.items() if cell} for row in self.rows]
        self.basic = [self.width + r for r in range(self.goal)]
        self.placed = list(range(self.width))

    def bound(self, r):
        return self.rows[r].get(self.width, ZERO)

    def pivot(self, r, j):
        """Exchanges the variables of row r and place j."""
        row, at = r, j
        try:
            cells = self.rows[r]
            divisor = cells.pop(j)
            inverse = divide(ONE, divisor)
            taken = {}
            for at in sorted(cells):
                taken[at] = divide(cells[at], divisor)
            for row in [self.goal, *range(r), *range(r + 1, self.goal)]:
                cells = self.rows[row]
                if j in cells:
                    factor = cells.pop(j)
                    for at, cell in taken.items():
                        left = subtract(cells.pop(at, ZERO), multiply(factor, cell))
                        if left:
                            cells[at] = left
                    at = j
                    cells[j] = -divide(factor, divisor)
        except Wide as wide:
            wide.site = f"cell {row} {at}"
            raise
        self.rows[r] = {**taken, j: inverse}
        self.basic[r], self.placed[j] = self.placed[j], self.basic[r]

    def enter(self, variables):
        """Brings the columns of a set of variables in, so that afterwards just these are basic."""
        free = [r for r in range(self.goal) if self.width + r not in variables]
        for j in range(self.width):
            if j in variables:
                r = next(r for r in free if j in self.rows[r])
                free.remove(r)
                self.pivot(r, j)

    def leaving(self):
        """The row of the next step, or None at an optimal end."""
        return min((r for r in range(self.goal) if self.bound(r) < 0), key=lambda r: self.basic[r], default=None)

    def entering(self, r):
        """The places of a row that a step may choose among."""
        return sorted(j for j, cell in self.rows[r].items() if j < self.width and cell < 0)

    def step(self, r, places):
        ratios = []
        for j in places:
            try:
                ratios.append((divide(self.rows[self.goal].get(j, ZERO), -self.rows[r][j]), self.placed[j], j))
            except Wide as wide:
                wide.site = f"ratio {r} {j}"
                raise
        self.pivot(r, min(ratios)[2])

    def multipliers(self, r):
        """The multipliers of the rows that a row is made of, by the number of the row."""
        found = {self.placed[j] - self.width: cell for j, cell in self.rows[r].items() if j < self.width}
        if r < self.goal:
            found[self.basic[r] - self.width] = ONE
        return {number: found[number] for number in sorted(found) if number >= 0}

    def vertex(self):
        at = {variable: self.bound(r) for r, variable in enumerate(self.basic)}
        return [at.get(j, ZERO) for j in range(self.width)]


def opening(street, rows):
    tableau = Tableau(street, rows)
    names = [name for name, _, _ in rows]
    for name, column in street.starts().items():
        tableau.pivot(names.index(name), street.place[column])
    return tableau


def entry(street, rows, variables):
    """The tableau with which a part begins whose parent ended with these basic variables; None of the root."""
    if variables is not None:
        try:
            tableau = Tableau(street, rows)
            tableau.enter(variables)
            return tableau
        except Wide:
            pass
    return opening(street, rows)


def add_row(street, total, row, times):
    """Adds a row so many times to the sum of a leaf, in the order of its places; the bound stands after the last column."""
    name, cells, bound = row
    for at, cell in sorted(cells.items()) + [(len(street.columns), bound)]:
        try:
            total[at] = add(total.get(at, ZERO), multiply(times, cell))
        except Wide as wide:
            wide.site = f"leaf {name} {[*street.columns, 'bound'][at]}"
            raise


def leaf_bound(street, rows, multipliers):
    """The right side of the sum of a leaf, which is made as a checker makes it."""
    total = {}
    for number, times in multipliers.items():
        add_row(street, total, rows[number], times)
    return total.get(len(street.columns), ZERO)


# From a vertex to a split or a timing.


def split_of(street, box, vertex):
    """Where a box is split whose vertex is no timing, as kind, number and cut; None where it is one."""
    for i in street.links:
        try:
            first, *rest = street.block[i].items()
            total = vertex[street.place[first[0]]]
            for column, sign in rest:
                total = (add if sign > 0 else subtract)(total, vertex[street.place[column]])
            total = add(total, street.red[i])
            for taken in street.red[i + 1], street.clear_out[i + 1], street.clear_in[i]:
                total = subtract(total, taken)
        except Wide as wide:
            wide.site = f"sum {i}"
            raise
        if total.denominator > 1:
            return "loop", i, math.floor(total)
    for i in street.signals:
        shift, (least, most) = vertex[street.place[f"s {i}"]], box["turn"][i]
        try:
            multiply(shift, Fraction(street.parts))
        except Wide as wide:
            wide.site = f"product s {i}"
            raise
        if shift not in street.shifts[i][least : most + 1]:
            return "turn", i, max(rank for rank in range(least, most + 1) if street.shifts[i][rank] < shift)
    return None


class Timing:
    """The timing of a vertex, in whole ticks."""

    def __init__(self, street, vertex):
        self.street = street
        products = []
        for name, value in zip(street.columns, vertex):
            try:
                products.append(multiply(value, Fraction(street.parts)))
            except Wide as wide:
                wide.site = f"product {name}"
                raise
        self.unit = 1
        for product in products:
            common = math.lcm(self.unit, product.denominator)
            if common >= TICKS:
                raise Wide(f"lcm {self.unit} {product.denominator}", "unit")
            self.unit = common
        if self.unit == 1:
            self.unit = 2
        self.cycle = street.parts * self.unit
        at = {name: int(product * self.unit) for name, product in zip(street.columns, products)}
        self.at = at
        ticks = lambda part: int(part * self.cycle)
        last = len(street.signals)
        self.pattern = {i: street.pattern_of[i][vertex[street.place[f"s {i}"]]] for i in street.signals}
        self.grid, self.band = at["z"], {way: at[f"b_{way}"] for way in ("out", "in")}
        self.run = {way: {i: at[f"y_{way} {i}"] for i in street.links} for way in ("out", "in")}
        # From the start of the common red: where the red of each direction starts, and how long it is.
        self.starts = {"out": {}, "in": {}}
        for i, pattern in self.pattern.items():
            self.starts["out"][i] = -ticks(street.left_in[i]) if pattern in (1, 4) else 0
            self.starts["in"][i] = -ticks(street.left_out[i]) if pattern in (2, 4) else 0
        green = {"out": street.green_out, "in": street.green_in}
        self.lasts = {way: {i: self.cycle - ticks(green[way][i]) for i in street.signals} for way in green}
        ends = {i: self.starts["out"][i] + self.lasts["out"][i] for i in street.signals}
        line = ends[1] + at["w_out 1"]
        self.red = {1: 0}
        self.first = {"out": line % self.cycle}
        for i in street.links:
            line += self.run["out"][i] - ticks(street.clear_out[i + 1])
            self.red[i + 1] = (line - at[f"w_out {i + 1}"] - ends[i + 1]) % self.cycle
        self.first["in"] = (self.red[last] + self.starts["in"][last] - at[f"w_in {last}"] - self.band["in"]) % self.cycle
        # Each number stands under the column that names it where it doesn't fit; waits and shifts are no numbers of a timing.
        numbers = {name: ticks for name, ticks in at.items() if name.split()[0] not in ("w_out", "w_in", "s")}
        numbers["w_out 1"] = self.first["out"]
        numbers |= {f"w_out {i}": red for i, red in self.red.items() if i > 1}
        numbers[f"w_in {last}"] = self.first["in"]
        for name, number in numbers.items():
            if number >= TICKS:
                raise Wide(f"ticks {number}", f"number {name}")

    def weighted(self):
        return (self.band["out"] + self.street.ratio * self.band["in"]) / self.cycle

    def lines(self):
        row = lambda word, numbers: " ".join([word, *map(str, numbers)])
        yield row("grid", [self.grid])
        yield row("unit", [self.unit])
        yield row("pattern", self.pattern.values())
        yield row("red", self.red.values())
        yield row("run_out", self.run["out"].values())
        yield row("run_in", self.run["in"].values())
        yield row("first", self.first.values())
        yield from self.band_lines()

    def band_lines(self):
        yield f"band {self.band['out']} {self.band['in']}"

    def report(self):
        street = self.street
        yield f"weighted {both(self.weighted(), 6)}"
        yield from self.band_report()
        yield f"cycle {both(Fraction(self.cycle, self.grid), 3)}"
        for i in street.signals:
            offset = Fraction((self.red[i] - self.red[1]) % self.cycle, self.grid)
            yield f"signal {i} pattern {self.pattern[i]} offset {both(offset, 3)} {street.name[i]}"
        for i in street.links:
            for way in ("out", "in"):
                run = Fraction(self.run[way][i], self.grid)
                yield f"link {i} {way} {both(street.factor * street.length[way, i] / run, 3)}"
        yield from self.diagram()

    def band_report(self):
        for way, band in self.band.items():
            yield f"band {way} {both(Fraction(band, self.cycle), 6)}"

    def diagram(self):
        yield "diagram"
        lines = crossings(self.street, self)
        for i in reversed(self.street.signals):
            for way in ("out", "in"):
                yield f"{i} {way} {''.join(character(self, way, i, lines[way][i], j * self.cycle // 60) for j in range(60))}"


# The tree.


class Spent(Exception):
    """The units of work are spent."""


class Meter:
    def __init__(self, limit):
        self.limit, self.spent = limit, 0

    def spend(self):
        if self.limit is not None and self.spent >= self.limit:
            raise Spent
        self.spent += 1


class Opened:
    """A box that is opened: its leaf, and at an optimal end its bound and one of these: its timing, where it is split, or why its vertex
    can't be read."""

    def __init__(self, street, box, variables, meter):
        self.box, self.pivots = box, 0
        self.bound = self.timing = self.split = self.unread = None
        try:
            meter.spend()
            self.solve(street, variables, meter)
        except Wide as wide:
            raise self.named(wide)

    def named(self, wide):
        wide.box, wide.pivots = self.box, self.pivots
        return wide

    def solve(self, street, variables, meter):
        rows = street.rows(self.box)
        tableau = entry(street, rows, variables)
        while (r := tableau.leaving()) is not None and (places := tableau.entering(r)):
            meter.spend()
            tableau.step(r, places)
            self.pivots += 1
        multipliers = tableau.multipliers(tableau.goal if r is None else r)
        self.leaf = {rows[number][0]: times for number, times in multipliers.items()}
        bound = leaf_bound(street, rows, multipliers)
        if r is None:
            self.bound, self.variables = bound, set(tableau.basic)
            try:
                self.split = split_of(street, self.box, tableau.vertex())
                if self.split is None:
                    self.timing = street.timing(tableau.vertex())
            except Wide as wide:
                self.unread = self.named(wide)


class Search:
    first_line = "maxband-certificate 2"

    def __init__(self, street, limit, cold):
        self.street, self.cold, self.meter = street, cold, Meter(limit)
        self.best = self.stopped = None
        self.tree = {}  # by its way from the root, of 0 for low and 1 for high: a split, or the leaf of an opened box
        self.waiting = []
        try:
            self.keep("", self.open(street.root()))
            if self.tree[""].unread:
                raise self.tree[""].unread
            while self.waiting and (self.best is None or -self.waiting[0][0] > self.best.weighted()):
                self.part(self.waiting[0][1])
        except (Spent, Wide) as stop:
            self.stopped = stop

    def open(self, box, variables=None):
        opened = Opened(self.street, box, None if self.cold else variables, self.meter)
        if opened.timing and (self.best is None or opened.timing.weighted() > self.best.weighted()):
            self.best = opened.timing
        return opened

    def keep(self, way, opened):
        self.tree[way] = opened
        if (opened.split or opened.unread) and (self.best is None or opened.bound > self.best.weighted()):
            heapq.heappush(self.waiting, (-opened.bound, way))

    def part(self, way):
        """Splits a waiting box; if the search stops on the way, the box waits as before."""
        parent = self.tree[way]
        opened = []
        for part in parts_of(parent.box, *parent.split):
            opened.append(self.open(part, parent.variables))
            if opened[-1].unread:
                raise opened[-1].unread
        low, high = opened
        heapq.heappop(self.waiting)
        self.tree[way] = "split {} {} {}".format(*parent.split)
        self.keep(way + "0", low)
        self.keep(way + "1", high)

    def verdict(self):
        return "open" if self.stopped else "best" if self.best else "none"

    def bound(self):
        """The bound of an open answer."""
        if not self.tree:
            right = {name: bound for name, _, bound in self.street.rows(self.street.root())}
            return sum(times * right[name] for name, times in self.street.start_leaf().items())
        bounds = [-bound for bound, _ in self.waiting]
        return max(bounds + [self.best.weighted()] if self.best else bounds)

    def certificate(self):
        yield self.first_line
        yield f"verdict {self.verdict()}"
        if self.stopped:
            yield f"bound {self.bound()}"
        if self.best:
            yield f"value {self.best.weighted()}"
            yield from self.best.lines()
        elif self.stopped:
            yield "no timing"
        # The order of the ways is that of the tree.
        nodes = [node if isinstance(node, str) else node.leaf for _, node in sorted(self.tree.items())]
        yield from self.tree_lines(nodes or [self.street.start_leaf()])
        yield "end"

    def tree_lines(self, nodes):
        """The list of rows and the tree. A node is the line of a split, or a leaf's multipliers by the names of their rows."""
        named = set().union(*(node for node in nodes if not isinstance(node, str)))
        listed = [name for name, _, _ in self.street.rows(self.street.root()) if name in named]
        place = {name: at for at, name in enumerate(listed, 1)}
        yield f"rows {len(listed)}"
        yield from listed
        yield "tree"
        for node in nodes:
            yield from [node] if isinstance(node, str) else leaf_lines({place[name]: times for name, times in node.items()})

    def report(self):
        yield f"verdict {self.verdict()}"
        if self.stopped:
            if isinstance(self.stopped, Spent):
                yield f"stopped work {self.meter.spent}"
            else:
                yield from wide_lines(self.stopped)
            yield f"bound {self.bound()}"
        if self.best:
            yield from self.best.report()
        elif self.stopped:
            yield "no timing"


def leaf_lines(leaf):
    """The lines of a leaf, whose multipliers stand by the places of their rows."""
    common = math.lcm(*(times.denominator for times in leaf.values()))
    whole = {at: times.numerator * (common // times.denominator) for at, times in leaf.items()}
    if all(abs(number) < SIZE for number in (common, *whole.values())):
        return [f"leaf {common} {len(leaf)}", *(f"{at} {number}" for at, number in whole.items())]
    return [f"plain {len(leaf)}", *(f"{at} {times}" for at, times in leaf.items())]


# The report.


def wide_lines(wide):
    spans = lambda given: "".join(f" {least}:{most}" for least, most in given.values())
    yield "stopped wide"
    yield f"loops{spans(wide.box['loop'])}"
    yield f"shifts{spans(wide.box['turn'])}"
    yield f"pivots {wide.pivots}"
    yield f"site {wide.site}"
    yield f"operands {wide.operands}"


def both(value, places):
    """A number that isn't negative, exactly and cut after so many decimal places."""
    whole, rest = divmod(value.numerator * 10**places // value.denominator, 10**places)
    return f"{value} = {whole}.{rest:0{places}}"


def crossings(street, timing):
    """Where the first lines cross each signal."""
    out, back = {1: timing.first["out"]}, {len(street.signals): timing.first["in"]}
    for i in street.links:
        out[i + 1] = out[i] + timing.run["out"][i] - int(street.clear_out[i + 1] * timing.cycle)
    for i in reversed(street.links):
        back[i] = back[i + 1] + timing.run["in"][i] - int(street.clear_in[i] * timing.cycle)
    return {"out": out, "in": back}


def character(timing, way, i, line, tick):
    since = (tick - timing.red[i] - timing.starts[way][i]) % timing.cycle
    if 0 < since < timing.lasts[way][i]:
        return "#"
    inside = (tick - line) % timing.cycle <= timing.band[way]
    return {"out": ">", "in": "<"}[way] if inside else "="


def answer(search, words):
    """What a command does whose words are STREET.toml CERT [WORK]: it makes a search of the street's text and a limit."""
    limit = UNITS_OF_WORK if len(words) == 2 else None if words[2] == "all" else int(words[2])
    with open(words[0], encoding="utf-8-sig", newline="") as file:
        found = search(file.read(), limit)
    with open(words[1], "w", encoding="utf-8", newline="\n") as file:
        file.writelines(f"{line}\n" for line in found.certificate())
    sys.stdout.reconfigure(encoding="utf-8", newline="\n")
    sys.stdout.writelines(f"{line}\n" for line in found.report())
    return {"best": 0, "none": 1, "open": 2}[found.verdict()]


def main(words):
    cold = words[:1] == ["--cold"]
    words = words[cold:]
    if len(words) not in (2, 3):
        print(__doc__.strip(), file=sys.stderr)
        return 5
    return answer(lambda text, limit: Search(Street(text), limit, cold), words)


if __name__ == "__main__":
    sys.exit(main(sys.argv[1:]))
