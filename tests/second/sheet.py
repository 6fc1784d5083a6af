#!/usr/bin/env python3
"""Does what `maxband sheet STREET.toml FILE SHEET [REFERENCE]` does, written from `docs/MODEL.md` and `docs/FORMATS.md`: table and lines
are to be those of the program, to the byte. FILE is a certificate or a timing. All times are fractions of a second.

usage: tests/second/sheet.py STREET.toml FILE SHEET [REFERENCE]
"""
import csv
import io
import math
import sys
import tomllib
from fractions import Fraction

WAYS = "out", "in"
OTHER = {"out": "in", "in": "out"}
LEADS = {"out": (1, 3), "in": (2, 3)}  # in which patterns a left turn leads


def number(value):
    """A quantity of a description."""
    if isinstance(value, str) and "." in value:
        whole, places = value.lstrip("-").split(".")
        size = Fraction(int(whole + places), 10 ** len(places))
        return -size if value[0] == "-" else size
    return Fraction(value)


def nearest(value):
    """A number to the nearest tenth, of two that are as near the greater one."""
    return Fraction(math.floor(value * 10 + Fraction(1, 2)), 10)


def tenths(value):
    return f"{float(nearest(value)):.1f}" if value < 10**12 else f"{nearest(value) * 10 // 10}.{nearest(value) * 10 % 10}"


class Street:
    """What a description says, with its defaults."""

    def __init__(self, text):
        said = tomllib.loads(text)
        head = said["artery"]
        self.parts, self.english = head["parts"], head["units"] == "english"
        self.cycle = [number(it) for it in head["cycle"]]
        self.ratio = number(head["ratio"])
        self.least = {way: number(head.get(f"least_{way}", 0)) for way in WAYS}
        self.equal = head.get("equal", False)
        self.signals, self.links = said["signal"], said["link"]

    def left(self, way, i):
        return self.signals[i].get(f"left_{way}", 0)

    def clear(self, way, i):
        return self.signals[i].get(f"clear_{way}", 0)

    def unit_speed(self):
        """The speed of a metre or foot a second."""
        return Fraction(15, 22) if self.english else Fraction(18, 5)

    def runs(self, way, link):
        """The least and the greatest time of travel."""
        low, high = (number(it) for it in self.links[link][f"speed_{way}"])
        length = self.links[link][f"distance_{way}"] * self.unit_speed()
        return length / high, length / low

    def change(self, way, link):
        """The limits of a change of pace, in seconds a metre or foot; None where there are none."""
        limits = self.links[link].get(f"change_{way}")
        return limits and [number(it) / (5280 if self.english else 1000) for it in limits]


class Plan:
    """The timing of a certificate or of a timing's text, in seconds."""

    def __init__(self, street, text):
        said = {}
        for row in text.splitlines():
            words = row.split()
            said.setdefault(words[0], words[1:])
        take = {key: [int(it) for it in said[key]] for key in ("grid", "unit", "pattern", "red", "run_out", "run_in", "first", "band")}
        grid = take["grid"][0]
        times = {key: [Fraction(it, grid) for it in take[key]] for key in take if key not in ("grid", "pattern")}
        self.grid, self.street, self.patterns = grid, street, take["pattern"]
        self.part, self.reds = times["unit"][0], times["red"]
        self.cycle = self.part * street.parts
        self.run = {way: times[f"run_{way}"] for way in WAYS}
        self.first, self.band = dict(zip(WAYS, times["first"])), dict(zip(WAYS, times["band"]))
        self.n = len(self.patterns)

    def red(self, way, i):
        """When a direction's red starts, and how long it is: the left turn the other way leads or lags."""
        street, other = self.street, OTHER[way]
        turn = street.left(other, i) * self.part
        start = self.reds[i] - (0 if self.patterns[i] in LEADS[other] else turn)
        return start, street.signals[i]["red"] * self.part + turn

    def moment(self, reference, i):
        starts = {way: self.red(way, i)[0] for way in WAYS}
        greens = {way: sum(self.red(way, i)) for way in WAYS}
        return {
            "red": self.reds[i],
            "green_out": greens["out"],
            "green_in": greens["in"],
            "first_green": min(greens.values()),
            "end_out": starts["out"],
            "end_in": starts["in"],
        }[reference]

    def order(self, way):
        return range(self.n) if way == "out" else range(self.n - 1, -1, -1)

    def lines(self, way):
        """When the first line of a direction crosses each signal."""
        order, at = self.order(way), self.first[way]
        found = {order[0]: at}
        for before, i in zip(order, order[1:]):
            at += self.run[way][min(before, i)] - self.street.clear(way, i) * self.part
            found[i] = at
        return found

    def blocked(self, way):
        """The first signal of a direction's way at which the band meets its red, and the first tick there that isn't green; or None."""
        for i, x in ((i, self.lines(way)[i]) for i in self.order(way)):
            start, long = self.red(way, i)
            since = (x - start) % self.cycle
            tick = Fraction(1, self.grid)
            if 0 < since < long:
                return i, x
            if since == 0 and self.band[way] > 0:
                return i, x + tick
            if since >= long and since + self.band[way] > self.cycle:
                return i, x + self.cycle - since + tick
        return None

    def broken(self):
        """The first rule that is broken, or None."""
        street = self.street
        if self.n != len(street.signals):
            return "shape"
        for i in range(self.n):
            if self.patterns[i] not in street.signals[i].get("patterns", [1, 2, 3, 4]):
                return f"pattern signal {i + 1}"
        if self.cycle < street.cycle[0]:
            return "cycle short"
        if self.cycle > street.cycle[1]:
            return "cycle long"
        links = [(way, link) for way in WAYS for link in range(self.n - 1)]
        for way, link in links:
            if self.run[way][link] < street.runs(way, link)[0]:
                return f"fast {way} link {link + 1}"
        for way, link in links:
            if self.run[way][link] > street.runs(way, link)[1]:
                return f"slow {way} link {link + 1}"
        changes = [(way, link, street.change(way, link)) for way, link in links if link + 2 < self.n and street.change(way, link)]
        for rule, end in ("rise", 1), ("drop", 0):
            for way, link, limits in changes:
                pace = [self.run[way][k] / street.links[k][f"distance_{way}"] for k in (link, link + 1)]
                if (pace[1] - pace[0] - limits[end]) * (1 if rule == "rise" else -1) > 0:
                    return f"{rule} {way} link {link + 1}"
        out, back = self.band["out"], self.band["in"]
        if (1 - street.ratio) * street.ratio * out > (1 - street.ratio) * back:
            return "ratio"
        for way in WAYS:
            if self.band[way] < street.least[way] * self.cycle:
                return f"least {way}"
        if street.equal and out != back:
            return "equal"
        for way in WAYS:
            if found := self.blocked(way):
                return f"{way}bound signal {found[0] + 1} tick {found[1] * self.grid}"
        return None


def words_of(street, plan, i):
    """How the left turns of a signal go."""
    turns = [way for way in WAYS if street.left(way, i)]
    return " ".join(f"{way} {'lead' if plan.patterns[i] in LEADS[way] else 'lag'}" for way in turns)


def cell(name):
    return "'" + name if name[0] in "=+-@" else name


def table(street, plan, reference="red"):
    """The table of a timing."""
    zero = plan.moment(reference, 0)

    def after(moment):
        rounded = nearest((moment - zero) % plan.cycle)
        return tenths(0 if rounded == nearest(plan.cycle) else rounded)

    length, speed = ("ft", "mph") if street.english else ("m", "kmh")
    head = "signal name pattern offset_s red_s left_out_s left_in_s green_out_s green_in_s out_from_s out_to_s in_from_s in_to_s".split()
    head += [it for way in WAYS for it in (f"length_{way}_{length}", f"travel_{way}_s", f"speed_{way}_{speed}")]
    text = io.StringIO()
    writer = csv.writer(text, lineterminator="\n")
    writer.writerow(head)
    lines = {way: plan.lines(way) for way in WAYS}
    for i, signal in enumerate(street.signals):
        record = [i + 1, cell(signal["name"]), words_of(street, plan, i), after(plan.moment(reference, i)), tenths(signal["red"] * plan.part)]
        record += [tenths(street.left(way, i) * plan.part) for way in WAYS]
        record += [tenths(plan.cycle - plan.red(way, i)[1]) for way in WAYS]
        for way in WAYS:
            first = lines[way][i]
            record += ["", ""] if plan.blocked(way) else [after(first), after(first + plan.band[way])]
        for way in WAYS:
            if i + 1 == plan.n:
                record += ["", "", ""]
                continue
            distance, run = street.links[i][f"distance_{way}"], plan.run[way][i]
            record += [distance, tenths(run), tenths(distance * street.unit_speed() / run) if run else ""]
        writer.writerow(record)
    return text.getvalue()


def report(street, plan):
    """What is printed."""
    rows = [f"cycle {tenths(plan.cycle)} s"]
    for way in WAYS:
        share = 100 * plan.band[way] / plan.cycle
        rows.append(f"no {way}bound band" if plan.blocked(way) else f"band {way} {tenths(plan.band[way])} s = {tenths(share)} %")
    weighted = (plan.band["out"] + street.ratio * plan.band["in"]) / plan.cycle
    millionths = math.floor(weighted * 10**6)
    rows.append(f"weighted {weighted} = {millionths // 10**6}.{millionths % 10**6:06}")
    broken = plan.broken()
    rows.append(f"fails {broken}" if broken else "holds")
    return "".join(row + "\n" for row in rows)


def sheet(street, text, reference="red"):
    """Status, lines and table; the table is None where nothing is put."""
    if "\ngrid " not in text:
        return 10, "no plan timing\n", None
    plan = Plan(street, text)
    if plan.n != len(street.signals):
        return 4, "fails shape\n", None
    return 0, report(street, plan), table(street, plan, reference)


def read(name):
    with open(name, encoding="utf-8", newline="") as file:
        return file.read()


def main(args):
    if len(args) not in (4, 5):
        print(__doc__.split("\n\n")[1], file=sys.stderr)
        return 2
    status, lines, made = sheet(Street(read(args[1])), read(args[2]), *args[4:])
    if made is not None:
        with open(args[3], "w", encoding="utf-8", newline="") as file:
            file.write(made)
    print(lines, end="")
    return status


if __name__ == "__main__":
    sys.exit(main(sys.argv))
