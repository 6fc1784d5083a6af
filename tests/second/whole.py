#!/usr/bin/env python3
"""Does what `maxband whole STREET.toml CERT NEW [CYCLE ..]` does, written a second time from the rules of docs/FORMATS.md, by the search of
search.py. All lines but those of links, and the status, are to be those of the program, to the byte; which of the runs that have the widest
bands are put is each program's own. With --put it looks at what the program put: whether its runs keep the limits, its bands are the widest of
all runs within them, no move is better, and each of its lines is so to the byte; it prints what isn't. The street and the certificate
are taken to be right ones.

usage: tests/second/whole.py STREET.toml CERT NEW [CYCLE ..]
       tests/second/whole.py --put STREET.toml CERT NEW LINES     LINES is a file with what the program printed
"""
import copy
import difflib
import math
import sys
import tomllib
from fractions import Fraction

import sheet
from search import TICKS, Search, Street, both

WAYS = "out", "in"
OTHER = {"out": "in", "in": "out"}
LEADS = {"out": (1, 3), "in": (2, 3)}  # in which patterns a left turn leads
THOUSAND, UNITS_OF_WORK, MOST_CYCLES = 1000, 10_000, 100
STEPS = 1, -1, 2, -2


class TooFine(Exception):
    """A number that no timing can hold."""


def rounded(number):
    """The nearest whole number, of two the lesser."""
    return math.ceil(number - Fraction(1, 2))


# One direction at one cycle, in whole ticks.


class Way:
    """The greens of a direction from its first signal on, each as its begin and how long it is, and the least and the greatest time from
    each signal to the next; all times are within a cycle of so many ticks, and both ends of a green belong to it."""

    def __init__(self, cycle, greens, steps):
        self.cycle, self.greens, self.steps = cycle, greens, steps

    def reached(self, band):
        """Where within each green a first line may cross whose band is green everywhere: spans from its begin on. None where none may."""
        spans = [(0, self.greens[0][1] - band)]
        found = [spans]
        for (here, _), (there, long), (least, most) in zip(self.greens, self.greens[1:], self.steps):
            room, next_spans = long - band, []
            for begin, end in spans:
                if end - begin + most - least >= self.cycle:
                    next_spans = [(0, room)]
                    break
                early = (here + begin + least - there) % self.cycle
                late = early + end - begin + most - least
                if early <= room:
                    next_spans.append((early, min(late, room)))
                if late >= self.cycle:
                    next_spans.append((0, min(late - self.cycle, room)))
            spans = joined(next_spans)
            if not spans:
                return None
            found.append(spans)
        return found

    def widest(self):
        """The widest band of any line and any times; None where no line goes through."""
        if self.reached(0) is None:
            return None
        least, most = 0, min(long for _, long in self.greens)
        while least < most:
            middle = (least + most + 1) // 2
            if self.reached(middle) is None:
                most = middle - 1
            else:
                least = middle
        return least

    def times(self, band):
        """A first line with a band that goes through, and its times from signal to signal."""
        found = self.reached(band)
        at = found[-1][0][0]
        times = []
        for here, there, spans, (least, most) in reversed([*zip(self.greens, self.greens[1:], found, self.steps)]):
            target = at + there[0] - here[0]
            for begin, end in spans:
                cycles = -((target - begin - least) // self.cycle)
                at = max(begin, target + cycles * self.cycle - most)
                if at <= end:
                    break
            times.append(target + cycles * self.cycle - at)
        return (self.greens[0][0] + at) % self.cycle, times[::-1]


def joined(spans):
    """The same places as spans that lie apart, upwards."""
    found = []
    for begin, end in sorted(spans):
        if found and begin <= found[-1][1] + 1:
            found[-1] = found[-1][0], max(found[-1][1], end)
        else:
            found.append((begin, end))
    return found


# Plans of one cycle.


class Cycle:
    """A cycle of whole seconds with the patterns of a timing, on a grid: what all sets of offsets have in common."""

    def __init__(self, street, seconds, timing, grid, limits):
        self.street, self.seconds, self.patterns = street, seconds, timing["pattern"]
        self.grid, self.limits, self.cycle = grid, limits, seconds * grid
        for size in grid, *(most for _, most in limits.values()), self.cycle:
            if size >= TICKS:
                raise TooFine(size)
        shares = [Fraction((red - timing["red"][0]) % timing["cycle"], timing["cycle"]) for red in timing["red"]]
        self.start = tuple(rounded(seconds * share) % seconds for share in shares)
        count = len(street.signals)
        self.order = {"out": range(count), "in": range(count - 1, -1, -1)}

    @classmethod
    def of(cls, street, seconds, timing):
        """The cycle with the grid and the limits of the runs that a timing gives it."""
        finer = 2 * street.parts
        return cls(street, seconds, timing, *(fixed(street, timing, finer) if street.change else free(street)))

    def red(self, way, i):
        """The red of a direction at a signal: its begin after that of the common red, and how long it is."""
        turn = {"out": self.street.left_out, "in": self.street.left_in}[OTHER[way]][i + 1] * self.cycle
        begin = 0 if self.patterns[i] in LEADS[OTHER[way]] else -turn
        return int(begin), int(self.street.red[i + 1] * self.cycle + turn)

    def way(self, way, offsets):
        greens, order = [], self.order[way]
        for i in order:
            begin, long = self.red(way, i)
            greens.append((offsets[i] * self.grid + begin + long, self.cycle - long))
        clear = {"out": self.street.clear_out, "in": self.street.clear_in}[way]
        steps = []
        for i, after in zip(order, order[1:]):
            ahead = int(clear[after + 1] * self.cycle)
            steps.append(tuple(run - ahead for run in self.limits[way, min(i, after) + 1]))
        return Way(self.cycle, greens, steps)

    def plan(self, offsets):
        return Plan(self, offsets)

    def moves(self, offsets):
        """The offsets that are one move away, in the order of the moves."""
        count = len(offsets)
        for goes_on in False, True:
            for step in STEPS:
                for i in range(1, count):
                    last = count - 1 if goes_on else i
                    yield tuple((it + step * (i <= at <= last)) % self.seconds for at, it in enumerate(offsets))

    def steady(self):
        """The plan from which no move is better."""
        plan = self.plan(self.start)
        while True:
            best = plan
            for offsets in self.moves(plan.offsets):
                other = self.plan(offsets)
                if other.worth > best.worth:
                    best = other
            if best is plan:
                return plan
            plan = best


def links_of(street):
    return [(way, i) for way in WAYS for i in street.links]


def fixed(street, timing, finer):
    """Where changes of pace are limited: a grid so many times as fine as a timing's, and its runs."""
    return timing["grid"] * finer, {(way, i): 2 * (timing[f"run_{way}"][i - 1] * finer,) for way, i in links_of(street)}


def free(street):
    """Else: a grid of a thousand ticks a part and second, or of as many as the runs ask for that no tick would have, and the limits on it."""
    shared = THOUSAND
    for it in links_of(street):
        if street.parts * shared >= TICKS:
            break
        if math.ceil(street.fast[it] * street.parts * THOUSAND) > math.floor(street.slow[it] * street.parts * THOUSAND):
            shared = math.lcm(shared, street.fast[it].denominator)
    grid = street.parts * shared
    return grid, {it: (math.ceil(street.fast[it] * grid), math.floor(street.slow[it] * grid)) for it in links_of(street)}


class Plan:
    """A set of offsets with its widest bands, cut."""

    def __init__(self, cycle, offsets):
        self.of, self.offsets = cycle, offsets
        street = cycle.street
        self.ways = {way: cycle.way(way, offsets) for way in WAYS}
        self.widest = {way: it.widest() for way, it in self.ways.items()}
        self.band = cut(street, *(self.widest[way] or 0 for way in WAYS))
        self.weighted = (self.band["out"] + street.ratio * self.band["in"]) / cycle.cycle
        missed = {way: street.least[way] - Fraction(self.band[way], cycle.cycle) for way in WAYS}
        self.missed = [way for way in WAYS if missed[way] > 0]
        self.lineless = [way for way in WAYS if self.widest[way] is None]
        self.worth = -len(self.lineless), -sum(missed[way] for way in self.missed), self.weighted

    def fault(self):
        """Why this is no plan, or None."""
        return f"least {self.missed[0]}" if self.missed else f"line {self.lineless[0]}" if self.lineless else None

    def runs(self):
        """First lines and runs with these bands."""
        firsts, found, street = {}, {}, self.of.street
        for way, line in self.ways.items():
            firsts[way], times = line.times(self.widest[way])
            clear = {"out": street.clear_out, "in": street.clear_in}[way]
            order = self.of.order[way]
            runs = {min(i, j): time + int(clear[j + 1] * self.of.cycle) for i, j, time in zip(order, order[1:], times)}
            found[way] = [runs[i] for i in sorted(runs)]
        return firsts, found


def cut(street, out, back):
    """Both bands, the one that the ratio limits cut to it, or both to the lesser."""
    if street.equal:
        out = back = min(out, back)
    elif 0 < street.ratio < 1:
        out = min(out, math.floor(back / street.ratio))
    elif street.ratio > 1:
        back = min(back, math.floor(street.ratio * out))
    return {"out": out, "in": back}


# All cycles.


def tried(street, named, timing):
    """The cycles that are tried, from the least on."""
    whole = range(math.ceil(street.least_cycle), math.floor(street.greatest_cycle) + 1)
    if named:
        return sorted(set(named) & set(whole))
    middle = Fraction(timing["cycle"], timing["grid"]) if timing else (street.least_cycle + street.greatest_cycle) / 2
    return sorted(sorted(whole, key=lambda it: (abs(it - middle), it))[:MOST_CYCLES])


def searched(said, seconds):
    """The timing that a search of this cycle alone finds, or None, and what bounds the cycle, None where nothing is good."""
    said = copy.deepcopy(said)
    said["artery"]["cycle"] = [seconds, seconds]
    found = Search(Street.of(said), UNITS_OF_WORK, False)
    timing = found.best and read_timing(found.street, "\n".join(found.best.lines()))
    bound = {"best": lambda: found.best.weighted(), "open": found.bound, "none": lambda: None}[found.verdict()]()
    return timing, bound


def best_plan(said, street, timing, cycles):
    """The best plan of these cycles, or why there is none."""
    best, end = None, None
    for seconds in cycles:
        found, bound = searched(said, seconds)
        kept = best and not best.fault()
        if kept and (bound is None or bound <= best.weighted):
            continue
        if found or timing:
            try:
                plan = Cycle.of(street, seconds, found or timing).steady()
            except TooFine as fine:
                end = end or f"ticks {fine}"
                continue
            best = plan if best is None or plan.worth > best.worth else best
        else:
            end = end or "timing"
    return best, (best.fault() if best else end or "cycle")


# Texts.


def read(name):
    with open(name, encoding="utf-8-sig", newline="") as file:
        return file.read()


def read_timing(street, text):
    """The numbers of a timing or of a certificate's timing; None where there is none."""
    rows = dict(line.split(" ", 1) for line in text.split("\n") if " " in line)
    if "grid" not in rows:
        return None
    numbers = {key: list(map(int, rows[key].split())) for key in ("grid", "unit", "pattern", "red", "run_out", "run_in", "first", "band")}
    return numbers | {"grid": numbers["grid"][0], "cycle": numbers["unit"][0] * street.parts}


def read_certificate(street, text):
    """The timing of a certificate and the number that it says no timing exceeds, each None where there is none."""
    timing, rows = read_timing(street, text), dict(line.split(" ", 1) for line in text.split("\n")[:5] if " " in line)
    claim = rows.get("value") if rows["verdict"] == "best" else rows.get("bound")
    return timing, None if claim is None else Fraction(claim)


def plan_lines(plan, runs, claim):
    """The lines of a plan, those of its links with these runs."""
    street = plan.of.street
    yield f"cycle {plan.of.seconds}"
    for i, offset in enumerate(plan.offsets, 1):
        yield f"signal {i} pattern {plan.of.patterns[i - 1]} offset {offset} {street.name[i]}"
    for i in street.links:
        for way in WAYS:
            yield f"link {i} {way} {both(street.factor * street.length[way, i] / Fraction(runs[way][i - 1], plan.of.grid), 3)}"
    for way in WAYS:
        yield f"band {way} {both(Fraction(plan.band[way], plan.of.cycle), 6)}"
    yield f"weighted {both(plan.weighted, 6)}"
    yield f"loss {claim - plan.weighted}"


def timing_lines(plan):
    firsts, runs = plan.runs()
    numbers = {
        "grid": [plan.of.grid],
        "unit": [plan.of.cycle // plan.of.street.parts],
        "pattern": plan.of.patterns,
        "red": [offset * plan.of.grid for offset in plan.offsets],
        "run_out": runs["out"],
        "run_in": runs["in"],
        "first": [firsts[way] for way in WAYS],
        "band": [plan.band[way] for way in WAYS],
    }
    return ["maxband-timing 1", *(" ".join([key, *map(str, row)]) for key, row in numbers.items()), "end"]


# What the program put.


def blocked(plan, put):
    """At which signals a band that was put meets a red with the runs that were put."""
    for way, cross, band in zip(WAYS, put["first"], put["band"]):
        order, last = plan.of.order[way], None
        clear = {"out": plan.of.street.clear_out, "in": plan.of.street.clear_in}[way]
        for (begin, long), i in zip(plan.ways[way].greens, order):
            if last is not None:
                cross += put[f"run_{way}"][min(i, last)] - int(clear[i + 1] * plan.of.cycle)
            if (cross - begin) % plan.of.cycle + band > long:
                yield f"the band {way} meets a red at signal {i + 1}"
            last = i


def faults(street, claim, put, lines):
    """What is wrong with a plan that was put, and with its lines."""
    seconds = Fraction(put["cycle"], put["grid"])
    if seconds.denominator > 1 or any(red % put["grid"] or not 0 <= red < put["cycle"] for red in put["red"]):
        yield "the cycle or an offset is no whole second, or outside a cycle"
        return
    if not street.least_cycle <= seconds <= street.greatest_cycle:
        yield "the cycle is outside its limits"
    yield from (f"signal {i} has a pattern that it doesn't allow" for i in street.signals if put["pattern"][i - 1] not in street.allowed[i])
    grid, limits = fixed(street, put, 1) if street.change else free(street)
    if grid != put["grid"]:
        yield f"the grid is {put['grid']}, and not {grid}"
        return
    for way, i in links_of(street):
        if not street.fast[way, i] * grid <= put[f"run_{way}"][i - 1] <= street.slow[way, i] * grid:
            yield f"link {i} {way} has a run outside its limits"
    yield from pace_faults(street, put)
    cycle = Cycle(street, int(seconds), put, grid, limits)
    plan = cycle.plan(tuple(red // grid for red in put["red"]))
    if [*plan.band.values()] != put["band"]:
        yield f"the bands are {put['band']}, and not {[*plan.band.values()]}"
    yield from blocked(plan, put)
    if plan.fault():
        yield f"it breaks a rule: {plan.fault()}"
    yield from (f"offsets {other.offsets} are better" for other in map(cycle.plan, cycle.moves(plan.offsets)) if other.worth > plan.worth)
    yield from difflib.unified_diff([*plan_lines(plan, {way: put[f"run_{way}"] for way in WAYS}, claim)], lines, "wanted", "printed", lineterm="")


def pace_faults(street, put):
    for (way, i), (least, most) in street.change.items():
        pace = [Fraction(put[f"run_{way}"][j - 1], put["grid"]) / street.length[way, j] for j in (i, i + 1)]
        if not least <= pace[1] - pace[0] <= most:
            yield f"link {i} {way} changes its pace by more than its limits"


def main(words):
    looks = words[:1] == ["--put"]
    words = words[looks:]
    if len(words) < 3 or looks and len(words) != 4:
        print(__doc__.strip(), file=sys.stderr)
        return 5
    said = tomllib.loads(read(words[0]))
    street = Street.of(said)
    timing, claim = read_certificate(street, read(words[1]))
    if looks:
        wrong = [*faults(street, claim, read_timing(street, read(words[2])), read(words[3]).splitlines())]
        print("\n".join(wrong or ["as it has to be"]))
        return int(bool(wrong))
    sys.stdout.reconfigure(encoding="utf-8", newline="\n")
    if claim is None:
        print("no plan timing")
        return 10
    # A certificate of the widened street may have a timing that isn't good for the street itself.
    serves = timing and not sheet.Plan(sheet.Street(read(words[0])), read(words[1])).broken()
    plan, end = best_plan(said, street, timing if serves else None, tried(street, list(map(int, words[3:])), timing))
    if end:
        print(f"no plan {end}")
        return 10
    with open(words[2], "w", encoding="utf-8", newline="\n") as file:
        file.writelines(f"{line}\n" for line in timing_lines(plan))
    print("\n".join(plan_lines(plan, plan.runs()[1], claim)))
    return 0


if __name__ == "__main__":
    sys.exit(main(sys.argv[1:]))
