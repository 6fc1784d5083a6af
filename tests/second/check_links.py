#!/usr/bin/env python3
"""Does what `maxband check-links STREET.toml CERT` does, where the description is a right one and the text is that of a certificate.
A red is laid down tick by tick on one cycle and each tick of a band is looked at, so that nothing here is worked out of waits. The
rows are those of links.py; scripts/tree adds up a leaf from rows of its own. A cycle of more than a hundred million ticks is too long for it.

usage: tests/second/check_links.py STREET.toml CERT
"""
import functools
import sys
from fractions import Fraction

from links import WAYS, LinkStreet
from search import Wide, add_row, parts_of


MOST_TICKS = 10**8


class Rejected(Exception):
    """The first reason against a certificate."""


class LinkRecord:
    """The timing of a certificate, of whole numbers by the first word of their line."""

    def __init__(self, street, said):
        self.street = street
        self.grid, self.unit = said["grid"][0], said["unit"][0]
        self.pattern, self.red = said["pattern"], said["red"]
        self.run, self.half = ({way: said[f"{word}_{way}"] for way in WAYS} for word in ("run", "half"))
        self.first = dict(zip(WAYS, said["first"]))
        self.cycle = street.parts * self.unit
        if self.cycle > MOST_TICKS:
            sys.exit("check_links.py: the cycle has too many ticks to lay them down")

    def ticks(self, part):
        return int(part * self.cycle)

    def value(self):
        return Fraction(2) * (sum(self.half["out"]) + self.street.ratio * sum(self.half["in"])) / self.cycle

    @functools.cache
    def reds(self, way, i):
        """One cycle of a signal, tick by tick: 1 where the direction is red, and 0 where it is green."""
        street, pattern = self.street, self.pattern[i - 1]
        left = {"out": street.left_in, "in": street.left_out}[way][i]
        before = pattern in {"out": (1, 4), "in": (2, 4)}[way]
        start = self.red[i - 1] - (self.ticks(left) if before else 0)
        cycle = bytearray(self.cycle)
        for tick in range(start + 1, start + self.ticks(street.red[i] + left)):
            cycle[tick % self.cycle] = 1
        return cycle

    def crossings(self):
        """Where the lines cross each signal."""
        street, last = self.street, len(self.street.signals)
        out, back = {1: self.first["out"]}, {last: self.first["in"]}
        for i in street.links:
            out[i + 1] = out[i] + self.run["out"][i - 1] - self.ticks(street.clear_out[i + 1])
        for i in reversed(street.links):
            back[i] = back[i + 1] + self.run["in"][i - 1] - self.ticks(street.clear_in[i])
        return {"out": out, "in": back}

    def failing(self):
        """The rules that fail, in their order."""
        street = self.street
        if len(self.pattern) != len(street.signals):
            yield "shape"
            return
        for i in street.signals:
            if self.pattern[i - 1] not in street.allowed[i]:
                yield f"pattern signal {i}"
        if self.cycle < street.least_cycle * self.grid:
            yield "cycle short"
        if self.cycle > street.greatest_cycle * self.grid:
            yield "cycle long"
        along = [(way, i, self.run[way][i - 1]) for way in WAYS for i in street.links]
        yield from (f"fast {way} link {i}" for way, i, run in along if run < street.fast[way, i] * self.grid)
        yield from (f"slow {way} link {i}" for way, i, run in along if run > street.slow[way, i] * self.grid)
        limited = [(way, i, self.rise(way, i), street.change[way, i]) for way in WAYS for i in street.links if (way, i) in street.change]
        yield from (f"rise {way} link {i}" for way, i, rise, (_, most) in limited if rise > most * self.grid)
        yield from (f"drop {way} link {i}" for way, i, rise, (least, _) in limited if rise < least * self.grid)
        ratio = street.ratio
        for i, (out, back) in enumerate(zip(self.half["out"], self.half["in"]), 1):
            if (1 - ratio) * back < (1 - ratio) * ratio * out:
                yield f"ratio link {i}"
        lines = self.crossings()
        for way, word, ends in ("out", "outbound", (0, 1)), ("in", "inbound", (1, 0)):
            for i in street.links:
                for signal in (i + end for end in ends):
                    cycle, line, half = self.reds(way, signal), lines[way][signal], self.half[way][i - 1]
                    for tick in range(line - half, line + half + 1):
                        if cycle[tick % self.cycle]:
                            yield f"{word} link {i} signal {signal} tick {tick}"

    def rise(self, way, i):
        """How much the pace rises from link i to the next, in ticks for a unit of length."""
        run, length = self.run[way], self.street.length
        return Fraction(run[i], length[way, i + 1]) - Fraction(run[i - 1], length[way, i])


class LinkCertificate:
    def __init__(self, street, text):
        self.street = street
        self.lines = text.split("\n")
        tree = self.lines.index("tree")
        said = {word: rest for word, *rest in (line.split(" ") for line in self.lines[:tree])}
        self.verdict = said["verdict"][0]
        self.value, self.bound = (Fraction(said[word][0]) if word in said else None for word in ("value", "bound"))
        whole = {word: list(map(int, rest)) for word, rest in said.items() if word not in ("maxband-links", "verdict", "value", "bound", "no")}
        self.plan = LinkRecord(street, whole) if whole else None
        self.at, self.node, self.leaf = tree + 1, 0, 0

    def check(self):
        if self.plan:
            for failing in self.plan.failing():
                raise Rejected(f"timing {failing}")
            if self.plan.value() != self.value:
                raise Rejected(f"value kept {self.plan.value()} claimed {self.value}")
            if self.bound is not None and self.bound < self.value:
                raise Rejected(f"bound {self.bound} value {self.value}")
        boxes = [self.street.root()]
        while boxes:
            box = boxes.pop()
            self.node += 1
            word, *rest = self.lines[self.at].split(" ")
            self.at += 1
            if word == "split":
                kind, i, cut = rest[0], int(rest[1]), int(rest[2])
                least, most = box[kind].get(i, (1, 0))
                if not least <= cut < most:
                    raise Rejected(f"split node {self.node}")
                boxes += reversed(parts_of(box, kind, i, cut))
            else:
                self.leaf += 1
                self.check_leaf(box, [self.lines[self.at + n].rpartition(" ") for n in range(int(rest[0]))])
                self.at += int(rest[0])
        assert self.lines[self.at :] == ["end", ""]

    def check_leaf(self, box, multipliers):
        rows = {row[0]: row for row in self.street.rows(box)}
        total = {}
        for name, _, times in multipliers:
            if name not in rows:
                raise Rejected(f"row leaf {self.leaf} {name}")
            if Fraction(times) < 0:
                raise Rejected(f"negative leaf {self.leaf} {name}")
            try:
                add_row(self.street, total, rows[name], Fraction(times))
            except Wide as wide:
                raise Rejected(wide.site.replace("leaf", f"wide leaf {self.leaf}", 1)) from None
        bound = total.pop(len(self.street.columns), 0)
        short = lambda goal: (name for j, name in enumerate(self.street.columns) if total.get(j, 0) < goal.get(name, 0))
        below = next(short({}), None)
        if below or bound >= 0:
            claimed = self.value if self.bound is None else self.bound
            place = below or "bound"
            if claimed is not None:
                place = next(short(self.street.goal()), "bound" if bound > claimed else None)
            if place:
                raise Rejected(f"weak leaf {self.leaf} {place}")

    def claim(self):
        said = f"accepted {self.verdict}"
        if self.bound is not None:
            said += f" bound {self.bound}"
        if self.value is not None:
            said += f" {self.value}" if self.bound is None else f" value {self.value}"
        return said


def main(words):
    if len(words) != 2:
        print(__doc__.strip(), file=sys.stderr)
        return 5
    with open(words[0], encoding="utf-8-sig", newline="") as file:
        street = LinkStreet(file.read())
    with open(words[1], encoding="utf-8", newline="") as file:
        certificate = LinkCertificate(street, file.read())
    try:
        certificate.check()
    except Rejected as rejected:
        print(f"rejected {rejected}")
        return 4
    print(certificate.claim())
    return 0


if __name__ == "__main__":
    sys.exit(main(sys.argv[1:]))
