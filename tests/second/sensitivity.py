#!/usr/bin/env python3
"""Does what `maxband sensitivity STREET.toml TABLE WORK` does, written a second time from docs/FORMATS.md and the documents of search.py, by
whose search it goes. The lines, the table and the status are to be those of the program, to the byte. The description is taken to be a right one.

usage: tests/second/sensitivity.py STREET.toml TABLE WORK     WORK is a number or `all`
"""
import copy
import csv
import sys
import tomllib
from fractions import Fraction

from search import Search, Spent, Street, Wide, multiply, subtract

WAYS = "out", "in"
SHORT = 2**120  # a decimal is written of no greater denominator


def within(low, high, number):
    return low <= number <= high and abs(number.numerator) <= 100_000 and number.denominator <= 1000


# Each change gives its word, its place, the name there, and the description with it, or None where there may be none.


def with_part(said, i, key, value):
    made = copy.deepcopy(said)
    made["signal"][i - 1][key] = value
    return made


def of_signal(said, i):
    signal = said["signal"][i - 1]
    place, name = f"signal {i}", signal["name"]
    yield "red", place, name, with_part(said, i, "red", signal["red"] - 1) if signal["red"] > 1 else None
    for key in ("left_out", "left_in", "clear_out", "clear_in"):
        if signal.get(key, 0) > 0:
            yield key, place, name, with_part(said, i, key, signal[key] - 1)
    turns = signal.get("left_out", 0) or signal.get("left_in", 0)
    if turns and set(signal.get("patterns", [1, 2, 3, 4])) != {1, 2, 3, 4}:
        yield "patterns", place, name, with_part(said, i, "patterns", [1, 2, 3, 4])


def with_limit(section, said, key, end, step, low, high):
    """The description with one end of a pair of limits moved."""
    made = copy.deepcopy(said)
    limits = list(map(Fraction, section(made)[key]))
    limits[end] += step
    section(made)[key] = limits
    return made if within(low, high, limits[end]) else None


def changes(said):
    signals, links, artery = said["signal"], said["link"], said["artery"]
    street = artery.get("name", "")
    yield "as it is", "street", street, said
    for i in range(1, len(signals) + 1):
        yield from of_signal(said, i)
    names = {i: f"{signals[i - 1]['name']} to {signals[i]['name']}" for i in range(1, len(signals))}
    at_link = lambda i: lambda it: it["link"][i - 1]
    for i in range(1, len(links) + 1):
        for word, end, step in ("greatest", 1, 1), ("least", 0, -1):
            for way in WAYS:
                key = f"speed_{way}"
                yield f"{word} {key}", f"link {i}", names[i], with_limit(at_link(i), said, key, end, step, 1, 300)
    for word, end, step in ("least", 0, -1), ("greatest", 1, 1):
        yield f"{word} cycle", "street", street, with_limit(lambda it: it["artery"], said, "cycle", end, step, 1, 3600)
    for way in WAYS:
        promise = Fraction(artery.get(f"least_{way}", 0))
        if promise > 0:
            made = copy.deepcopy(said)
            made["artery"][f"least_{way}"] = less = max(Fraction(0), promise - Fraction(1, 100))
            yield f"least_{way}", "street", street, made if within(0, 1, less) else None
    for i in range(1, len(links) + 1):
        for way in WAYS:
            key = f"change_{way}"
            if key in links[i - 1]:
                for word, end, step in ("least", 0, -1), ("greatest", 1, 1):
                    yield f"{word} {key}", f"link {i}", names[i], with_limit(at_link(i), said, key, end, step, -1000, 1000)


# Numbers.


def tried(operation, left, right):
    """The result, or `wide` where a number of it is too wide."""
    try:
        result = operation(left, right)
    except Wide:
        return "wide"
    return result if result.denominator <= SHORT else "wide"


def cut(number, places):
    if isinstance(number, str):
        return number
    whole, rest = divmod(abs(number.numerator) * 10**places // number.denominator, 10**places)
    return f"{'-' if number < 0 else ''}{whole}.{rest:0{places}}"


class Row:
    def __init__(self, change, place, name, said, limit):
        self.told, self.name = (change, place), name
        self.verdict, self.value, self.bound, self.cause = "outside", None, None, "-"
        if said is None:
            return
        found = Search(Street.of(said), limit, False)
        self.verdict = found.verdict()
        if found.best is not None:
            timing = found.best
            self.value, self.cycle = timing.weighted(), Fraction(timing.cycle, timing.grid)
        if self.verdict == "best":
            self.bound = self.value
        elif self.verdict == "open":
            self.bound, self.cause = found.bound(), "work" if isinstance(found.stopped, Spent) else "wide"

    def fields(self, base):
        name = "'" + self.name if self.name[:1] in ("=", "+", "-", "@") else self.name
        show = lambda number: "-" if number is None else str(number)
        gain = None if None in (base, self.value) else tried(subtract, self.value, base)
        decimals = [show(None if number is None else cut(number, 6)) for number in (self.value, gain)]
        return [*self.told, name, self.verdict, show(self.value), decimals[0], show(gain), decimals[1], show(self.bound), self.cause]

    def line(self, base):
        amount = self.value if base is None else tried(subtract, self.value, base)
        seconds = "wide" if amount == "wide" else tried(multiply, amount, self.cycle)
        word = "weighted" if base is None else "gain"
        return " ".join([*self.told, word, cut(amount, 4), "=", cut(seconds, 1), "s", *([self.name] if self.name else [])])


def main(words):
    if len(words) != 3:
        print(__doc__.strip(), file=sys.stderr)
        return 5
    limit = None if words[2] == "all" else int(words[2])
    with open(words[0], encoding="utf-8-sig", newline="") as file:
        said = tomllib.loads(file.read())
    rows = [Row(*change, limit) for change in changes(said)]
    base = rows[0].value
    head = "change,place,name,verdict,weighted,weighted_d,gain,gain_d,bound,cause".split(",")
    with open(words[1], "w", encoding="utf-8", newline="") as file:
        csv.writer(file, lineterminator="\n").writerows([head, *(row.fields(base) for row in rows)])
    told = [row for row in rows if row.value is not None and (base is None or row.value > base)]
    if base is not None:
        told.sort(key=lambda row: -row.value)
    sys.stdout.reconfigure(encoding="utf-8", newline="\n")
    print(f"verdict {rows[0].verdict}")
    print("no timing" if base is None else f"weighted {base} = {cut(base, 6)}")
    print(f"rows {len(rows)}")
    for row in told:
        print(row.line(base))
    return 0


if __name__ == "__main__":
    sys.exit(main(sys.argv[1:]))
