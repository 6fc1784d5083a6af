#!/usr/bin/env python3
"""Prints the description of a street that is drawn from a seed, or makes one with a certificate as deep as it has splits.

usage: scripts/streets.py made SIGNALS SEED        2 to 24 signals: the street of docs/FORMATS.md, "The artery of a seed", which `maxband
                                                   make` has for at most 16; one of more is of version 2
       scripts/streets.py wide SIGNALS SEED        the same with speeds of each link and direction: the slowest of 30 to 50 km/h, and
                                                   5 to 20 more for the fastest, in tenths where the seed is even and else whole
       scripts/streets.py mixed SEED               2 to 11 signals and any of the keys of either version
       scripts/streets.py deep FOLDER [SPLITS]     makes a folder with deep.toml and its certificate in both formats, deep-first.txt and
                                                   deep-second.txt; SPLITS is 1 to 215282, and 200000 if it isn't given

Numbers are drawn by the rule of docs/FORMATS.md. Of a wide street each link draws, after its length, its slowest outbound speed, what
the fastest is more, and the same two inbound. Speeds of such streets have denominators that share little, so that numbers get wide.

The deep street has two signals and a link with a block sum of 719 to 216001. Each split cuts off the greatest sum that is left, and its
low part is split again. Every leaf adds up the two greens of the first signal, half a cycle each, so that `maxband check` answers
`accepted open bound 1`.
"""
import os
import re
import sys

MOST_SIGNALS = 24
MOST_OF_VERSION_1 = 16
MOST_SPLITS = 215282


class Draws:
    def __init__(self, seed):
        self.x = seed

    def below(self, count):
        self.x = (self.x * 6364136223846793005 + 1442695040888963407) % 2**64
        return (self.x >> 33) % count

    def between(self, least, most):
        return least + self.below(most - least + 1)

    def one(self, choices):
        return choices[self.below(len(choices))]

    def chance(self, percent):
        return self.below(100) < percent


def table(head, pairs):
    return "\n".join([head, *[f"{key} = {value}" for key, value in pairs.items() if value is not None]]) + "\n"


def street(version, artery, signals, links):
    """The text of a street of these tables, in which None is a key that is left out."""
    tables = [table("[artery]", artery), *[table("[[signal]]", it) for it in signals], *[table("[[link]]", it) for it in links]]
    head = [] if version is None else [f"version = {version}\n"]
    return "\n".join([*head, *tables])


def version_of(signals):
    return 1 if signals <= MOST_OF_VERSION_1 else 2


def made_artery(signals, draws):
    artery = {"units": '"metric"', "parts": 100, "cycle": [60, 100], "ratio": 1}
    tables = []
    for number in range(1, signals + 1):
        red, left_out, left_in = draws.between(30, 50), 5 * draws.below(3), 5 * draws.below(3)
        tables.append({"name": f'"S{number}"', "red": red, "left_out": left_out, "left_in": left_in})
    return artery, tables


def made_link(draws, speeds):
    length = 200 + 10 * draws.below(41)
    speed_out, speed_in = speeds(draws), speeds(draws)
    return {"distance_out": length, "distance_in": length, "speed_out": speed_out, "speed_in": speed_in}


def made(signals, seed, speeds=lambda draws: [40, 60]):
    draws = Draws(seed)
    artery, tables = made_artery(signals, draws)
    return street(version_of(signals), artery, tables, [made_link(draws, speeds) for _ in range(signals - 1)])


def tenths(number):
    return f'"{number // 10}.{number % 10}"'


def pair(least, most):
    return f"[{least}, {most}]"


def speeds_in_tenths(draws):
    slowest = draws.between(300, 500)
    return pair(tenths(slowest), tenths(slowest + draws.between(50, 200)))


def whole_speeds(draws):
    slowest = draws.between(30, 50)
    return pair(slowest, slowest + draws.between(5, 20))


def wide(signals, seed):
    return made(signals, seed, whole_speeds if seed % 2 else speeds_in_tenths)


def mixed_artery(version, draws):
    least = draws.one([30, 45, '"119/2"', '"62.5"', 70, 90])
    fixed = draws.chance(30)
    cycle = pair(least, least) if fixed else pair(least, draws.one([100, '"271/2"', 120]))
    promise = lambda: draws.one(['"1/20"', '"1/8"', '"0.1"', '"1/4"', 0])
    return {
        "units": draws.one(['"metric"', '"english"']),
        "parts": draws.one([60, 90, 100, 120, 360, 1000]),
        "cycle": cycle,
        "ratio": draws.one([1, 1, '"99/100"', '"4/5"', '"0.35"', 0, 2, '"7/5"']),
        "least_out": promise() if version == 2 and draws.chance(40) else None,
        "least_in": promise() if version == 2 and draws.chance(40) else None,
        "equal": draws.one(["true", "false"]) if version == 2 and draws.chance(30) else None,
    }


def mixed_signal(number, parts, draws):
    part = lambda least, most: parts * draws.between(least, most) // 100
    lefts = draws.chance(60)
    patterns = [pattern for pattern in (1, 2, 3, 4) if draws.chance(60)] if draws.chance(30) else None
    return {
        "name": f'"S{number}"',
        "red": max(1, part(20, 55)),
        "left_out": part(0, 15) if lefts and draws.chance(70) else None,
        "left_in": part(0, 15) if lefts and draws.chance(70) else None,
        "patterns": patterns or None,
        "clear_out": part(0, 8) if draws.chance(20) else None,
        "clear_in": part(0, 8) if draws.chance(20) else None,
    }


def mixed_link(is_last, draws):
    length = draws.between(80, 900)
    speeds = draws.one([lambda _: pair(40, 60), lambda _: pair(50, 50), lambda _: pair('"27/2"', '"40.5"'), whole_speeds, speeds_in_tenths])
    change = lambda: pair(-draws.between(0, 40), draws.between(0, 40)) if not is_last and draws.chance(25) else None
    return {
        "distance_out": length,
        "distance_in": draws.between(80, 900) if draws.chance(20) else length,
        "speed_out": speeds(draws),
        "speed_in": speeds(draws),
        "change_out": change(),
        "change_in": change(),
    }


def mixed(seed):
    draws = Draws(seed)
    version, signals = draws.between(1, 2), draws.between(2, 11)
    artery = mixed_artery(version, draws)
    tables = [mixed_signal(number, artery["parts"], draws) for number in range(1, signals + 1)]
    return street(version, artery, tables, [mixed_link(number == signals - 2, draws) for number in range(signals - 1)])


def deep_street():
    signals = [{"name": f'"{name}"', "red": 50} for name in "AB"]
    link = {"distance_out": 30000, "distance_in": 30000, "speed_out": pair('"1"', '"300"'), "speed_in": pair('"1"', '"300"')}
    return street(None, {"units": '"metric"', "parts": 100, "cycle": pair('"1"', '"1"'), "ratio": 1}, signals, [link])


def deep_certificate(splits, number, rows, leaf):
    """The certificate in the format of this number: with the lines of its rows, if there are any, and those of each leaf."""
    head = [f"maxband-certificate {number}", "verdict open", "bound 1", "no timing", *rows, "tree"]
    return "\n".join([*head, *[f"split loop 1 {216000 - it}" for it in range(splits)], *leaf * (splits + 1), "end"]) + "\n"


def make_deep(folder, splits=200000):
    os.makedirs(folder, exist_ok=True)
    first = deep_certificate(splits, 1, [], ["leaf 2", "wout 1 1", "win 1 1"])
    second = deep_certificate(splits, 2, ["rows 2", "wout 1", "win 1"], ["leaf 1 2", "1 1", "2 1"])
    for name, text in {"deep.toml": deep_street(), "deep-first.txt": first, "deep-second.txt": second}.items():
        with open(os.path.join(folder, name), "w", encoding="utf-8") as file:
            file.write(text)


# What draws a street of each kind, and of how many numbers.
KINDS = {"made": (made, 2), "wide": (wide, 2), "mixed": (mixed, 1)}


def main(words):
    kind, *words = words or [""]
    numbers = [int(word) for word in words[int(kind == "deep") :] if re.fullmatch(r"\d{1,18}", word, re.ASCII)]
    draw, count = KINDS.get(kind, (None, 0))
    if kind == "deep" and 1 <= len(words) <= 2 and len(numbers) == len(words) - 1 and all(1 <= it <= MOST_SPLITS for it in numbers):
        make_deep(words[0], *numbers)
    elif draw and len(numbers) == len(words) == count and (count == 1 or 2 <= numbers[0] <= MOST_SIGNALS):
        print(draw(*numbers), end="")
    else:
        print(__doc__.strip(), file=sys.stderr)
        return 2
    return 0


if __name__ == "__main__":
    sys.exit(main(sys.argv[1:]))
