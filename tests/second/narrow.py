#!/usr/bin/env python3
"""Does what `maxband narrow STREET NEW` and `maxband widen STREET NEW` do, written a second time from docs/FORMATS.md alone: the lines and the
description are to be those of the program, to the byte. The description is taken to be a right one.

usage: tests/second/narrow.py narrow|widen STREET.toml NEW
"""
import sys
import tomllib
from fractions import Fraction

# The speeds that are tried on d metres or feet: these numbers, times d, over a whole number.
FACTORS = {"metric": (36, 10, 1), "english": (10, 5, 1)}
SIDES = {"out": ("distance_out", "speed_out"), "in": ("distance_in", "speed_in")}


def is_speed(speed):
    """Whether a description may have this speed; None is of a run of no time."""
    return speed is not None and 1 <= speed <= 300 and speed.numerator <= 100_000 and speed.denominator <= 1_000


def beside(units, length, speed, place, faster):
    """The speed next to this one, on either side, by the step at a place."""
    top = FACTORS[units][place] * length
    runs = top / speed  # how many steps its run has
    count = runs.numerator // runs.denominator if faster else -(-runs.numerator // runs.denominator)
    return Fraction(top, count) if count else None


def moved(command, units, length, limits):
    """The limits after the move, and whether any of them could be moved."""
    least, most = limits
    inwards = command == "narrow"
    if inwards and least == most:
        return limits, False
    found = [None, None]
    for place in range(3):
        new = beside(units, length, least, place, inwards), beside(units, length, most, place, not inwards)
        serves = [is_speed(speed) for speed in new]
        if all(serves) and new[0] <= new[1]:
            return new, True
        for end in (0, 1):
            if serves[end] and found[end] is None:
                found[end] = new[end]
    if inwards or found == [None, None]:
        return limits, False
    return tuple(speed if new is None else new for speed, new in zip(limits, found)), True


def quoted(text):
    """A name as a TOML text; names have no control characters."""
    return '"' + text.replace("\\", "\\\\").replace('"', '\\"') + '"'


def pair(limits):
    return "[" + ", ".join(f'"{Fraction(limit)}"' for limit in limits) + "]"


def canonical(said):
    """The canonical description: tables by name, keys by their bytes, every key that isn't left out as none."""
    version, artery = said.get("version", 1), said["artery"]
    keys = {"cycle": pair(artery["cycle"]), "parts": artery["parts"], "ratio": f'"{Fraction(artery["ratio"])}"', "units": quoted(artery["units"])}
    if "name" in artery:
        keys["name"] = quoted(artery["name"])
    if version == 2:
        keys["equal"] = "true" if artery.get("equal", False) else "false"
        for key in ("least_in", "least_out"):
            keys[key] = f'"{Fraction(artery.get(key, 0))}"'
    tables = [("[artery]", keys)]
    for link in said["link"]:
        keys = {key: link[key] for key in ("distance_in", "distance_out")}
        keys |= {key: pair(link[key]) for key in ("speed_in", "speed_out", "change_in", "change_out") if key in link}
        tables.append(("[[link]]", keys))
    for signal in said["signal"]:
        keys = {key: signal.get(key, 0) for key in ("clear_in", "clear_out", "left_in", "left_out", "red")}
        keys["name"] = quoted(signal["name"])
        keys["patterns"] = sorted(set(signal.get("patterns", [1, 2, 3, 4])))
        tables.append(("[[signal]]", keys))
    lines = [f"version = {version}"]
    for head, keys in tables:
        lines += ["", head] + [f"{key} = {keys[key]}" for key in sorted(keys)]
    return "\n".join(lines) + "\n"


def main(command, street, new):
    with open(street, encoding="utf-8-sig", newline="") as file:
        said = tomllib.loads(file.read())
    units, count, stays = said["artery"]["units"], 0, []
    for number, link in enumerate(said["link"], 1):
        for side, (length, speed) in SIDES.items():
            limits = tuple(map(Fraction, link[speed]))
            link[speed], could = moved(command, units, link[length], limits)
            count += sum(old != now for old, now in zip(limits, link[speed]))
            if not could:
                stays.append(f"link {number} {side} stays")
    with open(new, "w", encoding="utf-8", newline="\n") as file:
        file.write(canonical(said))
    print(f"{command}ed {count}" if command == "narrow" else f"widened {count}")
    print("".join(line + "\n" for line in stays), end="")


if __name__ == "__main__":
    if len(sys.argv) != 4 or sys.argv[1] not in ("narrow", "widen"):
        sys.exit(__doc__)
    main(*sys.argv[1:])
