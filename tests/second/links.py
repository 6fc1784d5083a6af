#!/usr/bin/env python3
"""Searches for a best timing with a band for each link, about one line a direction, by the rules of docs/MODEL.md, CERTIFICATES.md,
FORMATS.md and SEARCH.md, and puts its certificate, which `maxband check-links` checks. What it shares with the search of whole bands is search.py's.

usage: tests/second/links.py STREET.toml CERT [WORK]     WORK is a number or `all`; 100000 where it is left out
"""
import sys
from fractions import Fraction

from search import ONE, Search, Street, Timing, answer, both

WAYS = "out", "in"
# The families of rows that speak of whole bands, which the bands of links don't have.
OF_WHOLE_BANDS = {"wout", "win", "ratio", "least_out", "least_in", "equal_lo", "equal_hi"}


class LinkStreet(Street):
    """A street whose links have bands of their own: their halves stand behind the columns of the street."""

    def column_names(self):
        return super().column_names() + [f"h_{way} {i}" for way in WAYS for i in self.links]

    def goal(self):
        return {f"h_{way} {i}": 2 * share for way, share in zip(WAYS, (ONE, self.ratio)) for i in self.links}

    def starts(self):
        return {f"far_{way}_a {i}": f"h_{way} {i}" for i in self.links for way in WAYS}

    def rows(self, box):
        listed = [row for row in super().rows(box) if row[0].split()[0] not in OF_WHOLE_BANDS]
        ends = ("a", 0), ("b", 1)
        for way, green in zip(WAYS, (self.green_out, self.green_in)):
            for end, step in ends:
                for i in self.links:
                    listed.append(self.row(f"near_{way}_{end} {i}", {f"h_{way} {i}": 1, f"w_{way} {i + step}": -1}))
            for end, step in ends:
                for i in self.links:
                    listed.append(self.row(f"far_{way}_{end} {i}", {f"w_{way} {i + step}": 1, f"h_{way} {i}": 1}, green[i + step]))
        if self.ratio != 1:
            sign = 1 if self.ratio < 1 else -1
            for i in self.links:
                listed.append(self.row(f"link_ratio {i}", {f"h_out {i}": sign * self.ratio, f"h_in {i}": -sign}))
        return listed

    def timing(self, vertex):
        return LinkTiming(self, vertex)


class LinkTiming(Timing):
    """A timing whose lines are bands of width 0, with half a band for each link."""

    def half(self, way, i):
        return self.at[f"h_{way} {i}"]

    def weighted(self):
        total = lambda way: sum(self.half(way, i) for i in self.street.links)
        return Fraction(2) * (total("out") + self.street.ratio * total("in")) / self.cycle

    def band_lines(self):
        for way in WAYS:
            yield " ".join([f"half_{way}", *(str(self.half(way, i)) for i in self.street.links)])

    def band_report(self):
        for i in self.street.links:
            for way in WAYS:
                yield f"link {i} band {way} {both(Fraction(2 * self.half(way, i), self.cycle), 6)}"

    def diagram(self):
        return []


class LinkSearch(Search):
    """Each part is opened from its own opening tableau, as the root is, and the certificate names rows where they stand."""

    first_line = "maxband-links 1"

    def __init__(self, street, limit):
        super().__init__(street, limit, cold=True)

    def tree_lines(self, nodes):
        yield "tree"
        for node in nodes:
            if isinstance(node, str):
                yield node
            else:
                yield f"leaf {len(node)}"
                yield from (f"{name} {times}" for name, times in node.items())


def main(words):
    if len(words) not in (2, 3):
        print(__doc__.strip(), file=sys.stderr)
        return 5
    return answer(lambda text, limit: LinkSearch(LinkStreet(text), limit), words)


if __name__ == "__main__":
    sys.exit(main(sys.argv[1:]))
