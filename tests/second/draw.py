#!/usr/bin/env python3
"""Does what `maxband draw STREET.toml FILE SVG` does, written a second time from the definitions of
`crates/diagram_draw/specs`: the picture is to be that of the program, to the byte. FILE is a certificate or a timing.

usage: tests/second/draw.py STREET.toml FILE SVG [TITLE]
"""
import math
import sys
import tomllib
from fractions import Fraction

OUT, IN = "out", "in"
TOP, MARGIN, BAR = 1500, 260, 90
NAME_LEFT, COLUMNS, HEADS = 430, 1780, TOP - 90
STEPS = ((18, 1), (36, 2), (90, 5), (180, 10), (270, 15), (360, 20), (540, 30), (1080, 60), (2160, 120), (5400, 300), (10800, 600))
NARROW, MIDDLE, BROAD = " !'(),-./:;I[\\]fijlrt|", '"$*0123456789?FJLT_`abcdeghknopqsuvxyz{}', "#&+<=>ABCDEGHKNOPQRSUVXYZ^w~"
NOTE = "Where queues are given time to clear, vehicles trail the band by the sum of the clearances so far; a mark has the seconds at its signal."


def nearest(number):
    """The whole number that is nearest to a fraction, and the greater one of two that are as near."""
    return math.floor(number + Fraction(1, 2))


def digits(count, places):
    """So many tenths, hundredths or thousandths."""
    return f"{count // 10**places}.{count % 10**places:0{places}}"


def rounded(top, bottom, places=1):
    return digits(nearest(Fraction(top, bottom) * 10**places), places)


def width_of(text):
    """The width of a text in thousandths of the size of its letters."""
    widths = {**dict.fromkeys(NARROW, 420), **dict.fromkeys(MIDDLE, 640), **dict.fromkeys(BROAD, 840)}
    return sum(widths.get(letter, 1000) for letter in text)


def fitting(usual, room, text):
    return min(usual, room * 1000 // max(1, width_of(text)))


def escaped(text):
    text = text.replace("&", "&amp;").replace("<", "&lt;").replace(">", "&gt;")
    return text.replace("\ufffe", "\ufffd").replace("\uffff", "\ufffd")


def rect(paint, left, top, right, bottom):
    return f'<path class="{paint}" d="M{left},{top}H{right}V{bottom}H{left}z"/>'


def slant(paint, left, right, level, next_left, next_right, next_level):
    corners = (left, level), (next_left, next_level), (next_right, next_level), (right, level)
    return f'<polygon class="{paint}" points="{" ".join(f"{x},{y}" for x, y in corners)}"/>'


def line(paint, x, y, next_x, next_y):
    return f'<line class="{paint}" x1="{x}" y1="{y}" x2="{next_x}" y2="{next_y}"/>'


def words(letter, x, y, text):
    return f'<text class="{letter}" x="{x}" y="{y}">{text}</text>'


def sized(letter, size, x, y, text):
    return f'<text class="{letter}" font-size="{size}" x="{x}" y="{y}">{text}</text>'


class Timing:
    """What a certificate or a timing says between its claim and its tree."""

    def __init__(self, text):
        said = {}
        for words_of in (row.split() for row in text.splitlines()):
            said.setdefault(words_of[0], words_of[1:])
        numbers = {key: [int(it) for it in said[key]] for key in ("grid", "unit", "pattern", "red", "run_out", "run_in", "first", "band")}
        (self.grid,), (self.unit,) = numbers["grid"], numbers["unit"]
        self.patterns, self.reds = numbers["pattern"], numbers["red"]
        self.run = {OUT: numbers["run_out"], IN: numbers["run_in"]}
        self.first = dict(zip((OUT, IN), numbers["first"]))
        self.band = dict(zip((OUT, IN), numbers["band"]))


class Picture:
    """The shapes and words of a timing. Signals and links count from 0."""

    def __init__(self, said, timing, title):
        self.subtitle = title
        self.artery, self.signals, self.links, self.timing = said["artery"], said["signal"], said["link"], timing
        self.n, self.unit = len(self.signals), timing.unit
        self.cycle = self.artery["parts"] * self.unit
        ways = [it["distance_out"] for it in self.links]
        self.far = [sum(ways[:k]) for k in range(self.n)]
        ticks = max(sum(timing.run[way]) + timing.band[way] for way in (OUT, IN))
        self.cycles = min(12, max(2, -(-ticks // self.cycle) + 1))
        self.room = min(4500, max(1092, max(width_of(it["name"]) for it in self.signals) * 150 // 1000 + 1))
        self.left = self.room + COLUMNS
        self.width = 9000 + 1800 * max(0, self.cycles - 4)
        self.right = self.left + self.width
        self.rise = min(16000, max(4400, self.far[-1] * 180 // min([30000] + ways)))
        self.span = self.rise + 2 * BAR * (self.n - 1)
        self.bottom = TOP + 2 * MARGIN + self.span
        self.page = self.right + 2200, self.bottom + 1400

    # ---- places
    def x(self, ticks):
        return self.left + ticks * self.width // (self.cycles * self.cycle)

    def level(self, i):
        return TOP + MARGIN + self.span - 2 * BAR * i - self.far[i] * self.rise // self.far[-1]

    def after(self, tick):
        return (tick - self.timing.reds[0]) % self.cycle

    # ---- the model
    def against(self, way, i):
        return self.signals[i].get("left_in" if way == OUT else "left_out", 0)

    def lines(self, way):
        """Where the band's first line crosses each signal."""
        order = range(self.n) if way == OUT else range(self.n - 1, -1, -1)
        at, crossings, before = self.timing.first[way], {}, None
        for i in order:
            if before is not None:
                clear = self.signals[i].get(f"clear_{way}", 0) * self.unit
                at += self.timing.run[way][min(before, i)] - clear
            crossings[i] = at
            before = i
        return crossings

    # ---- shapes
    def back(self):
        seconds = self.cycles * self.cycle // self.timing.grid
        self.step = next((step for most, step in STEPS if seconds <= most), 3600)
        count = seconds // self.step
        self.steps = [k * self.step for k in range(count + 1 if count <= 18 else 1)]
        shapes = [rect("paper", 0, 0, *self.page), rect("plot", self.left, TOP, self.right, self.bottom)]
        for second in self.steps:
            x = self.x(second * self.timing.grid)
            shapes.append(line("second", x, TOP, x, self.bottom + 60))
        for m in range(self.cycles + 1):
            x = self.x(m * self.cycle)
            shapes.append(line("cycle", x, TOP - 60, x, self.bottom))
        return shapes + [line("level", self.left, self.level(i), self.right, self.level(i)) for i in range(self.n)]

    def has_band(self, way):
        """Whether each line of the band crosses each signal in green."""
        lines, band = self.lines(way), self.timing.band[way]
        for i in range(self.n):
            start, red = self.red(way, i)
            since = (lines[i] - start) % self.cycle
            if not (since == 0 and band == 0 or red <= since and since + band <= self.cycle):
                return False
        return True

    def pieces(self):
        """On each link the pieces that leave within the time that is shown, and those that enter within it and left outside of it."""
        shapes, shown = [], self.cycles * self.cycle
        for l in range(self.n - 1):
            low, high = self.level(l), self.level(l + 1)
            for way in (OUT, IN):
                if not self.has_band(way):
                    continue
                run, band = self.timing.run[way][l], self.timing.band[way]
                line_out = self.lines(way)[l if way == OUT else l + 1]
                ends = (low - BAR, high + BAR) if way == OUT else (high + BAR, low - BAR)
                cycles = [m * self.cycle for m in range(-1, self.cycles)]
                leaving = [z for m in cycles if self.seen(z := self.after(line_out) + m, band, shown)]
                entering = [z - run for m in cycles if self.seen(z := self.after(line_out + run) + m, band, shown)]
                for z in leaving + [z for z in entering if not self.seen(z, band, shown)]:
                    if self.x(band) < self.left + 3:
                        shapes.append(line(f"{way}-line", self.x(z), ends[0], self.x(z + run), ends[1]))
                    else:
                        shapes.append(slant(way, self.x(z), self.x(z + band), ends[0], self.x(z + run), self.x(z + run + band), ends[1]))
        return shapes

    def seen(self, begin, band, shown):
        return 0 <= begin + band and begin < shown

    def red(self, way, i):
        """When the direction's red begins, and how long it is."""
        common, turn = self.signals[i]["red"] * self.unit, self.against(way, i) * self.unit
        is_early = self.timing.patterns[i] in ((1, 4) if way == OUT else (2, 4))
        return self.timing.reds[i] - (turn if is_early else 0), common + turn

    def bars(self):
        shapes = []
        for i in range(self.n):
            for way in (OUT, IN):
                top = self.level(i) - (BAR if way == IN else 0)
                common, turn = self.signals[i]["red"] * self.unit, self.against(way, i) * self.unit
                is_early = self.timing.patterns[i] in ((1, 4) if way == OUT else (2, 4))
                red = self.timing.reds[i] - (turn if is_early else 0)
                begin = self.after(red) - self.cycle
                window = self.after(self.lines(way)[i]) - self.cycle
                blocks = [(f"{way}-at", window, self.timing.band[way])] if self.has_band(way) else []
                blocks.append(("red", begin + (turn if is_early else 0), common))
                if turn:
                    blocks.append(("turn", begin + (0 if is_early else common), turn))
                shapes.append(rect("ground", self.left, top, self.right, top + BAR))
                for paint, start, long in blocks:
                    for m in range(self.cycles + 1):
                        z = start + m * self.cycle
                        shapes.append(rect(paint, self.x(z), top, self.x(z + long), top + BAR))
        return shapes

    def steps_at(self):
        """The directions and signals at which a line steps, the ticks of the step, and the moment at which the band begins there."""
        for i in range(self.n):
            for way, entry in ((OUT, 0), (IN, self.n - 1)):
                clear = self.signals[i].get(f"clear_{way}", 0) * self.unit
                if clear and i != entry and self.has_band(way):
                    yield i, way, clear, self.after(self.lines(way)[i])

    def step_lines(self):
        shapes = []
        for i, way, clear, z in self.steps_at():
            y = self.level(i) + (BAR + 15 if way == OUT else -BAR - 15)
            shapes.append(line("step", self.x(z), y, self.x(z + clear), y))
        return shapes

    def marks(self):
        rows = []
        for i, way, clear, z in self.steps_at():
            y = self.level(i) + (BAR + 120 if way == OUT else -BAR - 40)
            rows.append(words("mark", self.x(z), y, f"{rounded(clear, self.timing.grid)} s"))
        return rows

    def keys(self):
        top = self.bottom + 700
        shapes = []
        for x, y, paint in ((0, top, "red"), (1500, top, "turn"), (0, top + 250, "out-at")):
            left = self.left + x
            shapes += [rect("ground", left, y, left + 400, y + BAR), rect(paint, left + 60, y, left + 340, y + BAR)]
        for x, paint, level, next_level in ((4100, OUT, top + 170, top - 80), (6500, IN, top - 80, top + 170)):
            left = self.left + x
            shapes.append(slant(paint, left, left + 220, level, left + 200, left + 420, next_level))
        return shapes

    # ---- words
    def offset(self, i):
        near = nearest(Fraction(10 * self.after(self.timing.reds[i]), self.timing.grid))
        return digits(0 if near == nearest(Fraction(10 * self.cycle, self.timing.grid)) else near, 1)

    def facts(self):
        said = [f"cycle {rounded(self.cycle, self.timing.grid)} s"]
        for way, word in ((OUT, "outbound"), (IN, "inbound")):
            band = self.timing.band[way]
            seconds = rounded(band, self.timing.grid, 1 if self.timing.grid <= band else 2)
            share = rounded(100 * band, self.cycle)
            said.append(f"{word} band {seconds} s = {share} % of the cycle" if self.has_band(way) else f"no {word} band")
        if self.has_band(OUT) and self.has_band(IN):
            weighted = self.timing.band[OUT] + Fraction(self.artery.get("ratio", 1)) * self.timing.band[IN]
            said.append(f"weighted band {rounded(weighted, self.cycle, 3)}")
        return " &#183; ".join(said)

    def name(self):
        return self.artery.get("name", "Time-space diagram")

    def title(self):
        return escaped(self.name() if self.subtitle is None else f"{self.name()}: {self.subtitle}")

    def about(self):
        signals = (f"; signal {i + 1}, {escaped(it['name'])}, offset {self.offset(i)} s" for i, it in enumerate(self.signals))
        return self.facts() + "".join(signals)

    def turns(self, i):
        """How the left turns go, outbound and inbound: in patterns 1 and 3 the outbound one leads, in 2 and 3 the inbound one."""
        if not self.against(OUT, i) and not self.against(IN, i):
            return "-"
        words_of = []
        for way, leading in ((OUT, (1, 3)), (IN, (2, 3))):
            turn = self.against(IN if way == OUT else OUT, i)
            words_of.append("-" if not turn else "lead" if self.timing.patterns[i] in leading else "lag")
        return "/".join(words_of)

    def speed(self, way, l):
        top, bottom = (18, 5) if self.artery["units"] == "metric" else (15, 22)
        run = self.timing.run[way][l]
        return rounded(top * self.links[l][f"distance_{way}"] * self.timing.grid, bottom * run) if run else "-"

    def lengths_differ(self):
        return any(it["distance_out"] != it["distance_in"] for it in self.links)

    def heads(self):
        room = self.page[0] - 440
        rows = [sized("title", fitting(330, room * 5 // 6, self.name()), 220, 480, escaped(self.name()))]
        rows.append(sized("facts", 165, 220, 830 if self.subtitle is None else 1120, self.facts()))
        if self.subtitle is not None:
            rows.append(sized("subtitle", fitting(220, room, self.subtitle), 220, 800, escaped(self.subtitle)))
        return rows

    def names(self):
        return [sized("name", fitting(150, self.room, it["name"]), NAME_LEFT, self.level(i) + 50, escaped(it["name"])) for i, it in enumerate(self.signals)]

    def above(self):
        length, speed = ("m", "km/h") if self.artery["units"] == "metric" else ("ft", "mph")
        rows = [words("head", NAME_LEFT, HEADS, "signal"), words("head-end", self.left - 760, HEADS, "lefts out/in")]
        rows.append(words("head-end", self.left - 170, HEADS, "offset, s"))
        for x, text in ((880, f"{length} out/in" if self.lengths_differ() else length), (1480, f"out {speed}"), (2060, f"in {speed}")):
            rows.append(words("head-end", self.right + x, HEADS, text))
        for m in range(1, self.cycles + 1):
            rows.append(words("head-middle", self.x(m * self.cycle), HEADS, "1 cycle" if m == 1 else f"{m} cycles"))
        return rows

    def beside(self):
        rows = []
        for i in range(self.n):
            y = self.level(i) + 50
            for x, text in ((330, i + 1), (self.left - 760, self.turns(i)), (self.left - 170, self.offset(i))):
                rows.append(words("number", x, y, text))
        for l, it in enumerate(self.links):
            y = (self.level(l) + self.level(l + 1)) // 2 + 50
            out, back = it["distance_out"], it["distance_in"]
            for x, text in ((880, f"{out}/{back}" if self.lengths_differ() else out), (1480, self.speed(OUT, l)), (2060, self.speed(IN, l))):
                rows.append(words("number", self.right + x, y, text))
        return rows

    def below(self):
        rows = [words("axis", self.x(second * self.timing.grid), self.bottom + 210, second) for second in self.steps]
        keys = (480, "common red"), (1980, "red for the opposing left turn"), (4600, "outbound band, lower bars"), (7000, "inbound band, upper bars")
        rows += [words("key", self.left + x, self.bottom + 785, text) for x, text in keys]
        rows.append(words("axis", self.left + self.width // 2, self.bottom + 420, "seconds after the start of the common red of signal 1"))
        rows.append(words("key", self.left + 480, self.bottom + 1035, "on a bar: full colour is the band, white is green beside it"))
        later = [it.get("clear_out", 0) for it in self.signals[1:]] + [it.get("clear_in", 0) for it in self.signals[:-1]]
        return rows + ([words("note", self.left, self.bottom + 1260, NOTE)] if any(later) else [])

    def on_paper(self):
        """How wide and high the page is in tenths of a millimetre: it fits 190 by 259, upright or across, whichever shows it larger."""
        fits = []
        for sheet in ((1900, 2590), (2590, 1900)):
            scale = min(Fraction(side, length) for side, length in zip(sheet, self.page))
            fits.append((scale, [math.floor(scale * length) for length in self.page]))
        return max(fits)[1]

    # ---- the document
    def text(self):
        back = self.back()
        height = self.span + 2 * MARGIN
        clip = f'<clipPath id="plot"><rect x="{self.left}" y="1500" width="{self.width}" height="{height}"/></clipPath>'
        wide, high = (digits(length, 1) for length in self.on_paper())
        rows = [
            f'<svg xmlns="http://www.w3.org/2000/svg" width="{wide}mm" height="{high}mm" viewBox="0 0 {self.page[0]} {self.page[1]}" '
            'role="img" aria-labelledby="title desc">',
            f'<title id="title">{self.title()}</title>',
            f'<desc id="desc">{self.about()}</desc>',
            *STYLE,
            "<defs>",
            TILE,
            clip,
            "</defs>",
            *back,
            '<g clip-path="url(#plot)">',
            *self.pieces(),
            *self.bars(),
            "</g>",
            '<g clip-path="url(#plot)">',
            *self.step_lines(),
            "</g>",
            *self.keys(),
            *self.heads(),
            *self.names(),
            *self.above(),
            *self.beside(),
            *self.marks(),
            *self.below(),
            "</svg>",
        ]
        return "\n".join(rows) + "\n"


STYLE = (
    "<style>",
    "text{font-family:Helvetica,Arial,'Liberation Sans',sans-serif;fill:#222}",
    ".title{font-weight:bold}.head,.head-end,.head-middle,.note{font-size:118px;fill:#555}.mark{font-size:100px}",
    ".number{font-size:140px}.axis,.key{font-size:125px;fill:#444}.number,.head-end{text-anchor:end}.axis,.head-middle{text-anchor:middle}",
    ".paper{fill:#fff}.plot{fill:#fbfbf9;stroke:#444;stroke-width:12}.second{stroke:#dcdcd8;stroke-width:8}"
    ".cycle{stroke:#777;stroke-width:12;stroke-dasharray:60 50}.level{stroke:#bbb;stroke-width:8}",
    ".out{fill:#0072b2;fill-opacity:.3;stroke:#005a8e;stroke-width:14}"
    ".in{fill:#e69f00;fill-opacity:.38;stroke:#a86b00;stroke-width:14;stroke-dasharray:70 40}"
    ".out-line,.in-line{stroke:#005a8e;stroke-width:20;stroke-dasharray:140 70}.in-line{stroke:#a86b00}",
    ".ground{fill:#fff;stroke:#444;stroke-width:8}.red{fill:#3a0d12}.turn{fill:url(#turn)}.out-at{fill:#0072b2}.in-at{fill:#e69f00}.step{stroke:#222;stroke-width:30}",
    "</style>",
)
TILE = (
    '<pattern id="turn" width="56" height="56" patternUnits="userSpaceOnUse" patternTransform="rotate(45)">'
    '<path fill="#f3d9d9" d="M0,0H56V56H0z"/><path fill="#3a0d12" d="M0,0H28V56H0z"/></pattern>'
)


def picture(street, certificate, title=None):
    """The picture of a timing, by the text of the description and that of a certificate or timing."""
    return Picture(tomllib.loads(street), Timing(certificate), title).text()


def main(args):
    if len(args) not in (3, 4):
        sys.exit(__doc__.split("\n\n", 1)[1].rstrip())
    street, certificate = (open(name, encoding="utf-8").read() for name in args[:2])
    with open(args[2], "w", encoding="utf-8", newline="") as file:
        file.write(picture(street, certificate, *args[3:]))


if __name__ == "__main__":
    main(sys.argv[1:])
