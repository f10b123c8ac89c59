"""Reads the text that `drive` writes, as docs/FORMATS.md describes it."""

import re
from fractions import Fraction
from typing import NamedTuple, Optional

COUNT = "(?:0|[1-9][0-9]{0,18})"
FROM_ONE = "[1-9][0-9]{0,38}"
NUMBER = "(?:0|-?[1-9][0-9]{0,38})"
BOUND = f"(?:none|{NUMBER})"

# Each kind of line: its form, and which kinds may stand behind it. `stop` is what is left
# behind the last newline.
EVENTS = ["put", "take", "end"]
ANSWERS = ["reading", "skip", "spoke", "lower"]
LINES = {
    "version": ("sppy 1", ["counts"]),
    "counts": (f"scenarios {COUNT} periods {COUNT} nodes {COUNT}", ["sizes"]),
    "sizes": (f"columns {COUNT} taken-whole {COUNT} rows {COUNT}", ["unit"]),
    "unit": (f"unit 1/{FROM_ONE}", ["first"]),
    "first": (f"first {NUMBER} none", ["put"]),
    "put": (f"put {FROM_ONE}", EVENTS),
    "take": (f"take (?:hub|{FROM_ONE}) {FROM_ONE} {BOUND} {NUMBER} {BOUND}", EVENTS),
    "end": (f"end (?:agreed|gap|iterations|spent {FROM_ONE})", ["spoke", "lower"]),
    "spoke": (f"spoke {FROM_ONE} (?:lagrangian|xhat)", ANSWERS),
    "reading": (f"reading {FROM_ONE} {BOUND}", ANSWERS),
    "skip": (f"skip {FROM_ONE} {FROM_ONE}", ANSWERS),
    "lower": ("lower .*", ["upper"]),
    "upper": ("upper .*", ["stop"]),
    "stop": ("", []),
}


class Refused(Exception):
    """A text isn't one of `drive`, as this line of it shows."""

    def __init__(self, line):
        super().__init__(f"line {line}: this isn't the text of a drive")


class Pair(NamedTuple):
    """A lower bound and an upper one, if there is any."""

    lower: int
    upper: Optional[int]


class Drive(NamedTuple):
    """What a text tells: its first five lines, how many of a unit of cost its bounds count
    in, the first pair and that of each take, the number of puts, and the end."""

    opening: list
    unit: int
    pairs: list
    puts: int
    end: str


def bound(word):
    return None if word == "none" else int(word)


def pairs_behind(pair, source, value):
    """The pairs that a take may leave: a spoke's value is a lower or an upper bound, the
    hub's an upper one."""
    if value is None:
        return [pair]
    above = Pair(pair.lower, value if pair.upper is None else min(pair.upper, value))
    below = Pair(max(pair.lower, value), pair.upper)
    return [above] if source == "hub" else [below, above]


def worth(value, unit):
    """A bound as a text has it: in units and, in lowest terms, in the costs' own unit."""
    return "none" if value is None else f"{value} = {Fraction(value, unit)}"


def kind_of(line, kinds):
    """Which of these kinds a line has."""
    return next((kind for kind in kinds if re.fullmatch(LINES[kind][0], line)), None)


def read(text):
    """What a text tells; it is refused at the first line that can't stand there."""
    lines = text.split("\n")
    kinds, unit, pairs, puts, end = ["version"], 1, [], 0, ""
    for number, line in enumerate(lines, 1):
        kind = kind_of(line, kinds)
        words = line.split(" ")
        stands = kind is not None
        if kind == "unit":
            unit = int(line.removeprefix("unit 1/"))
        elif kind == "first":
            pairs = [Pair(int(words[1]), None)]
        elif kind == "put":
            puts += 1
            stands = int(words[1]) == puts
        elif kind == "take":
            pair = Pair(int(words[4]), bound(words[5]))
            may_be = pairs_behind(pairs[-1], words[1], bound(words[3]))
            stands = int(words[2]) <= puts and pair in may_be
            pairs.append(pair)
        elif kind == "end":
            end = line.removeprefix("end ")
        elif kind in ("lower", "upper"):
            stands = line == f"{kind} {worth(getattr(pairs[-1], kind), unit)}"
        if not stands:
            raise Refused(number)
        kinds = LINES[kind][1]
    if kinds:
        raise Refused(len(lines))
    return Drive(lines[:5], unit, pairs, puts, end)
