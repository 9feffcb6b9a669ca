"""What bench-calls and bench-session printed: lines of set, call, count and contestant with a time in nanoseconds for each round, and what is made of
them. A ratio is of two times of the same round; its median and its 10th and 90th percentile are those of the rounds."""

from statistics import median
from typing import NamedTuple

ENGINE, SECOND, REFERENCE = "engine", "second", "reference"


class Case(NamedTuple):
    set: str
    call: str
    count: int


class Ratio(NamedTuple):
    middle: float
    low: float
    high: float

    def __str__(self):
        return f"{self.middle:.2f} ({self.low:.2f} to {self.high:.2f})"


def read(path):
    """By case, then by contestant."""
    measured = {}
    with open(path, encoding="utf-8") as lines:
        for line in lines:
            of_set, call, count, side, *times = line.rstrip("\n").split("\t")
            measured.setdefault(Case(of_set, call, int(count)), {})[side] = [float(time) for time in times]
    return measured


def percentile(values, share):
    return sorted(values)[min(int(share * len(values)), len(values) - 1)]


def ratio(times, others):
    """How many times as long the others took."""
    each = [other / time for time, other in zip(times, others, strict=True)]
    return Ratio(median(each), percentile(each, 0.1), percentile(each, 0.9))


def micro(times):
    """Microseconds; of what takes less than a tenth of one more places are shown."""
    middle = median(times) / 1000
    return f"{middle:.2f}" if middle >= 0.1 else f"{middle:.4f}"


def milli(times):
    return f"{median(times) / 1e6:.1f}"
