"""What goes to the phone app."""

from array import array
from typing import NamedTuple

from . import names
from .face import call, lent
from .refusal import passed


class Floats(NamedTuple):
    """The figures of a report as floats, in kopecks, each exactly the whole number."""

    valuation: float
    market_risk: float
    interest_risk: float
    discount: float
    limit: float


class Feed(NamedTuple):
    """A report for the app: `bits` is what is sent, the bits of the five floats in report order; `figures` are the same as floats. `gauge` is for the
    first screen, and `shown` its float: GAUGE_EMPTY where the valuation is zero or less, whatever the limit (0.0); GAUGE_OVER where the limit is
    negative (the shortfall in kopecks); else GAUGE_USED (so much of the valuation, from 0 to 1)."""

    bits: tuple[int, ...]
    figures: Floats
    gauge: int
    shown: float


def floats_at(bits):
    """The floats of an array('Q') of five bits."""
    return Floats(*array("d", bits.tobytes()))


def app_read(bits):
    """Read a feed's bits back: five floats with the same bits again. A NaN's pattern, which no feed has, is refused as OUT_OF_BOUNDS."""
    figures = array("d", names.FIGURES_LENGTH * [0.0])
    passed(call("app_read", *lent(array("Q", bits), typecode="Q"), *lent(figures, typecode="d")))
    return Floats(*figures)
