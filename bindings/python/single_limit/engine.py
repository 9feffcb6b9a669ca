"""Book and tables, with the engine's calls."""

import ctypes
from array import array
from typing import NamedTuple

from . import names
from .face import call, lent, number
from .feed import Feed, floats_at
from .refusal import passed


def zeros(length):
    return array("q", bytes(8 * length))


class Figures(NamedTuple):
    """What a report says, in kopecks."""

    valuation: int
    market_risk: int
    interest_risk: int
    discount: int
    limit: int


class Tables:
    """The clearing table, our own table and the groups, each an array('q'); all zero at first, which is sound.

    A row with a kind and a price alone is sound and has no risk: the table check cannot tell that a rate is missing."""

    def __init__(self):
        self.clearing = zeros(names.TABLE_LENGTH)
        self.own = zeros(names.TABLE_LENGTH)
        self.groups = zeros(names.GROUPS_LENGTH)

    def lent(self):
        return lent(self.clearing, self.own, self.groups)

    def check(self):
        """Are they sound, and own rows only stricter? If not, the place of the first number that is not comes with the refusal."""
        place = ctypes.c_uint64()
        passed(call("check_tables", *self.lent(), ctypes.byref(place)), place.value)

    def covers(self, asset):
        """The cover test: whether the row in force of that asset is sound and passes it."""
        return call("covers", *lent(self.clearing, self.own), number(asset)) == 1


class Book:
    """Sixteen accounts, none open at first. `numbers` is an array('q') of all blocks. A refused call raises Refused and alters nothing."""

    def __init__(self):
        self.numbers = zeros(names.BOOK_LENGTH)

    def open(self, account, kind, code):
        """Open an account of a kind (ACCOUNT_ORDINARY, ACCOUNT_POOL, ACCOUNT_POOL_OF_THE_LIST) on a settlement code, 1 to LAST_SETTLEMENT_CODE, or on
        0, none. At most four accounts of one kind share a code; they are valued together."""
        passed(call("open", *lent(self.numbers), *map(number, (account, kind, code))))

    def move(self, tables, account, asset, amount):
        """Move collateral of an asset, or of RUBLES: a positive amount deposits, a negative one withdraws."""
        wanted = map(number, (account, asset, amount))
        passed(call("move", *lent(self.numbers), *tables.lent(), *wanted))

    def order(self, tables, account, asset, date, side, quantity, money):
        """Order: side BUY or SELL, money of the whole order. Booked as a trade at once where it is admitted: the limit after it is zero or
        more, or above the limit before it."""
        wanted = map(number, (account, asset, date, side, quantity, money))
        passed(call("order", *lent(self.numbers), *tables.lent(), *wanted))

    def roll(self, account):
        """Roll an account to the next day. All or nothing."""
        passed(call("roll", *lent(self.numbers), number(account)))

    def report(self, tables, account):
        """The five figures of an account; of one on a settlement code those of all on that code."""
        figures = zeros(names.FIGURES_LENGTH)
        passed(call("report", *lent(self.numbers), *tables.lent(), number(account), *lent(figures)))
        return Figures(*figures)

    def app(self, tables, account):
        """An account's report for the app; app_read reads the bits of it back. A figure of 2^53 or more in size, which only several accounts on one
        settlement code come to, is refused as OUT_OF_BOUNDS."""
        bits, gauge, shown = array("Q", names.FIGURES_LENGTH * [0]), ctypes.c_uint8(), ctypes.c_double()
        written = *lent(bits, typecode="Q"), ctypes.byref(gauge), ctypes.byref(shown)
        passed(call("app", *lent(self.numbers), *tables.lent(), number(account), *written))
        return Feed(tuple(bits), floats_at(bits), gauge.value, shown.value)


def row_at(asset, row_number):
    """Where a number of an asset's row (ROW_...) stands in a table."""
    return names.ROW_LENGTH * asset + row_number


def date_at(asset, date, date_number):
    """Where a number of a date of an asset's row (DATE_...) stands in a table."""
    return row_at(asset, names.ROW_DATES + names.DATE_LENGTH * date + date_number)


def block_at(account, block_number):
    """Where a number of an account's block (BLOCK_...) stands in a book."""
    return names.BLOCK_LENGTH * account + block_number


def ruble_net_at(account, date):
    return block_at(account, names.BLOCK_RUBLE_NETS + date)


def collateral_at(account, asset):
    return block_at(account, names.BLOCK_HOLDINGS + names.HOLDING_LENGTH * asset)


def claim_at(account, asset, date):
    return collateral_at(account, asset) + names.HOLDING_CLAIMS + date


def obligation_at(account, asset, date):
    return collateral_at(account, asset) + names.HOLDING_OBLIGATIONS + date
