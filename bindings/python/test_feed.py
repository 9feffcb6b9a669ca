"""The app's feed: figures as floats and their bits, each gauge, figures too large, reading back and refusals. SINGLE_LIMIT_LIBRARY names the library."""

import struct
import unittest
from array import array

from single_limit import Book, Code, Refused, Tables, app_read, block_at, claim_at, collateral_at, obligation_at, row_at
from single_limit.names import *

HEAD = [ASSET_SECURITY, 10_000, 5_000, 10_000, SALES_RECORDED, 0, 2_000, 3_000, 4_000, 5_000, 100, 100, 1, 0, 0, 0]
ROW_A = array("q", HEAD + DATES * [0, -100, 200, -200, 300] + (ROW_LENGTH - ROW_REST) * [0])
INFINITY, MINUS = 0x7FF0_0000_0000_0000, 1 << 63


def spread(rubles):
    """Account 0 with so many kopecks and, at date 1, a claim of 10 of asset 0 and an obligation of 10 of asset 1: document 01's S11."""
    book, tables = Book(), Tables()
    tables.clearing[: row_at(2, 0)] = ROW_A + ROW_A
    tables.groups[0] = 25
    book.open(0, ACCOUNT_ORDINARY, 0)
    book.numbers[block_at(0, BLOCK_RUBLE_COLLATERAL)] = rubles
    book.numbers[claim_at(0, 0, 1)] = 10
    book.numbers[obligation_at(0, 1, 1)] = 10
    return book, tables


class AppFeed(unittest.TestCase):
    def refused(self, code, call, *arguments):
        with self.assertRaises(Refused) as caught:
            call(*arguments)
        self.assertEqual(caught.exception.code, code)

    def test_figures_and_their_bits(self):
        book, tables = spread(100_000)
        feed = book.app(tables, 0)
        self.assertEqual(feed.figures, (1e5, 5e4, 3e3, 1e4, 5.7e4))
        self.assertEqual(feed.figures, tuple(map(float, book.report(tables, 0))))
        self.assertEqual(struct.pack("=5Q", *feed.bits), struct.pack("=5d", *feed.figures))
        self.assertEqual(feed.bits[FIGURE_VALUATION], 0x40F8_6A00_0000_0000)
        self.assertEqual(app_read(feed.bits), feed.figures)

    def test_gauges(self):
        gauges = {
            100_000: (GAUGE_USED, 0.43),
            43_000: (GAUGE_USED, 1.0),
            42_999: (GAUGE_OVER, 1.0),
            1: (GAUGE_OVER, 42_999.0),
            0: (GAUGE_EMPTY, 0.0),
            -1: (GAUGE_EMPTY, 0.0),
        }
        for rubles, wanted in gauges.items():
            book, tables = spread(rubles)
            feed = book.app(tables, 0)
            self.assertEqual((feed.gauge, feed.shown), wanted, rubles)

    def test_zeros(self):
        book = Book()
        book.open(0, ACCOUNT_ORDINARY, 0)
        self.assertEqual(book.app(Tables(), 0).bits, 5 * (0,), "not -0.0")

    def test_refused(self):
        book, tables = spread(0)
        self.refused(Code.NO_ACCOUNT, book.app, tables, 16)
        self.refused(Code.NOT_OPEN, book.app, tables, 1)
        tables.groups[7] = 51
        self.refused(Code.BROKEN_NUMBER, book.app, tables, 0)
        tables.groups = array("q")
        self.refused(Code.WRONG_LENGTH, book.app, tables, 16)

    def test_figures_too_large(self):
        """Accounts on one settlement code, each with as much as a block can hold, 2,340,000,000,000,000 kopecks: four of them come beyond 2^53."""
        book, tables = Book(), Tables()
        for asset in range(ASSETS):
            tables.clearing[row_at(asset, ROW_KIND) : row_at(asset, ROW_POOL_SHARE)] = array("q", [ASSET_SECURITY, MOST_PRICE, WHOLE])
        for account in range(4):
            book.open(account, ACCOUNT_ORDINARY, 1)
            for at in range(BLOCK_RUBLE_COLLATERAL, BLOCK_SPARE):
                book.numbers[block_at(account, at)] = MOST_RUBLES
            for asset in range(ASSETS):
                for at in range(HOLDING_OBLIGATIONS):
                    book.numbers[collateral_at(account, asset) + at] = MOST_UNITS
            valuation = 2_340_000_000_000_000 * (account + 1)
            self.assertEqual(book.report(tables, 0).valuation, valuation)
            if valuation < 2**53:
                self.assertEqual(book.app(tables, 0).figures.valuation, valuation)
            else:
                self.refused(Code.OUT_OF_BOUNDS, book.app, tables, 0)

    def test_reading_back(self):
        bits = [1, MINUS, INFINITY, MINUS | INFINITY, 0]
        self.assertEqual(struct.pack("=5d", *app_read(bits)), struct.pack("=5Q", *bits), "any pattern but a NaN's")
        for at in range(5):
            for nan in (INFINITY + 1, 2**64 - 1):
                self.refused(Code.OUT_OF_BOUNDS, app_read, bits[:at] + [nan] + bits[at + 1 :])
        for length in (0, 4, 6):
            self.refused(Code.WRONG_LENGTH, app_read, length * [2**64 - 1])
        self.assertRaises(OverflowError, app_read, [2**64, 0, 0, 0, 0])
        self.assertRaises(OverflowError, app_read, [-1, 0, 0, 0, 0])


if __name__ == "__main__":
    unittest.main()
