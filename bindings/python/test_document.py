"""Document 01's session, its sums S1 to S12, the orders at the edge, the cover test, settlement codes and refusals. SINGLE_LIMIT_LIBRARY names the
library."""

import contextlib
import io
import re
import unittest
from array import array
from pathlib import Path

from single_limit import Book, Code, Refused, Tables, block_at, claim_at, collateral_at, obligation_at, row_at, ruble_net_at
from single_limit.names import *

HEAD = [ASSET_SECURITY, 10_000, 5_000, 10_000, SALES_RECORDED, 0, 2_000, 3_000, 4_000, 5_000, 100, 100, 1, 0, 0, 0]
ROW_A = array("q", HEAD + DATES * [0, -100, 200, -200, 300] + (ROW_LENGTH - ROW_REST) * [0])

FORTY, SOLD = {collateral_at(0, 0): 40}, {obligation_at(0, 0, 0): 30}
SMALL = {ROW_PRICE: 3, ROW_FALL: 1, ROW_RISE: 1, ROW_RAISED_FALL: 1, ROW_RAISED_RISE: 1} | {n: 0 for n in range(ROW_DATES, ROW_REST)}

# Name, kind of the account, numbers of row A that are otherwise, numbers of the book, figures.
SUMS = [
    ("S1", 1, {}, {}, (0, 0, 0, 0, 0)),
    ("S2", 1, {}, FORTY, (200000, 40000, 2000, 0, 158000)),
    ("S2 in a pool", 2, {}, FORTY, (200000, 40000, 2000, 0, 158000)),
    ("S3", 1, {}, FORTY | SOLD, (100000, 20000, 1000, 0, 79000)),
    ("S4", 1, {}, {obligation_at(0, 0, 2): 10}, (-100000, 30000, 2000, 0, -132000)),
    ("S5", 1, {}, {claim_at(0, 0, 1): 150}, (1500000, 400000, 20000, 0, 1080000)),
    ("S6", 3, {}, FORTY, (400000, 80000, 4000, 0, 316000)),
    ("S7", 1, {ROW_COVERED_SALES: SALES_NOT_RECORDED}, FORTY | SOLD, (-300000, 90000, 6000, 0, -396000)),
    ("S8", 1, {ROW_ACCEPTANCE_SHARE: 0, ROW_COVERED_SALES: SALES_PARTIAL}, FORTY | SOLD, (-300000, 0, 0, 0, -300000)),
    ("S9", 1, {ROW_KIND: ASSET_CURRENCY_OR_METAL, ROW_ACCEPTANCE_SHARE: 0}, {claim_at(0, 0, 0): 10}, (0, 20000, 1000, 0, -21000)),
    ("S10", 1, {ROW_SPECIAL_DELIVERY: 1}, FORTY | {claim_at(0, 0, 1): 30, obligation_at(0, 0, 2): 30}, (0, 90000, 3000, 0, -93000)),
    ("S12", 1, SMALL, {claim_at(0, 0, 1): 1}, (3, 1, 0, 0, 2)),
]


def start(kind=ACCOUNT_ORDINARY):
    """An open account, asset 0 with row A, group 1 at 25 percent."""
    book, tables = Book(), Tables()
    tables.clearing[:ROW_LENGTH] = ROW_A
    tables.groups[0] = 25
    book.open(0, kind, 0)
    return book, tables


class Document(unittest.TestCase):
    def refused(self, code, call, *arguments):
        with self.assertRaises(Refused) as caught:
            call(*arguments)
        self.assertEqual(caught.exception.code, code)
        return caught.exception

    def test_session(self):
        book, tables = Book(), Tables()
        book.open(0, ACCOUNT_ORDINARY, 0)
        book.move(tables, 0, RUBLES, 100_000)
        self.assertEqual(book.report(tables, 0), (100_000, 0, 0, 0, 100_000))

    def test_sums(self):
        for name, kind, otherwise, held, figures in SUMS:
            book, tables = start(kind)
            for at, value in otherwise.items():
                tables.clearing[at] = value
            for at, value in held.items():
                book.numbers[at] = value
            self.assertEqual(book.report(tables, 0), figures, name)

    def test_spread(self):
        book, tables = start()
        tables.clearing[row_at(1, 0) : row_at(2, 0)] = ROW_A
        book.numbers[claim_at(0, 0, 1)] = 10
        book.numbers[obligation_at(0, 1, 1)] = 10
        self.assertEqual(book.report(tables, 0), (0, 50_000, 3_000, 10_000, -43_000), "S11")

    def test_orders_at_the_edge(self):
        book, tables = start()
        ten = (tables, 0, 0, 1, BUY, 10, 100_000)
        book.move(tables, 0, RUBLES, 20_999)
        before = book.numbers[:]
        refusal = self.refused(Code.NEGATIVE_LIMIT, book.order, *ten)
        self.assertEqual(str(refusal), "limit after a withdrawal would be negative, or after an order negative and not raised by it")
        self.assertEqual(book.numbers, before)
        book.move(tables, 0, RUBLES, 1)
        book.order(*ten)
        self.assertEqual(book.report(tables, 0).limit, 0)
        self.assertEqual(book.numbers[ruble_net_at(0, 1)], -100_000)
        book.roll(0)
        self.assertEqual(book.numbers[claim_at(0, 0, 0)], 10)

    def test_cover(self):
        _, tables = start()
        for raised_fall, passes in ((4_000, True), (9_700, True), (9_800, False)):
            tables.clearing[ROW_RAISED_FALL] = raised_fall
            self.assertEqual(tables.covers(0), passes)
        self.assertFalse(tables.covers(1) or tables.covers(16))

    def test_two_accounts_on_one_settlement_code(self):
        """Accounts 1 and 2 on one code, account 0 on none: 40 units in one and an obligation of 30 in the other. Collateral is adjusted within each
        block, so 20 of the 40 count, as in S2, and the code is short of 10, as in S4; in one block the 40 would cover the sale, as in S3."""
        book, tables = start()
        for account in (1, 2):
            book.open(account, ACCOUNT_ORDINARY, LAST_SETTLEMENT_CODE)
            self.assertEqual(book.numbers[block_at(account, BLOCK_SETTLEMENT_CODE)], 15)
        book.numbers[collateral_at(1, 0)] = 40
        book.numbers[obligation_at(2, 0, 0)] = 30
        for account in (1, 2):
            self.assertEqual(book.report(tables, account), (-100_000, 30_000, 2_000, 0, -132_000))
        book.move(tables, 1, RUBLES, 132_000)
        self.assertEqual(book.report(tables, 2).limit, 0)
        self.refused(Code.NEGATIVE_LIMIT, book.move, tables, 1, RUBLES, -1)
        self.assertEqual(book.report(tables, 0), (0, 0, 0, 0, 0))

    def test_settlement_codes_that_cannot_be_shared(self):
        book, tables = start()
        for code in (-1, LAST_SETTLEMENT_CODE + 1):
            self.refused(Code.WRONG_CHOICE, book.open, 1, ACCOUNT_ORDINARY, code)
        for account in range(1, 5):
            book.open(account, ACCOUNT_POOL, 7)
        before = book.numbers[:]
        self.refused(Code.WRONG_CHOICE, book.open, 5, ACCOUNT_POOL, 7)
        self.assertEqual(book.numbers, before)
        book.numbers[block_at(4, BLOCK_KIND)] = ACCOUNT_ORDINARY
        for account in range(1, 5):
            self.refused(Code.BROKEN_BLOCK, book.report, tables, account)
        self.assertEqual(book.report(tables, 0), (0, 0, 0, 0, 0))

    def test_refusals(self):
        book, tables = start()
        self.refused(Code.NO_ACCOUNT, book.roll, 16)
        self.refused(Code.NOT_OPEN, book.report, tables, 1)
        self.refused(Code.ALREADY_OPEN, book.open, 0, ACCOUNT_POOL, 0)
        self.refused(Code.WRONG_CHOICE, book.order, tables, 0, 0, 8, BUY, 1, 0)
        self.refused(Code.WRONG_AMOUNT, book.order, tables, 0, 0, 7, BUY, 0, 0)
        self.refused(Code.OUT_OF_BOUNDS, book.move, tables, 0, 0, -1)
        book.numbers[block_at(2, BLOCK_SPARE)] = 1
        self.refused(Code.BROKEN_BLOCK, book.roll, 2)
        tables.check()
        tables.own[row_at(3, ROW_KIND)] = ASSET_COMMODITY
        self.assertEqual(self.refused(Code.BROKEN_NUMBER, tables.check).place, PLACE_OWN + row_at(3, ROW_KIND))
        self.refused(Code.BROKEN_NUMBER, book.report, tables, 0)
        for length in (0, 5):
            tables.groups = array("q", length * [0])
            self.refused(Code.WRONG_LENGTH, book.report, tables, 0)

    def test_an_own_row_may_only_be_stricter(self):
        book, tables = start()
        tables.own[:ROW_LENGTH] = tables.clearing[:ROW_LENGTH]
        tables.check()
        tables.own[ROW_ACCEPTANCE_SHARE] = 9_000
        self.assertEqual(self.refused(Code.LAXER_OWN_ROW, tables.check).place, PLACE_OWN + ROW_ACCEPTANCE_SHARE)
        self.refused(Code.LAXER_OWN_ROW, book.report, tables, 16)
        tables.groups[7] = 51
        self.refused(Code.BROKEN_NUMBER, book.report, tables, 16)

    def test_numbers_of_64_bits(self):
        """Nothing is cut to fit: 2^64 is not account 0."""
        book, tables = start()
        self.assertRaises(OverflowError, book.roll, 2**64)
        self.assertRaises(OverflowError, book.move, tables, 0, RUBLES, 2**63)
        self.assertRaises(TypeError, book.move, tables, 0, RUBLES, 1.5)
        tables.groups = array("b", 8 * [0])
        self.assertRaises(TypeError, tables.check)

    def test_page(self):
        """The example of the page on linking."""
        page = Path(__file__).resolve().parents[2] / "docs/LINKING.md"
        printed = io.StringIO()
        with contextlib.redirect_stdout(printed):
            exec(re.search(r"^```python\n(.*?)^```", page.read_text(), re.M | re.S)[1], {})
        self.assertEqual(printed.getvalue(), "limit 9000\n")


if __name__ == "__main__":
    unittest.main()
