"""Why a call was turned away."""

from enum import IntEnum


class Code(IntEnum):
    """The codes of a refusal, by the header's names. They are looked for in the order 1, 2, 13, 3, 6, 4, 5, 7, 8, 9, 10."""

    WRONG_LENGTH = 1
    BROKEN_NUMBER = 2
    NO_ACCOUNT = 3
    NOT_OPEN = 4
    ALREADY_OPEN = 5
    BROKEN_BLOCK = 6
    WRONG_CHOICE = 7
    WRONG_AMOUNT = 8
    OUT_OF_BOUNDS = 9
    NEGATIVE_LIMIT = 10
    LAXER_OWN_ROW = 13


WORDS = {
    Code.WRONG_LENGTH: "a lent length is wrong",
    Code.BROKEN_NUMBER: "the table check finds a broken number",
    Code.NO_ACCOUNT: "account number not 0 to 15",
    Code.NOT_OPEN: "account not open",
    Code.ALREADY_OPEN: "open on an open account",
    Code.BROKEN_BLOCK: "block, or another on its settlement code, breaks the block rules; two kinds or more than four blocks on that code; "
    "where tables are lent, also a nonzero holding of one of them in an unlisted asset",
    Code.WRONG_CHOICE: "asset unlisted or not 0 to 15 (a move also takes 255, rubles), date not 0 to 7, side not 0 or 1, "
    "account kind to open not 1 to 3, settlement code to open on not 0 to 15, or with four blocks on it already, "
    "or with one on it of another kind or a broken one",
    Code.WRONG_AMOUNT: "quantity not 1 to 10^6; order money not 0 to 10^14; "
    "move 0, or beyond 10^6 either way (10^14 for rubles)",
    Code.OUT_OF_BOUNDS: "a number would leave its bounds, or a withdrawal would leave collateral below 0; "
    "a figure for the app of 2^53 or more in size; a NaN's pattern read back",
    Code.NEGATIVE_LIMIT: "limit after a withdrawal would be negative, or after an order negative and not raised by it",
    Code.LAXER_OWN_ROW: "the table check finds an own row that is laxer than its clearing row",
}


class Refused(Exception):
    """A call was turned away and nothing was altered. `code` says why; `place` is that of the first broken number where Tables.check
    answered BROKEN_NUMBER, of the first laxer one where it answered LAXER_OWN_ROW, else 0."""

    def __init__(self, code, place=0):
        self.code = Code(code)
        self.place = place
        super().__init__(WORDS[self.code])


def passed(code, place=0):
    if code != 0:
        raise Refused(code, place)
