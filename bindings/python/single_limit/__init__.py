"""The Single Limit engine for Python, over a shared library that make-library makes from the engine's archive. Standard library only.

    import single_limit
    from single_limit.names import *

    single_limit.load("libsingle_limit.so")  # or SINGLE_LIMIT_LIBRARY in the environment
    book, tables = single_limit.Book(), single_limit.Tables()
    book.open(0, ACCOUNT_ORDINARY, 0)
    book.move(tables, 0, RUBLES, 100_000)
    book.report(tables, 0).limit  # 100000

include/single_limit.h explains rows, blocks and codes number by number."""

from . import names
from .engine import Book, Figures, Tables, block_at, claim_at, collateral_at, date_at, obligation_at, row_at, ruble_net_at
from .face import load
from .feed import Feed, Floats, app_read
from .refusal import Code, Refused

__version__ = "3.0.1"
