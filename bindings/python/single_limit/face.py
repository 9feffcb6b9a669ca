"""The functions of include/single_limit.h by ctypes; tests/header holds their parameters to the header's."""

import ctypes
import operator
import os

NUMBERS = ctypes.POINTER(ctypes.c_int64)
UNSIGNED = ctypes.POINTER(ctypes.c_uint64)
FLOATS = ctypes.POINTER(ctypes.c_double)
GAUGE = ctypes.POINTER(ctypes.c_uint8)
LENGTH = ctypes.c_size_t
NUMBER = ctypes.c_int64

BOOK = [("book", NUMBERS), ("book_length", LENGTH)]
RATES = [("clearing", NUMBERS), ("clearing_length", LENGTH), ("own", NUMBERS), ("own_length", LENGTH)]
TABLES = RATES + [("groups", NUMBERS), ("groups_length", LENGTH)]
BITS = [("bits", UNSIGNED), ("bits_length", LENGTH)]

# What an array of a typecode holds.
HELD = {"q": ctypes.c_int64, "Q": ctypes.c_uint64, "d": ctypes.c_double}


def numbers(*words):
    return [(word, NUMBER) for word in words]


FUNCTIONS = {
    "single_limit_check_tables": TABLES + [("place", UNSIGNED)],
    "single_limit_covers": RATES + numbers("asset"),
    "single_limit_open": BOOK + numbers("account", "kind", "code"),
    "single_limit_move": BOOK + TABLES + numbers("account", "asset", "amount"),
    "single_limit_order": BOOK + TABLES + numbers("account", "asset", "date", "side", "quantity", "money"),
    "single_limit_roll": BOOK + numbers("account"),
    "single_limit_report": BOOK + TABLES + numbers("account") + [("figures", NUMBERS), ("figures_length", LENGTH)],
    "single_limit_app": BOOK + TABLES + numbers("account") + BITS + [("gauge", GAUGE), ("shown", FLOATS)],
    "single_limit_app_read": BITS + [("figures", FLOATS), ("figures_length", LENGTH)],
}

loaded = None


def load(path=None):
    """Loads the shared library at a path, or at SINGLE_LIMIT_LIBRARY. The first call of the engine does so by itself.

    A call holds the interpreter's lock (PyDLL): it takes microseconds, and no other thread sees a book half written."""
    global loaded
    library = ctypes.PyDLL(os.path.abspath(path or os.environ["SINGLE_LIMIT_LIBRARY"]))
    for name, parameters in FUNCTIONS.items():
        function = getattr(library, name)
        function.argtypes = [kind for _, kind in parameters]
        function.restype = ctypes.c_uint8
    loaded = library


def number(value):
    """A number that the engine can be given: ctypes would cut a longer one to 64 bits without a word."""
    value = operator.index(value)
    if not -(2**63) <= value < 2**63:
        raise OverflowError(f"{value} is not a signed 64-bit number")
    return value


def lent(*arrays, typecode="q"):
    """Pointer and length of each array: numbers are 'q', bits 'Q', floats 'd'."""
    for numbers_lent in arrays:
        if numbers_lent.typecode != typecode:
            raise TypeError(f"numbers are lent as array('{typecode}')")
        # An empty array has no buffer to point to; the engine refuses its length before it looks.
        room = numbers_lent if len(numbers_lent) else bytearray(8)
        yield (HELD[typecode] * (len(numbers_lent) or 1)).from_buffer(room)
        yield len(numbers_lent)


def call(name, *arguments):
    """A function by its name, without its single_limit_; answers the code."""
    if loaded is None:
        load()
    return getattr(loaded, f"single_limit_{name}")(*arguments)
