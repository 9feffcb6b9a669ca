"""bench/document.py CHECKED UNCHECKED SESSION: prints docs/BENCHMARKS.md of what bench-calls printed with the second program's overflow checks on and
off, and bench-session. The environment has the rest."""

import sys
from os import environ
from pathlib import Path
from statistics import median

from measured import ENGINE, REFERENCE, SECOND, Case, micro, milli, ratio, read

CHECKED, UNCHECKED, SESSION = (read(path) for path in sys.argv[1:])
METHOD = Path(__file__).with_name("method.md")

CALLS = ["table check", "report", "order admitted", "order refused (10)", "order in trouble, refused (10)", "order in trouble, admitted"]
ORDERS = CALLS[2:]
ASSETS = [1, 4, 16]
SIDES = [ENGINE, SECOND, REFERENCE]

# The goals, and where the first of them is asked.
AGAINST_SECOND, AGAINST_REFERENCE, MOST_REPORTS = 2.0, 0.95, 1.2
ASKED = [Case("assets", call, listed) for call in CALLS[:4] for listed in ASSETS]
# Microseconds of a full report by hand with AVX-512 intrinsics, measured once elsewhere.
PRACTICAL_LIMIT = 0.54

NOUNS = {"assets": ("asset", "assets"), "own rows": ("own row", "own rows"), "blocks": ("block on the code", "blocks on the code")}


def described(case):
    if case.set in NOUNS:
        return f"{case.call} with {case.count} {NOUNS[case.set][case.count != 1]}"
    return {"place": f"table check, broken at place {case.count}", "code": f"report refused with {case.count}", "session": case.call}[case.set]


def against(case, other, measured=CHECKED):
    times = measured[case]
    return ratio(times[ENGINE], times[other])


def table(head, rows):
    print(f"| {' | '.join(head)} |")
    print(f"|{'---|' * len(head)}")
    for row in rows:
        print(f"| {' | '.join(str(cell) for cell in row)} |")


def section(title, *text):
    print(f"\n## {title}\n")
    for paragraph in text:
        print(f"{paragraph}\n")


TIMES = ["engine", "second", "tuned C", "engine ÷ second", "engine ÷ tuned C"]


def times(case, measured=CHECKED):
    """The cells under TIMES."""
    return [*(micro(measured[case][side]) for side in SIDES), against(case, SECOND, measured), against(case, REFERENCE, measured)]


def unchecked(case):
    return against(case, SECOND, UNCHECKED)


def origin():
    print("# Benchmarks\n")
    print("The engine, the second program's library and the same rules in C tuned by hand (bench/reference.c), called on the same arrays in one process, in turn. `bench/run` measures and writes this page.\n")
    print(f"- Date: {environ['DATE']}; load of the machine at the start {environ['LOAD']}, at the end {environ['LOAD_AFTER']}. Times are CPU times of the thread, and a ratio is of two slices that follow each other: other work on the machine slows both.")
    print(f"- Machine: {environ['PROCESSOR']}.")
    print(f"- Engine: {environ['COMPILED']}.")
    print(f"- Second program: {environ['RUSTC']}, release, opt-level 3, whole-program optimization, overflow checks on as its Cargo.toml has them.")
    print(f"- Tuned C: {environ['REFERENCE']}.")
    print(f"- Kit: {environ['KIT']}.")


def main_table():
    section(
        "The calls with 1, 4 and 16 assets",
        "So many assets listed, a third of them with an own row, and all held by every account on all 8 dates. Microseconds a call, the median of the rounds. A ratio above 1 says that the engine is faster: the other's time by the engine's in the same round, the median of the rounds with their 10th and 90th percentile. The last column is against the second program compiled without overflow checks.",
    )
    cases = [Case("assets", call, listed) for call in CALLS for listed in ASSETS]
    rows = [[case.call, case.count, *times(case), unchecked(case)] for case in cases]
    lines = [[case.call, "", *times(case, SESSION), ""] for case in SESSION if case.set == "session"]
    table(["call", "assets", *TIMES, "without overflow checks"], rows + lines)


def limit():
    section("How far it is to the practical limit")
    engine, reference = (median(CHECKED[Case("assets", "report", 16)][side]) / 1000 for side in (ENGINE, REFERENCE))
    print(f"A report of 16 assets takes the engine {engine:.2f} µs and the tuned C {reference:.2f} µs. The practical limit is about {PRACTICAL_LIMIT} µs: the same rules by hand with AVX-512 intrinsics, measured once elsewhere on an x86-64. The engine takes {engine / PRACTICAL_LIMIT:.1f} times that, the tuned C {reference / PRACTICAL_LIMIT:.1f} times; both are compiled for any processor of the machine's kind.")


def orders():
    section(
        "What an order costs in reports of accounts with the same assets",
        "An order that passes on the first ground, a limit after it of zero or more, takes one valuation, as a report does. An order refused with 10 takes a second, and so does one in trouble that leaves the limit negative, admitted or not: the limit before an order is worked out only where the limit after it is negative.",
    )
    rows = []
    for listed in ASSETS:
        report = CHECKED[Case("assets", "report", listed)]
        for call in ORDERS:
            order = CHECKED[Case("assets", call, listed)]
            rows.append([call, listed, *(ratio(report[side], order[side]) for side in SIDES)])
    table(["order", "assets", "engine", "second", "tuned C"], rows)


def growth():
    section(
        "How cost grows",
        "With no asset listed all rows and holdings are zeros, and are looked at. Broken tables have 16 assets: their number at place 0 is the first that is looked at, that at 1023 the last of the clearing table, that at 2055 the last of all. A report refused with 3 has looked at the tables, one refused with 6 at all of a block whose last number is broken, one refused with 4 at a block of 288 zeros.",
    )
    cases = [Case("assets", call, listed) for call in CALLS[:2] for listed in [0, *ASSETS]]
    cases += [case for case in CHECKED if case.set in ("place", "code")]
    table(["call", *TIMES, "without overflow checks"], [[described(case), *times(case), unchecked(case)] for case in cases])


def against_first(of_set, head, first):
    """Each side against the same call of the set's first world, in the same rounds."""
    rows = []
    for case in CHECKED:
        if case.set == of_set:
            least = CHECKED[case._replace(count=first)]
            to_first = [f"{ratio(least[side], CHECKED[case][side]).middle:.2f}" for side in SIDES]
            rows.append([case.call, case.count, *times(case), unchecked(case), *to_first])
    table(["call", head, *TIMES, "without overflow checks", *(f"{side}, to {first}" for side in TIMES[:3])], rows)


def own_rows():
    section(
        "What own rows cost",
        "With 16 assets listed and held and own rows over none, five and all of them. Every own row is compared with its clearing row, and is in force. The last columns are each side against itself without own rows.",
    )
    against_first("own rows", "own rows", 0)


def codes():
    section(
        "What settlement codes cost",
        "With 16 assets listed and held in each block, and one, two and four blocks on the account's code. A report of a code looks at all its blocks. The last columns are each side against itself with a code of one block.",
    )
    against_first("blocks", "blocks", 1)


def session():
    section("Session lines")
    (case,) = (case for case in SESSION if case.set == "session")
    per_second = [f"{1e9 / median(SESSION[case][side]):,.0f}" for side in SIDES]
    starts = [milli(SESSION[Case("start", "session program", 0)][side]) for side in SIDES]
    print(f"The session program itself, `second-session` and the same in C (bench/reference_session.c) on one generated file of {case.count:,} lines, output thrown away, by the CPU time of the process without that of a start on an empty input.\n")
    table(["", *TIMES[:3]], [["lines a second", *per_second], ["ms of CPU to start", *starts]])
    run = SESSION.get(Case("start", "./run", 0))
    if run:
        print(f"\n`./run` looks whether a source is newer before it starts the program: on an empty input it takes {milli(run[ENGINE])} ms by the clock on the wall, once a session.")


def rest(missed):
    return "; ".join(missed) if missed else "nothing"


def missing(cases, other, measured, is_missed):
    ratios = ((case, against(case, other, measured)) for case in cases)
    return [f"{described(case)} ({of_case})" for case, of_case in ratios if is_missed(of_case)]


def verdict():
    section("Against the goal")
    lines = [case for case in SESSION if case.set == "session"]
    slow = missing(ASKED, SECOND, CHECKED, lambda of: of.middle < AGAINST_SECOND) + missing(lines, SECOND, SESSION, lambda of: of.middle < AGAINST_SECOND)
    below = missing(CHECKED, REFERENCE, CHECKED, lambda of: of.middle < AGAINST_REFERENCE) + missing(lines, REFERENCE, SESSION, lambda of: of.middle < AGAINST_REFERENCE)
    unsure = missing(CHECKED, SECOND, CHECKED, lambda of: of.low <= 1) + missing(lines, SECOND, SESSION, lambda of: of.low <= 1)
    bare = missing(UNCHECKED, SECOND, UNCHECKED, lambda of: of.low <= 1)
    dear = []
    for listed in ASSETS:
        report, order = (CHECKED[Case("assets", call, listed)][ENGINE] for call in ("report", "order admitted"))
        if ratio(report, order).middle > MOST_REPORTS:
            dear.append(f"with {listed} {NOUNS['assets'][listed != 1]} ({ratio(report, order)})")
    print(f"- At least {AGAINST_SECOND} times as fast as the second program, by the median: table check, report, order admitted and order refused with 1, 4 and 16 assets, and session lines. Missed by: {rest(slow)}.")
    print(f"- At least {AGAINST_REFERENCE} times as fast as the tuned C everywhere, by the median. Missed by: {rest(below)}.")
    print(f"- Faster than the second program everywhere, the 10th percentile above 1. Missed by: {rest(unsure)}.")
    print(f"- The same against the second program without overflow checks, which no goal asks for. Missed by: {rest(bare)}.")
    print(f"- An order that passes on the first ground (order admitted) at most {MOST_REPORTS} reports. Missed by: {rest(dear)}.")


def method():
    section("How it is measured")
    rounds = len(next(iter(CHECKED.values()))[ENGINE])
    session_rounds = len(next(iter(SESSION.values()))[ENGINE])
    print(METHOD.read_text(encoding="utf-8").format(rounds=rounds, session_rounds=session_rounds), end="")


for part in (origin, main_table, limit, orders, growth, own_rows, codes, session, verdict, method):
    part()
