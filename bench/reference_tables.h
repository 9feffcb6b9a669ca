/* The reference's names and its table check: what bench/reference.c begins with.
 *
 * A rule is asked without a branch: it gives a number whose sign bit says that it is broken, and these are joined, two dates or two neighbours at a
 * time in a vector of two numbers, which every x86-64 and aarch64 has. Only where the sign is set a place is looked for, number by number.
 * Unchecked numbers are unsigned: they may wrap, which C defines, and each rule is arranged so that a wild number never passes by wrapping. */
#ifndef REFERENCE_TABLES_H
#define REFERENCE_TABLES_H

typedef __INT64_TYPE__ i64;
typedef __UINT64_TYPE__ u64;
typedef __UINT8_TYPE__ u8;
typedef __SIZE_TYPE__ size;
/* Two numbers, wherever they stand. */
typedef u64 pair __attribute__((vector_size(16), aligned(8), may_alias));

enum { ACCOUNTS = 16, ASSETS = 16, DATES = 8, GROUPS = 8, MEMBERS = 4 };
enum { BLOCK = 288, BOOK = ACCOUNTS * BLOCK, ROW = 64, TABLE = ASSETS * ROW, DATE = 5, HOLDING = 17, FIGURES = 5 };
enum { KIND, PRICE, ACCEPTANCE_SHARE, POOL_SHARE, COVERED_SALES, SPECIAL_DELIVERY, FALL, RISE, RAISED_FALL, RAISED_RISE, MARKET_LIMIT,
       INTEREST_LIMIT, GROUP, FIRST_DATE = 16, REST = 56 };
enum { MID, LOW, UP, OUTER_LOW, OUTER_UP };
enum { UNLISTED, CURRENCY = 2, COMMODITY = 3, NOT_RECORDED = 1, PARTIAL = 2 };
enum { RUBLES = 1, NETS = 2, UNUSED = 10, CODE = 13, HOLDINGS = 16, COLLATERAL = 0, CLAIMS = 1, OBLIGATIONS = 9 };
enum { NOT_OPEN, ORDINARY, POOL, LISTED_POOL, MOST_CODE = 15, ASSET_OF_RUBLES = 255, BUY = 0, SELL = 1 };
enum { OWN_PLACE = TABLE, GROUPS_PLACE = 2 * TABLE };
enum { DONE, WRONG_LENGTH, BROKEN_NUMBER, NO_ACCOUNT, NOT_OPENED, ALREADY_OPEN, BROKEN_BLOCK, WRONG_CHOICE, WRONG_AMOUNT, OUT_OF_BOUNDS,
       NEGATIVE_LIMIT, LAXER_OWN_ROW = 13 };
enum { WHOLE = 10000, MOST_UNITS = 1000000, MOST_PRICE = 10000000, WIDEST = 10000000, MOST_PERCENT = 50, HUNDRED = 100 };
#define MOST_RUBLES 100000000000000

/* No branch is to be made of these: it would go either way. */
static inline i64 least(i64 a, i64 b) { return __builtin_unpredictable(a < b) ? a : b; }
static inline i64 most(i64 a, i64 b) { return __builtin_unpredictable(a > b) ? a : b; }

/* Faults: the sign bit is set where a number breaks its rule. */
static inline u64 unless_0_to(u64 number, u64 highest) { return number | (highest - number); }
static inline u64 unless_within(u64 number, u64 highest) { return (number + highest) | (highest - number); }
static inline u64 unless_0(u64 number) { return number | -number; }
static inline int is_set(u64 faults) { return (i64)faults < 0; }

static inline u64 joined(const u64 *numbers, size count) {
    u64 all = 0;
    for (size n = 0; n < count; n++) all |= numbers[n];
    return all;
}

static inline u64 of_both(pair faults) { return faults[0] | faults[1]; }

/* The greatest that each number before the dates may be. */
static const u64 HEAD[FIRST_DATE] = {COMMODITY, MOST_PRICE, WHOLE, WHOLE, PARTIAL, 1, WHOLE, WHOLE, WHOLE, WHOLE, WIDEST, WIDEST, GROUPS, 0, 0, 0};

static inline u64 head_faults(const u64 *row) {
    u64 faults = (row[KIND] - 1) | (row[PRICE] - 1) | (row[RAISED_FALL] - row[FALL]) | (row[RAISED_RISE] - row[RISE]);
    for (size n = 0; n < FIRST_DATE; n++) faults |= unless_0_to(row[n], HEAD[n]);
    u64 unequal = (row[FALL] ^ row[RISE]) | (row[RAISED_FALL] ^ row[RAISED_RISE]);
    return faults | (row[KIND] == COMMODITY ? unless_0(unequal) : 0);
}

/* A number of a date and of the next date. */
static inline pair of_two(const u64 *number) { return (pair){number[0], number[DATE]}; }

/* Of a distance from mid and of the outer one: 0 to the outer, which is at most WIDEST. Mids that pass are small, so that a wild low or up leaves
 * one of these negative, however it wraps. */
static inline pair distance_faults(pair inner, pair outer) { return inner | (outer - inner) | outer | (WIDEST - outer); }

static inline pair two_dates_faults(const u64 *row, const u64 *date) {
    pair mid = of_two(date + MID), forward = mid + row[PRICE];
    pair lows = distance_faults(mid - of_two(date + LOW), mid - of_two(date + OUTER_LOW));
    pair ups = distance_faults(of_two(date + UP) - mid, of_two(date + OUTER_UP) - mid);
    return forward | (MOST_PRICE - forward) | lows | ups;
}

static inline u64 listed_row_faults(const u64 *row) {
    pair dates = {0, 0};
    for (size n = FIRST_DATE; n < REST; n += 2 * DATE) dates |= two_dates_faults(row, row + n);
    return head_faults(row) | of_both(dates) | unless_0(joined(row + REST, ROW - REST));
}

/* Where an own row that passed is laxer than a clearing row that passed. */
static inline u64 laxer_faults(const u64 *own, const u64 *clearing) {
    u64 other = (own[PRICE] ^ clearing[PRICE]) | (own[COVERED_SALES] ^ clearing[COVERED_SALES]) | (own[GROUP] ^ clearing[GROUP]);
    u64 head = (clearing[MARKET_LIMIT] - own[MARKET_LIMIT]) | (clearing[INTEREST_LIMIT] - own[INTEREST_LIMIT]);
    head |= (clearing[ACCEPTANCE_SHARE] - own[ACCEPTANCE_SHARE]) | (clearing[POOL_SHARE] - own[POOL_SHARE]);
    for (size n = SPECIAL_DELIVERY; n <= RAISED_RISE; n++) head |= own[n] - clearing[n];
    pair other_mids = {0, 0}, dates = {0, 0};
    for (size n = FIRST_DATE; n < REST; n += 2 * DATE) {
        const u64 *ours = own + n, *theirs = clearing + n;
        other_mids |= of_two(ours + MID) ^ of_two(theirs + MID);
        dates |= of_two(theirs + LOW) - of_two(ours + LOW);
        dates |= of_two(theirs + OUTER_LOW) - of_two(ours + OUTER_LOW);
        dates |= of_two(ours + UP) - of_two(theirs + UP);
        dates |= of_two(ours + OUTER_UP) - of_two(theirs + OUTER_UP);
    }
    return head | of_both(dates) | unless_0(other | of_both(other_mids));
}

/* What follows finds places, where something is known to be broken or laxer. */
static int is_broken(const u64 *row, size n) {
    if (row[KIND] == UNLISTED || n >= REST) return row[n] != 0;
    if (n < FIRST_DATE) {
        u64 faults = unless_0_to(row[n], HEAD[n]) | (n <= PRICE ? row[n] - 1 : 0);
        if (n == RAISED_FALL || n == RAISED_RISE) faults |= row[n] - row[n - 2];
        int equal = (n != RISE && n != RAISED_RISE) || row[KIND] != COMMODITY || row[n] == row[n - 1];
        return is_set(faults) || !equal;
    }
    const u64 *date = row + n - (n - FIRST_DATE) % DATE;
    u64 mid = date[MID], outer_low = mid - date[OUTER_LOW], outer_up = date[OUTER_UP] - mid;
    switch ((n - FIRST_DATE) % DATE) {
    case MID: return is_set(unless_0_to(row[PRICE] + mid, MOST_PRICE));
    case LOW: return is_set(unless_0_to(mid - date[LOW], WIDEST));
    case UP: return is_set(unless_0_to(date[UP] - mid, WIDEST));
    case OUTER_LOW: return is_set(unless_0_to(outer_low, WIDEST) | (outer_low - (mid - date[LOW])));
    default: return is_set(unless_0_to(outer_up, WIDEST) | (outer_up - (date[UP] - mid)));
    }
}

/* What passes as a whole is not looked at again. */
__attribute__((noinline)) static size first_broken(const u64 *row) {
    size n = 0;
    if (row[KIND] != UNLISTED && !is_set(head_faults(row))) {
        n = FIRST_DATE;
        while (n < REST && !is_set(of_both(two_dates_faults(row, row + n)))) n += 2 * DATE;
    }
    while (!is_broken(row, n)) n++;
    return n;
}

/* How an own number may stand to the clearing row's, by number; a date's five stand behind the head. */
enum { ANY, SAME, NO_GREATER, NO_SMALLER };
static const u8 STAND[FIRST_DATE + DATE] = {ANY, SAME, NO_GREATER, NO_GREATER, SAME, NO_SMALLER, NO_SMALLER, NO_SMALLER, NO_SMALLER, NO_SMALLER,
                                            NO_GREATER, NO_GREATER, SAME, ANY, ANY, ANY, SAME, NO_GREATER, NO_SMALLER, NO_GREATER, NO_SMALLER};

static int is_laxer(i64 own, i64 clearing, size n) {
    int stand = n >= REST ? ANY : STAND[n < FIRST_DATE ? n : FIRST_DATE + (n - FIRST_DATE) % DATE];
    return (own > clearing && (stand == SAME || stand == NO_GREATER)) || (own < clearing && (stand == SAME || stand == NO_SMALLER));
}

/* Of own rows the first number of which is 0 all are, since they passed. */
__attribute__((noinline)) static size first_laxer(const u64 *own, const u64 *clearing) {
    size n = 0;
    while (own[n / ROW * ROW] == UNLISTED || !is_laxer((i64)own[n], (i64)clearing[n], n % ROW)) n++;
    return n;
}

typedef struct {
    u8 code;
    size place;
    unsigned listed; /* a bit an asset */
} Checked;

static inline Checked check(const u64 *clearing, const u64 *own, const u64 *groups) {
    Checked sound = {DONE, 0, 0};
    u64 laxer = 0, percents = 0;
    for (size at = 0; at < TABLE; at += ROW) {
        const u64 *row = clearing + at;
        u64 faults = row[KIND] == UNLISTED ? unless_0(joined(row, ROW)) : listed_row_faults(row);
        if (is_set(faults)) return (Checked){BROKEN_NUMBER, at + first_broken(row), 0};
        sound.listed |= (unsigned)(row[KIND] != UNLISTED) << at / ROW;
    }
    for (size at = 0; at < TABLE; at += ROW) {
        const u64 *row = own + at;
        if (row[KIND] == UNLISTED) {
            if (joined(row, ROW)) return (Checked){BROKEN_NUMBER, OWN_PLACE + at, 0};
            continue;
        }
        if (row[KIND] != clearing[at]) return (Checked){BROKEN_NUMBER, OWN_PLACE + at, 0};
        if (is_set(listed_row_faults(row))) return (Checked){BROKEN_NUMBER, OWN_PLACE + at + first_broken(row), 0};
        laxer |= laxer_faults(row, clearing + at);
    }
    for (size g = 0; g < GROUPS; g++) percents |= unless_0_to(groups[g], MOST_PERCENT);
    if (is_set(percents)) {
        size g = 0;
        while (groups[g] <= MOST_PERCENT) g++;
        return (Checked){BROKEN_NUMBER, GROUPS_PLACE + g, 0};
    }
    if (is_set(laxer)) return (Checked){LAXER_OWN_ROW, OWN_PLACE + first_laxer(own, clearing), 0};
    return sound;
}

#endif
