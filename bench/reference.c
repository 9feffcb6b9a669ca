/* The rules of document 01 with requests #101 to #105 of document 02 once more, in C tuned by hand: beside it the engine is timed. The signatures
 * are those of include/single_limit.h. It is compared with the engine and with the second program before a clock starts (src/same.rs, src/damage.rs).
 *
 * What makes it quick: rules are asked without a branch (reference_tables.h); what is not held is skipped; claims less obligations are made once; one
 * loop over the dates makes worth and interest risk; sums stand in local arrays. Signed sums are made of numbers that passed their rules, and none of
 * these comes near 64 bits. Freestanding: the kit's clang comes without headers. */
#include "reference_tables.h"

/* The blocks of a settlement code; a bit of held an asset that one of them holds. */
typedef struct {
    const i64 *blocks[MEMBERS];
    size count;
    unsigned held;
} Members;

/* Of an open block; what is held comes by the way. */
static inline u64 block_faults(const u64 *block, unsigned *held) {
    u64 faults = (block[KIND] - 1) | unless_0_to(block[KIND], LISTED_POOL) | unless_0_to(block[CODE], MOST_CODE);
    faults |= unless_0(joined(block + UNUSED, CODE - UNUSED) | joined(block + CODE + 1, HOLDINGS - CODE - 1));
    for (size n = RUBLES; n < UNUSED; n++) faults |= unless_within(block[n], MOST_RUBLES);
    pair below = {0, 0}, above = {0, 0};
    for (size a = 0; a < ASSETS; a++) {
        const u64 *holding = block + HOLDINGS + HOLDING * a;
        pair any = {0, 0};
        for (size n = CLAIMS; n < HOLDING; n += 2) {
            pair two = *(const pair *)(holding + n);
            any |= two;
            above |= MOST_UNITS - two;
        }
        below |= any;
        faults |= unless_within(holding[COLLATERAL], MOST_UNITS);
        *held |= (unsigned)((of_both(any) | holding[COLLATERAL]) != 0) << a;
    }
    return faults | of_both(below | above);
}

/* Finds the blocks on a code; 0 where there are more than four. */
static inline int find_members(const i64 *book, i64 code, Members *members) {
    for (size account = 0; account < ACCOUNTS; account++) {
        if (book[BLOCK * account + CODE] != code) continue;
        if (members->count == MEMBERS) return 0;
        members->blocks[members->count++] = book + BLOCK * account;
    }
    return 1;
}

/* Of blocks that are on one code and should be of one kind. */
static inline u64 members_faults(Members *members, i64 kind) {
    u64 faults = 0;
    for (size m = 0; m < members->count; m++) {
        const u64 *block = (const u64 *)members->blocks[m];
        faults |= block_faults(block, &members->held) | unless_0(block[KIND] ^ (u64)kind);
    }
    return faults;
}

/* Codes 6 and 4. `listed` has every bit where no tables are lent. */
static inline u8 look_at_members(const i64 *book, size account, unsigned listed, Members *members) {
    const i64 *block = book + BLOCK * account;
    if (block[KIND] == NOT_OPEN) return joined((const u64 *)block, BLOCK) ? BROKEN_BLOCK : NOT_OPENED;
    *members = (Members){{block}, block[CODE] == 0, 0};
    if (block[CODE] != 0 && !find_members(book, block[CODE], members)) return BROKEN_BLOCK;
    return is_set(members_faults(members, block[KIND])) || members->held & ~listed ? BROKEN_BLOCK : DONE;
}

/* Of a row, for an account of this kind. */
typedef struct {
    i64 share, kept, left_out; /* kept and left_out: all bits or none */
    int is_not_recorded, is_partial;
} Regime;

static inline Regime regime_of(i64 kind, const i64 *row) {
    i64 pool_below = kind == ORDINARY ? 0 : kind == POOL ? WHOLE : WHOLE + 1, pool = row[POOL_SHARE];
    i64 share = pool < pool_below ? pool : row[ACCEPTANCE_SHARE], kept = row[SPECIAL_DELIVERY] - 1;
    i64 left_out = -(i64)((row[KIND] == CURRENCY) & ((share & kept) == 0));
    return (Regime){share, kept, left_out, row[COVERED_SALES] == NOT_RECORDED, row[COVERED_SALES] == PARTIAL};
}

/* x where it is above 0. The compiler is not to know that this is a choice: it would make a branch of it, which goes either way. */
static inline i64 above_0(i64 x) {
    i64 sign = x >> 63;
    __asm__("" : "+r"(sign));
    return x & ~sign;
}

/* C'. Where sales are not recorded all that is held counts as free, and none of it is accepted. */
static inline i64 adjusted(const Regime *regime, i64 collateral, i64 trades) {
    i64 held = above_0(collateral), free = above_0(least(collateral + trades, held)), part = (i64)((u64)(regime->share * held) / WHOLE);
    i64 accepted = regime->is_not_recorded ? collateral - held : collateral - free + least(free, part);
    return accepted & regime->kept;
}

static inline i64 risk_of(const i64 *row, i64 units, int rise) {
    i64 within = least(units, row[MARKET_LIMIT]);
    i64 rated = row[FALL + rise] * within + row[RAISED_FALL + rise] * (units - within);
    return (i64)(((u64)(rated * row[PRICE]) + WHOLE - 1) / WHOLE);
}

/* Special delivery. */
__attribute__((noinline)) static i64 greater_risk(const i64 *row, const i64 *positions, i64 sum) {
    i64 above = 0;
    for (size d = 0; d < DATES; d++) above += above_0(positions[d]);
    return most(risk_of(row, above, 0), risk_of(row, above - sum, 1));
}

/* Signed: a short date takes up and outer up, which stand behind low and outer low, and its amount comes out negative. */
static inline i64 interest_of(const i64 *date, i64 position, i64 limit) {
    i64 is_short = (i64)((u64)position >> 63), units = position < 0 ? -position : position, within = least(units, limit);
    return (date[MID] - date[LOW + is_short]) * within + (date[MID] - date[OUTER_LOW + is_short]) * (units - within);
}

typedef struct {
    i64 valuation, market, interest, sides[2][GROUPS + 1]; /* group 0 takes what has no group */
} Sums;

/* Positions of all blocks are added before they are valued: within each block only C' and C'' are made. */
static inline void add_asset(Sums *sums, const Members *members, const i64 *row, size asset) {
    Regime regime = regime_of(members->blocks[0][KIND], row);
    i64 positions[DATES] = {0}, sum = 0, risked = 0, valued = 0, interest = 0;
    for (size m = 0; m < members->count; m++) {
        const i64 *holding = members->blocks[m] + HOLDINGS + HOLDING * asset;
        pair trades = {0, 0};
        for (size d = 0; d < DATES; d += 2) {
            pair net = *(const pair *)(holding + CLAIMS + d) - *(const pair *)(holding + OBLIGATIONS + d);
            *(pair *)(positions + d) += net;
            trades += net;
        }
        i64 of_block = (i64)(trades[0] + trades[1]), counted = adjusted(&regime, holding[COLLATERAL], of_block);
        sum += of_block + counted;
        risked += counted;
        valued += (regime.is_partial ? counted & counted >> 63 : counted) - (holding[CLAIMS] & regime.left_out);
    }
    positions[0] += risked;
    i64 worth = row[PRICE] * sum + (valued - risked) * (row[PRICE] + row[FIRST_DATE + MID]);
/* Eight dates at once have more in work than there are registers. */
#pragma clang loop unroll_count(2)
    for (size d = 0; d < DATES; d++) {
        const i64 *date = row + FIRST_DATE + DATE * d;
        worth += positions[d] * date[MID];
        interest += interest_of(date, positions[d], row[INTEREST_LIMIT]);
    }
    i64 market = row[SPECIAL_DELIVERY] ? greater_risk(row, positions, sum) : risk_of(row, sum < 0 ? -sum : sum, sum < 0);
    sums->valuation += worth;
    sums->market += market;
    sums->interest += interest < 0 ? -interest : interest;
    sums->sides[sum < 0][row[GROUP]] += sum ? market : 0;
}

/* The five figures. An own row of tables that passed is present where its first number is not 0. */
static void value(const Members *members, const i64 *clearing, const i64 *own, const i64 *groups, i64 *figures) {
    Sums sums = {0};
    for (size m = 0; m < members->count; m++)
        for (size n = RUBLES; n < UNUSED; n++) sums.valuation += members->blocks[m][n];
    for (unsigned left = members->held; left; left &= left - 1) {
        size asset = (size)__builtin_ctz(left);
        add_asset(&sums, members, (own[ROW * asset] ? own : clearing) + ROW * asset, asset);
    }
    i64 discount = 0;
    for (size g = 1; g <= GROUPS; g++) discount += (i64)((u64)(2 * groups[g - 1] * least(sums.sides[0][g], sums.sides[1][g])) / HUNDRED);
    i64 five[FIGURES] = {sums.valuation, sums.market, sums.interest, discount, sums.valuation - sums.market - sums.interest + discount};
    for (size n = 0; n < FIGURES; n++) figures[n] = five[n];
}

static i64 limit(const Members *members, const i64 *clearing, const i64 *own, const i64 *groups) {
    i64 figures[FIGURES];
    value(members, clearing, own, groups, figures);
    return figures[FIGURES - 1];
}

/* Codes 2, 13, 3, 6 and 4. */
static inline u8 look(const i64 *book, const i64 *clearing, const i64 *own, const i64 *groups, i64 account, unsigned *listed, Members *members) {
    Checked checked = check((const u64 *)clearing, (const u64 *)own, (const u64 *)groups);
    if (checked.code != DONE) return checked.code;
    if ((u64)account >= ACCOUNTS) return NO_ACCOUNT;
    *listed = checked.listed;
    return look_at_members(book, (size)account, checked.listed, members);
}

u8 reference_check_tables(const i64 *clearing, size clearing_length, const i64 *own, size own_length, const i64 *groups, size groups_length,
                          u64 *place) {
    *place = 0;
    if (clearing_length != TABLE || own_length != TABLE || groups_length != GROUPS) return WRONG_LENGTH;
    Checked checked = check((const u64 *)clearing, (const u64 *)own, (const u64 *)groups);
    *place = checked.place;
    return checked.code;
}

u8 reference_report(const i64 *book, size book_length, const i64 *clearing, size clearing_length, const i64 *own, size own_length,
                    const i64 *groups, size groups_length, i64 account, i64 *figures, size figures_length) {
    if (figures_length != FIGURES) return WRONG_LENGTH;
    for (size n = 0; n < FIGURES; n++) figures[n] = 0;
    if (book_length != BOOK || clearing_length != TABLE || own_length != TABLE || groups_length != GROUPS) return WRONG_LENGTH;
    unsigned listed;
    Members members;
    u8 code = look(book, clearing, own, groups, account, &listed, &members);
    if (code == DONE) value(&members, clearing, own, groups, figures);
    return code;
}

u8 reference_order(i64 *book, size book_length, const i64 *clearing, size clearing_length, const i64 *own, size own_length, const i64 *groups,
                   size groups_length, i64 account, i64 asset, i64 date, i64 side, i64 quantity, i64 money) {
    if (book_length != BOOK || clearing_length != TABLE || own_length != TABLE || groups_length != GROUPS) return WRONG_LENGTH;
    unsigned listed;
    Members members;
    u8 code = look(book, clearing, own, groups, account, &listed, &members);
    if (code != DONE) return code;
    if ((u64)asset >= ASSETS || !(listed >> asset & 1) || (u64)date >= DATES || (u64)side > SELL) return WRONG_CHOICE;
    if ((u64)quantity - 1 >= MOST_UNITS || (u64)money > MOST_RUBLES) return WRONG_AMOUNT;
    i64 *block = book + BLOCK * account, *net = block + NETS + date;
    i64 *units = block + HOLDINGS + HOLDING * asset + (side == BUY ? CLAIMS : OBLIGATIONS) + date;
    i64 net_before = *net, units_before = *units, net_after = *net + (side == BUY ? -money : money), units_after = *units + quantity;
    if (units_after > MOST_UNITS || is_set(unless_within((u64)net_after, MOST_RUBLES))) return OUT_OF_BOUNDS;
    members.held |= 1u << asset;
    *net = net_after, *units = units_after;
    i64 after = limit(&members, clearing, own, groups);
    if (after >= 0) return DONE;
    *net = net_before, *units = units_before;
    if (after <= limit(&members, clearing, own, groups)) return NEGATIVE_LIMIT;
    *net = net_after, *units = units_after;
    return DONE;
}

u8 reference_move(i64 *book, size book_length, const i64 *clearing, size clearing_length, const i64 *own, size own_length, const i64 *groups,
                  size groups_length, i64 account, i64 asset, i64 amount) {
    if (book_length != BOOK || clearing_length != TABLE || own_length != TABLE || groups_length != GROUPS) return WRONG_LENGTH;
    unsigned listed;
    Members members;
    u8 code = look(book, clearing, own, groups, account, &listed, &members);
    if (code != DONE) return code;
    int of_rubles = asset == ASSET_OF_RUBLES;
    if (!of_rubles && ((u64)asset >= ASSETS || !(listed >> asset & 1))) return WRONG_CHOICE;
    i64 highest = of_rubles ? MOST_RUBLES : MOST_UNITS, *place = book + BLOCK * account + (of_rubles ? RUBLES : HOLDINGS + HOLDING * asset);
    if (amount == 0 || is_set(unless_within((u64)amount, (u64)highest))) return WRONG_AMOUNT;
    i64 before = *place, after = before + amount;
    if (after > highest || after < (amount < 0 ? 0 : -highest)) return OUT_OF_BOUNDS;
    if (!of_rubles) members.held |= 1u << asset;
    *place = after;
    if (amount > 0 || limit(&members, clearing, own, groups) >= 0) return DONE;
    *place = before;
    return NEGATIVE_LIMIT;
}

u8 reference_open(i64 *book, size book_length, i64 account, i64 kind, i64 code) {
    if (book_length != BOOK) return WRONG_LENGTH;
    if ((u64)account >= ACCOUNTS) return NO_ACCOUNT;
    i64 *block = book + BLOCK * account;
    if (joined((const u64 *)block, BLOCK)) return (u64)block[KIND] - 1 < LISTED_POOL ? ALREADY_OPEN : BROKEN_BLOCK;
    if ((u64)kind - 1 >= LISTED_POOL || (u64)code > MOST_CODE) return WRONG_CHOICE;
    Members members = {{0}, 0, 0};
    if (code != 0 && (!find_members(book, code, &members) || members.count == MEMBERS || is_set(members_faults(&members, kind)))) return WRONG_CHOICE;
    block[KIND] = kind;
    block[CODE] = code;
    return DONE;
}

/* The last date empties. */
static inline void next_dates(i64 *dates) {
    for (size d = 1; d < DATES; d++) dates[d - 1] = dates[d];
    dates[DATES - 1] = 0;
}

u8 reference_roll(i64 *book, size book_length, i64 account) {
    if (book_length != BOOK) return WRONG_LENGTH;
    if ((u64)account >= ACCOUNTS) return NO_ACCOUNT;
    Members members;
    u8 code = look_at_members(book, (size)account, ~0u, &members);
    if (code != DONE) return code;
    i64 *block = book + BLOCK * account, *end = block + BLOCK, rubles = block[RUBLES] + block[NETS];
    u64 faults = unless_within((u64)rubles, MOST_RUBLES);
    for (const i64 *held = block + HOLDINGS; held < end; held += HOLDING)
        faults |= unless_within((u64)(held[COLLATERAL] + held[CLAIMS] - held[OBLIGATIONS]), MOST_UNITS);
    if (is_set(faults)) return OUT_OF_BOUNDS;
    block[RUBLES] = rubles;
    next_dates(block + NETS);
    for (i64 *held = block + HOLDINGS; held < end; held += HOLDING) {
        held[COLLATERAL] += held[CLAIMS] - held[OBLIGATIONS];
        next_dates(held + CLAIMS);
        next_dates(held + OBLIGATIONS);
    }
    return DONE;
}
