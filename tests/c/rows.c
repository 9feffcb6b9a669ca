/* Rows by the names of include/single_limit.h: every number of a row is broken at its edge and found again by its name, every number of an own row that
 * is compared is made laxer by a step and found again, and a row with a kind and a price alone is sound. Says nothing and returns 0 where all is as named. */
#include "start.h"

/* A number at the edge of its rule is sound, one step beyond it breaks at its place. Where it is an own row's, the clearing row has the sound one
 * too, so that the own row is not laxer. */
static void edge(int64_t *table, size_t index, size_t places, int64_t sound, int64_t broken) {
    int64_t kept = table[index];
    uint64_t place;
    if (table == own) clearing[index] = sound;
    table[index] = sound;
    expect("a number at its edge", single_limit_check_tables(TABLES, &place), SINGLE_LIMIT_DONE);
    table[index] = broken;
    expect("a number beyond its edge", single_limit_check_tables(TABLES, &place), SINGLE_LIMIT_REFUSED_BROKEN_NUMBER);
    expect("its place", (int64_t)place, (int64_t)(places + index));
    table[index] = kept;
    if (table == own) clearing[index] = kept;
}

static void edges_of_row(int64_t *table, size_t places) {
    static const int64_t edges[][3] = {
        {SINGLE_LIMIT_ROW_PRICE, SINGLE_LIMIT_MOST_PRICE, SINGLE_LIMIT_MOST_PRICE + 1}, {SINGLE_LIMIT_ROW_PRICE, 1, 0},
        {SINGLE_LIMIT_ROW_ACCEPTANCE_SHARE, SINGLE_LIMIT_WHOLE, SINGLE_LIMIT_WHOLE + 1},
        {SINGLE_LIMIT_ROW_POOL_SHARE, SINGLE_LIMIT_WHOLE, SINGLE_LIMIT_WHOLE + 1},
        {SINGLE_LIMIT_ROW_COVERED_SALES, SINGLE_LIMIT_SALES_PARTIAL, SINGLE_LIMIT_SALES_PARTIAL + 1},
        {SINGLE_LIMIT_ROW_SPECIAL_DELIVERY, 1, 2},
        {SINGLE_LIMIT_ROW_FALL, 4000, SINGLE_LIMIT_WHOLE + 1}, {SINGLE_LIMIT_ROW_RISE, 5000, SINGLE_LIMIT_WHOLE + 1},
        {SINGLE_LIMIT_ROW_RAISED_FALL, 2000, 1999}, {SINGLE_LIMIT_ROW_RAISED_RISE, 3000, 2999},
        {SINGLE_LIMIT_ROW_MARKET_LIMIT, SINGLE_LIMIT_MOST_PRICE, SINGLE_LIMIT_MOST_PRICE + 1},
        {SINGLE_LIMIT_ROW_INTEREST_LIMIT, SINGLE_LIMIT_MOST_PRICE, SINGLE_LIMIT_MOST_PRICE + 1},
        {SINGLE_LIMIT_ROW_SPREAD_GROUP, SINGLE_LIMIT_GROUPS, SINGLE_LIMIT_GROUPS + 1},
    };
    for (size_t i = 0; i < sizeof edges / sizeof *edges; i++)
        edge(table, single_limit_row_at(ASSET, (size_t)edges[i][0]), places, edges[i][1], edges[i][2]);
    for (size_t i = SINGLE_LIMIT_ROW_SPARE; i < SINGLE_LIMIT_ROW_DATES; i++) edge(table, single_limit_row_at(ASSET, i), places, 0, 1);
    for (size_t d = 0; d < SINGLE_LIMIT_DATES; d++) {
        edge(table, single_limit_date_at(ASSET, d, SINGLE_LIMIT_DATE_MID), places, 200, SINGLE_LIMIT_MOST_PRICE - 9999);
        edge(table, single_limit_date_at(ASSET, d, SINGLE_LIMIT_DATE_LOW), places, 0, 1);
        edge(table, single_limit_date_at(ASSET, d, SINGLE_LIMIT_DATE_UP), places, 0, -1);
        edge(table, single_limit_date_at(ASSET, d, SINGLE_LIMIT_DATE_OUTER_LOW), places, -100, -99);
        edge(table, single_limit_date_at(ASSET, d, SINGLE_LIMIT_DATE_OUTER_UP), places, 200, 199);
    }
    for (size_t i = SINGLE_LIMIT_ROW_REST; i < SINGLE_LIMIT_ROW_LENGTH; i++) edge(table, single_limit_row_at(ASSET, i), places, 0, 1);
}

static void tables(void) {
    start(SINGLE_LIMIT_ACCOUNT_ORDINARY);
    edges_of_row(clearing, SINGLE_LIMIT_PLACE_CLEARING);
    edge(clearing, single_limit_row_at(ASSET, SINGLE_LIMIT_ROW_KIND), SINGLE_LIMIT_PLACE_CLEARING, SINGLE_LIMIT_ASSET_CURRENCY_OR_METAL,
         SINGLE_LIMIT_ASSET_COMMODITY + 1);
    row_a(own, ASSET);
    edges_of_row(own, SINGLE_LIMIT_PLACE_OWN);
    edge(own, single_limit_row_at(ASSET, SINGLE_LIMIT_ROW_KIND), SINGLE_LIMIT_PLACE_OWN, SINGLE_LIMIT_ASSET_SECURITY,
         SINGLE_LIMIT_ASSET_CURRENCY_OR_METAL);
    for (size_t g = 0; g < SINGLE_LIMIT_GROUPS; g++)
        edge(groups, g, SINGLE_LIMIT_PLACE_GROUPS, SINGLE_LIMIT_MOST_PERCENT, SINGLE_LIMIT_MOST_PERCENT + 1);
}

/* A number of an own row that is a step laxer than the clearing row's is refused at its place; a step the other way it is not, unless it must be
 * the clearing row's. */
static void compared(size_t index, int64_t step, uint8_t other_way) {
    uint64_t place;
    own[index] = clearing[index] + step;
    expect("a laxer number", single_limit_check_tables(TABLES, &place), SINGLE_LIMIT_REFUSED_LAXER_OWN_ROW);
    expect("its place", (int64_t)place, (int64_t)(SINGLE_LIMIT_PLACE_OWN + index));
    own[index] = clearing[index] - step;
    expect("the other way", single_limit_check_tables(TABLES, &place), other_way);
    own[index] = clearing[index];
}

static void stricter(void) {
    enum { DONE = SINGLE_LIMIT_DONE, LAXER = SINGLE_LIMIT_REFUSED_LAXER_OWN_ROW };
    static const int64_t rules[][3] = {
        {SINGLE_LIMIT_ROW_PRICE, 1, LAXER}, {SINGLE_LIMIT_ROW_ACCEPTANCE_SHARE, 1, DONE}, {SINGLE_LIMIT_ROW_POOL_SHARE, 1, DONE},
        {SINGLE_LIMIT_ROW_COVERED_SALES, 1, LAXER}, {SINGLE_LIMIT_ROW_FALL, -1, DONE}, {SINGLE_LIMIT_ROW_RISE, -1, DONE},
        {SINGLE_LIMIT_ROW_RAISED_FALL, -1, DONE}, {SINGLE_LIMIT_ROW_RAISED_RISE, -1, DONE}, {SINGLE_LIMIT_ROW_MARKET_LIMIT, 1, DONE},
        {SINGLE_LIMIT_ROW_INTEREST_LIMIT, 1, DONE}, {SINGLE_LIMIT_ROW_SPREAD_GROUP, 1, LAXER},
    };
    size_t special = single_limit_row_at(ASSET, SINGLE_LIMIT_ROW_SPECIAL_DELIVERY);
    uint64_t place;
    start(SINGLE_LIMIT_ACCOUNT_ORDINARY);
    ROW(POOL_SHARE) = 9000;
    ROW(COVERED_SALES) = SINGLE_LIMIT_SALES_NOT_RECORDED;
    memcpy(own, clearing, sizeof own);
    expect("an equal own row", single_limit_check_tables(TABLES, &place), DONE);
    own[special] = 1;
    expect("special delivery set", single_limit_check_tables(TABLES, &place), DONE);
    clearing[special] = 1;
    own[special] = 0;
    expect("special delivery dropped", single_limit_check_tables(TABLES, &place), LAXER);
    expect("its place", (int64_t)place, (int64_t)(SINGLE_LIMIT_PLACE_OWN + special));
    clearing[special] = 0;
    for (size_t i = 0; i < sizeof rules / sizeof *rules; i++)
        compared(single_limit_row_at(ASSET, (size_t)rules[i][0]), rules[i][1], (uint8_t)rules[i][2]);
    for (size_t d = 0; d < SINGLE_LIMIT_DATES; d++) {
        compared(single_limit_date_at(ASSET, d, SINGLE_LIMIT_DATE_MID), 1, LAXER);
        compared(single_limit_date_at(ASSET, d, SINGLE_LIMIT_DATE_LOW), 1, DONE);
        compared(single_limit_date_at(ASSET, d, SINGLE_LIMIT_DATE_UP), -1, DONE);
        compared(single_limit_date_at(ASSET, d, SINGLE_LIMIT_DATE_OUTER_LOW), 1, DONE);
        compared(single_limit_date_at(ASSET, d, SINGLE_LIMIT_DATE_OUTER_UP), -1, DONE);
    }
}

/* A commodity's rates are equal: 3,000 beside 2,000 breaks. */
static void commodity(void) {
    uint64_t place;
    start(SINGLE_LIMIT_ACCOUNT_ORDINARY);
    ROW(KIND) = SINGLE_LIMIT_ASSET_COMMODITY;
    expect("a commodity", single_limit_check_tables(TABLES, &place), SINGLE_LIMIT_REFUSED_BROKEN_NUMBER);
    expect("its rise rate", (int64_t)place, (int64_t)single_limit_row_at(ASSET, SINGLE_LIMIT_ROW_RISE));
}

/* A row with a kind and a price alone is sound and has no risk. */
static void bare_row(void) {
    start(SINGLE_LIMIT_ACCOUNT_ORDINARY);
    memset(clearing, 0, sizeof clearing);
    ROW(KIND) = SINGLE_LIMIT_ASSET_SECURITY;
    ROW(PRICE) = 10000;
    expect("a buy without risk", order(1, SINGLE_LIMIT_BUY, 10, 100000), SINGLE_LIMIT_DONE);
    figures_are("a bare row", (const int64_t[]){0, 0, 0, 0, 0});
    book[single_limit_ruble_net_at(ACCOUNT, 1)] = 0;
    figures_are("its claim", (const int64_t[]){100000, 0, 0, 0, 100000});
    book[single_limit_claim_at(ACCOUNT, ASSET, 1)] = 0;
    ROW(KIND) = SINGLE_LIMIT_ASSET_UNLISTED;
    ROW(PRICE) = 0;
    expect("an unlisted asset", order(1, SINGLE_LIMIT_BUY, 10, 100000), SINGLE_LIMIT_REFUSED_WRONG_CHOICE);
}

int main(void) {
    tables();
    stricter();
    commodity();
    bare_row();
    return failures != 0;
}
