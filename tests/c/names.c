/* The names and helpers of include/single_limit.h held to the engine's answers: every number of a block is written by a call and found by its helper,
 * and every code and gauge is provoked; rows are in rows.c. Says nothing and returns 0 where all is as named. */
#include "start.h"

/* An account before the one that is open. */
enum { OTHER = 2 };

/* What calls write stands where the helpers say, and nothing else is written. */
static void blocks(void) {
    int64_t wanted[SINGLE_LIMIT_BOOK_LENGTH] = {0};
    start(SINGLE_LIMIT_ACCOUNT_POOL_OF_THE_LIST);
    wanted[single_limit_block_at(ACCOUNT, SINGLE_LIMIT_BLOCK_KIND)] = SINGLE_LIMIT_ACCOUNT_POOL_OF_THE_LIST;
    expect("rubles", move(SINGLE_LIMIT_RUBLES, SINGLE_LIMIT_MOST_RUBLES), SINGLE_LIMIT_DONE);
    wanted[single_limit_block_at(ACCOUNT, SINGLE_LIMIT_BLOCK_RUBLE_COLLATERAL)] = SINGLE_LIMIT_MOST_RUBLES;
    expect("units", move(ASSET, SINGLE_LIMIT_MOST_UNITS), SINGLE_LIMIT_DONE);
    wanted[single_limit_collateral_at(ACCOUNT, ASSET)] = SINGLE_LIMIT_MOST_UNITS;
    for (size_t d = 0; d < SINGLE_LIMIT_DATES; d++) {
        int64_t n = (int64_t)d;
        expect("a buy", order(n, SINGLE_LIMIT_BUY, 10 + n, 1000), SINGLE_LIMIT_DONE);
        expect("a sale", order(n, SINGLE_LIMIT_SELL, 20 + n, 3000 + n), SINGLE_LIMIT_DONE);
        wanted[single_limit_claim_at(ACCOUNT, ASSET, d)] = 10 + n;
        wanted[single_limit_obligation_at(ACCOUNT, ASSET, d)] = 20 + n;
        wanted[single_limit_ruble_net_at(ACCOUNT, d)] = 2000 + n;
    }
    expect("the book", memcmp(book, wanted, sizeof book), 0);
    for (size_t i = SINGLE_LIMIT_BLOCK_SPARE; i < SINGLE_LIMIT_BLOCK_HOLDINGS; i++) {
        book[single_limit_block_at(ACCOUNT, i)] = i == SINGLE_LIMIT_BLOCK_SETTLEMENT_CODE ? 16 : 1;
        expect("a spare number", single_limit_roll(BOOK, ACCOUNT), SINGLE_LIMIT_REFUSED_BROKEN_BLOCK);
        book[single_limit_block_at(ACCOUNT, i)] = 0;
    }
}

/* A code given at opening is found by its name; put there by its name, it is shared. Forty of collateral in one block and thirty owed in another
 * leave ten short: only twenty of the forty count. */
static void settlement_code(void) {
    start(SINGLE_LIMIT_ACCOUNT_ORDINARY);
    expect("open on a code", single_limit_open(BOOK, OTHER, SINGLE_LIMIT_ACCOUNT_ORDINARY, 5), SINGLE_LIMIT_DONE);
    expect("the code", book[single_limit_block_at(OTHER, SINGLE_LIMIT_BLOCK_SETTLEMENT_CODE)], 5);
    expect("no code", book[single_limit_block_at(ACCOUNT, SINGLE_LIMIT_BLOCK_SETTLEMENT_CODE)], 0);
    book[single_limit_collateral_at(ACCOUNT, ASSET)] = 40;
    book[single_limit_obligation_at(OTHER, ASSET, 0)] = 30;
    figures_are("S2 without a code", (const int64_t[]){200000, 40000, 2000, 0, 158000});
    book[single_limit_block_at(ACCOUNT, SINGLE_LIMIT_BLOCK_SETTLEMENT_CODE)] = 5;
    figures_are("two blocks of a code", (const int64_t[]){-100000, 30000, 2000, 0, -132000});
    book[single_limit_block_at(OTHER, SINGLE_LIMIT_BLOCK_KIND)] = SINGLE_LIMIT_ACCOUNT_POOL;
    expect("another kind on the code", single_limit_roll(BOOK, ACCOUNT), SINGLE_LIMIT_REFUSED_BROKEN_BLOCK);
}

/* Document 01's sums that tell kinds of account, covered sales and figures apart. */
static void figures(void) {
    start(SINGLE_LIMIT_ACCOUNT_ORDINARY);
    book[single_limit_collateral_at(ACCOUNT, ASSET)] = 40;
    figures_are("S2", (const int64_t[]){200000, 40000, 2000, 0, 158000});
    book[single_limit_block_at(ACCOUNT, SINGLE_LIMIT_BLOCK_KIND)] = SINGLE_LIMIT_ACCOUNT_POOL_OF_THE_LIST;
    figures_are("S6", (const int64_t[]){400000, 80000, 4000, 0, 316000});
    book[single_limit_block_at(ACCOUNT, SINGLE_LIMIT_BLOCK_KIND)] = SINGLE_LIMIT_ACCOUNT_POOL;
    figures_are("S2 in a pool", (const int64_t[]){200000, 40000, 2000, 0, 158000});
    ROW(POOL_SHARE) = 7500;
    figures_are("a pool's own share", (const int64_t[]){300000, 60000, 3000, 0, 237000});
    start(SINGLE_LIMIT_ACCOUNT_ORDINARY);
    book[single_limit_collateral_at(ACCOUNT, ASSET)] = 40;
    book[single_limit_obligation_at(ACCOUNT, ASSET, 0)] = 30;
    ROW(COVERED_SALES) = SINGLE_LIMIT_SALES_RECORDED;
    figures_are("S3", (const int64_t[]){100000, 20000, 1000, 0, 79000});
    ROW(COVERED_SALES) = SINGLE_LIMIT_SALES_NOT_RECORDED;
    figures_are("S7", (const int64_t[]){-300000, 90000, 6000, 0, -396000});
    ROW(COVERED_SALES) = SINGLE_LIMIT_SALES_PARTIAL;
    ROW(ACCEPTANCE_SHARE) = 0;
    figures_are("S8", (const int64_t[]){-300000, 0, 0, 0, -300000});
}

/* S11, where all five figures differ, by their names; S9, a currency. */
static void named_figures(void) {
    int64_t found[SINGLE_LIMIT_FIGURES_LENGTH];
    start(SINGLE_LIMIT_ACCOUNT_ORDINARY);
    row_a(clearing, ASSET + 1);
    book[single_limit_claim_at(ACCOUNT, ASSET, 1)] = 10;
    book[single_limit_obligation_at(ACCOUNT, ASSET + 1, 1)] = 10;
    expect("S11", single_limit_report(BOOK, TABLES, ACCOUNT, found, SINGLE_LIMIT_FIGURES_LENGTH), SINGLE_LIMIT_DONE);
    expect("valuation", found[SINGLE_LIMIT_FIGURE_VALUATION], 0);
    expect("market risk", found[SINGLE_LIMIT_FIGURE_MARKET_RISK], 50000);
    expect("interest risk", found[SINGLE_LIMIT_FIGURE_INTEREST_RISK], 3000);
    expect("discount", found[SINGLE_LIMIT_FIGURE_DISCOUNT], 10000);
    expect("limit", found[SINGLE_LIMIT_FIGURE_LIMIT], -43000);
    start(SINGLE_LIMIT_ACCOUNT_ORDINARY);
    ROW(KIND) = SINGLE_LIMIT_ASSET_CURRENCY_OR_METAL;
    ROW(ACCEPTANCE_SHARE) = 0;
    book[single_limit_claim_at(ACCOUNT, ASSET, 0)] = 10;
    figures_are("S9", (const int64_t[]){0, 20000, 1000, 0, -21000});
}

static void gauge_is(const char *what, uint8_t wanted, double shown_wanted) {
    uint64_t bits[SINGLE_LIMIT_FIGURES_LENGTH];
    uint8_t gauge;
    double shown, figures[SINGLE_LIMIT_FIGURES_LENGTH];
    expect(what, single_limit_app(BOOK, TABLES, ACCOUNT, bits, SINGLE_LIMIT_FIGURES_LENGTH, &gauge, &shown), SINGLE_LIMIT_DONE);
    expect(what, gauge, wanted);
    expect(what, shown == shown_wanted, 1);
    expect(what, single_limit_app_read(bits, SINGLE_LIMIT_FIGURES_LENGTH, figures, SINGLE_LIMIT_FIGURES_LENGTH), SINGLE_LIMIT_DONE);
    if (wanted == SINGLE_LIMIT_GAUGE_OVER) expect("the shortfall", shown == -figures[SINGLE_LIMIT_FIGURE_LIMIT], 1);
}

/* S11, which has a discount, with rubles, with too few of them, and as it is: without valuation. */
static void gauges(void) {
    start(SINGLE_LIMIT_ACCOUNT_ORDINARY);
    row_a(clearing, ASSET + 1);
    book[single_limit_claim_at(ACCOUNT, ASSET, 1)] = 10;
    book[single_limit_obligation_at(ACCOUNT, ASSET + 1, 1)] = 10;
    book[single_limit_ruble_net_at(ACCOUNT, 3)] = 100000;
    gauge_is("used", SINGLE_LIMIT_GAUGE_USED, 0.43);
    book[single_limit_ruble_net_at(ACCOUNT, 3)] = 40000;
    gauge_is("over", SINGLE_LIMIT_GAUGE_OVER, 3000.0);
    book[single_limit_ruble_net_at(ACCOUNT, 3)] = 0;
    gauge_is("empty", SINGLE_LIMIT_GAUGE_EMPTY, 0.0);
}

static void codes(void) {
    double floats[SINGLE_LIMIT_FIGURES_LENGTH];
    start(SINGLE_LIMIT_ACCOUNT_ORDINARY);
    expect("length", single_limit_roll(book, SINGLE_LIMIT_BOOK_LENGTH + 1, ACCOUNT), SINGLE_LIMIT_REFUSED_WRONG_LENGTH);
    expect("account", single_limit_roll(BOOK, SINGLE_LIMIT_ACCOUNTS), SINGLE_LIMIT_REFUSED_NO_ACCOUNT);
    expect("last account", single_limit_roll(BOOK, SINGLE_LIMIT_ACCOUNTS - 1), SINGLE_LIMIT_REFUSED_NOT_OPEN);
    expect("open", single_limit_open(BOOK, ACCOUNT, SINGLE_LIMIT_ACCOUNT_POOL, 0), SINGLE_LIMIT_REFUSED_ALREADY_OPEN);
    expect("kind", single_limit_open(BOOK, 0, SINGLE_LIMIT_ACCOUNT_NOT_OPEN, 0), SINGLE_LIMIT_REFUSED_WRONG_CHOICE);
    expect("code", single_limit_open(BOOK, 0, SINGLE_LIMIT_ACCOUNT_ORDINARY, 16), SINGLE_LIMIT_REFUSED_WRONG_CHOICE);
    expect("asset", move(SINGLE_LIMIT_ASSETS, 1), SINGLE_LIMIT_REFUSED_WRONG_CHOICE);
    expect("date", order(SINGLE_LIMIT_DATES, SINGLE_LIMIT_BUY, 1, 1), SINGLE_LIMIT_REFUSED_WRONG_CHOICE);
    expect("amount", move(ASSET, SINGLE_LIMIT_MOST_UNITS + 1), SINGLE_LIMIT_REFUSED_WRONG_AMOUNT);
    expect("withdrawal", move(ASSET, -1), SINGLE_LIMIT_REFUSED_OUT_OF_BOUNDS);
    expect("a NaN", single_limit_app_read((const uint64_t[]){0, 0, 0, 0, UINT64_MAX}, SINGLE_LIMIT_FIGURES_LENGTH, floats,
                                          SINGLE_LIMIT_FIGURES_LENGTH), SINGLE_LIMIT_REFUSED_OUT_OF_BOUNDS);
    expect("limit", order(1, SINGLE_LIMIT_BUY, 10, 100000), SINGLE_LIMIT_REFUSED_NEGATIVE_LIMIT);
    /* 6 is looked for before 4: a block that is not open and not all zero. */
    book[single_limit_block_at(2, SINGLE_LIMIT_BLOCK_RUBLE_COLLATERAL)] = 1;
    expect("a broken block", single_limit_roll(BOOK, 2), SINGLE_LIMIT_REFUSED_BROKEN_BLOCK);
    ROW(SPREAD_GROUP) = 9;
    expect("a broken number", order(1, SINGLE_LIMIT_BUY, 10, 100000), SINGLE_LIMIT_REFUSED_BROKEN_NUMBER);
    ROW(SPREAD_GROUP) = 1;
    row_a(own, ASSET);
    own[single_limit_row_at(ASSET, SINGLE_LIMIT_ROW_ACCEPTANCE_SHARE)] = 9000;
    expect("a laxer own row", order(1, SINGLE_LIMIT_BUY, 10, 100000), SINGLE_LIMIT_REFUSED_LAXER_OWN_ROW);
    expect("before the account", single_limit_move(BOOK, TABLES, SINGLE_LIMIT_ACCOUNTS, ASSET, 1), SINGLE_LIMIT_REFUSED_LAXER_OWN_ROW);
    /* Each code has words of its own, and so has what is no code of a call. */
    static const uint8_t worded[] = {0, 1, 2, 3, 4, 5, 6, 7, 8, 9, 10, SINGLE_LIMIT_REFUSED_LAXER_OWN_ROW, 11};
    for (size_t a = 0; a < sizeof worded; a++)
        for (size_t b = a + 1; b < sizeof worded; b++)
            expect("two codes in the same words", strcmp(single_limit_words(worded[a]), single_limit_words(worded[b])) == 0, 0);
}

int main(void) {
    blocks();
    settlement_code();
    figures();
    named_figures();
    gauges();
    codes();
    return failures != 0;
}
