/* What names.c and rows.c start from: a book, tables and groups, an account open without holdings, row A of document 01; and how an answer is held
 * to what is wanted. */
#include "single_limit.h"

#include <stdio.h>
#include <string.h>

/* An account and an asset in the middle, so that a wrong step between blocks, holdings or rows shows. */
enum { ACCOUNT = 6, ASSET = 5 };

#define BOOK book, SINGLE_LIMIT_BOOK_LENGTH
#define RATES clearing, SINGLE_LIMIT_TABLE_LENGTH, own, SINGLE_LIMIT_TABLE_LENGTH
#define TABLES RATES, groups, SINGLE_LIMIT_GROUPS_LENGTH
#define ROW(number) clearing[single_limit_row_at(ASSET, SINGLE_LIMIT_ROW_##number)]

static int64_t book[SINGLE_LIMIT_BOOK_LENGTH], clearing[SINGLE_LIMIT_TABLE_LENGTH], own[SINGLE_LIMIT_TABLE_LENGTH];
static int64_t groups[SINGLE_LIMIT_GROUPS_LENGTH];
static int failures;

static inline void expect(const char *what, int64_t found, int64_t wanted) {
    if (found != wanted) {
        printf("%s: %lld, and not %lld\n", what, (long long)found, (long long)wanted);
        failures++;
    }
}

/* Row A of document 01, by the names. */
static inline void row_a(int64_t *table, size_t asset) {
    static const int64_t head[][2] = {
        {SINGLE_LIMIT_ROW_KIND, SINGLE_LIMIT_ASSET_SECURITY}, {SINGLE_LIMIT_ROW_PRICE, 10000},
        {SINGLE_LIMIT_ROW_ACCEPTANCE_SHARE, 5000}, {SINGLE_LIMIT_ROW_POOL_SHARE, 10000},
        {SINGLE_LIMIT_ROW_FALL, 2000}, {SINGLE_LIMIT_ROW_RISE, 3000},
        {SINGLE_LIMIT_ROW_RAISED_FALL, 4000}, {SINGLE_LIMIT_ROW_RAISED_RISE, 5000},
        {SINGLE_LIMIT_ROW_MARKET_LIMIT, 100}, {SINGLE_LIMIT_ROW_INTEREST_LIMIT, 100}, {SINGLE_LIMIT_ROW_SPREAD_GROUP, 1},
    };
    for (size_t i = 0; i < sizeof head / sizeof *head; i++) table[single_limit_row_at(asset, (size_t)head[i][0])] = head[i][1];
    for (size_t d = 0; d < SINGLE_LIMIT_DATES; d++) {
        table[single_limit_date_at(asset, d, SINGLE_LIMIT_DATE_LOW)] = -100;
        table[single_limit_date_at(asset, d, SINGLE_LIMIT_DATE_UP)] = 200;
        table[single_limit_date_at(asset, d, SINGLE_LIMIT_DATE_OUTER_LOW)] = -200;
        table[single_limit_date_at(asset, d, SINGLE_LIMIT_DATE_OUTER_UP)] = 300;
    }
}

/* An open account without holdings and without a settlement code, row A and group 1 at 25 percent. */
static inline void start(int64_t kind) {
    memset(book, 0, sizeof book);
    memset(clearing, 0, sizeof clearing);
    memset(own, 0, sizeof own);
    memset(groups, 0, sizeof groups);
    row_a(clearing, ASSET);
    groups[0] = 25;
    expect("open", single_limit_open(BOOK, ACCOUNT, kind, 0), SINGLE_LIMIT_DONE);
}

static inline uint8_t move(int64_t asset, int64_t amount) { return single_limit_move(BOOK, TABLES, ACCOUNT, asset, amount); }

static inline uint8_t order(int64_t date, int64_t side, int64_t quantity, int64_t money) {
    return single_limit_order(BOOK, TABLES, ACCOUNT, ASSET, date, side, quantity, money);
}

static inline void figures_are(const char *what, const int64_t wanted[SINGLE_LIMIT_FIGURES_LENGTH]) {
    int64_t found[SINGLE_LIMIT_FIGURES_LENGTH];
    expect(what, single_limit_report(BOOK, TABLES, ACCOUNT, found, SINGLE_LIMIT_FIGURES_LENGTH), SINGLE_LIMIT_DONE);
    for (size_t i = 0; i < SINGLE_LIMIT_FIGURES_LENGTH; i++) expect(what, found[i], wanted[i]);
}
