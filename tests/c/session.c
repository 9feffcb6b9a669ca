/* Document 01's session, its two orders at the edge, two accounts of one settlement code, the app's feed, and refusals, by the calls of
 * include/single_limit.h. Says nothing and returns 0 where all is as the documents say. */
#include "single_limit.h"

#include <stdio.h>
#include <string.h>

enum { BOOK = 4608, BLOCK = 288, TABLE = 1024, GROUPS = 8, RUBLES = 255 };

static int64_t book[BOOK], clearing[TABLE], own[TABLE], groups[GROUPS];
static int failures;

static void expect(const char *what, int64_t found, int64_t wanted) {
    if (found != wanted) {
        printf("%s: %lld, and not %lld\n", what, (long long)found, (long long)wanted);
        failures++;
    }
}

static uint8_t move(int64_t account, int64_t asset, int64_t amount) {
    return single_limit_move(book, BOOK, clearing, TABLE, own, TABLE, groups, GROUPS, account, asset, amount);
}

/* By bits, so that -0.0 is not taken for +0.0. */
static void expect_float(const char *what, double found, double wanted) {
    if (memcmp(&found, &wanted, sizeof found) != 0) {
        printf("%s: %a, and not %a\n", what, found, wanted);
        failures++;
    }
}

static uint8_t buy_ten(int64_t account) {
    return single_limit_order(book, BOOK, clearing, TABLE, own, TABLE, groups, GROUPS, account, 0, 1, 0, 10, 100000);
}

static uint8_t report(int64_t account, int64_t figures[5]) {
    return single_limit_report(book, BOOK, clearing, TABLE, own, TABLE, groups, GROUPS, account, figures, 5);
}

/* row A of document 01 for asset 0, group 1 at 25 percent */
static void lend_row_a(void) {
    static const int64_t head[13] = {1, 10000, 5000, 10000, 0, 0, 2000, 3000, 4000, 5000, 100, 100, 1};
    static const int64_t date[5] = {0, -100, 200, -200, 300};
    memcpy(clearing, head, sizeof head);
    for (int d = 0; d < 8; d++) memcpy(clearing + 16 + 5 * d, date, sizeof date);
    groups[0] = 25;
}

static void the_session(void) {
    int64_t figures[5];
    expect("open", single_limit_open(book, BOOK, 0, 1, 0), 0);
    expect("deposit", move(0, RUBLES, 100000), 0);
    expect("report", report(0, figures), 0);
    expect("valuation", figures[0], 100000);
    expect("limit", figures[4], 100000);
}

static void the_edge(void) {
    int64_t figures[5];
    lend_row_a();
    expect("open 1", single_limit_open(book, BOOK, 1, 1, 0), 0);
    expect("20,999 kopecks", move(1, RUBLES, 20999), 0);
    expect("the order refused", buy_ten(1), 10);
    expect("one more kopeck", move(1, RUBLES, 1), 0);
    expect("the order admitted", buy_ten(1), 0);
    expect("report 1", report(1, figures), 0);
    expect("limit 1", figures[4], 0);
    expect("a roll", single_limit_roll(book, BOOK, 1), 0);
    expect("the claim a day later", book[BLOCK + 17], 10);
}

/* Two accounts of one settlement code: the second buys with the kopecks of the first, which cannot take them out then. Both report the same. */
static void one_code(void) {
    int64_t figures[5];
    expect("open 6 on code 5", single_limit_open(book, BOOK, 6, 1, 5), 0);
    expect("open 7 on code 5", single_limit_open(book, BOOK, 7, 1, 5), 0);
    expect("its code", book[7 * BLOCK + 13], 5);
    expect("another kind on the code", single_limit_open(book, BOOK, 8, 2, 5), 7);
    expect("code 16", single_limit_open(book, BOOK, 8, 1, 16), 7);
    expect("code -1", single_limit_open(book, BOOK, 8, 1, -1), 7);
    expect("21,000 kopecks of another", move(6, RUBLES, 21000), 0);
    expect("an order by them", buy_ten(7), 0);
    expect("a kopeck back", move(6, RUBLES, -1), 10);
    for (int64_t account = 6; account <= 7; account++) {
        expect("report of the code", report(account, figures), 0);
        expect("its valuation", figures[0], 21000);
        expect("its limit", figures[4], 0);
    }
}

/* A figures buffer that has not five numbers is code 1, and stays as it was. */
static void other_figures_lengths(void) {
    static const int64_t before[6] = {11, 12, 13, 14, 15, 16};
    static const size_t lengths[4] = {0, 4, 6, 1};
    for (int i = 0; i < 4; i++) {
        int64_t figures[6];
        memcpy(figures, before, sizeof before);
        expect("a figures buffer of another length",
               single_limit_report(book, BOOK, clearing, TABLE, own, TABLE, groups, GROUPS, 1, figures, lengths[i]), 1);
        expect("the figures as they were", memcmp(figures, before, sizeof before), 0);
    }
}

/* Row A passes the cover test. A wrong length or asset has no row that could. */
static void covers(void) {
    expect("row A", single_limit_covers(clearing, TABLE, own, TABLE, 0), 1);
    expect("an unlisted asset", single_limit_covers(clearing, TABLE, own, TABLE, 1), 0);
    expect("no asset", single_limit_covers(clearing, TABLE, own, TABLE, 16), 0);
    expect("a short clearing table", single_limit_covers(clearing, TABLE - 1, own, TABLE, 0), 0);
    expect("a short own table", single_limit_covers(clearing, TABLE, own, TABLE - 64, 0), 0);
    clearing[12] = 9;
    expect("a row that is not sound", single_limit_covers(clearing, TABLE, own, TABLE, 0), 0);
    clearing[12] = 1;
}

/* What goes to the app: the report's figures as floats, and the gauge. */
static void feed_is(const char *what, int64_t account, uint8_t gauge_wanted, double shown_wanted) {
    int64_t figures[5];
    uint64_t bits[5] = {1, 2, 3, 4, 5};
    double floats[5] = {-7.0, -7.0, -7.0, -7.0, -7.0}, shown = -7.0;
    uint8_t gauge = 7;
    expect(what, report(account, figures), 0);
    expect(what, single_limit_app(book, BOOK, clearing, TABLE, own, TABLE, groups, GROUPS, account, bits, 5, &gauge, &shown), 0);
    expect(what, gauge, gauge_wanted);
    expect_float(what, shown, shown_wanted);
    expect("its feed read back", single_limit_app_read(bits, 5, floats, 5), 0);
    expect("the same bits", memcmp(bits, floats, sizeof bits), 0);
    for (int i = 0; i < 5; i++) expect_float("each figure as it is", floats[i], (double)figures[i]);
}

/* The session's account has no risk. That at the edge is used up; with a kopeck less it is over by it; with no valuation there is nothing to show,
 * although its limit is negative. */
static void the_feed(void) {
    uint64_t bits[5];
    uint8_t gauge;
    double shown;
    expect("a feed", single_limit_app(book, BOOK, clearing, TABLE, own, TABLE, groups, GROUPS, 0, bits, 5, &gauge, &shown), 0);
    expect("100,000 kopecks as a float", bits[0] == UINT64_C(0x40f86a0000000000), 1);
    expect("no market risk", bits[1] == 0, 1);
    feed_is("nothing used", 0, 2, 0.0);
    feed_is("all used", 1, 2, 1.0);
    book[BLOCK + 1] = 30000;
    feed_is("seven tenths, rounded once", 1, 2, 0.7);
    book[BLOCK + 1] = 20999;
    feed_is("over by a kopeck", 1, 1, 1.0);
    book[BLOCK + 1] = 1;
    feed_is("a valuation of one kopeck", 1, 1, 20999.0);
    book[BLOCK + 1] = 0;
    feed_is("no valuation", 1, 0, 0.0);
    book[BLOCK + 1] = -1;
    feed_is("a negative valuation", 1, 0, 0.0);
    book[BLOCK + 1] = 21000;
}

/* A refused feed leaves the bits as they were, and shows nothing. */
static void feed_refused(const char *what, int64_t account, size_t bits_length, uint8_t code) {
    static const uint64_t before[6] = {11, 12, 13, 14, 15, 16};
    uint64_t bits[6];
    uint8_t gauge = 7;
    double shown = -7.0;
    memcpy(bits, before, sizeof before);
    expect(what, single_limit_app(book, BOOK, clearing, TABLE, own, TABLE, groups, GROUPS, account, bits, bits_length, &gauge, &shown), code);
    expect("the bits as they were", memcmp(bits, before, sizeof before), 0);
    expect("an empty gauge", gauge, 0);
    expect_float("nothing shown", shown, 0.0);
}

/* A refused reading back gives five zeros; another length of figures leaves them as they were. */
static void read_refused(const char *what, const uint64_t *bits, size_t bits_length, size_t figures_length, uint8_t code) {
    double figures[6] = {-7.0, -7.0, -7.0, -7.0, -7.0, -7.0};
    expect(what, single_limit_app_read(bits, bits_length, figures, figures_length), code);
    for (int i = 0; i < 6; i++) expect_float(what, figures[i], i < 5 && figures_length == 5 ? 0.0 : -7.0);
}

static void refusals_of_the_feed(void) {
    static const uint64_t infinity = UINT64_C(0x7ff0000000000000), minus = UINT64_C(0x8000000000000000);
    static const size_t lengths[4] = {0, 4, 6, 1};
    double figures[5];
    for (int i = 0; i < 4; i++) {
        uint64_t bits[6] = {infinity + 1, 2, 3, 4, 5, 6};
        feed_refused("bits of another length", 16, lengths[i], 1);
        read_refused("bits of another length", bits, lengths[i], 5, 1);
        read_refused("figures of another length", bits, 5, lengths[i], 1);
    }
    feed_refused("account 16", 16, 5, 3);
    feed_refused("account 2 is not open", 2, 5, 4);
    for (int i = 0; i < 5; i++) {
        uint64_t bits[5] = {1, minus, infinity, minus + infinity, 0};
        expect("any number's pattern", single_limit_app_read(bits, 5, figures, 5), 0);
        expect("its bits again", memcmp(bits, figures, sizeof bits), 0);
        bits[i] = infinity + 1;
        read_refused("a NaN's pattern", bits, 5, 5, 9);
        bits[i] = UINT64_MAX;
        read_refused("a negative NaN's pattern", bits, 5, 5, 9);
    }
}

static void refusals(void) {
    int64_t before[BOOK], figures[5] = {1, 2, 3, 4, 5};
    uint64_t place = 7;
    memcpy(before, book, sizeof book);
    expect("a short book", single_limit_roll(book, BOOK - 1, 1), 1);
    expect("account -1", single_limit_roll(book, BOOK, -1), 3);
    expect("account 16", report(16, figures), 3);
    expect("zeros", figures[0] | figures[1] | figures[2] | figures[3] | figures[4], 0);
    expect("account 2 is not open", report(2, figures), 4);
    other_figures_lengths();
    expect("open twice", single_limit_open(book, BOOK, 0, 1, 0), 5);
    expect("a move of nothing", move(0, 0, 0), 8);
    expect("more than there is", move(1, RUBLES, -21001), 9);
    expect("sound tables", single_limit_check_tables(clearing, TABLE, own, TABLE, groups, GROUPS, &place), 0);
    expect("no place", (int64_t)place, 0);
    groups[7] = 51;
    expect("a percent of 51", single_limit_check_tables(clearing, TABLE, own, TABLE, groups, GROUPS, &place), 2);
    expect("its place", (int64_t)place, 2055);
    expect("an order under it", buy_ten(1), 2);
    feed_refused("a feed under it", 1, 5, 2);
    groups[7] = 0;
    expect("the book as it was", memcmp(before, book, sizeof book), 0);
}

int main(void) {
    the_session();
    the_edge();
    one_code();
    covers();
    the_feed();
    refusals_of_the_feed();
    refusals();
    return failures != 0;
}
