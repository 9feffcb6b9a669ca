/* The Single Limit engine for C, C++ and whatever links with C.
 *
 * Every call takes any numbers and any lengths and answers a code. A refusal writes nothing, but for this: a refused report and a refused reading
 * back write five zeros (unless the length of `figures` itself is wrong), a refused feed writes the empty gauge and a zero and leaves `bits` as
 * they were, and a refused check of tables writes its place, which is 0 unless the code is 2 or 13.
 *
 * What the caller keeps, since no call can look for it:
 *   - a pointer is not null, is aligned for its type, and is good for as many numbers as its length says;
 *   - what is written (`book`, and `place`, `figures`, `bits`, `gauge` and `shown` too) overlaps nothing else that is lent to the same call;
 *   - one writer to a book at a time, and nobody reads it or writes the lent tables meanwhile;
 *   - the thread rounds floats to nearest, as every C program starts: the app's gauge divides, once, and nothing else here rounds a float.
 * The engine has no state of its own and allocates nothing: any number of books, tables and threads may use it at once.
 *
 * Numbers are int64_t: money is whole kopecks, quantities whole units, rates and shares hundredths of a percent (10,000 is the whole). Only the
 * app's feed has floats: binary64, which is double, and a float's bits, which are uint64_t.
 * tests/header holds names, numbers and parameters here to the engine's source. */
#ifndef SINGLE_LIMIT_H
#define SINGLE_LIMIT_H

#include <stddef.h>
#include <stdint.h>

#ifdef __cplusplus
extern "C" {
#endif

/* The version of this face: the first number changes where a program must, the second where an answer does or a call is added. */
#define SINGLE_LIMIT_VERSION "3.0.1"

/* Accounts 0 to 15, assets 0 to 15, dates 0 to 7 (date 0 is T0), groups 1 to 8. */
#define SINGLE_LIMIT_ACCOUNTS 16
#define SINGLE_LIMIT_ASSETS 16
#define SINGLE_LIMIT_DATES 8
#define SINGLE_LIMIT_GROUPS 8

/* Lengths in numbers. A book is 16 blocks, a table (clearing, own) 16 rows; a block has 16 holdings, a row 8 dates. */
#define SINGLE_LIMIT_BOOK_LENGTH 4608
#define SINGLE_LIMIT_BLOCK_LENGTH 288
#define SINGLE_LIMIT_HOLDING_LENGTH 17
#define SINGLE_LIMIT_TABLE_LENGTH 1024
#define SINGLE_LIMIT_ROW_LENGTH 64
#define SINGLE_LIMIT_DATE_LENGTH 5
#define SINGLE_LIMIT_GROUPS_LENGTH 8
#define SINGLE_LIMIT_FIGURES_LENGTH 5

/* Bytes of stack: no call takes more, as measured with the frame of a C function that only makes it. What it takes does not grow with what it is lent. */
#define SINGLE_LIMIT_MOST_STACK 2048

/* Bounds: of rubles and of units either way; of prices, concentration limits and a date's distances; of shares and rates; of a percent. */
#define SINGLE_LIMIT_MOST_RUBLES INT64_C(100000000000000)
#define SINGLE_LIMIT_MOST_UNITS INT64_C(1000000)
#define SINGLE_LIMIT_MOST_PRICE INT64_C(10000000)
#define SINGLE_LIMIT_WHOLE INT64_C(10000)
#define SINGLE_LIMIT_MOST_PERCENT INT64_C(50)

/* Row: what is known of an asset. Row a of a table is of asset a. Rules are checked by rising number; one over two numbers breaks at the later.
 *
 *   number            meaning                                                          rule
 *   0                 kind: 1 security, 2 currency or metal, 3 commodity, 0 unlisted   an unlisted row is all zero
 *   1                 price                                                            1 to 10^7
 *   2, 3              acceptance share, pool share                                     0 to 10,000
 *   4                 covered sales: 0 recorded, 1 not recorded, 2 partial             0 to 2
 *   5                 special delivery                                                 0 or 1
 *   6, 7              fall rate, rise rate                                             0 to 10,000; equal for kind 3
 *   8, 9              raised fall, raised rise                                         base rate to 10,000; equal for kind 3
 *   10, 11            market and interest concentration limits                         0 to 10^7
 *   12                spread group                                                     0 none, to 8
 *   13 to 15          spare                                                            zero
 *   16 + 5d           mid of date d                                                    price + mid from 0 to 10^7
 *   +1, +2            low, up of that date                                             mid - 10^7 <= low <= mid <= up <= mid + 10^7
 *   +3, +4            outer low, outer up of that date                                 mid - 10^7 <= outer low <= low; up <= outer up <= mid + 10^7
 *   56 to 63          rest                                                             zero
 *
 * A row with a kind and a price alone is sound and has no risk: a rate of 0 is a rate like any other, not one that is missing. The table check
 * cannot tell a row that was half filled from one that is meant so; whoever fills rows must.
 *
 * An own row of zeros is absent; else it has the kind of the listed clearing row and is in force in its place. It may only be stricter: the clearing
 * row's price, mids, covered sales and group; shares and concentration limits no greater; rates no smaller; lows and outer lows no higher, ups and
 * outer ups no lower; special delivery kept where set. Where one of its numbers is laxer the tables are refused with 13. */
#define SINGLE_LIMIT_ROW_KIND 0
#define SINGLE_LIMIT_ROW_PRICE 1
#define SINGLE_LIMIT_ROW_ACCEPTANCE_SHARE 2
#define SINGLE_LIMIT_ROW_POOL_SHARE 3
#define SINGLE_LIMIT_ROW_COVERED_SALES 4
#define SINGLE_LIMIT_ROW_SPECIAL_DELIVERY 5
#define SINGLE_LIMIT_ROW_FALL 6
#define SINGLE_LIMIT_ROW_RISE 7
#define SINGLE_LIMIT_ROW_RAISED_FALL 8
#define SINGLE_LIMIT_ROW_RAISED_RISE 9
#define SINGLE_LIMIT_ROW_MARKET_LIMIT 10
#define SINGLE_LIMIT_ROW_INTEREST_LIMIT 11
#define SINGLE_LIMIT_ROW_SPREAD_GROUP 12
#define SINGLE_LIMIT_ROW_SPARE 13
#define SINGLE_LIMIT_ROW_DATES 16
#define SINGLE_LIMIT_ROW_REST 56

/* In a date of a row. */
#define SINGLE_LIMIT_DATE_MID 0
#define SINGLE_LIMIT_DATE_LOW 1
#define SINGLE_LIMIT_DATE_UP 2
#define SINGLE_LIMIT_DATE_OUTER_LOW 3
#define SINGLE_LIMIT_DATE_OUTER_UP 4

/* Kinds of a row, and covered sales. */
#define SINGLE_LIMIT_ASSET_UNLISTED 0
#define SINGLE_LIMIT_ASSET_SECURITY 1
#define SINGLE_LIMIT_ASSET_CURRENCY_OR_METAL 2
#define SINGLE_LIMIT_ASSET_COMMODITY 3
#define SINGLE_LIMIT_SALES_RECORDED 0
#define SINGLE_LIMIT_SALES_NOT_RECORDED 1
#define SINGLE_LIMIT_SALES_PARTIAL 2

/* Groups: number g - 1 is the discount percent of group g, 0 to 50. Group 0 of a row is none and has no number. */

/* Places of the table check: that of a number in the clearing table, 1,024 more in the own table, 2,048 more in the groups; and their
 * count. */
#define SINGLE_LIMIT_PLACE_CLEARING 0
#define SINGLE_LIMIT_PLACE_OWN 1024
#define SINGLE_LIMIT_PLACE_GROUPS 2048
#define SINGLE_LIMIT_PLACES 2056

/* Block: an account. One that is not open is all zero. A book of zeros is sound, with no account open.
 *
 *   number            meaning                                                        bounds
 *   0                 kind: 0 not open, 1 ordinary, 2 pool, 3 pool of the list       0 to 3
 *   1                 ruble collateral                                               10^14 either way
 *   2 + d             ruble net of trades of date d                                  10^14 either way
 *   10 to 12, 14, 15  spare                                                          zero
 *   13                settlement code: 0 none, else shared                           0 to 15
 *   16 + 17a          collateral of asset a                                          10^6 either way
 *   16 + 17a + 1 + d  claim of asset a at date d                                     0 to 10^6
 *   16 + 17a + 9 + d  obligation of asset a at date d                                0 to 10^6
 *
 * A settlement code is given when an account is opened, and no call changes it. Code 0 is none. Codes 1 to 15 are each shared by at most four open
 * accounts of one kind, which are valued together (clause 4.11): collateral is adjusted and valued within each block and then added, positions are
 * added by date before market and interest risk are taken. Every account of a code reports the code's figures, and its orders and withdrawals are
 * judged by the code's limit; every call writes the account's own block alone.
 *
 * On a code are the blocks whose number 13 has it, open or not. Where one of them breaks the rules above or is of another kind, or there are more
 * than four, every call but open answers 6 for every account of the code; so does every call that is lent tables where one of them has a holding in
 * an unlisted asset. */
#define SINGLE_LIMIT_BLOCK_KIND 0
#define SINGLE_LIMIT_BLOCK_RUBLE_COLLATERAL 1
#define SINGLE_LIMIT_BLOCK_RUBLE_NETS 2
#define SINGLE_LIMIT_BLOCK_SPARE 10
#define SINGLE_LIMIT_BLOCK_SETTLEMENT_CODE 13
#define SINGLE_LIMIT_BLOCK_HOLDINGS 16
#define SINGLE_LIMIT_HOLDING_COLLATERAL 0
#define SINGLE_LIMIT_HOLDING_CLAIMS 1
#define SINGLE_LIMIT_HOLDING_OBLIGATIONS 9

/* Kinds of an account, the last settlement code, the asset that stands for rubles in a move, and sides of an order. */
#define SINGLE_LIMIT_ACCOUNT_NOT_OPEN 0
#define SINGLE_LIMIT_ACCOUNT_ORDINARY 1
#define SINGLE_LIMIT_ACCOUNT_POOL 2
#define SINGLE_LIMIT_ACCOUNT_POOL_OF_THE_LIST 3
#define SINGLE_LIMIT_LAST_SETTLEMENT_CODE 15
#define SINGLE_LIMIT_RUBLES 255
#define SINGLE_LIMIT_BUY 0
#define SINGLE_LIMIT_SELL 1

/* In the five figures of a report, and of the app's feed. */
#define SINGLE_LIMIT_FIGURE_VALUATION 0
#define SINGLE_LIMIT_FIGURE_MARKET_RISK 1
#define SINGLE_LIMIT_FIGURE_INTEREST_RISK 2
#define SINGLE_LIMIT_FIGURE_DISCOUNT 3
#define SINGLE_LIMIT_FIGURE_LIMIT 4

/* The gauge of the app's first screen, and what it shows: nothing (0.0), where the valuation is zero or less, whatever the limit; the shortfall,
 * -limit in kopecks, where the limit is negative; else the share of the valuation that is used, from 0.0 to 1.0. */
#define SINGLE_LIMIT_GAUGE_EMPTY 0
#define SINGLE_LIMIT_GAUGE_OVER 1
#define SINGLE_LIMIT_GAUGE_USED 2

/* Codes, by number; single_limit_words says each in words. They are looked for in the order 1, 2, 13, 3, 6, 4, 5, 7, 8, 9, 10, and the first
 * that applies is answered: a broken block is found before it is asked whether the account is open. */
#define SINGLE_LIMIT_DONE 0
#define SINGLE_LIMIT_REFUSED_WRONG_LENGTH 1
#define SINGLE_LIMIT_REFUSED_BROKEN_NUMBER 2
#define SINGLE_LIMIT_REFUSED_NO_ACCOUNT 3
#define SINGLE_LIMIT_REFUSED_NOT_OPEN 4
#define SINGLE_LIMIT_REFUSED_ALREADY_OPEN 5
#define SINGLE_LIMIT_REFUSED_BROKEN_BLOCK 6
#define SINGLE_LIMIT_REFUSED_WRONG_CHOICE 7
#define SINGLE_LIMIT_REFUSED_WRONG_AMOUNT 8
#define SINGLE_LIMIT_REFUSED_OUT_OF_BOUNDS 9
#define SINGLE_LIMIT_REFUSED_NEGATIVE_LIMIT 10
#define SINGLE_LIMIT_REFUSED_LAXER_OWN_ROW 13

/* A code in words. */
static inline const char *single_limit_words(uint8_t code) {
    switch (code) {
    case SINGLE_LIMIT_DONE: return "done";
    case SINGLE_LIMIT_REFUSED_WRONG_LENGTH: return "a lent length is wrong";
    case SINGLE_LIMIT_REFUSED_BROKEN_NUMBER: return "the table check finds a broken number";
    case SINGLE_LIMIT_REFUSED_NO_ACCOUNT: return "account number not 0 to 15";
    case SINGLE_LIMIT_REFUSED_NOT_OPEN: return "account not open";
    case SINGLE_LIMIT_REFUSED_ALREADY_OPEN: return "open on an open account";
    case SINGLE_LIMIT_REFUSED_BROKEN_BLOCK:
        return "block, or another on its settlement code, breaks the block rules; two kinds or more than four blocks on that code; "
               "where tables are lent, also a nonzero holding of one of them in an unlisted asset";
    case SINGLE_LIMIT_REFUSED_WRONG_CHOICE:
        return "asset unlisted or not 0 to 15 (a move also takes 255, rubles), date not 0 to 7, side not 0 or 1, "
               "account kind to open not 1 to 3, settlement code to open on not 0 to 15, or with four blocks on it already, "
               "or with one on it of another kind or a broken one";
    case SINGLE_LIMIT_REFUSED_WRONG_AMOUNT:
        return "quantity not 1 to 10^6; order money not 0 to 10^14; move 0, or beyond 10^6 either way (10^14 for rubles)";
    case SINGLE_LIMIT_REFUSED_OUT_OF_BOUNDS:
        return "a number would leave its bounds, or a withdrawal would leave collateral below 0; "
               "a figure for the app of 2^53 or more in size; a NaN's pattern read back";
    case SINGLE_LIMIT_REFUSED_NEGATIVE_LIMIT:
        return "limit after a withdrawal would be negative, or after an order negative and not raised by it";
    case SINGLE_LIMIT_REFUSED_LAXER_OWN_ROW: return "the table check finds an own row that is laxer than its clearing row";
    default: return "not a code of the engine";
    }
}

/* Where numbers stand. Nothing is checked: an account, asset or date that there is not gives an index of something else, or beyond. */

/* In a table: a number of an asset's row (SINGLE_LIMIT_ROW_...). */
static inline size_t single_limit_row_at(size_t asset, size_t number) { return SINGLE_LIMIT_ROW_LENGTH * asset + number; }

/* In a table: a number of a date of an asset's row (SINGLE_LIMIT_DATE_...). */
static inline size_t single_limit_date_at(size_t asset, size_t date, size_t number) {
    return single_limit_row_at(asset, SINGLE_LIMIT_ROW_DATES + SINGLE_LIMIT_DATE_LENGTH * date + number);
}

/* In a book: a number of an account's block (SINGLE_LIMIT_BLOCK_...). */
static inline size_t single_limit_block_at(size_t account, size_t number) { return SINGLE_LIMIT_BLOCK_LENGTH * account + number; }

/* In a book: an account's ruble net of a date. */
static inline size_t single_limit_ruble_net_at(size_t account, size_t date) {
    return single_limit_block_at(account, SINGLE_LIMIT_BLOCK_RUBLE_NETS + date);
}

/* In a book: an account's collateral of an asset, its claim and its obligation of a date. */
static inline size_t single_limit_collateral_at(size_t account, size_t asset) {
    return single_limit_block_at(account, SINGLE_LIMIT_BLOCK_HOLDINGS + SINGLE_LIMIT_HOLDING_LENGTH * asset);
}
static inline size_t single_limit_claim_at(size_t account, size_t asset, size_t date) {
    return single_limit_collateral_at(account, asset) + SINGLE_LIMIT_HOLDING_CLAIMS + date;
}
static inline size_t single_limit_obligation_at(size_t account, size_t asset, size_t date) {
    return single_limit_collateral_at(account, asset) + SINGLE_LIMIT_HOLDING_OBLIGATIONS + date;
}

/* Are the tables sound, and own rows only stricter? With code 2, *place is the place of the first broken number (SINGLE_LIMIT_PLACE_...), with code
 * 13 that of the first laxer number of the own table, else 0. */
uint8_t single_limit_check_tables(const int64_t *clearing, size_t clearing_length, const int64_t *own, size_t own_length,
                                  const int64_t *groups, size_t groups_length, uint64_t *place);

/* The cover test: 1 where the row in force of that asset passes it and is sound, else 0; 0 too for a wrong length or an asset not 0 to 15. No
 * code is answered. */
uint8_t single_limit_covers(const int64_t *clearing, size_t clearing_length, const int64_t *own, size_t own_length, int64_t asset);

/* Open an account: kind 1 ordinary, 2 pool, 3 pool of the list; code is its settlement code, 1 to 15, or 0 for none. Code 7 is answered where kind
 * or settlement code is none of these, and where four blocks are on that settlement code already, or one of another kind, or a broken one. */
uint8_t single_limit_open(int64_t *book, size_t book_length, int64_t account, int64_t kind, int64_t code);

/* Move collateral of an asset, or of rubles (255): a positive amount deposits, a negative one withdraws. */
uint8_t single_limit_move(int64_t *book, size_t book_length, const int64_t *clearing, size_t clearing_length, const int64_t *own,
                          size_t own_length, const int64_t *groups, size_t groups_length, int64_t account, int64_t asset,
                          int64_t amount);

/* Order: side 0 buys, 1 sells; money is of the whole order, not of a unit. Booked as a trade at once where it is admitted: the limit after it is
 * zero or more, or above the limit before it. Then the code is 0. */
uint8_t single_limit_order(int64_t *book, size_t book_length, const int64_t *clearing, size_t clearing_length, const int64_t *own,
                           size_t own_length, const int64_t *groups, size_t groups_length, int64_t account, int64_t asset,
                           int64_t date, int64_t side, int64_t quantity, int64_t money);

/* Roll an account to the next day: collateral gains date 0's net, dates 1 to 7 become 0 to 6, date 7 empties. All or nothing. */
uint8_t single_limit_roll(int64_t *book, size_t book_length, int64_t account);

/* Report an account, or all on its settlement code: figures takes five numbers, valuation, market risk, interest risk, discount, limit; zeros where
 * the answer is not 0. Another length of it is code 1, and nothing is written. */
uint8_t single_limit_report(const int64_t *book, size_t book_length, const int64_t *clearing, size_t clearing_length, const int64_t *own,
                            size_t own_length, const int64_t *groups, size_t groups_length, int64_t account, int64_t *figures,
                            size_t figures_length);

/* Feed the app with an account's report: bits takes five numbers, the bits of the figures as floats in kopecks, in report order; each float is
 * exactly the whole number, and a zero is +0.0. They are what goes to the app. *gauge is one of SINGLE_LIMIT_GAUGE_..., *shown its float: where
 * used, (market risk + interest risk - discount) / valuation, one division rounded once. Codes are the report's, then 9 where a figure is 2^53 or
 * more in size, so that its float could be another number: only several accounts on one settlement code come so far, and they still report. Where
 * the code is not 0 the gauge is empty, *shown is +0.0 and bits stay as they were. Another length of bits is code 1, before all else. */
uint8_t single_limit_app(const int64_t *book, size_t book_length, const int64_t *clearing, size_t clearing_length, const int64_t *own,
                         size_t own_length, const int64_t *groups, size_t groups_length, int64_t account, uint64_t *bits,
                         size_t bits_length, uint8_t *gauge, double *shown);

/* Read a feed back: figures takes the floats of the five bits, each with the same bits again. Another length of bits is code 1; a NaN's pattern
 * among them, which no feed writes, is code 9; then figures takes five +0.0. Another length of figures is code 1, and nothing is written. */
uint8_t single_limit_app_read(const uint64_t *bits, size_t bits_length, double *figures, size_t figures_length);

#ifdef __cplusplus
}
#endif

#endif
