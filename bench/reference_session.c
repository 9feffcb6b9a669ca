/* The session program over bench/reference.c: session lines on standard input are answered on standard output. Input is read and output written in
 * large pieces, and a line is read where it stands. This file is compiled by the machine's cc, for the kit's clang comes without the C library. */
#include <errno.h>
#include <stddef.h>
#include <stdint.h>
#include <string.h>
#include <unistd.h>

uint8_t reference_report(const int64_t *book, size_t book_length, const int64_t *clearing, size_t clearing_length, const int64_t *own,
                         size_t own_length, const int64_t *groups, size_t groups_length, int64_t account, int64_t *figures, size_t figures_length);
uint8_t reference_order(int64_t *book, size_t book_length, const int64_t *clearing, size_t clearing_length, const int64_t *own, size_t own_length,
                        const int64_t *groups, size_t groups_length, int64_t account, int64_t asset, int64_t date, int64_t side, int64_t quantity,
                        int64_t money);
uint8_t reference_move(int64_t *book, size_t book_length, const int64_t *clearing, size_t clearing_length, const int64_t *own, size_t own_length,
                       const int64_t *groups, size_t groups_length, int64_t account, int64_t asset, int64_t amount);
uint8_t reference_open(int64_t *book, size_t book_length, int64_t account, int64_t kind, int64_t code);
uint8_t reference_roll(int64_t *book, size_t book_length, int64_t account);

enum { BOOK = 4608, TABLE = 1024, GROUPS = 8, PLACES = 2 * TABLE + GROUPS, FIGURES = 5, NUMBER = 8 };
enum { SET = 1, OPEN, MOVE, ORDER, ROLL, REPORT };
enum { SET_BYTES = 3 + NUMBER, OPEN_BYTES = 4, MOVE_BYTES = 3 + NUMBER, ORDER_BYTES = 5 + 2 * NUMBER, SHORT_BYTES = 2 };
enum { WRONG_CHOICE = 7, MALFORMED = 12 };
enum { INPUT = 1 << 16, LONGEST_LINE = 2 * ORDER_BYTES, LONGEST_ANSWER = 2 * (1 + FIGURES * NUMBER) + 1, NO_DIGIT = 0x80 };

static int64_t book[BOOK], parameters[PLACES];
static const int64_t *const clearing = parameters, *const own = parameters + TABLE, *const groups = parameters + 2 * TABLE;
static char input[INPUT], output[INPUT + LONGEST_ANSWER];
static size_t written;

static int write_out(void) {
    for (size_t at = 0; at < written;) {
        ssize_t count = write(1, output + at, written - at);
        if (count < 0 && errno != EINTR) return 0;
        if (count > 0) at += (size_t)count;
    }
    written = 0;
    return 1;
}

static uint8_t digits[256];

static void fill_digits(void) {
    memset(digits, NO_DIGIT, sizeof digits);
    for (int value = 0; value < 16; value++) digits[(uint8_t)"0123456789abcdef"[value]] = (uint8_t)value;
}

/* 0 where a character is no digit. */
static int read_bytes(const char *line, size_t count, uint8_t *bytes) {
    unsigned seen = 0;
    for (size_t n = 0; n < count; n++) {
        unsigned high = digits[(uint8_t)line[2 * n]], low = digits[(uint8_t)line[2 * n + 1]];
        seen |= high | low;
        bytes[n] = (uint8_t)(high << 4 | low);
    }
    return !(seen & NO_DIGIT);
}

static int64_t number_at(const uint8_t *bytes) {
    uint64_t number = 0;
    for (int n = 0; n < NUMBER; n++) number = number << 8 | bytes[n];
    return (int64_t)number;
}

static void put(uint64_t number, int bytes) {
    for (int shift = 8 * bytes - 4; shift >= 0; shift -= 4) output[written++] = "0123456789abcdef"[number >> shift & 15];
}

static uint8_t set(size_t place, int64_t number) {
    if (place >= PLACES) return WRONG_CHOICE;
    parameters[place] = number;
    return 0;
}

/* Of a frame of any kind but a report. */
static uint8_t answer(const uint8_t *frame, size_t count) {
    if (frame[0] == SET && count == SET_BYTES) return set((size_t)frame[1] << 8 | frame[2], number_at(frame + 3));
    if (frame[0] == OPEN && count == OPEN_BYTES) return reference_open(book, BOOK, frame[1], frame[2], frame[3]);
    if (frame[0] == MOVE && count == MOVE_BYTES)
        return reference_move(book, BOOK, clearing, TABLE, own, TABLE, groups, GROUPS, frame[1], frame[2], number_at(frame + 3));
    if (frame[0] == ORDER && count == ORDER_BYTES)
        return reference_order(book, BOOK, clearing, TABLE, own, TABLE, groups, GROUPS, frame[1], frame[2], frame[3], frame[4],
                               number_at(frame + 5), number_at(frame + 5 + NUMBER));
    if (frame[0] == ROLL && count == SHORT_BYTES) return reference_roll(book, BOOK, frame[1]);
    return MALFORMED;
}

static void answer_line(const char *line, size_t length) {
    uint8_t frame[ORDER_BYTES] = {0};
    size_t count = length / 2;
    if (length == 0 || length % 2 || length > LONGEST_LINE || !read_bytes(line, count, frame)) {
        put(MALFORMED, 1);
    } else if (frame[0] == REPORT && count == SHORT_BYTES) {
        int64_t figures[FIGURES];
        put(reference_report(book, BOOK, clearing, TABLE, own, TABLE, groups, GROUPS, frame[1], figures, FIGURES), 1);
        for (int n = 0; n < FIGURES; n++) put((uint64_t)figures[n], NUMBER);
    } else {
        put(answer(frame, count), 1);
    }
    output[written++] = '\n';
}

/* Answers the whole lines of what is there; handed back is how much of it they took. */
static size_t answer_lines(const char *text, size_t length, int *good) {
    const char *line = text, *newline;
    while (*good && (newline = memchr(line, '\n', length - (size_t)(line - text)))) {
        answer_line(line, (size_t)(newline - line));
        line = newline + 1;
        if (written >= INPUT) *good = write_out();
    }
    return (size_t)(line - text);
}

int main(void) {
    size_t there = 0;
    int good = 1;
    fill_digits();
    while (good && (good = write_out())) {
        ssize_t count = read(0, input + there, INPUT - there);
        if (count < 0 && errno == EINTR) continue;
        if (count < 0) return 1;
        if (count == 0) break;
        there += (size_t)count;
        size_t taken = answer_lines(input, there, &good);
        there -= taken;
        memmove(input, input + taken, there);
        /* Of a line that fills the input so much is kept that it stays too long. */
        if (there == INPUT) there = LONGEST_LINE + 1;
    }
    if (good && there > 0) answer_line(input, there);
    return good && write_out() ? 0 : 1;
}
