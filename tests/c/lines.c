/* Session lines of document 01 answered by the calls of include/single_limit.h, so that the engine can be compared with the second program line by
 * line. A line is kept whole; only the byte 0a ends one. */
#include "single_limit.h"

#include <stdio.h>
#include <stdlib.h>

enum { BOOK = 4608, TABLE = 1024, GROUPS = 8, PARAMETERS = 2056, LONGEST = 21, MALFORMED = 12 };

static int64_t book[BOOK], parameters[PARAMETERS];

#define TABLES parameters, TABLE, parameters + TABLE, TABLE, parameters + 2 * TABLE, GROUPS

static int digit(int c) {
    if (c >= '0' && c <= '9') return c - '0';
    if (c >= 'a' && c <= 'f') return c - 'a' + 10;
    return -1;
}

/* The bytes of a line, or 0 where it is no even count of digits or longer than any frame. */
static size_t unhex(const char *line, size_t length, unsigned char *frame) {
    if (length % 2 != 0 || length / 2 > LONGEST) return 0;
    for (size_t i = 0; i < length / 2; i++) {
        int high = digit(line[2 * i]), low = digit(line[2 * i + 1]);
        if (high < 0 || low < 0) return 0;
        frame[i] = (unsigned char)(16 * high + low);
    }
    return length / 2;
}

static int64_t n8(const unsigned char *bytes) {
    uint64_t bits = 0;
    for (int i = 0; i < 8; i++) bits = bits << 8 | bytes[i];
    return (int64_t)bits;
}

static int set_parameter(const unsigned char *f) {
    int place = 256 * f[1] + f[2];
    if (place >= PARAMETERS) return 7;
    parameters[place] = n8(f + 3);
    return 0;
}

static void report(int64_t account) {
    int64_t figures[5];
    printf("%02x", single_limit_report(book, BOOK, TABLES, account, figures, 5));
    for (int i = 0; i < 5; i++) printf("%016llx", (unsigned long long)figures[i]);
    putchar('\n');
}

static int code_of(const unsigned char *f, size_t length) {
    if (f[0] == 1 && length == 11) return set_parameter(f);
    if (f[0] == 2 && length == 4) return single_limit_open(book, BOOK, f[1], f[2], f[3]);
    if (f[0] == 3 && length == 11) return single_limit_move(book, BOOK, TABLES, f[1], f[2], n8(f + 3));
    if (f[0] == 4 && length == 21) return single_limit_order(book, BOOK, TABLES, f[1], f[2], f[3], f[4], n8(f + 5), n8(f + 13));
    if (f[0] == 5 && length == 2) return single_limit_roll(book, BOOK, f[1]);
    return MALFORMED;
}

static void answer(const char *line, size_t length) {
    unsigned char frame[LONGEST] = {0};
    size_t bytes = unhex(line, length, frame);
    if (frame[0] == 6 && bytes == 2)
        report(frame[1]);
    else
        printf("%02x\n", bytes == 0 ? MALFORMED : code_of(frame, bytes));
}

int main(void) {
    char *line = malloc(1);
    size_t length = 0, room = 1;
    for (int c = getchar(); c != EOF; c = getchar()) {
        if (c == '\n') {
            answer(line, length);
            length = 0;
            continue;
        }
        if (length == room) line = realloc(line, room *= 2);
        if (line == NULL) return 1;
        line[length++] = (char)c;
    }
    if (length > 0) answer(line, length);
    free(line);
    return 0;
}
