/* Call scripts answered by the calls of include/single_limit.h, so that the engine can be compared with the second program call by call: hand-made
 * books and tables, buffers of any length, and a checksum over all of them after every call. A script is one command a line, a word and decimal
 * numbers with single spaces between them. Each buffer stands between guard words, which are looked at after every call. Each call has a painted
 * stack of its own, and one that takes more of it than the header allows stops the program. The most that each call took is added to the file that
 * STACK_FILE names, where it does. */
#define _XOPEN_SOURCE 700
#include "painted.h"
#include "single_limit.h"

#include <errno.h>
#include <stdio.h>
#include <stdlib.h>
#include <string.h>

enum { GUARDS = 8, MOST_NUMBERS = 7, LONGEST_LINE = 256, FIGURES = 5 };

/* Neither small nor a likely sum, and another at each end and place. */
#define GUARD(i) (INT64_C(0x5afe5afe5afe5afe) + (int64_t)(i))

struct buffer {
    size_t right_length;
    uint64_t factor;
    size_t length;
    int64_t *numbers;
};

/* The checksum's factors 3 and 13 are of buffers that no call is lent yet. */
static struct buffer book = {4608, 1, 0, NULL}, clearing = {1024, 5, 0, NULL}, own = {1024, 7, 0, NULL}, groups = {8, 11, 0, NULL};
static struct buffer feed = {5, 17, 0, NULL};
static struct buffer *const buffers[] = {&book, &clearing, &own, &groups, &feed};
enum { BUFFERS = sizeof buffers / sizeof *buffers };

static unsigned long line_number;

static void stop(const char *what) {
    fflush(stdout);
    fprintf(stderr, "line %lu: %s\n", line_number, what);
    exit(1);
}

/* So many numbers of zero between guard words. */
static int64_t *guarded(size_t length) {
    int64_t *words = calloc(length + 2 * GUARDS, sizeof *words);
    if (words == NULL) stop("no memory");
    for (int i = 0; i < GUARDS; i++) {
        words[i] = GUARD(i);
        words[GUARDS + length + (size_t)i] = GUARD(GUARDS + i);
    }
    return words + GUARDS;
}

static int guards_stand(const int64_t *numbers, size_t length) {
    for (int i = 0; i < GUARDS; i++)
        if (numbers[i - GUARDS] != GUARD(i) || numbers[length + (size_t)i] != GUARD(GUARDS + i)) return 0;
    return 1;
}

/* Cut, or filled up with zeros. */
static void resize(struct buffer *buffer, size_t length) {
    int64_t *numbers = guarded(length);
    size_t kept = buffer->length < length ? buffer->length : length;
    if (buffer->numbers != NULL) {
        memcpy(numbers, buffer->numbers, kept * sizeof *numbers);
        free(buffer->numbers - GUARDS);
    }
    buffer->numbers = numbers;
    buffer->length = length;
}

static void reset(const int64_t *n) {
    (void)n;
    for (int i = 0; i < BUFFERS; i++) {
        resize(buffers[i], 0);
        resize(buffers[i], buffers[i]->right_length);
    }
}

static uint64_t checksum(void) {
    uint64_t sum = 0;
    for (int b = 0; b < BUFFERS; b++) {
        uint64_t of_buffer = 0;
        for (size_t i = 0; i < buffers[b]->length; i++) of_buffer += (i + 1) * (uint64_t)buffers[b]->numbers[i];
        sum += buffers[b]->factor * of_buffer;
    }
    return sum;
}

static void look_at_guards(void) {
    for (int b = 0; b < BUFFERS; b++)
        if (!guards_stand(buffers[b]->numbers, buffers[b]->length)) stop("a guard word was written over");
}

static void set(struct buffer *buffer, const int64_t *n) {
    if (n[0] < 0 || (uint64_t)n[0] >= buffer->length) stop("beyond the lent length");
    buffer->numbers[n[0]] = n[1];
}

static void set_book(const int64_t *n) { set(&book, n); }
static void set_clearing(const int64_t *n) { set(&clearing, n); }
static void set_own(const int64_t *n) { set(&own, n); }
static void set_groups(const int64_t *n) { set(&groups, n); }
static void set_feed(const int64_t *n) { set(&feed, n); }

/* Book, list, clearing, own, groups, a table, the feed; those of buffers that no call is lent yet are passed over. */
static void lend_lengths(const int64_t *n) {
    static const int at[BUFFERS] = {0, 2, 3, 4, 6};
    for (int i = 0; i < MOST_NUMBERS; i++)
        if (n[i] < 0 || n[i] > 1000000) stop("no length");
    for (int b = 0; b < BUFFERS; b++) resize(buffers[b], (size_t)n[at[b]]);
}

#define LENT(buffer) (buffer).numbers, (buffer).length
#define TABLES LENT(clearing), LENT(own), LENT(groups)
/* A script has signed numbers, and a float's bits are unsigned: the same bits. */
#define BITS (uint64_t *)feed.numbers, feed.length

/* What a call answered, for the printing after it. What it writes beside the book stands between guard words too, and is not zero before. */
static uint8_t code, gauge[3];
static uint64_t place[3];
static int64_t *figures;
static double shown[3], floats[GUARDS + FIGURES + GUARDS];

static void fill_answers(void) {
    code = 7;
    for (int i = 0; i < 3; i++) {
        gauge[i] = 7;
        place[i] = 7;
        shown[i] = -7.0;
    }
    for (int i = 0; i < FIGURES; i++) figures[i] = -7;
    for (int i = 0; i < GUARDS + FIGURES + GUARDS; i++) floats[i] = -7.0;
}

static void check(const int64_t *n) {
    (void)n;
    code = single_limit_check_tables(TABLES, &place[1]);
}
static void cover(const int64_t *n) { code = single_limit_covers(LENT(clearing), LENT(own), n[0]); }
static void open_account(const int64_t *n) { code = single_limit_open(LENT(book), n[0], n[1], n[2]); }
static void move(const int64_t *n) { code = single_limit_move(LENT(book), TABLES, n[0], n[1], n[2]); }
static void order(const int64_t *n) { code = single_limit_order(LENT(book), TABLES, n[0], n[1], n[2], n[3], n[4], n[5]); }
static void roll(const int64_t *n) { code = single_limit_roll(LENT(book), n[0]); }
static void report(const int64_t *n) { code = single_limit_report(LENT(book), TABLES, n[0], figures, FIGURES); }
static void app(const int64_t *n) { code = single_limit_app(LENT(book), TABLES, n[0], BITS, &gauge[1], &shown[1]); }
static void unapp(const int64_t *n) {
    (void)n;
    code = single_limit_app_read(BITS, floats + GUARDS, FIGURES);
}

static void print_code_and_place(void) {
    if (place[0] != 7 || place[2] != 7) stop("more than the place was written");
    printf("%u %llu\n", code, (unsigned long long)place[1]);
}

static void print_code(void) { printf("%u\n", code); }

static void print_code_and_sum(void) { printf("%u %llu\n", code, (unsigned long long)checksum()); }

static void print_report(void) {
    if (!guards_stand(figures, FIGURES)) stop("more than five figures were written");
    printf("%u", code);
    for (int i = 0; i < FIGURES; i++) printf(" %lld", (long long)figures[i]);
    printf(" %llu\n", (unsigned long long)checksum());
}

static long long bits_of(double number) {
    int64_t bits;
    memcpy(&bits, &number, sizeof bits);
    return (long long)bits;
}

/* Where it is refused the feed stays, which the checksum shows, and zeros stand for the record's bits. */
static void print_feed(void) {
    if (gauge[0] != 7 || gauge[2] != 7) stop("more than the gauge was written");
    if (shown[0] != -7.0 || shown[2] != -7.0) stop("more than what the gauge shows was written");
    if (code == 0 && feed.length != FIGURES) stop("another length of the feed was taken");
    printf("%u", code);
    for (int i = 0; i < FIGURES; i++) printf(" %lld", code == 0 ? (long long)feed.numbers[i] : 0);
    printf(" %u %lld %llu\n", gauge[1], bits_of(shown[1]), (unsigned long long)checksum());
}

static void print_floats(void) {
    for (int i = 0; i < GUARDS; i++)
        if (floats[i] != -7.0 || floats[GUARDS + FIGURES + i] != -7.0) stop("more than five floats were written");
    printf("%u", code);
    for (int i = 0; i < FIGURES; i++) printf(" %lld", bits_of(floats[GUARDS + i]));
    printf("\n");
}

/* A call has an answer to print, and what sets a buffer has none. */
static struct command {
    const char *word;
    int numbers;
    void (*obey)(const int64_t *numbers);
    void (*print)(void);
    size_t most_stack;
} commands[] = {
    {"B", 2, set_book, NULL, 0},
    {"C", 2, set_clearing, NULL, 0},
    {"O", 2, set_own, NULL, 0},
    {"G", 2, set_groups, NULL, 0},
    {"F", 2, set_feed, NULL, 0},
    {"L", 7, lend_lengths, NULL, 0},
    {"Z", 0, reset, NULL, 0},
    {"check", 0, check, print_code_and_place, 0},
    {"cover", 1, cover, print_code, 0},
    {"open", 3, open_account, print_code_and_sum, 0},
    {"move", 3, move, print_code_and_sum, 0},
    {"order", 6, order, print_code_and_sum, 0},
    {"roll", 1, roll, print_code_and_sum, 0},
    {"report", 1, report, print_report, 0},
    {"app", 1, app, print_feed, 0},
    {"unapp", 0, unapp, print_floats, 0},
};
enum { COMMANDS = sizeof commands / sizeof *commands };

static void make_call(struct command *command, const int64_t *numbers) {
    fill_answers();
    size_t taken = stack_taken(command->obey, numbers);
    if (taken > SINGLE_LIMIT_MOST_STACK) stop("a call took more stack than the header allows");
    if (taken > command->most_stack) command->most_stack = taken;
    look_at_guards();
    command->print();
}

/* One space and a number, as often as asked; then the line ends. */
static void read_numbers(const char *rest, int count, int64_t *numbers) {
    for (int i = 0; i < count; i++) {
        char *end;
        if (rest[0] != ' ' || rest[1] == ' ') stop("no single space");
        errno = 0;
        numbers[i] = strtoll(rest + 1, &end, 10);
        if (errno != 0 || end == rest + 1) stop("no number");
        rest = end;
    }
    if (*rest != '\0') stop("more than the command has");
}

static void obey(const char *line) {
    int64_t numbers[MOST_NUMBERS];
    size_t length = strcspn(line, " ");
    for (struct command *command = commands; command < commands + COMMANDS; command++) {
        if (strlen(command->word) != length || strncmp(line, command->word, length) != 0) continue;
        read_numbers(line + length, command->numbers, numbers);
        if (command->print != NULL) make_call(command, numbers);
        else command->obey(numbers);
        return;
    }
    stop("no command");
}

static void say_stack(const char *name) {
    FILE *file = name == NULL ? NULL : fopen(name, "a");
    if (file == NULL) return;
    for (int i = 0; i < COMMANDS; i++)
        if (commands[i].most_stack > 0) fprintf(file, "%s %zu\n", commands[i].word, commands[i].most_stack);
    fclose(file);
}

int main(void) {
    char line[LONGEST_LINE];
    reset(NULL);
    figures = guarded(FIGURES);
    paint(0);
    while (fgets(line, sizeof line, stdin) != NULL) {
        line_number++;
        if (strchr(line, '\n') == NULL && !feof(stdin)) stop("too long");
        line[strcspn(line, "\n")] = '\0';
        obey(line);
    }
    say_stack(getenv("STACK_FILE"));
    return 0;
}
