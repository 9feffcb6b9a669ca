/* A stack of its own for each call, painted before it: the deepest word that is no more as it was painted says how much stack the call took, with
 * the frame of the C function that makes it. */
#include <stddef.h>
#include <stdint.h>
#include <ucontext.h>

/* 64 KiB: more than a copy of a book would take. */
enum { STACK_WORDS = 8192 };

/* Another at each place, and no number that a call is likely to leave there. */
#define PAINT(i) (UINT64_C(0xa17ed000a17ed000) + (uint64_t)(i))

static uint64_t stack_words[STACK_WORDS];
static ucontext_t off_stack, on_stack;
static void (*to_run)(const int64_t *numbers);
static const int64_t *its_numbers;

static void paint(size_t from) {
    for (size_t i = from; i < STACK_WORDS; i++) stack_words[i] = PAINT(i);
}

static void run_it(void) { to_run(its_numbers); }

/* Runs it on the painted stack, paints that again, and returns the bytes that it took; the whole stack where it went beyond. */
static size_t stack_taken(void (*run)(const int64_t *numbers), const int64_t *numbers) {
    size_t untouched = 0;
    to_run = run;
    its_numbers = numbers;
    getcontext(&on_stack);
    on_stack.uc_stack.ss_sp = stack_words;
    on_stack.uc_stack.ss_size = sizeof stack_words;
    on_stack.uc_link = &off_stack;
    makecontext(&on_stack, run_it, 0);
    swapcontext(&off_stack, &on_stack);
    while (untouched < STACK_WORDS && stack_words[untouched] == PAINT(untouched)) untouched++;
    paint(untouched);
    return (STACK_WORDS - untouched) * sizeof *stack_words;
}
