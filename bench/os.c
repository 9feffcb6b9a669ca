/* What the session program calls of C beside the C library: the kit compiles its own for x86-64 alone, and bench/host links these where the
 * program's module is compiled for another machine. */
#include <errno.h>
#include <stddef.h>
#include <stdint.h>

static size_t count;

/* glibc hands the arguments to a constructor too. */
__attribute__((constructor)) static void keep_count(int arguments) {
    count = (size_t)arguments;
}

size_t rattle_arg_count(void) {
    return count;
}

int32_t rattle_errno(void) {
    return errno;
}
