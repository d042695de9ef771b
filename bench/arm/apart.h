/* Put before bench/plain.c -DLEAN, so that its reading and its text stay functions of their own and are counted apart from the calculation. */
#include <stddef.h>
#include <stdint.h>

static void take(uint8_t *record, size_t size) __attribute__((noinline));
static void put(const char *words) __attribute__((noinline));
static void put_number(int64_t number) __attribute__((noinline));
static void end_line(void) __attribute__((noinline));
static void print_rest(void) __attribute__((noinline));
