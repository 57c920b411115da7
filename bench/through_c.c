/* Our side of the benchmark of the C functions: SELECT and COMPARE, again and again, with the inputs of original.rs.
   Given a count, it prints for each task a line `name TAB nanoseconds TAB count TAB sum`. */
#define _POSIX_C_SOURCE 199309L
#include <inttypes.h>
#include <stdint.h>
#include <stdio.h>
#include <stdlib.h>
#include <time.h>

#include "margins.h"

enum { LESS = 0, EQUAL = 1 };

static uint64_t nanoseconds(void) {
    struct timespec t;
    clock_gettime(CLOCK_MONOTONIC, &t);
    return (uint64_t)t.tv_sec * 1000000000u + (uint64_t)t.tv_nsec;
}

/* Every operator at every pair of kinds; the sum counts the rows. */
static uint64_t select_all(uint32_t count) {
    uint64_t rows = 0;
    for (uint32_t i = 0; i < count; i++) {
        uint32_t code = (uint32_t)((uint64_t)i * 1000 % (19 * 81));
        rows += margins_select((uint8_t)(code / 81), (uint8_t)(code / 9 % 9), (uint8_t)(code % 9)) >= 0;
    }
    return rows;
}

/* One comparison; the sum counts where it holds. */
static uint64_t compare_all(uint32_t count, int32_t order) {
    uint64_t sum = 0;
    for (uint32_t i = 0; i < count; i++) {
        double x = (double)(i * 37 % 1000) / 8.0, y = (double)(i * 91 % 1000) / 8.0;
        sum += margins_compare(x, y) == order;
    }
    return sum;
}

static void report(const char *name, uint64_t start, uint32_t count, uint64_t sum) {
    printf("%s\t%" PRIu64 "\t%" PRIu32 "\t%" PRIu64 "\n", name, nanoseconds() - start, count, sum);
}

int main(int argc, char **argv) {
    if (argc != 2)
        return 2;
    uint32_t count = (uint32_t)strtoul(argv[1], NULL, 10);
    uint64_t start = nanoseconds();
    uint64_t sum = select_all(count);
    report("select", start, count, sum);
    start = nanoseconds();
    sum = compare_all(count, EQUAL);
    report("compare ==", start, count, sum);
    start = nanoseconds();
    sum = compare_all(count, LESS);
    report("compare <", start, count, sum);
    return 0;
}
