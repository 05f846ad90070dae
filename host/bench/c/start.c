/* The C program of the benchmark: examples/c/controller.c as it stands, again and again (the Makefile calls its main `controller` and
 * its printf `record`). The numbers that it would print are kept, and after each time they are sorted and go into a checksum. It needs
 * no start of its own (sp is there, and memory is zero), asks nothing of a host and never ends. */
#include "library.h"

int controller(void);

/* The page of data; host/bench/src/controller.rs looks at the first two. */
static struct {
    uint64_t turns;
    uint32_t sum;
    uint32_t count;
    int32_t numbers[60];
} kept;

void keep(int32_t number) {
    if (kept.count < sizeof kept.numbers / sizeof *kept.numbers) kept.numbers[kept.count++] = number;
}

static int less(int32_t one, int32_t other) {
    return one < other;
}

__attribute__((section(".text.start"))) void start(void) {
    for (;;) {
        kept.count = 0;
        controller();
        sort(kept.numbers, kept.numbers + kept.count, less);
        kept.sum = checksum(kept.sum, kept.numbers, kept.count * sizeof *kept.numbers);
        kept.turns++;
    }
}
