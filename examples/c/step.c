/* The boundary from C: one step of `addi a0, zero, 42`, then a call that is refused since x0 is not 0.
 * cc -I include examples/c/step.c target/staticlib/libsporhulma.a -o step && ./step */
#include <inttypes.h>
#include <stdio.h>

#include "sporhulma.h"

int main(void) {
    uint64_t x[32] = {0}, rest[20] = {0}, answer[3];
    const uint64_t none[1] = {0}; /* an empty map still needs a pointer that is not null */
    static uint8_t mem[4096] = {0x13, 0x05, 0xA0, 0x02};
    rest[SPORHULMA_PC] = 0x80000000;
    rest[SPORHULMA_MODE] = 3;
    rest[SPORHULMA_MSTATUS] = 0xA00000000;

    uint64_t refusal = sporhulma_step(x, rest, mem, sizeof mem, none, 0, answer);
    printf("refusal %" PRIu64 ", count %" PRIu64 ", a0 %" PRIu64 ", pc 0x%" PRIx64 "\n", refusal, answer[SPORHULMA_COUNT], x[10],
           rest[SPORHULMA_PC]);

    x[0] = 1;
    refusal = sporhulma_run(x, rest, mem, sizeof mem, none, 0, 1000, answer);
    printf("refusal %" PRIu64 ", count %" PRIu64 ", pc 0x%" PRIx64 "\n", refusal, answer[SPORHULMA_COUNT], rest[SPORHULMA_PC]);
    return 0;
}
