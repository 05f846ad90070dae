/* Writes an instruction as a word, reads it back, and writes one that no word is: cc -I include examples/c/word.c
 * target/staticlib/libscribe.a -o word && ./word */
#include <inttypes.h>
#include <stdio.h>

#include "sporhulma.h"

int main(void)
{
    /* beq a0, a1, -4096: family 5, operation 0, no rd, rs1 10, rs2 11 */
    uint64_t branch[8] = {5, 0, 0, 10, 11, (uint64_t)-4096, 0, 0};
    uint64_t back[8];
    uint32_t word = 0;
    uint64_t refusal = sporhulma_write(branch, &word);
    printf("refusal %" PRIu64 ", word 0x%08" PRIx32 "\n", refusal, word);
    refusal = sporhulma_read(word, back);
    printf("refusal %" PRIu64 ", family %" PRIu64 ", distance %" PRId64 "\n", refusal, back[SPORHULMA_FAMILY],
           (int64_t)back[SPORHULMA_IMMEDIATE]);
    branch[SPORHULMA_IMMEDIATE] = 4096; /* one step too far */
    refusal = sporhulma_write(branch, &word);
    printf("refusal %" PRIu64 ", word 0x%08" PRIx32 "\n", refusal, word);
    return 0;
}
