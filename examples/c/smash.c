/* A stack that is run over, as in the incident: an index that nobody checked, and a store onto a saved return address. `lookup`
 * goes back into `unlock`, which nothing calls. With the shadow stack the pop-check at the end of `lookup` traps instead. */
#include <stdio.h>
#include <stdlib.h>

static void unlock(void) {
    printf("unlocked, and nobody called\n");
    exit(0);
}

/* Where the return address lies is for the compiler to say: so the wrong index is looked for. */
__attribute__((noinline)) static long lookup(long value) {
    volatile long table[4] = {1, 2, 3, 4};
    long back = (long)__builtin_return_address(0);
    volatile long *entry = table;
    while (*entry != back) entry++;
    *entry = value;
    printf("looked up %ld\n", table[3]);
    return table[0];
}

int main(void) {
    printf("back in main, with %ld\n", lookup((long)unlock));
    return 1;
}
