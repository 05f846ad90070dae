/* System calls one by one, for tools/outside: what the desk and QEMU's Linux answer. */
#include <stdio.h>
#include <string.h>

enum { CLOSE = 57, READ = 63, WRITE = 64, FSTAT = 80, EXIT_GROUP = 94, BRK = 214 };

static long call(long number, long first, long second, long third) {
    register long a0 __asm__("a0") = first;
    register long a1 __asm__("a1") = second;
    register long a2 __asm__("a2") = third;
    register long a7 __asm__("a7") = number;
    __asm__ volatile("ecall" : "+r"(a0) : "r"(a1), "r"(a2), "r"(a7) : "memory");
    return a0;
}

static char text[] = "some text\n";

static void console(void) {
    char bytes[8] = {0};
    printf("written %ld, none %ld\n", call(WRITE, 1, (long)text, 10), call(WRITE, 1, (long)text, 0));
    for (int round = 0; round < 3; round++) {
        long length = call(READ, 0, (long)bytes, 4);
        printf("read %ld: %.*s\n", length, (int)length, bytes);
    }
}

static void wrong(void) {
    long nowhere = 0x7000000;
    printf("written: %ld %ld %ld\n", call(WRITE, 7, (long)text, 4), call(WRITE, -1, (long)text, 4), call(WRITE, 1, nowhere, 4));
    printf("read: %ld %ld\n", call(READ, 7, (long)text, 4), call(READ, 0, nowhere, 4));
    printf("fstat: %ld %ld\n", call(FSTAT, 7, (long)text, 0), call(FSTAT, 0, nowhere, 0));
    printf("closed: %ld, again %ld\n", call(CLOSE, 2, 0, 0), call(CLOSE, 2, 0, 0));
}

/* Up and down again by a page: what comes new is 0. */
static void heap(void) {
    long first = call(BRK, 0, 0, 0), up = call(BRK, first + 4096, 0, 0) - first;
    memset((void *)first, 1, 4096);
    long below = call(BRK, first - (1 << 20), 0, 0) - first;
    long down = call(BRK, first, 0, 0) - first;
    call(BRK, first + 4096, 0, 0);
    int sum = 0;
    for (int at = 0; at < 4096; at++) sum += ((char *)first)[at];
    printf("break up %ld, too far down %ld, down %ld, sum %d\n", up, below, down, sum);
}

int main(void) {
    console();
    wrong();
    heap();
    fflush(stdout);
    call(EXIT_GROUP, 300 + 7, 0, 0);
    return 1;
}
