/* Semihosting call by call, for tools/outside: what the desk and QEMU answer. Handles are told only as good or bad, since each has its own
 * numbers for them. */
#include <stdint.h>
#include <stdio.h>

enum { OPEN = 1, CLOSE, WRITEC, WRITE0, WRITE, READ, ISERROR = 8, ISTTY, SEEK, FLEN = 12, ERRNO = 19, EXIT_EXTENDED = 32 };

static long call(long operation, const void *argument) {
    register long a0 __asm__("a0") = operation;
    register const void *a1 __asm__("a1") = argument;
    __asm__ volatile("slli zero,zero,0x1f\n\tebreak\n\tsrai zero,zero,7" : "+r"(a0) : "r"(a1) : "memory");
    return a0;
}

static long opened(const char *name, uint64_t mode, uint64_t length) {
    uint64_t block[] = {(uint64_t)name, mode, length};
    return call(OPEN, block);
}

static long with(long operation, uint64_t first, uint64_t second, uint64_t third) {
    uint64_t block[] = {first, second, third};
    return call(operation, block);
}

static void features(void) {
    unsigned char bytes[8] = {0};
    long file = opened(":semihosting-features", 0, 21);
    printf("features: good %d, length %ld, terminal %ld\n", file > 0, with(FLEN, file, 0, 0), with(ISTTY, file, 0, 0));
    long left = with(READ, file, (uint64_t)bytes, 8);
    printf("not read %ld, magic %02x%02x%02x%02x, bits %x\n", left, bytes[0], bytes[1], bytes[2], bytes[3], bytes[4]);
    printf("at the end, not read %ld\n", with(READ, file, (uint64_t)bytes, 8));
    long sought = with(SEEK, file, 4, 0);
    left = with(READ, file, (uint64_t)bytes, 8);
    printf("sought %ld, not read %ld, %x\n", sought, left, bytes[0]);
    long closed = with(CLOSE, file, 0, 0), again = with(CLOSE, file, 0, 0);
    printf("closed %ld, again %ld, error %ld\n", closed, again, call(ERRNO, NULL));
}

static void console(void) {
    char bytes[4];
    long in = opened(":tt", 0, 3), out = opened(":tt", 4, 3), error = opened(":tt", 8, 3);
    printf("console: good %d %d %d\n", in > 0, out > 0, error > 0);
    printf("not written %ld\n", with(WRITE, out, (uint64_t) "by handle\n", 10));
    for (int round = 0; round < 3; round++) {
        long left = with(READ, in, (uint64_t)bytes, 4);
        printf("input, not read %ld: %.*s\n", left, (int)(4 - left), bytes);
    }
    call(WRITEC, "c");
    call(WRITE0, "\nby WRITE0\n");
}

static void wrong(void) {
    char bytes[4];
    long none = opened("no such file", 0, 12);
    printf("none %ld, error %ld\n", none, call(ERRNO, NULL));
    printf("bad handle: not written %ld, not read %ld\n", with(WRITE, 99, (uint64_t)bytes, 4), with(READ, 99, (uint64_t)bytes, 4));
    printf("terminal %ld, length %ld, sought %ld\n", with(ISTTY, 99, 0, 0), with(FLEN, 99, 0, 0), with(SEEK, 99, 0, 0));
    printf("an error %d, none %ld\n", with(ISERROR, (uint64_t)-3, 0, 0) != 0, with(ISERROR, 3, 0, 0));
}

int main(void) {
    features();
    console();
    wrong();
    return with(EXIT_EXTENDED, 0x20026, 42, 0) != 0;
}
