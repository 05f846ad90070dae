/* What picolibc needs of a system, by system calls with newlib's numbers: console, exit, and a heap. In M the examples use
 * picolibc's own semihosting instead (-lsemihost). */
#include <errno.h>
#include <stddef.h>
#include <stdint.h>
#include <stdio.h>
#include <unistd.h>

enum { CALL_READ = 63, CALL_WRITE = 64, CALL_EXIT = 93, CALL_BRK = 214 };

static long call(long number, long first, long second, long third) {
    register long a0 __asm__("a0") = first;
    register long a1 __asm__("a1") = second;
    register long a2 __asm__("a2") = third;
    register long a7 __asm__("a7") = number;
    __asm__ volatile("ecall" : "+r"(a0) : "r"(a1), "r"(a2), "r"(a7) : "memory");
    return a0;
}

static long checked(long answer) {
    if (answer >= 0) return answer;
    errno = (int)-answer;
    return -1;
}

ssize_t write(int to, const void *bytes, size_t length) {
    return checked(call(CALL_WRITE, to, (long)bytes, (long)length));
}

ssize_t read(int from, void *bytes, size_t length) {
    return checked(call(CALL_READ, from, (long)bytes, (long)length));
}

void *sbrk(ptrdiff_t more) {
    long now = call(CALL_BRK, 0, 0, 0);
    if (now > 0 && call(CALL_BRK, now + more, 0, 0) == now + more) return (void *)now;
    errno = ENOMEM;
    return (void *)-1;
}

/* A line goes out in one call. */
static char line[128];
static size_t filled;

static int flush(FILE *file) {
    (void)file;
    for (size_t done = 0; done < filled;) {
        ssize_t more = write(STDOUT_FILENO, line + done, filled - done);
        if (more < 0) return EOF;
        done += (size_t)more;
    }
    filled = 0;
    return 0;
}

static int put(char byte, FILE *file) {
    line[filled++] = byte;
    return byte == '\n' || filled == sizeof line ? flush(file) : 0;
}

static int get(FILE *file) {
    unsigned char byte;
    (void)file;
    flush(file);
    return read(STDIN_FILENO, &byte, 1) == 1 ? byte : EOF;
}

static FILE console = FDEV_SETUP_STREAM(put, get, flush, _FDEV_SETUP_RW);
FILE *const stdin = &console;
FILE *const stdout = &console;
FILE *const stderr = &console;

void _exit(int value) {
    flush(stdout);
    for (;;) call(CALL_EXIT, value, 0, 0);
}
