/* What the program (start.c) and the library (library.c) have of each other. Each has a page of its own, so that calls go from page to page. */
#include <stdarg.h>
#include <stddef.h>
#include <stdint.h>

typedef int order(int32_t one, int32_t other);

/* The program's: keeps a number. */
void keep(int32_t number);

/* The library's. `record` is what controller.c calls where it says printf. */
int record(const char *format, ...);
void sort(int32_t *first, int32_t *end, order *before);
uint32_t checksum(uint32_t sum, const void *bytes, size_t length);
