/* Counts the lines, words and bytes of its input, which it keeps on the heap, and ends with 1 where there was none. */
#include <stdbool.h>
#include <stdio.h>
#include <stdlib.h>

int main(void) {
    size_t length = 0, room = 0;
    char *text = NULL;
    for (int byte; (byte = getchar()) != EOF; text[length++] = (char)byte) {
        if (length < room) continue;
        room = room ? 2 * room : 64;
        text = realloc(text, room);
        if (!text) {
            printf("no room for %zu bytes\n", room);
            return 2;
        }
    }
    size_t lines = 0, words = 0;
    bool within = false;
    for (size_t at = 0; at < length; at++) {
        bool space = text[at] == ' ' || text[at] == '\n';
        words += !space && !within;
        within = !space;
        lines += text[at] == '\n';
    }
    printf("%zu lines, %zu words, %zu bytes\n", lines, words, length);
    free(text);
    return length ? 0 : 1;
}
