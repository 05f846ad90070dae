/* The smallest program that says something. */
#include <stdio.h>

int main(void) {
    printf("hello from the hart, %d\n", 6 * 7);
    return 0;
}
