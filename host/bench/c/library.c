/* The library of start.c: a printf that keeps the numbers and writes no text, a quicksort, and the checksum of Ethernet (CRC-32). */
#include "library.h"

int record(const char *format, ...) {
    va_list values;
    va_start(values, format);
    for (; *format; format++) {
        if (*format == '%') keep(va_arg(values, int));
    }
    va_end(values);
    return 0;
}

void sort(int32_t *first, int32_t *end, order *before) {
    while (end - first > 1) {
        int32_t middle = first[(end - first) / 2];
        int32_t *low = first, *high = end - 1;
        while (low <= high) {
            while (before(*low, middle)) low++;
            while (before(middle, *high)) high--;
            if (low > high) break;
            int32_t number = *low;
            *low++ = *high;
            *high-- = number;
        }
        sort(first, high + 1, before);
        first = low;
    }
}

/* Half a byte at a time, as small controllers do it: a table of 16 words. */
uint32_t checksum(uint32_t sum, const void *bytes, size_t length) {
    static const uint32_t table[16] = {
        0x00000000, 0x1DB71064, 0x3B6E20C8, 0x26D930AC, 0x76DC4190, 0x6B6B51F4, 0x4DB26158, 0x5005713C,
        0xEDB88320, 0xF00F9344, 0xD6D6A3E8, 0xCB61B38C, 0x9B64C2B0, 0x86D3D2D4, 0xA00AE278, 0xBDBDF21C,
    };
    const uint8_t *byte = bytes;
    sum = ~sum;
    for (const uint8_t *end = byte + length; byte < end; byte++) {
        sum ^= *byte;
        sum = sum >> 4 ^ table[sum & 15];
        sum = sum >> 4 ^ table[sum & 15];
    }
    return ~sum;
}
