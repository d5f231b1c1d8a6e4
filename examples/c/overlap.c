/* overlap [T S]: the overlap of two states given as hexadecimal digits, `-` for no bytes.
 * Prints the number that the library answers and the four bytes, and what they stand for. */
#include <stdio.h>
#include <stdlib.h>
#include <string.h>

#include "sangyldem.h"

/* One state has at most 451 bytes; a longer run is handed over too, for the library to refuse. */
enum { MOST = 4096 };

static int digit(char c)
{
    if (c >= '0' && c <= '9')
        return c - '0';
    if (c >= 'a' && c <= 'f')
        return c - 'a' + 10;
    if (c >= 'A' && c <= 'F')
        return c - 'A' + 10;
    return -1;
}

/* Turns pairs of digits into bytes; ends the program if it cannot. */
static size_t bytes_of(const char *text, uint8_t *out)
{
    size_t digits = strcmp(text, "-") == 0 ? 0 : strlen(text);
    if (digits % 2 != 0 || digits / 2 > MOST) {
        fprintf(stderr, "overlap: at most %d pairs of hexadecimal digits are wanted\n", MOST);
        exit(2);
    }
    for (size_t i = 0; i < digits / 2; i++) {
        int high = digit(text[2 * i]), low = digit(text[2 * i + 1]);
        if (high < 0 || low < 0) {
            fprintf(stderr, "overlap: not a hexadecimal digit: %.2s\n", text + 2 * i);
            exit(2);
        }
        out[i] = (uint8_t)(16 * high + low);
    }
    return digits / 2;
}

int main(int argc, char **argv)
{
    static uint8_t t[MOST], s[MOST];
    uint8_t answer[4] = {0, 0, 0, 0};

    if (argc != 1 && argc != 3) {
        fprintf(stderr, "usage: overlap [T S]\n");
        return 2;
    }
    size_t t_len = bytes_of(argc == 3 ? argv[1] : "04100088", t);
    size_t s_len = bytes_of(argc == 3 ? argv[2] : "04100089", s);
    unsigned number = overlap(t, t_len, s, s_len, answer, sizeof answer);

    printf("number %u\n", number);
    if (number != 0)
        return 0;
    unsigned epsilon = answer[0] >> 7;
    int p = -(((answer[0] & 0x7f) << 7) | (answer[1] >> 1));
    unsigned m = ((answer[1] & 1u) << 2) | (answer[2] >> 6);
    printf("bytes %02x %02x %02x %02x\n", answer[0], answer[1], answer[2], answer[3]);
    printf("epsilon %u, p %d, m %u\n", epsilon, p, m);
    return 0;
}
