/* generate KIND [SEED]: a full archive (100 states of 48 qubits) on standard output, for timing.
 *
 *   full     k = 48: every intersection has 48 dimensions
 *   random   k from 0 to 48, spaces and shifts at random: many intersections are empty
 *   through  k from 0 to 48, spaces at random, shift 0: no intersection is empty
 *   common   k = 29: 11 rows that all states share and 18 at random, shift 0: intersections of about 11 dimensions, so that the
 *            listing has columns
 *
 * On standard error: the number of pairs, and of the strings that the listing's columns are sums over, that is the sum of 2^d over the
 * pairs with d at most 12.
 */
#include <stdint.h>
#include <stdio.h>
#include <stdlib.h>
#include <string.h>

enum { QUBITS = 48, STATES = 100, LONGEST = 451, PRINTED = 12 };

struct space {
    int dimension;
    uint64_t row[QUBITS]; /* reduced echelon form, highest pivot first */
    uint64_t shift;
};

static uint64_t seed;

/* splitmix64 */
static uint64_t next(void)
{
    uint64_t z = seed += 0x9e3779b97f4a7c15u;
    z = (z ^ (z >> 30)) * 0xbf58476d1ce4e5b9u;
    z = (z ^ (z >> 27)) * 0x94d049bb133111ebu;
    return z ^ (z >> 31);
}

static uint64_t string(void) { return next() >> (64 - QUBITS); }

static uint64_t pivot(uint64_t v)
{
    uint64_t bit = (uint64_t)1 << (QUBITS - 1);
    while (bit > v)
        bit >>= 1;
    return bit;
}

/* Adds a row, keeping the reduced echelon form; 0 if it is a combination of the others. */
static int add(struct space *x, uint64_t v)
{
    for (int a = 0; a < x->dimension; a++)
        if (v & pivot(x->row[a]))
            v ^= x->row[a];
    if (v == 0)
        return 0;
    uint64_t p = pivot(v);
    for (int a = 0; a < x->dimension; a++)
        if (x->row[a] & p)
            x->row[a] ^= v;
    int at = x->dimension++;
    while (at > 0 && x->row[at - 1] < p) {
        x->row[at] = x->row[at - 1];
        at--;
    }
    x->row[at] = v;
    return 1;
}

static void set_shift(struct space *x, uint64_t v)
{
    for (int a = 0; a < x->dimension; a++)
        if (v & pivot(x->row[a]))
            v ^= x->row[a];
    x->shift = v;
}

/* The dimension of the intersection, -1 if it is empty. */
static int meet(const struct space *x, const struct space *y)
{
    struct space both = *x;
    for (int a = 0; a < y->dimension; a++)
        add(&both, y->row[a]);
    int rank = both.dimension;
    if (add(&both, x->shift ^ y->shift))
        return -1;
    return x->dimension + y->dimension - rank;
}

static uint8_t bytes[LONGEST];
static size_t used;

static void put(uint64_t value, int width)
{
    while (width-- > 0) {
        if (value >> width & 1)
            bytes[used / 8] |= (uint8_t)(0x80 >> used % 8);
        used++;
    }
}

static void print(const struct space *x)
{
    int k = x->dimension;
    memset(bytes, 0, sizeof bytes);
    used = 0;
    put(QUBITS, 6);
    put((uint64_t)k, 6);
    put(next() % 4097, 13);
    put(next() % 8, 3);
    for (int a = 0; a < k; a++)
        put(x->row[a], QUBITS);
    put(x->shift, QUBITS);
    for (int a = 0; a < k; a++)
        put(next() % 4, 2);
    for (int a = 0; a < k; a++)
        put(string(), k - 1 - a);
    fwrite(bytes, 1, (used + 7) / 8, stdout);
}

int main(int argc, char **argv)
{
    static struct space x[STATES];
    static const char *const kinds[] = {"full", "random", "through", "common"};
    int kind = 0;

    while (kind < 4 && (argc < 2 || strcmp(argv[1], kinds[kind]) != 0))
        kind++;
    if (kind == 4) {
        fprintf(stderr, "usage: generate full|random|through|common [SEED]\n");
        return 2;
    }
    seed = argc > 2 ? strtoull(argv[2], NULL, 10) : 1;

    struct space shared = {0};
    while (kind == 3 && shared.dimension < 11)
        add(&shared, string());

    putchar(STATES);
    for (int i = 0; i < STATES; i++) {
        int k = kind == 0 ? QUBITS : kind == 3 ? 29 : (int)(next() % (QUBITS + 1));
        x[i] = shared;
        while (x[i].dimension < k)
            add(&x[i], string());
        if (kind == 1)
            set_shift(&x[i], string());
        print(&x[i]);
    }

    unsigned long long strings = 0;
    for (int i = 0; i < STATES; i++)
        for (int j = i + 1; j < STATES; j++) {
            int d = meet(&x[i], &x[j]);
            if (d >= 0 && d <= PRINTED)
                strings += 1ull << d;
        }
    fprintf(stderr, "%d %llu\n", STATES * (STATES - 1) / 2, strings);
    return 0;
}
