/* The state as nine 32-bit words with the shuffle postponed: the postponed engine's layout. */
#include <stdint.h>

static uint16_t power[256]; /* the powers of 12 modulo 257; position j is power 4 j */

struct state {
    uint32_t a[9];
    uint32_t n;
};

static void prepare(void) {
    power[0] = 1;
    for (int k = 1; k < 256; k++)
        power[k] = (uint16_t)(12 * power[k - 1] % 257);
}

/* the 257 bits, and then once more from the first: place j has bit j mod 257 */
static void twice(const uint32_t a[9], uint32_t row[18]) {
    for (int k = 0; k < 8; k++)
        row[k] = a[k];
    row[8] = a[8] | a[0] << 1;
    for (int k = 0; k < 8; k++)
        row[9 + k] = a[k] >> 31 | a[k + 1] << 1;
    row[17] = 0; /* no bit of it comes into a rotation */
}

/* the bits from bit d on */
static void rotate(const uint32_t row[18], uint32_t d, uint32_t r[9]) {
    uint32_t q = d / 32, by = d % 32;
    for (int k = 0; k < 9; k++)
        r[k] = row[q + k] >> by | row[q + k + 1] << 1 << (31 - by);
    r[8] &= 1;
}

static void step(struct state *s, uint64_t block) {
    uint32_t row[18], x[9], y[9], c = power[s->n];
    twice(s->a, row);
    rotate(row, c, x);
    rotate(row, 2 * c % 257, y);
    for (int k = 0; k < 9; k++)
        s->a[k] ^= y[k] ^ (x[k] & y[k]);
    s->a[0] ^= 1;
    twice(s->a, row);
    rotate(row, 3 * c % 257, x);
    rotate(row, 8 * c % 257, y);
    for (int k = 0; k < 9; k++)
        s->a[k] ^= x[k] ^ y[k];
    s->n = (s->n + 1) % 256;
    for (uint32_t j = 0; j < 33 && block >> j; j++) { /* how far the highest bit goes tells the block's length, no more */
        uint32_t p = power[(s->n + 4 * j) % 256];
        s->a[p / 32] ^= (uint32_t)(block >> j & 1) << p % 32;
    }
}

static uint32_t reading(const struct state *s) {
    uint32_t word = 0;
    for (uint32_t j = 0; j < 32; j++) {
        uint32_t p = power[(s->n + 4 * j) % 256], m = 257 - p;
        word |= ((s->a[p / 32] >> p % 32 ^ s->a[m / 32] >> m % 32) & 1) << j;
    }
    return word;
}
