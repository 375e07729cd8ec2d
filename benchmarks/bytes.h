/* The state as single bits, one byte each: the plain engine's layout. */
#include <stdint.h>

struct state {
    uint8_t s[257];
};

static const uint16_t position[33] = {1,   176, 136, 35,  249, 134, 197, 234, 64, 213, 223, 184, 2,   95, 15, 70, 241,
                                      11,  137, 211, 128, 169, 189, 111, 4,   190, 30, 140, 225, 22,  17, 165, 256};

static void prepare(void) {
}

static void step(struct state *state, uint64_t block) {
    uint8_t *s = state->s, t[257], u[257];
    for (int i = 0; i < 257; i++)
        t[i] = s[i] ^ ((s[(i + 1) % 257] ^ 1) & s[(i + 2) % 257]);
    t[0] ^= 1;
    for (int i = 0; i < 257; i++)
        u[i] = t[i] ^ t[(i + 3) % 257] ^ t[(i + 8) % 257];
    for (int i = 0; i < 257; i++)
        s[i] = u[12 * i % 257];
    for (int j = 0; j < 33; j++)
        s[position[j]] ^= (block >> j) & 1;
}

static uint32_t reading(const struct state *state) {
    const uint8_t *s = state->s;
    uint32_t word = 0;
    for (int j = 0; j < 32; j++)
        word |= (uint32_t)(s[position[j]] ^ s[257 - position[j]]) << j;
    return word;
}
