/* The functions of reference.h, by the words of the pages under docs/. */

#include "reference.h"

enum { BITS = 257, POSITIONS = 33, BLANKS = 8, BLOCK = 4 };
enum { SESSION_MARK = 0x53, SENDER_MARK = 0x57, RECEIVER_MARK = 0x52 };
enum { HEADER = 5 };

/* --- The state (docs/SUITE.md) --- */

/* One byte, 0 or 1, for each of the 257 bits. */
struct state {
    uint8_t bit[BITS];
};

static unsigned wrapped(unsigned index)
{
    return index % BITS;
}

static void zero(struct state *s)
{
    for (unsigned i = 0; i < BITS; i++)
        s->bit[i] = 0;
}

static void chi(struct state *s)
{
    const struct state old = *s;
    for (unsigned i = 0; i < BITS; i++)
        s->bit[i] = old.bit[i] ^ ((old.bit[wrapped(i + 1)] ^ 1) & old.bit[wrapped(i + 2)]);
}

static void iota(struct state *s)
{
    s->bit[0] ^= 1;
}

static void theta(struct state *s)
{
    const struct state old = *s;
    for (unsigned i = 0; i < BITS; i++)
        s->bit[i] = old.bit[i] ^ old.bit[wrapped(i + 3)] ^ old.bit[wrapped(i + 8)];
}

static void pi(struct state *s)
{
    const struct state old = *s;
    for (unsigned i = 0; i < BITS; i++)
        s->bit[i] = old.bit[wrapped(12 * i)];
}

/* A step with a block of 0 to 4 bytes: a round, and then the block, a 1 and zeros at the 33 positions. */
static void step(struct state *s, const uint8_t *block, unsigned length)
{
    chi(s);
    iota(s);
    theta(s);
    pi(s);
    unsigned position = 1;
    for (unsigned j = 0; j < POSITIONS; j++) {
        if (j < 8 * length)
            s->bit[position] ^= block[j / 8] >> (j % 8) & 1;
        else if (j == 8 * length)
            s->bit[position] ^= 1;
        position = wrapped(176 * position);
    }
}

static void blank(struct state *s, unsigned times)
{
    for (unsigned i = 0; i < times; i++)
        step(s, NULL, 0);
}

/* The reading as four bytes, the lowest first. */
static void read_state(const struct state *s, uint8_t reading[BLOCK])
{
    unsigned position = 1;
    for (unsigned i = 0; i < BLOCK; i++)
        reading[i] = 0;
    for (unsigned j = 0; j < 8 * BLOCK; j++) {
        unsigned sum = s->bit[position] ^ s->bit[BITS - position];
        reading[j / 8] |= (uint8_t)(sum << (j % 8));
        position = wrapped(176 * position);
    }
}

/* --- Strings (docs/SUITE.md) --- */

/* The length of the next block of a keyed string; the last block is the first of fewer than four bytes. */
static unsigned next_block(size_t left)
{
    return left < BLOCK ? (unsigned)left : BLOCK;
}

static void absorb(struct state *s, const uint8_t *string, size_t length)
{
    size_t done = 0;
    for (;;) {
        unsigned block_length = next_block(length - done);
        uint8_t block[BLOCK] = {0};
        for (unsigned i = 0; i < block_length; i++)
            block[i] = string[done + i];
        step(s, block, block_length);
        done += block_length;
        if (block_length < BLOCK)
            return;
    }
}

static void absorb_unkeyed(struct state *s, const uint8_t *string, size_t length)
{
    for (size_t i = 0; i < length; i++) {
        step(s, &string[i], 1);
        step(s, NULL, 0);
    }
    step(s, NULL, 0);
    step(s, NULL, 0);
}

/* Encrypts or decrypts: the step is with the text block, which is the input's or the output's. */
static void crypt_string(struct state *s, const uint8_t *in, size_t length, uint8_t *out, int decrypting)
{
    size_t done = 0;
    for (;;) {
        unsigned block_length = next_block(length - done);
        uint8_t reading[BLOCK], text[BLOCK] = {0};
        read_state(s, reading);
        for (unsigned i = 0; i < block_length; i++) {
            uint8_t sum = in[done + i] ^ reading[i];
            text[i] = decrypting ? sum : in[done + i];
            out[done + i] = sum;
        }
        step(s, text, block_length);
        done += block_length;
        if (block_length < BLOCK)
            return;
    }
}

static void squeeze(struct state *s, uint8_t *out, size_t length)
{
    uint8_t reading[BLOCK];
    for (size_t i = 0; i < length; i++) {
        if (i % BLOCK == 0) {
            read_state(s, reading);
            step(s, NULL, 0);
        }
        out[i] = reading[i % BLOCK];
    }
}

/* --- Sessions (docs/SESSION.md) --- */

static void begin(struct state *s, const uint8_t *key, const uint8_t *nonce)
{
    zero(s);
    absorb(s, key, COWSLIP_KEY_SIZE);
    absorb(s, nonce, COWSLIP_NONCE_SIZE);
    blank(s, BLANKS);
}

static void make_tag(struct state *s, uint8_t *tag)
{
    blank(s, BLANKS);
    squeeze(s, tag, COWSLIP_TAG_SIZE);
}

static void seal(struct state *s, const uint8_t *ad, size_t ad_len, const uint8_t *text, size_t text_len,
                 uint8_t *out, uint8_t *tag)
{
    absorb(s, ad, ad_len);
    crypt_string(s, text, text_len, out, 0);
    make_tag(s, tag);
}

/* 1 if the tag is the right one; else 0, and the bytes decrypted into are 0. */
static int open_sealed(struct state *s, const uint8_t *ad, size_t ad_len, const uint8_t *ciphertext, size_t length,
                       const uint8_t *tag, uint8_t *out)
{
    uint8_t found[COWSLIP_TAG_SIZE];
    unsigned differences = 0;
    absorb(s, ad, ad_len);
    crypt_string(s, ciphertext, length, out, 1);
    make_tag(s, found);
    for (unsigned i = 0; i < COWSLIP_TAG_SIZE; i++)
        differences |= found[i] ^ tag[i];
    if (differences == 0)
        return 1;
    for (size_t i = 0; i < length; i++)
        out[i] = 0;
    return 0;
}

/* --- The state's memory, and what is told (cowslip.h) --- */

static void load_bits(const uint8_t *memory, struct state *s)
{
    for (unsigned i = 0; i < BITS; i++)
        s->bit[i] = memory[1 + i / 8] >> (i % 8) & 1;
}

static void store_bits(uint8_t *memory, const struct state *s)
{
    for (unsigned i = 1; i < COWSLIP_SESSION_SIZE; i++)
        memory[i] = 0;
    for (unsigned i = 0; i < BITS; i++)
        memory[1 + i / 8] |= (uint8_t)(s->bit[i] << (i % 8));
}

static uint32_t number_at(const uint8_t *bytes)
{
    return bytes[0] | (uint32_t)bytes[1] << 8 | (uint32_t)bytes[2] << 16 | (uint32_t)bytes[3] << 24;
}

static void put_number(uint8_t *bytes, uint32_t number)
{
    for (unsigned i = 0; i < 4; i++)
        bytes[i] = (uint8_t)(number >> (8 * i));
}

static uint32_t end_number(const uint8_t *end)
{
    return number_at(end + COWSLIP_SESSION_SIZE);
}

static void store_end(uint8_t *end, const struct state *s, uint32_t number)
{
    store_bits(end, s);
    put_number(end + COWSLIP_SESSION_SIZE, number);
}

static int holds_end(const uint8_t *end, uint8_t mark)
{
    return end[0] == mark && end_number(end) <= COWSLIP_LARGEST_NUMBER;
}

static uint32_t refused(uint32_t number, size_t place, size_t *told, size_t told_len)
{
    if (told_len > 0)
        told[0] = place;
    return number;
}

static uint32_t accepted(size_t answer, size_t *told, size_t told_len)
{
    if (told_len > 0)
        told[0] = answer;
    return 0;
}

/* --- Digest and deck (docs/DIGEST.md) --- */

/* The first entry that reaches past the buffer, or how many entries there are. */
static size_t first_outside(const cowslip_entry *entries, size_t entries_len, size_t buffer_len)
{
    for (size_t i = 0; i < entries_len; i++) {
        size_t end = entries[i].start + entries[i].length;
        if (end < entries[i].start || end > buffer_len) /* the sum wraps around, or is too large */
            return i;
    }
    return entries_len;
}

uint32_t ref_digest(const uint8_t *buffer, size_t buffer_len,
                    const cowslip_entry *entries, size_t entries_len,
                    uint8_t *out, size_t out_len,
                    size_t *told, size_t told_len)
{
    size_t outside = first_outside(entries, entries_len, buffer_len);
    if (outside < entries_len)
        return refused(8, outside, told, told_len);
    struct state s;
    zero(&s);
    for (size_t i = 0; i < entries_len; i++)
        absorb_unkeyed(&s, buffer_len > 0 ? buffer + entries[i].start : NULL, entries[i].length);
    blank(&s, BLANKS);
    squeeze(&s, out, out_len);
    return 0;
}

uint32_t ref_deck(const uint8_t *key, size_t key_len,
                  const uint8_t *buffer, size_t buffer_len,
                  const cowslip_entry *entries, size_t entries_len,
                  uint8_t *out, size_t out_len,
                  size_t *told, size_t told_len)
{
    size_t outside = first_outside(entries, entries_len, buffer_len);
    if (outside < entries_len)
        return refused(8, outside, told, told_len);
    struct state s;
    zero(&s);
    absorb(&s, key, key_len);
    for (size_t i = 0; i < entries_len; i++)
        absorb(&s, buffer_len > 0 ? buffer + entries[i].start : NULL, entries[i].length);
    blank(&s, BLANKS);
    squeeze(&s, out, out_len);
    return 0;
}

/* --- The calls of sessions --- */

uint32_t ref_session_begin(const uint8_t *key, size_t key_len,
                           const uint8_t *nonce, size_t nonce_len,
                           uint8_t *session, size_t session_len,
                           size_t *told, size_t told_len)
{
    if (key_len != COWSLIP_KEY_SIZE)
        return refused(30, 0, told, told_len);
    if (nonce_len != COWSLIP_NONCE_SIZE)
        return refused(30, 1, told, told_len);
    if (session_len != COWSLIP_SESSION_SIZE)
        return refused(30, 2, told, told_len);
    struct state s;
    begin(&s, key, nonce);
    session[0] = SESSION_MARK;
    store_bits(session, &s);
    return 0;
}

uint32_t ref_session_seal(uint8_t *session, size_t session_len,
                          const uint8_t *ad, size_t ad_len,
                          const uint8_t *text, size_t text_len,
                          uint8_t *out, size_t out_len,
                          uint8_t *tag, size_t tag_len,
                          size_t *told, size_t told_len)
{
    if (session_len != COWSLIP_SESSION_SIZE)
        return refused(30, 0, told, told_len);
    if (tag_len != COWSLIP_TAG_SIZE)
        return refused(30, 4, told, told_len);
    if (session[0] != SESSION_MARK)
        return refused(31, 0, told, told_len);
    struct state s;
    load_bits(session, &s);
    if (out_len < text_len)
        return refused(5, out_len, told, told_len);
    seal(&s, ad, ad_len, text, text_len, out, tag);
    store_bits(session, &s);
    return accepted(text_len, told, told_len);
}

uint32_t ref_session_open(uint8_t *session, size_t session_len,
                          const uint8_t *ad, size_t ad_len,
                          const uint8_t *ciphertext, size_t ciphertext_len,
                          const uint8_t *tag, size_t tag_len,
                          uint8_t *out, size_t out_len,
                          size_t *told, size_t told_len)
{
    if (session_len != COWSLIP_SESSION_SIZE)
        return refused(30, 0, told, told_len);
    if (tag_len != COWSLIP_TAG_SIZE)
        return refused(30, 3, told, told_len);
    if (session[0] != SESSION_MARK)
        return refused(31, 0, told, told_len);
    struct state s;
    load_bits(session, &s);
    if (out_len < ciphertext_len)
        return refused(5, out_len, told, told_len);
    int right = open_sealed(&s, ad, ad_len, ciphertext, ciphertext_len, tag, out);
    store_bits(session, &s);
    if (!right)
        return refused(7, ciphertext_len, told, told_len);
    return accepted(ciphertext_len, told, told_len);
}

/* --- The link (docs/LINK.md) --- */

/* The length of a kind's text, or -1 where the byte is no kind. */
static int text_length(uint8_t kind)
{
    switch (kind) {
    case 1: return 4;
    case 2: return 6;
    case 3: return 3;
    case 4: return 7;
    case 5: return 32;
    case 6: return 0;
    default: return -1;
    }
}

static uint32_t begin_end(uint8_t mark, const uint8_t *key, size_t key_len, const uint8_t *nonce, size_t nonce_len,
                          uint8_t *end, size_t end_len, size_t *told, size_t told_len)
{
    if (key_len != COWSLIP_KEY_SIZE)
        return refused(30, 0, told, told_len);
    if (nonce_len != COWSLIP_NONCE_SIZE)
        return refused(30, 1, told, told_len);
    if (end_len != COWSLIP_END_SIZE)
        return refused(30, 2, told, told_len);
    struct state s;
    begin(&s, key, nonce);
    end[0] = mark;
    store_end(end, &s, 0);
    return 0;
}

uint32_t ref_sender_begin(const uint8_t *key, size_t key_len,
                          const uint8_t *nonce, size_t nonce_len,
                          uint8_t *end, size_t end_len,
                          size_t *told, size_t told_len)
{
    return begin_end(SENDER_MARK, key, key_len, nonce, nonce_len, end, end_len, told, told_len);
}

uint32_t ref_receiver_begin(const uint8_t *key, size_t key_len,
                            const uint8_t *nonce, size_t nonce_len,
                            uint8_t *end, size_t end_len,
                            size_t *told, size_t told_len)
{
    return begin_end(RECEIVER_MARK, key, key_len, nonce, nonce_len, end, end_len, told, told_len);
}

uint32_t ref_sender_write(uint8_t *end, size_t end_len,
                          uint8_t kind,
                          const uint8_t *text, size_t text_len,
                          uint8_t *out, size_t out_len,
                          size_t *told, size_t told_len)
{
    if (end_len != COWSLIP_END_SIZE)
        return refused(30, 0, told, told_len);
    if (!holds_end(end, SENDER_MARK))
        return refused(31, 0, told, told_len);
    uint32_t number = end_number(end);
    if (number == COWSLIP_LARGEST_NUMBER)
        return refused(1, 0, told, told_len);
    int length = text_length(kind);
    if (length < 0)
        return refused(3, 0, told, told_len);
    if (text_len != (size_t)length)
        return refused(4, text_len, told, told_len);
    if (out_len < text_len + COWSLIP_FRAME_OVERHEAD)
        return refused(5, out_len, told, told_len);
    struct state s;
    load_bits(end, &s);
    out[0] = kind;
    put_number(out + 1, number);
    seal(&s, out, HEADER, text, text_len, out + HEADER, out + HEADER + text_len);
    store_end(end, &s, number + 1);
    if (told_len > 1)
        told[1] = number;
    return accepted(text_len + COWSLIP_FRAME_OVERHEAD, told, told_len);
}

uint32_t ref_receiver_take(uint8_t *end, size_t end_len,
                           const uint8_t *frame, size_t frame_len,
                           uint8_t *text, size_t text_len,
                           size_t *told, size_t told_len)
{
    if (end_len != COWSLIP_END_SIZE)
        return refused(30, 0, told, told_len);
    if (!holds_end(end, RECEIVER_MARK))
        return refused(31, 0, told, told_len);
    uint32_t number = end_number(end);
    if (number == COWSLIP_LARGEST_NUMBER)
        return refused(1, 0, told, told_len);
    if (frame_len == 0)
        return refused(2, 0, told, told_len);
    int length = text_length(frame[0]);
    if (length < 0)
        return refused(3, 0, told, told_len);
    size_t wanted = (size_t)length;
    if (frame_len != wanted + COWSLIP_FRAME_OVERHEAD)
        return refused(4, frame_len, told, told_len);
    if (text_len < wanted)
        return refused(5, text_len, told, told_len);
    if (number_at(frame + 1) != number)
        return refused(6, 1, told, told_len);
    struct state s;
    load_bits(end, &s);
    if (!open_sealed(&s, frame, HEADER, frame + HEADER, wanted, frame + HEADER + wanted, text))
        return refused(7, wanted + HEADER, told, told_len);
    store_end(end, &s, number + 1);
    return accepted(frame[0], told, told_len);
}

static uint32_t tell(uint8_t mark, const uint8_t *end, size_t end_len, size_t *told, size_t told_len)
{
    if (end_len != COWSLIP_END_SIZE)
        return refused(30, 0, told, told_len);
    if (!holds_end(end, mark))
        return refused(31, 0, told, told_len);
    return accepted(end_number(end), told, told_len);
}

uint32_t ref_sender_tell(const uint8_t *end, size_t end_len,
                         size_t *told, size_t told_len)
{
    return tell(SENDER_MARK, end, end_len, told, told_len);
}

uint32_t ref_receiver_tell(const uint8_t *end, size_t end_len,
                           size_t *told, size_t told_len)
{
    return tell(RECEIVER_MARK, end, end_len, told, told_len);
}
