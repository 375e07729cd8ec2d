/* The suite in straightforward C over a layout of the state, to stand beside the proved engines. It does the work of the
   program `load`, on the same bytes, and prints the same.
   gcc -O3 -include LAYOUT baseline.c, where LAYOUT is bytes.h or words.h. Usage: baseline WORK COUNT, as for load. */
#include <stdint.h>
#include <stdio.h>
#include <stdlib.h>
#include <string.h>

enum { HEADER = 5, TAG = 16, DIGEST = 32, LONGEST = 53 };

/* Strings */

static uint64_t padded(const uint8_t *block, size_t n) {
    uint64_t number = (uint64_t)1 << 8 * n;
    for (size_t i = 0; i < n; i++)
        number |= (uint64_t)block[i] << 8 * i;
    return number;
}

static void blank(struct state *s, int times) {
    for (int i = 0; i < times; i++)
        step(s, 1);
}

static void absorb(struct state *s, const uint8_t *text, size_t n) {
    for (; n >= 4; text += 4, n -= 4)
        step(s, padded(text, 4));
    step(s, padded(text, n));
}

static void absorb_unkeyed(struct state *s, const uint8_t *text, size_t n) {
    for (size_t i = 0; i < n; i++) {
        step(s, padded(text + i, 1));
        step(s, 1);
    }
    blank(s, 2);
}

static void squeeze(struct state *s, uint8_t *out, size_t n) {
    for (size_t i = 0; i < n; i += 4) {
        uint32_t word = reading(s);
        step(s, 1);
        for (size_t k = i; k < n && k < i + 4; k++, word >>= 8)
            out[k] = (uint8_t)word;
    }
}

static void crypt_block(struct state *s, uint8_t *block, size_t n, int decrypts) {
    uint64_t given = padded(block, n);
    uint32_t word = reading(s);
    for (size_t i = 0; i < n; i++)
        block[i] ^= (uint8_t)(word >> 8 * i);
    step(s, decrypts ? padded(block, n) : given);
}

static void crypt(struct state *s, uint8_t *text, size_t n, int decrypts) {
    for (; n >= 4; text += 4, n -= 4)
        crypt_block(s, text, 4, decrypts);
    crypt_block(s, text, n, decrypts);
}

/* Digest and session */

static void digest(const uint8_t *text, size_t n, uint8_t out[DIGEST]) {
    struct state s;
    memset(&s, 0, sizeof s);
    absorb_unkeyed(&s, text, n);
    blank(&s, 8);
    squeeze(&s, out, DIGEST);
}

static void begin(struct state *s, const uint8_t key[16], const uint8_t nonce[16]) {
    memset(s, 0, sizeof *s);
    absorb(s, key, 16);
    absorb(s, nonce, 16);
    blank(s, 8);
}

static void seal(struct state *s, const uint8_t *ad, size_t ad_n, const uint8_t *text, size_t n, uint8_t *out, uint8_t tag[TAG]) {
    memcpy(out, text, n);
    absorb(s, ad, ad_n);
    crypt(s, out, n, 0);
    blank(s, 8);
    squeeze(s, tag, TAG);
}

static int open(struct state *s, const uint8_t *ad, size_t ad_n, const uint8_t *ciphertext, size_t n, const uint8_t tag[TAG], uint8_t *out) {
    uint8_t found[TAG], differences = 0;
    memcpy(out, ciphertext, n);
    absorb(s, ad, ad_n);
    crypt(s, out, n, 1);
    blank(s, 8);
    squeeze(s, found, TAG);
    for (int i = 0; i < TAG; i++)
        differences |= found[i] ^ tag[i];
    if (differences)
        memset(out, 0, n);
    return !differences;
}

/* Link */

static const struct {
    const char *name;
    uint8_t byte;
    size_t length;
} kinds[] = {{"poll-value", 1, 4}, {"alarm", 2, 6}, {"output", 3, 3}, {"clock", 4, 7}, {"zone-name", 5, 32}, {"heartbeat", 6, 0}};

struct end {
    struct state session;
    uint32_t number;
};

static int text_length(uint8_t kind, size_t *n) {
    if (kind < 1 || kind > 6)
        return 0;
    *n = kinds[kind - 1].length;
    return 1;
}

static void header(uint8_t out[HEADER], uint8_t kind, uint32_t number) {
    out[0] = kind;
    for (int i = 0; i < 4; i++)
        out[1 + i] = (uint8_t)(number >> 8 * i);
}

static int write_frame(struct end *e, uint8_t kind, const uint8_t *text, size_t n, uint8_t *out, size_t room) {
    size_t wanted;
    if (e->number >= 1000000 || !text_length(kind, &wanted) || n != wanted || room < n + HEADER + TAG)
        return 0;
    header(out, kind, e->number);
    seal(&e->session, out, HEADER, text, n, out + HEADER, out + HEADER + n);
    e->number++;
    return 1;
}

static int take_frame(struct end *e, const uint8_t *frame, size_t length, uint8_t *text, size_t room) {
    struct state trial = e->session;
    uint8_t wanted[HEADER];
    size_t n;
    if (e->number >= 1000000 || length == 0 || !text_length(frame[0], &n) || length != n + HEADER + TAG || room < n)
        return 0;
    header(wanted, frame[0], e->number);
    if (memcmp(frame, wanted, HEADER) || !open(&trial, frame, HEADER, frame + HEADER, n, frame + HEADER + n, text))
        return 0;
    e->session = trial;
    e->number++;
    return 1;
}

/* The work */

static void fail(const char *why) {
    fprintf(stderr, "baseline: %s\n", why);
    exit(1);
}

static uint8_t *bytes(size_t n, int value) {
    uint8_t *p = malloc(n + 1);
    if (!p)
        fail("out of memory");
    return memset(p, value, n + 1);
}

static void show(const uint8_t *out, size_t n) {
    for (size_t i = n > 32 ? n - 32 : 0; i < n; i++)
        printf("%02x", out[i]);
    printf("\n");
}

int main(int argc, char **argv) {
    if (argc != 3 && argc != 4)
        fail("usage: baseline WORK COUNT");
    const char *work = argv[1];
    unsigned long count = strtoul(argv[argc - 1], NULL, 10);
    size_t n = argc == 4 ? strtoul(argv[2], NULL, 10) : 0, length;
    uint8_t kind = 0, key[16], nonce[16], tag[TAG], frame[LONGEST];
    for (int i = 0; argc == 4 && i < 6; i++)
        if (!strcmp(argv[2], kinds[i].name))
            kind = kinds[i].byte, n = kinds[i].length;
    length = n + HEADER + TAG;
    memset(key, 1, 16);
    memset(nonce, 2, 16);
    prepare();

    uint8_t *text = bytes(n, 0x5a), *out = bytes(length + DIGEST, 0);
    struct end panel = {.number = 0}, head;
    begin(&panel.session, key, nonce);
    head = panel;
    if (!strcmp(work, "step") || !strcmp(work, "squeeze"))
        memset(&panel.session, 0, sizeof panel.session);

    if (!strcmp(work, "step")) {
        uint32_t word = 0;
        for (unsigned long k = 0; k < count; k++) {
            step(&panel.session, ((uint64_t)1 << 32) + word);
            word = reading(&panel.session);
        }
        for (int i = 0; i < 4; i++)
            out[i] = (uint8_t)(word >> 8 * i);
        show(out, 4);
    } else if (!strcmp(work, "digest")) {
        for (unsigned long k = 0; k < count; k++)
            digest(text, n, out);
        show(out, DIGEST);
    } else if (!strcmp(work, "squeeze")) {
        for (unsigned long k = 0; k < count; k++)
            squeeze(&panel.session, out, n);
        show(out, n);
    } else if (!strcmp(work, "seal")) {
        for (unsigned long k = 0; k < count; k++)
            seal(&panel.session, NULL, 0, text, n, out, tag);
        show(out, n);
    } else if (!strcmp(work, "write") && kind) {
        for (unsigned long k = 0; k < count; k++)
            if (!write_frame(&panel, kind, text, n, out, length))
                fail("a frame was not written");
        show(out, length);
    } else if (!strcmp(work, "take") && kind) {
        for (unsigned long k = 0; k < count; k++)
            if (!write_frame(&panel, kind, text, n, frame, LONGEST) || !take_frame(&head, frame, length, out, n))
                fail("a frame was not taken");
        show(out, n);
    } else {
        fail("no such WORK");
    }
    free(text);
    free(out);
    return 0;
}
