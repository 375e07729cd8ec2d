/* Compares libcowslip.a with the C reference, call by call, on random and damaged input.
 *
 *     fuzz [CASES [SEED]]      100,000 cases and a fixed seed where none are given
 *
 * A case is one call of each of the two, with the same arguments. Afterwards the library must have returned what the
 * header calls the reference's number, every byte of every slice must be the same, and nothing around a slice may have
 * changed. Each slice lies in an area of its own
 * between two pages that cannot be read or written: at its front, at its back or somewhere between. Pairs of ends and
 * of sessions live over many calls. The first difference is printed with the seed, the case, the call and its
 * arguments; the status is then 1. It is 1 too where some refusal that a function can give was not seen, as with very
 * few cases. */

#define _DEFAULT_SOURCE

#include <inttypes.h>
#include <signal.h>
#include <stdio.h>
#include <stdlib.h>
#include <string.h>
#include <sys/mman.h>
#include <unistd.h>

#include "cowslip.h"
#include "reference.h"

enum function {
    DIGEST, DECK, SESSION_BEGIN, SESSION_SEAL, SESSION_OPEN,
    SENDER_BEGIN, SENDER_WRITE, RECEIVER_BEGIN, RECEIVER_TAKE, SENDER_TELL, RECEIVER_TELL, FUNCTIONS
};
enum { NUMBERS = 32 }; /* every refusal's number is below this */

/* The functions' names, and what each can return, closed by -1. */
static const struct {
    const char *name;
    int possible[11];
} FUNCTION[FUNCTIONS] = {
    [DIGEST] = {"digest", {0, 8, -1}},
    [DECK] = {"deck", {0, 8, -1}},
    [SESSION_BEGIN] = {"session_begin", {0, 30, -1}},
    [SESSION_SEAL] = {"session_seal", {0, 5, 30, 31, -1}},
    [SESSION_OPEN] = {"session_open", {0, 5, 7, 30, 31, -1}},
    [SENDER_BEGIN] = {"sender_begin", {0, 30, -1}},
    [SENDER_WRITE] = {"sender_write", {0, 1, 3, 4, 5, 30, 31, -1}},
    [RECEIVER_BEGIN] = {"receiver_begin", {0, 30, -1}},
    [RECEIVER_TAKE] = {"receiver_take", {0, 1, 2, 3, 4, 5, 6, 7, 30, 31, -1}},
    [SENDER_TELL] = {"sender_tell", {0, 30, 31, -1}},
    [RECEIVER_TELL] = {"receiver_tell", {0, 30, 31, -1}},
};

/* What the header calls the numbers that the reference returns. */
static const uint32_t NAMED[NUMBERS] = {
    [0] = COWSLIP_ACCEPTED,
    [1] = COWSLIP_NUMBER_SPENT,
    [2] = COWSLIP_EMPTY_FRAME,
    [3] = COWSLIP_UNKNOWN_KIND,
    [4] = COWSLIP_WRONG_LENGTH,
    [5] = COWSLIP_SHORT_BUFFER,
    [6] = COWSLIP_WRONG_NUMBER,
    [7] = COWSLIP_TAG_DIFFERS,
    [8] = COWSLIP_ENTRY_OUTSIDE,
    [30] = COWSLIP_ARGUMENT_LENGTH,
    [31] = COWSLIP_NO_STATE,
};

static uint64_t seed = 20261118;
static uint64_t cases = 100000;
static uint64_t this_case;
static uint64_t tally[FUNCTIONS][NUMBERS];

/* --- Random numbers --- */

static uint64_t random_state;

static uint64_t next_random(void)
{
    uint64_t z = random_state += UINT64_C(0x9e3779b97f4a7c15);
    z = (z ^ z >> 30) * UINT64_C(0xbf58476d1ce4e5b9);
    z = (z ^ z >> 27) * UINT64_C(0x94d049bb133111eb);
    return z ^ z >> 31;
}

static size_t below(size_t limit)
{
    return (size_t)(next_random() % limit);
}

static int once_in(size_t times)
{
    return below(times) == 0;
}

/* In some cases most arguments are damaged, so that several refusals apply at once. */
static int careless;

static int damaged_once_in(size_t times)
{
    return once_in(careless ? 3 : times);
}

static void fill_random(uint8_t *bytes, size_t length)
{
    for (size_t i = 0; i < length; i += 8) {
        uint64_t word = next_random();
        memcpy(bytes + i, &word, length - i < 8 ? length - i : 8);
    }
}

/* --- One call: its arguments, and where they lie --- */

enum { MOST_SLICES = 6, AREA = 4096, MOST_BYTES = 1024 };
enum side { LIBRARY, REFERENCE, SIDES };

struct slice {
    const char *name;
    size_t length;  /* in elements */
    size_t element; /* bytes of one element */
    int lent;
    int null;
    size_t slot;   /* which area it lies in */
    size_t offset; /* where in that area */
};

static struct {
    enum function function;
    uint8_t kind; /* of sender_write alone */
    size_t slices;
    struct slice slice[MOST_SLICES];
} call;

static uint8_t before[MOST_SLICES][AREA];
static uint8_t *area[SIDES][MOST_SLICES];
static uint32_t returned[SIDES];

/* Memory between two pages that cannot be touched. */
static uint8_t *guarded_area(void)
{
    size_t page = (size_t)sysconf(_SC_PAGESIZE);
    if (AREA % page != 0) {
        fprintf(stderr, "fuzz: an area of %d bytes is not made of pages of %zu\n", AREA, page);
        exit(2);
    }
    uint8_t *whole = mmap(NULL, AREA + 2 * page, PROT_NONE, MAP_PRIVATE | MAP_ANONYMOUS, -1, 0);
    if (whole == MAP_FAILED || mprotect(whole + page, AREA, PROT_READ | PROT_WRITE) != 0) {
        perror("fuzz: mmap");
        exit(2);
    }
    return whole + page;
}

static void begin_call(enum function function)
{
    call.function = function;
    call.kind = 0;
    call.slices = 0;
}

static size_t random_offset(size_t room, size_t alignment)
{
    switch (below(3)) {
    case 0: return 0;
    case 1: return room;
    default: return below(room / alignment + 1) * alignment;
    }
}

/* Adds a slice to the call. All of its area is random but for the content; where that is NULL, the slice is too. */
static void add_slice(const char *name, int lent, const void *content, size_t length, size_t element)
{
    struct slice *s = &call.slice[call.slices];
    size_t bytes = length * element;
    s->name = name;
    s->length = length;
    s->element = element;
    s->lent = lent;
    s->null = length == 0 && once_in(2);
    s->slot = call.slices++;
    s->offset = random_offset(AREA - bytes, element > 1 ? sizeof(size_t) : 1);
    fill_random(before[s->slot], AREA);
    if (content != NULL && bytes > 0)
        memcpy(before[s->slot] + s->offset, content, bytes);
}

static void add_input(const char *name, const uint8_t *content, size_t length)
{
    add_slice(name, 0, content, length, 1);
}

static void add_lent(const char *name, const uint8_t *content, size_t length)
{
    add_slice(name, 1, content, length, 1);
}

/* Adds an input that is the same memory as the input before it. */
static void add_same_input(const char *name)
{
    call.slice[call.slices] = call.slice[call.slices - 1];
    call.slice[call.slices++].name = name;
}

static void add_told(void)
{
    add_slice("told", 1, NULL, below(4), sizeof(size_t));
}

static void *pointer(enum side side, size_t index)
{
    const struct slice *s = &call.slice[index];
    return s->null ? NULL : area[side][s->slot] + s->offset;
}

static size_t length_of(size_t index)
{
    return call.slice[index].length;
}

/* The bytes of a slice after the call; both sides have the same ones by then. */
static const uint8_t *result(size_t index)
{
    return area[LIBRARY][call.slice[index].slot] + call.slice[index].offset;
}

static uint32_t call_side(enum side side)
{
    int library = side == LIBRARY;
    void *p[MOST_SLICES] = {NULL};
    size_t n[MOST_SLICES] = {0};
    for (size_t i = 0; i < call.slices; i++) {
        p[i] = pointer(side, i);
        n[i] = length_of(i);
    }
    switch (call.function) {
    case DIGEST:
        return (library ? cowslip_digest : ref_digest)(p[0], n[0], p[1], n[1], p[2], n[2], p[3], n[3]);
    case DECK:
        return (library ? cowslip_deck : ref_deck)
            (p[0], n[0], p[1], n[1], p[2], n[2], p[3], n[3], p[4], n[4]);
    case SESSION_BEGIN:
        return (library ? cowslip_session_begin : ref_session_begin)(p[0], n[0], p[1], n[1], p[2], n[2], p[3], n[3]);
    case SESSION_SEAL:
        return (library ? cowslip_session_seal : ref_session_seal)
            (p[0], n[0], p[1], n[1], p[2], n[2], p[3], n[3], p[4], n[4], p[5], n[5]);
    case SESSION_OPEN:
        return (library ? cowslip_session_open : ref_session_open)
            (p[0], n[0], p[1], n[1], p[2], n[2], p[3], n[3], p[4], n[4], p[5], n[5]);
    case SENDER_BEGIN:
        return (library ? cowslip_sender_begin : ref_sender_begin)(p[0], n[0], p[1], n[1], p[2], n[2], p[3], n[3]);
    case SENDER_WRITE:
        return (library ? cowslip_sender_write : ref_sender_write)
            (p[0], n[0], call.kind, p[1], n[1], p[2], n[2], p[3], n[3]);
    case RECEIVER_BEGIN:
        return (library ? cowslip_receiver_begin : ref_receiver_begin)(p[0], n[0], p[1], n[1], p[2], n[2], p[3], n[3]);
    case RECEIVER_TAKE:
        return (library ? cowslip_receiver_take : ref_receiver_take)(p[0], n[0], p[1], n[1], p[2], n[2], p[3], n[3]);
    case SENDER_TELL:
        return (library ? cowslip_sender_tell : ref_sender_tell)(p[0], n[0], p[1], n[1]);
    case RECEIVER_TELL:
        return (library ? cowslip_receiver_tell : ref_receiver_tell)(p[0], n[0], p[1], n[1]);
    default:
        abort();
    }
}

/* --- Comparing, and showing a difference --- */

static void show_bytes(const char *what, const uint8_t *bytes, size_t length)
{
    printf("    %-9s", what);
    for (size_t i = 0; i < length; i++)
        printf("%s%02x", i % 4 == 0 ? " " : "", bytes[i]);
    printf("\n");
}

static void show_slice(const struct slice *s)
{
    size_t bytes = s->length * s->element;
    printf("  %s: %s, %zu of %zu bytes each%s\n", s->name, s->lent ? "lent" : "input", s->length, s->element,
           s->null ? ", NULL" : "");
    if (bytes == 0)
        return;
    show_bytes("before", before[s->slot] + s->offset, bytes);
    for (int side = 0; side < SIDES; side++)
        if (memcmp(area[side][s->slot] + s->offset, before[s->slot] + s->offset, bytes) != 0)
            show_bytes(side == LIBRARY ? "library" : "reference", area[side][s->slot] + s->offset, bytes);
}

static void show_call(void)
{
    printf("  seed %" PRIu64 ", case %" PRIu64 ", %s", seed, this_case, FUNCTION[call.function].name);
    if (call.function == SENDER_WRITE)
        printf(" of kind %u", call.kind);
    printf("\n");
    for (size_t i = 0; i < call.slices; i++)
        show_slice(&call.slice[i]);
}

static void fail(const char *what, const char *where)
{
    printf("fuzz: %s%s\n  the library returns %" PRIu32 " and the reference %" PRIu32 "\n", what, where,
           returned[LIBRARY], returned[REFERENCE]);
    show_call();
    exit(1);
}

/* A fault can only be the fault of one of the two, neither of which prints; so printing is safe here. */
static void on_signal(int signal_number)
{
    printf("fuzz: signal %d\n", signal_number);
    show_call();
    fflush(stdout);
    _exit(1);
}

static int can_return(enum function function, uint32_t number)
{
    for (const int *p = FUNCTION[function].possible; *p >= 0; p++)
        if ((uint32_t)*p == number)
            return 1;
    return 0;
}

/* What lies around a slice must be as it was, and an input too. */
static void compare_around(const struct slice *s, enum side side)
{
    const uint8_t *now = area[side][s->slot], *old = before[s->slot];
    size_t bytes = s->length * s->element, after = s->offset + bytes;
    if (memcmp(now, old, s->offset) != 0 || memcmp(now + after, old + after, AREA - after) != 0)
        fail(side == LIBRARY ? "the library writes beside " : "the reference writes beside ", s->name);
    if (!s->lent && memcmp(now + s->offset, old + s->offset, bytes) != 0)
        fail(side == LIBRARY ? "the library writes into " : "the reference writes into ", s->name);
}

static void compare(void)
{
    if (!can_return(call.function, returned[REFERENCE]))
        fail("a number that cannot be", "");
    if (returned[LIBRARY] != NAMED[returned[REFERENCE]])
        fail("another number returned", "");
    for (size_t i = 0; i < call.slices; i++) {
        const struct slice *s = &call.slice[i];
        compare_around(s, LIBRARY);
        compare_around(s, REFERENCE);
        if (memcmp(area[LIBRARY][s->slot], area[REFERENCE][s->slot], AREA) != 0)
            fail("other bytes in ", s->name);
    }
}

/* Makes the call on both sides, compares, counts, and returns the number. */
static uint32_t run_call(void)
{
    for (int side = 0; side < SIDES; side++)
        for (size_t i = 0; i < call.slices; i++)
            memcpy(area[side][call.slice[i].slot], before[call.slice[i].slot], AREA);
    for (int side = 0; side < SIDES; side++)
        returned[side] = call_side(side);
    compare();
    tally[call.function][returned[REFERENCE]]++;
    return returned[REFERENCE];
}

/* --- Arguments that are mostly right --- */

struct bytes {
    size_t length;
    uint8_t data[MOST_BYTES];
};

static void set_bytes(struct bytes *b, const uint8_t *data, size_t length)
{
    b->length = length;
    if (length > 0)
        memcpy(b->data, data, length);
}

/* Changes a length; bytes that come in are random. */
static void set_length(struct bytes *b, size_t length)
{
    if (length > b->length)
        fill_random(b->data + b->length, length - b->length);
    b->length = length;
}

static void set_random(struct bytes *b, size_t length)
{
    b->length = 0;
    set_length(b, length);
}

static void flip_bit(struct bytes *b, size_t first, size_t length)
{
    if (length > 0)
        b->data[first + below(length)] ^= (uint8_t)(1u << below(8));
}

static size_t string_length(void)
{
    switch (below(8)) {
    case 0: return 0;
    case 1: return below(300);
    case 2: return 4 * below(12);
    default: return below(40);
    }
}

/* A length near the wanted one that is mostly another. */
static size_t other_length(size_t wanted)
{
    switch (below(6)) {
    case 0: return 0;
    case 1: return 1;
    case 2: return wanted > 0 ? wanted - 1 : 1;
    case 3: return wanted + 1;
    case 4: return 2 * wanted;
    default: return below(64);
    }
}

/* The length of a buffer for so many bytes, which is sometimes too short. */
static size_t room_for(size_t wanted)
{
    if (!damaged_once_in(6))
        return once_in(2) ? wanted : wanted + below(6);
    switch (below(4)) {
    case 0: return wanted > 0 ? wanted - 1 : 0;
    case 1: return below(wanted + 1);
    case 2: return 0;
    default: return wanted + below(100);
    }
}

/* Adds an argument of fixed length, which sometimes has another. */
static void add_fixed(const char *name, int lent, const uint8_t *content, size_t size)
{
    struct bytes b;
    set_bytes(&b, content, size);
    if (damaged_once_in(25))
        set_length(&b, other_length(size));
    add_slice(name, lent, b.data, b.length, 1);
}

static uint32_t number_at(const uint8_t *bytes)
{
    return bytes[0] | (uint32_t)bytes[1] << 8 | (uint32_t)bytes[2] << 16 | (uint32_t)bytes[3] << 24;
}

static void put_number(uint8_t *bytes, uint32_t number)
{
    for (unsigned i = 0; i < 4; i++)
        bytes[i] = (uint8_t)(number >> (8 * i));
}

/* A number near one that matters, or any. */
static uint32_t odd_number(uint32_t now)
{
    switch (below(6)) {
    case 0: return COWSLIP_LARGEST_NUMBER;
    case 1: return 999998 + (uint32_t)below(5);
    case 2: return UINT32_MAX - (uint32_t)below(2);
    case 3: return (uint32_t)1 << below(32);
    case 4: return now + 1 - 2 * (uint32_t)below(2);
    default: return (uint32_t)next_random();
    }
}

static uint8_t odd_mark(void)
{
    static const uint8_t marks[4] = {0x53, 0x57, 0x52, 0};
    return once_in(3) ? (uint8_t)next_random() : marks[below(4)];
}

/* Adds the memory of a state, sometimes damaged. 1 where it is to be kept after the call. */
static int add_state(const char *name, int lent, const uint8_t *memory, size_t size)
{
    struct bytes b;
    int keep = 1;
    set_bytes(&b, memory, size);
    if (damaged_once_in(12)) /* the seven bits that are not read */
        b.data[33] |= (uint8_t)(below(128) << 1);
    if (damaged_once_in(9)) {
        keep = 0;
        switch (below(7)) {
        case 0:
            b.data[0] = odd_mark();
            break;
        case 1: case 2:
            if (size == COWSLIP_END_SIZE)
                put_number(b.data + 34, odd_number(number_at(b.data + 34)));
            break;
        case 3: /* any bits at all are a state */
            fill_random(b.data + 1, 33);
            break;
        case 4: /* no state, but for very rare chances */
            fill_random(b.data, size);
            break;
        default:
            set_length(&b, other_length(size));
        }
    }
    add_slice(name, lent, b.data, b.length, 1);
    return keep;
}

/* Adds the key and the nonce; at times they are the same memory. */
static void add_key_and_nonce(const uint8_t *key, const uint8_t *nonce)
{
    add_fixed("key", 0, key, COWSLIP_KEY_SIZE);
    if (memcmp(key, nonce, COWSLIP_KEY_SIZE) == 0)
        add_same_input("nonce");
    else
        add_fixed("nonce", 0, nonce, COWSLIP_NONCE_SIZE);
}

static void choose_key_and_nonce(uint8_t *key, uint8_t *nonce)
{
    fill_random(key, COWSLIP_KEY_SIZE);
    fill_random(nonce, COWSLIP_NONCE_SIZE);
    if (once_in(16))
        memcpy(nonce, key, COWSLIP_KEY_SIZE);
}

/* --- Digest and deck --- */

enum { MOST_ENTRIES = 6 };

static cowslip_entry inside_entry(size_t length)
{
    cowslip_entry e;
    e.start = below(length + 1);
    e.length = below(length - e.start + 1);
    return e;
}

static cowslip_entry outside_entry(size_t length)
{
    cowslip_entry e;
    switch (below(6)) {
    case 0:
        e.start = length + 1 + below(3);
        e.length = 0;
        break;
    case 1:
        e.start = below(length + 1);
        e.length = length - e.start + 1 + below(3);
        break;
    case 2:
        e.start = SIZE_MAX - below(4);
        e.length = below(8);
        break;
    case 3:
        e.start = below(length + 1);
        e.length = SIZE_MAX - below(4);
        break;
    case 4: /* the sum wraps around to a place inside */
        e.start = SIZE_MAX - below(200);
        e.length = SIZE_MAX - e.start + 1 + below(length + 1);
        break;
    default:
        e.start = (size_t)next_random();
        e.length = (size_t)next_random();
    }
    return e;
}

static void digest_case(enum function function)
{
    cowslip_entry entries[MOST_ENTRIES];
    size_t count = below(MOST_ENTRIES + 1), length = string_length();
    begin_call(function);
    if (function == DECK)
        add_input("key", NULL, string_length());
    add_input("buffer", NULL, length);
    for (size_t i = 0; i < count; i++)
        entries[i] = damaged_once_in(12) ? outside_entry(length) : inside_entry(length);
    add_slice("entries", 0, entries, count, sizeof(cowslip_entry));
    add_lent("out", NULL, below(70));
    add_told();
    run_call();
}

/* --- Pairs of sessions --- */

enum { PAIRS = 4, KEPT_MESSAGES = 4 };
enum stage { FIRST_TO_BEGIN, SECOND_TO_BEGIN, RUNNING };

struct message {
    struct bytes ad, ciphertext, tag;
};

static struct pair {
    enum stage stage;
    uint8_t key[COWSLIP_KEY_SIZE], nonce[COWSLIP_NONCE_SIZE];
    uint8_t sealing[COWSLIP_SESSION_SIZE], opening[COWSLIP_SESSION_SIZE];
    struct message message[KEPT_MESSAGES]; /* the one sealed as the nth is at n mod KEPT_MESSAGES */
    size_t sealed, opened;
    int lost; /* the opening session has moved away from the sealing one */
} pairs[PAIRS];

static void session_begin_case(struct pair *p)
{
    int first = p->stage == FIRST_TO_BEGIN;
    if (first)
        choose_key_and_nonce(p->key, p->nonce);
    begin_call(SESSION_BEGIN);
    add_key_and_nonce(p->key, p->nonce);
    uint8_t old[COWSLIP_SESSION_SIZE];
    fill_random(old, sizeof old);
    add_fixed("session", 1, old, sizeof old);
    add_told();
    if (run_call() != 0)
        return;
    memcpy(first ? p->sealing : p->opening, result(2), COWSLIP_SESSION_SIZE);
    p->stage = first ? SECOND_TO_BEGIN : RUNNING;
    p->sealed = p->opened = 0;
    p->lost = 0;
}

static void seal_case(struct pair *p)
{
    size_t length = string_length();
    uint8_t old_tag[COWSLIP_TAG_SIZE];
    fill_random(old_tag, sizeof old_tag);
    begin_call(SESSION_SEAL);
    int keep = add_state("session", 1, p->sealing, COWSLIP_SESSION_SIZE);
    add_input("ad", NULL, once_in(20) ? length : string_length());
    if (length_of(1) == length)
        add_same_input("text");
    else
        add_input("text", NULL, length);
    add_lent("out", NULL, room_for(length));
    add_fixed("tag", 1, old_tag, sizeof old_tag);
    add_told();
    uint32_t number = run_call();
    if (!keep)
        return;
    memcpy(p->sealing, result(0), COWSLIP_SESSION_SIZE);
    if (number != 0)
        return;
    struct message *m = &p->message[p->sealed++ % KEPT_MESSAGES];
    set_bytes(&m->ad, result(1), length_of(1));
    set_bytes(&m->ciphertext, result(3), length);
    set_bytes(&m->tag, result(4), COWSLIP_TAG_SIZE);
}

static void damage_message(struct message *m, const struct pair *p)
{
    switch (below(8)) {
    case 0: flip_bit(&m->ad, 0, m->ad.length); break;
    case 1: flip_bit(&m->ciphertext, 0, m->ciphertext.length); break;
    case 2: flip_bit(&m->tag, 0, COWSLIP_TAG_SIZE); break;
    case 3: set_length(&m->ciphertext, below(m->ciphertext.length + 1)); break;
    case 4: set_length(&m->ciphertext, m->ciphertext.length + 1 + below(4)); break;
    case 5: set_length(&m->ad, other_length(m->ad.length)); break;
    case 6: *m = p->message[below(KEPT_MESSAGES)]; break; /* sealed earlier or later, or nothing yet */
    default: set_random(&m->tag, COWSLIP_TAG_SIZE);
    }
}

static void open_case(struct pair *p)
{
    struct message m = p->message[p->opened % KEPT_MESSAGES];
    if (damaged_once_in(12))
        damage_message(&m, p);
    set_length(&m.tag, COWSLIP_TAG_SIZE);
    begin_call(SESSION_OPEN);
    int keep = add_state("session", 1, p->opening, COWSLIP_SESSION_SIZE);
    add_input("ad", m.ad.data, m.ad.length);
    add_input("ciphertext", m.ciphertext.data, m.ciphertext.length);
    add_fixed("tag", 0, m.tag.data, COWSLIP_TAG_SIZE);
    add_lent("out", NULL, room_for(m.ciphertext.length));
    add_told();
    uint32_t number = run_call();
    if (!keep)
        return;
    memcpy(p->opening, result(0), COWSLIP_SESSION_SIZE);
    if (number == 0)
        p->opened++;
    if (number == 7)
        p->lost = 1;
}

static void session_case(void)
{
    struct pair *p = &pairs[below(PAIRS)];
    if ((p->lost && once_in(2)) || once_in(60))
        p->stage = FIRST_TO_BEGIN;
    if (p->stage != RUNNING)
        session_begin_case(p);
    else if (p->sealed - p->opened == KEPT_MESSAGES || (p->sealed > p->opened && once_in(2)) || once_in(40))
        open_case(p);
    else
        seal_case(p);
}

/* --- Pairs of ends --- */

enum { LINKS = 6, KEPT_FRAMES = 8 };

static const size_t TEXT_LENGTH[7] = {0, 4, 6, 3, 7, 32, 0};

/* The lengths in the header that are for callers alone. */
static void check_longest(void)
{
    size_t longest = 0;
    for (size_t kind = 1; kind <= 6; kind++)
        if (TEXT_LENGTH[kind] > longest)
            longest = TEXT_LENGTH[kind];
    if (COWSLIP_LONGEST_TEXT == longest && COWSLIP_LONGEST_FRAME == longest + COWSLIP_FRAME_OVERHEAD)
        return;
    printf("fuzz: the header has another longest text or frame\n");
    exit(1);
}

static struct link_pair {
    enum stage stage;
    uint8_t key[COWSLIP_KEY_SIZE], nonce[COWSLIP_NONCE_SIZE];
    uint8_t sender[COWSLIP_END_SIZE], receiver[COWSLIP_END_SIZE];
    struct bytes frame[KEPT_FRAMES]; /* the one written as the nth is at n mod KEPT_FRAMES */
    size_t written, taken;
    int lost; /* the receiving end refuses the frame that is due */
} links[LINKS];

static void end_begin_case(struct link_pair *l)
{
    int first = l->stage == FIRST_TO_BEGIN;
    careless = once_in(4); /* for these are few */
    if (first && !once_in(8)) /* else the old key and nonce again, and old frames with them */
        choose_key_and_nonce(l->key, l->nonce);
    begin_call(first ? SENDER_BEGIN : RECEIVER_BEGIN);
    add_key_and_nonce(l->key, l->nonce);
    uint8_t old[COWSLIP_END_SIZE];
    fill_random(old, sizeof old);
    add_fixed("end", 1, old, sizeof old);
    add_told();
    if (run_call() != 0)
        return;
    memcpy(first ? l->sender : l->receiver, result(2), COWSLIP_END_SIZE);
    l->stage = first ? SECOND_TO_BEGIN : RUNNING;
    l->written = l->taken = 0;
    l->lost = 0;
}

static void write_case(struct link_pair *l)
{
    size_t kind = 1 + below(6), length = TEXT_LENGTH[kind];
    if (damaged_once_in(25)) {
        kind = once_in(2) ? 7 * below(2) : below(256);
        length = once_in(2) ? length : below(40);
    }
    if (damaged_once_in(25))
        length = other_length(length);
    begin_call(SENDER_WRITE);
    call.kind = (uint8_t)kind;
    int keep = add_state("end", 1, l->sender, COWSLIP_END_SIZE);
    add_input("text", NULL, length);
    add_lent("out", NULL, room_for(length + COWSLIP_FRAME_OVERHEAD));
    add_told();
    uint32_t number = run_call();
    if (!keep)
        return;
    memcpy(l->sender, result(0), COWSLIP_END_SIZE);
    if (number == 0)
        set_bytes(&l->frame[l->written++ % KEPT_FRAMES], result(2), length + COWSLIP_FRAME_OVERHEAD);
}

/* Any bytes behind the kind and the number that the receiving end waits for. */
static void forge_frame(struct bytes *frame, const struct link_pair *l)
{
    size_t kind = 1 + below(6);
    set_random(frame, TEXT_LENGTH[kind] + COWSLIP_FRAME_OVERHEAD);
    frame->data[0] = (uint8_t)kind;
    memcpy(frame->data + 1, l->receiver + 34, 4);
}

static void damage_frame(struct bytes *frame, const struct link_pair *l)
{
    size_t length = frame->length;
    if (length < COWSLIP_FRAME_OVERHEAD) { /* none was kept here yet */
        forge_frame(frame, l);
        return;
    }
    switch (below(15)) {
    case 0: flip_bit(frame, 0, 1); break;
    case 1: flip_bit(frame, 1, 4); break;
    case 2: flip_bit(frame, 5, length - COWSLIP_FRAME_OVERHEAD); break;
    case 3: flip_bit(frame, length - COWSLIP_TAG_SIZE, COWSLIP_TAG_SIZE); break;
    case 4: set_length(frame, below(length)); break;
    case 5: set_length(frame, length - 1); break;
    case 6: set_length(frame, length + 1 + below(4)); break;
    case 7: set_length(frame, 0); break;
    case 8: set_length(frame, 1); break;
    case 9: set_random(frame, below(60)); break;
    case 10: put_number(frame->data + 1, odd_number(number_at(frame->data + 1))); break;
    case 11: frame->data[0] = (uint8_t)(once_in(2) ? below(9) : below(256)); break;
    case 12: forge_frame(frame, l); break;
    default: *frame = l->frame[below(KEPT_FRAMES)]; /* an old one again, or a later one too early */
    }
}

static void take_case(struct link_pair *l)
{
    struct bytes frame = l->frame[l->taken % KEPT_FRAMES];
    int intact = l->taken < l->written;
    if (!intact || once_in(3)) {
        damage_frame(&frame, l);
        intact = 0;
    }
    begin_call(RECEIVER_TAKE);
    int keep = add_state("end", 1, l->receiver, COWSLIP_END_SIZE);
    add_input("frame", frame.data, frame.length);
    size_t text = frame.length < COWSLIP_FRAME_OVERHEAD ? below(40) : frame.length - COWSLIP_FRAME_OVERHEAD;
    add_lent("text", NULL, once_in(2) ? COWSLIP_LONGEST_TEXT : room_for(text));
    add_told();
    uint32_t number = run_call();
    if (!keep)
        return;
    memcpy(l->receiver, result(0), COWSLIP_END_SIZE);
    if (number == 0)
        l->taken++;
    else if (number == 7 && intact)
        l->lost = 1;
}

static void tell_case(const struct link_pair *l)
{
    int sending = once_in(2);
    careless = 1; /* there is only the end to damage */
    begin_call(sending ? SENDER_TELL : RECEIVER_TELL);
    add_state("end", 0, sending ? l->sender : l->receiver, COWSLIP_END_SIZE);
    add_told();
    run_call();
}

/* Lets both ends go on from a number near the largest. */
static void move_near_the_largest(struct link_pair *l)
{
    uint32_t number = COWSLIP_LARGEST_NUMBER - 6 + (uint32_t)below(8);
    put_number(l->sender + 34, number);
    put_number(l->receiver + 34, number);
}

/* Now and then an undamaged pair begins anew or moves; the first pair never does, so it writes thousands of frames. */
static void disturb(struct link_pair *l, int spent)
{
    if (l->lost || (spent && once_in(12)))
        l->stage = FIRST_TO_BEGIN;
    if (l == &links[0] || l->stage != RUNNING)
        return;
    if (once_in(80))
        l->stage = FIRST_TO_BEGIN;
    else if (l->written == l->taken && once_in(40))
        move_near_the_largest(l);
}

static void link_case(void)
{
    struct link_pair *l = &links[below(LINKS)];
    int spent = number_at(l->sender + 34) >= COWSLIP_LARGEST_NUMBER;
    int waiting = l->written > l->taken || spent;
    disturb(l, spent);
    if (l->stage != RUNNING)
        end_begin_case(l);
    else if (once_in(12))
        tell_case(l);
    else if (l->written - l->taken == KEPT_FRAMES || (waiting && once_in(2)) || once_in(12))
        take_case(l);
    else
        write_case(l);
}

/* --- All cases --- */

static void one_case(void)
{
    careless = once_in(10);
    switch (below(16)) {
    case 0: digest_case(DIGEST); break;
    case 1: digest_case(DECK); break;
    case 2: case 3: case 4: case 5: case 6: session_case(); break;
    default: link_case();
    }
}

/* Prints the line of counts; how many numbers that can be returned were not seen. */
static unsigned print_counts(void)
{
    unsigned unseen = 0;
    printf("fuzz: seed %" PRIu64 ", %" PRIu64 " cases, no difference", seed, cases);
    for (int f = 0; f < FUNCTIONS; f++) {
        printf("; %s accepted %" PRIu64, FUNCTION[f].name, tally[f][0]);
        for (const int *p = FUNCTION[f].possible; *p >= 0; p++) {
            if (*p > 0)
                printf(", %d: %" PRIu64, *p, tally[f][*p]);
            unseen += tally[f][*p] == 0;
        }
    }
    printf("\n");
    return unseen;
}

static uint64_t number_from(const char *word)
{
    char *end;
    uint64_t number = strtoull(word, &end, 10);
    if (word[0] < '0' || word[0] > '9' || *end != '\0') {
        fprintf(stderr, "fuzz: '%s' is no number\nusage: fuzz [CASES [SEED]]\n", word);
        exit(2);
    }
    return number;
}

int main(int count, char **words)
{
    if (count > 3) {
        fprintf(stderr, "usage: fuzz [CASES [SEED]]\n");
        return 2;
    }
    if (count > 1)
        cases = number_from(words[1]);
    if (count > 2)
        seed = number_from(words[2]);
    random_state = seed;
    check_longest();
    signal(SIGSEGV, on_signal);
    signal(SIGBUS, on_signal);
    signal(SIGILL, on_signal);
    signal(SIGFPE, on_signal);
    for (int side = 0; side < SIDES; side++)
        for (size_t i = 0; i < MOST_SLICES; i++)
            area[side][i] = guarded_area();
    printf("fuzz: seed %" PRIu64 ", %" PRIu64 " cases\n", seed, cases);
    fflush(stdout);
    for (this_case = 0; this_case < cases; this_case++)
        one_case();
    unsigned unseen = print_counts();
    if (unseen > 0) {
        printf("fuzz: %u of the answers above were never seen\n", unseen);
        return 1;
    }
    return 0;
}
