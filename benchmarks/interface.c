/* The functions of include/cowslip.h, called from C: what they cost in stack, and the work of `load` through them.
   Usage: interface stack, or interface WORK COUNT with digest SIZE, seal SIZE, write KIND or take KIND, as for load. */
#include "cowslip.h"
#include <stdio.h>
#include <stdlib.h>
#include <string.h>
#include <ucontext.h>

enum { MOST = 1 << 16 };

static uint8_t key[16], nonce[16], tag[16], session[34], opening[34], sender[38], receiver[38];
static uint8_t text[MOST], out[MOST], ciphertext[MOST], frame[COWSLIP_LONGEST_FRAME];
static cowslip_entry whole;
static size_t told[2], size;
static uint8_t kind;

static void fail(const char *why) {
    fprintf(stderr, "interface: %s\n", why);
    exit(1);
}

/* One call of each function. The answer is kept, so that a call that is refused is noticed. */

static volatile uint32_t answer;

#define NOINLINE __attribute__((noinline, noclone))

static NOINLINE uint32_t nothing(void) {
    __asm__ volatile("");
    return 0;
}

static void call_nothing(void) {
    answer = nothing();
}
static void digest(void) {
    answer = cowslip_digest(text, size, &whole, 1, out, 32, told, 2);
}
static void deck(void) {
    answer = cowslip_deck(key, 16, text, size, &whole, 1, out, 32, told, 2);
}
static void session_begin(void) {
    answer = cowslip_session_begin(key, 16, nonce, 16, session, 34, told, 2);
}
static void session_seal(void) {
    answer = cowslip_session_seal(session, 34, NULL, 0, text, size, ciphertext, size, tag, 16, told, 2);
}
static void session_open(void) {
    answer = cowslip_session_open(opening, 34, NULL, 0, ciphertext, size, tag, 16, out, size, told, 2);
}
static void sender_begin(void) {
    answer = cowslip_sender_begin(key, 16, nonce, 16, sender, 38, told, 2);
}
static void sender_write(void) {
    answer = cowslip_sender_write(sender, 38, kind, text, size, frame, size + COWSLIP_FRAME_OVERHEAD, told, 2);
}
static void receiver_begin(void) {
    answer = cowslip_receiver_begin(key, 16, nonce, 16, receiver, 38, told, 2);
}
static void receiver_take(void) {
    answer = cowslip_receiver_take(receiver, 38, frame, size + COWSLIP_FRAME_OVERHEAD, out, size, told, 2);
}
static void sender_tell(void) {
    answer = cowslip_sender_tell(sender, 38, told, 2);
}
static void receiver_tell(void) {
    answer = cowslip_receiver_tell(receiver, 38, told, 2);
}

/* How deep a call goes: it runs on a stack of its own that was painted, and the lowest byte that lost the paint counts. */

static uint8_t area[1 << 17] __attribute__((aligned(64)));

static size_t depth_under(void (*call)(void), int paint) {
    static ucontext_t here, there;
    memset(area, paint, sizeof area);
    if (getcontext(&there))
        fail("no context");
    there.uc_stack.ss_sp = area;
    there.uc_stack.ss_size = sizeof area;
    there.uc_link = &here;
    makecontext(&there, call, 0);
    if (swapcontext(&here, &there))
        fail("no context");
    size_t i = 0;
    while (i < sizeof area && area[i] == (uint8_t)paint)
        i++;
    return sizeof area - i;
}

/* Under two paints, since a byte that is overwritten by its own paint does not show. */
static size_t depth(const char *name, void (*call)(void), void (*before)(void), uint32_t wanted) {
    size_t deepest = 0;
    for (int paint = 0; paint <= 0xff; paint += 0xff) {
        before();
        answer = 99;
        size_t d = depth_under(call, paint);
        if (answer != wanted)
            fail(name);
        deepest = d > deepest ? d : deepest;
    }
    return deepest;
}

static size_t largest;

/* The bytes below the caller's: arguments on the stack, the return address (8) and what the function uses. */
static void show_depth(const char *name, void (*call)(void), void (*before)(void), uint32_t wanted) {
    size_t own = depth(name, call, before, wanted) - depth("nothing", call_nothing, call_nothing, 0) + 8;
    printf("%-16s %6zu\n", name, own);
    largest = own > largest ? own : largest;
}

static void seal_again(void) {
    session_begin();
    memcpy(opening, session, sizeof session);
    session_seal();
}

static void seal_spoilt(void) {
    seal_again();
    tag[15] ^= 1;
}

static void write_again(void) {
    sender_begin();
    receiver_begin();
    sender_write();
}

static void write_spoilt(void) {
    write_again();
    frame[size + COWSLIP_FRAME_OVERHEAD - 1] ^= 1;
}

static void stack(void) {
    size = COWSLIP_LONGEST_TEXT;
    kind = COWSLIP_ZONE_NAME;
    whole.length = size;
    show_depth("digest", digest, call_nothing, 0);
    show_depth("deck", deck, call_nothing, 0);
    show_depth("session_begin", session_begin, call_nothing, 0);
    show_depth("session_seal", session_seal, session_begin, 0);
    show_depth("session_open", session_open, seal_again, 0);
    show_depth("  tag differs", session_open, seal_spoilt, COWSLIP_TAG_DIFFERS);
    show_depth("sender_begin", sender_begin, call_nothing, 0);
    show_depth("sender_write", sender_write, sender_begin, 0);
    show_depth("sender_tell", sender_tell, sender_begin, 0);
    show_depth("receiver_begin", receiver_begin, call_nothing, 0);
    show_depth("receiver_take", receiver_take, write_again, 0);
    show_depth("  tag differs", receiver_take, write_spoilt, COWSLIP_TAG_DIFFERS);
    show_depth("receiver_tell", receiver_tell, receiver_begin, 0);
    printf("%-16s %6zu\n", "largest", largest);
}

/* The work of load */

static void show(const uint8_t *bytes, size_t n) {
    for (size_t i = n > 32 ? n - 32 : 0; i < n; i++)
        printf("%02x", bytes[i]);
    printf("\n");
}

static void repeat(void (*call)(void), unsigned long count) {
    for (unsigned long k = 0; k < count; k++) {
        call();
        if (answer)
            fail("a call was refused");
    }
}

static void pass(void) {
    sender_write();
    if (!answer)
        receiver_take();
}

int main(int argc, char **argv) {
    static const char *const names[] = {"", "poll-value", "alarm", "output", "clock", "zone-name", "heartbeat"};
    static const size_t lengths[] = {0, 4, 6, 3, 7, 32, 0};
    memset(key, 1, 16);
    memset(nonce, 2, 16);
    memset(text, 0x5a, MOST);
    if (argc == 2 && !strcmp(argv[1], "stack")) {
        stack();
        return 0;
    }
    if (argc != 4)
        fail("usage: interface stack, or interface WORK COUNT");
    const char *work = argv[1];
    unsigned long count = strtoul(argv[3], NULL, 10);
    size = strtoul(argv[2], NULL, 10);
    for (uint8_t k = 1; k <= 6; k++)
        if (!strcmp(argv[2], names[k]))
            kind = k, size = lengths[k];
    if (size > MOST)
        fail("SIZE is too large");
    whole.length = size;
    session_begin();
    sender_begin();
    receiver_begin();
    if (!strcmp(work, "digest")) {
        repeat(digest, count);
        show(out, 32);
    } else if (!strcmp(work, "seal")) {
        repeat(session_seal, count);
        show(ciphertext, size);
    } else if (!strcmp(work, "write") && kind) {
        repeat(sender_write, count);
        show(frame, size + COWSLIP_FRAME_OVERHEAD);
    } else if (!strcmp(work, "take") && kind) {
        repeat(pass, count);
        show(out, size);
    } else {
        fail("no such WORK");
    }
    return 0;
}
