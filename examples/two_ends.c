/* A panel and a head: frames of every kind pass between a sending and a receiving end. One is damaged on the way, one
 * is handed over twice, and one comes too early; after each the link goes on with the frame that is due.
 *
 *     gcc -std=c99 -Iinclude examples/two_ends.c crates/cowslip/out/libcowslip.a -o target/two_ends
 *
 * It prints what happens, and ends with status 1 as soon as a call answers something unexpected. */

#include <stdio.h>
#include <stdlib.h>
#include <string.h>

#include "cowslip.h"

struct frame {
    uint8_t bytes[COWSLIP_LONGEST_FRAME];
    size_t length;
    size_t number;
};

/* For showing only. A real key is secret and random, and no nonce serves twice under it. */
static const uint8_t KEY[COWSLIP_KEY_SIZE] = {0, 1, 2, 3, 4, 5, 6, 7, 8, 9, 10, 11, 12, 13, 14, 15};
static const uint8_t NONCE[COWSLIP_NONCE_SIZE] = {16, 17, 18, 19, 20, 21, 22, 23, 24, 25, 26, 27, 28, 29, 30, 31};

static uint8_t panel[COWSLIP_END_SIZE];
static uint8_t head[COWSLIP_END_SIZE];

static void expect(int holds, const char *what)
{
    if (holds)
        return;
    fflush(stdout);
    fprintf(stderr, "two_ends: unexpected: %s\n", what);
    exit(1);
}

static const char *kind_name(size_t kind)
{
    switch (kind) {
    case COWSLIP_POLL_VALUE: return "poll value";
    case COWSLIP_ALARM: return "alarm";
    case COWSLIP_OUTPUT: return "output";
    case COWSLIP_CLOCK: return "clock";
    case COWSLIP_ZONE_NAME: return "zone name";
    case COWSLIP_HEARTBEAT: return "heartbeat";
    default: return "unknown kind";
    }
}

static void print_bytes(const uint8_t *bytes, size_t length)
{
    for (size_t i = 0; i < length; i++)
        printf("%s%02x", i == 0 ? ": " : "", bytes[i]);
    printf("\n");
}

/* The compiler may not leave these writes out, as it may with memset. */
static void wipe(uint8_t *bytes, size_t length)
{
    volatile uint8_t *p = bytes;
    for (size_t i = 0; i < length; i++)
        p[i] = 0;
}

static size_t panel_number(void)
{
    size_t number;
    expect(cowslip_sender_tell(panel, sizeof panel, &number, 1) == COWSLIP_ACCEPTED, "the panel tells no number");
    return number;
}

static size_t head_number(void)
{
    size_t number;
    expect(cowslip_receiver_tell(head, sizeof head, &number, 1) == COWSLIP_ACCEPTED, "the head tells no number");
    return number;
}

static void begin_both(void)
{
    expect(cowslip_sender_begin(KEY, sizeof KEY, NONCE, sizeof NONCE, panel, sizeof panel, NULL, 0) == COWSLIP_ACCEPTED,
           "the panel does not begin");
    expect(cowslip_receiver_begin(KEY, sizeof KEY, NONCE, sizeof NONCE, head, sizeof head, NULL, 0) == COWSLIP_ACCEPTED,
           "the head does not begin");
    printf("both ends begin: panel at %zu, head at %zu\n", panel_number(), head_number());
}

static struct frame write_frame(uint8_t kind, const void *text, size_t text_len)
{
    struct frame frame = {{0}, 0, 0};
    size_t told[2];
    uint32_t refusal = cowslip_sender_write(panel, sizeof panel, kind, text, text_len, frame.bytes, sizeof frame.bytes,
                                            told, 2);
    expect(refusal == COWSLIP_ACCEPTED, "the panel refuses to write");
    frame.length = told[0];
    frame.number = told[1];
    expect(frame.length == text_len + COWSLIP_FRAME_OVERHEAD, "the frame has another length");
    expect(panel_number() == frame.number + 1, "the panel has not gone on by one");
    printf("panel wrote frame %zu, %s, %zu bytes", frame.number, kind_name(kind), frame.length);
    print_bytes(frame.bytes, frame.length);
    return frame;
}

static void take_frame(const struct frame *frame, const void *wanted)
{
    uint8_t text[COWSLIP_LONGEST_TEXT];
    size_t kind, length = frame->length - COWSLIP_FRAME_OVERHEAD;
    uint32_t refusal = cowslip_receiver_take(head, sizeof head, frame->bytes, frame->length, text, sizeof text,
                                             &kind, 1);
    expect(refusal == COWSLIP_ACCEPTED, "the head refuses the frame that is due");
    expect(kind == frame->bytes[0], "the head tells another kind");
    expect(length == 0 || memcmp(text, wanted, length) == 0, "the head has another text");
    expect(head_number() == frame->number + 1, "the head has not gone on by one");
    printf("head took frame %zu, %s, %zu bytes", frame->number, kind_name(kind), length);
    print_bytes(text, length);
    wipe(text, sizeof text);
}

/* Hands over a frame that must be refused by this number, and sees that the head stays as it was. */
static void refuse_frame(const struct frame *frame, uint32_t number, size_t place, const char *why)
{
    uint8_t text[COWSLIP_LONGEST_TEXT], wanted[COWSLIP_LONGEST_TEXT], old_head[COWSLIP_END_SIZE];
    size_t told;
    memset(text, 0xaa, sizeof text);
    memset(wanted, 0xaa, sizeof wanted);
    if (number == COWSLIP_TAG_DIFFERS) /* then the bytes decrypted into are 0 */
        memset(wanted, 0, frame->length - COWSLIP_FRAME_OVERHEAD);
    memcpy(old_head, head, sizeof head);
    uint32_t refusal = cowslip_receiver_take(head, sizeof head, frame->bytes, frame->length, text, sizeof text,
                                             &told, 1);
    expect(refusal == number, "the head answers another number");
    expect(told == place, "the head tells another place");
    expect(memcmp(old_head, head, sizeof head) == 0, "a refused frame has changed the head");
    expect(memcmp(text, wanted, sizeof text) == 0, "a refused frame leaves other bytes in the text buffer");
    printf("head refused %s: refusal %u, place %zu; it stays at %zu\n", why, (unsigned)refusal, told, head_number());
    wipe(old_head, sizeof old_head);
}

int main(void)
{
    static const uint8_t poll[4] = {0x00, 0x01, 0x02, 0xa0};
    static const uint8_t alarm_text[6] = {0x07, 0x00, 0x2c, 0x01, 0x00, 0x09};
    static const uint8_t output[3] = {0x02, 0x01, 0xff};
    static const uint8_t clock_text[7] = {0x20, 0x26, 0x11, 0x18, 0x08, 0x30, 0x00};
    static const uint8_t zone[32] = "north stairs, second floor";
    size_t place;

    begin_both();

    struct frame frame = write_frame(COWSLIP_POLL_VALUE, poll, sizeof poll);
    take_frame(&frame, poll);

    frame = write_frame(COWSLIP_ZONE_NAME, zone, sizeof zone);
    struct frame damaged = frame;
    damaged.bytes[9] ^= 0x08;
    refuse_frame(&damaged, COWSLIP_TAG_DIFFERS, 37, "frame 1 with bit 3 of byte 9 flipped");
    damaged = frame;
    damaged.length--;
    refuse_frame(&damaged, COWSLIP_WRONG_LENGTH, 52, "frame 1 without its last byte");
    take_frame(&frame, zone);

    refuse_frame(&frame, COWSLIP_WRONG_NUMBER, 1, "frame 1 a second time");

    frame = write_frame(COWSLIP_ALARM, alarm_text, sizeof alarm_text);
    struct frame later = write_frame(COWSLIP_HEARTBEAT, NULL, 0);
    refuse_frame(&later, COWSLIP_WRONG_NUMBER, 1, "frame 3 before frame 2");
    take_frame(&frame, alarm_text);
    take_frame(&later, NULL);

    uint8_t small[24];
    uint32_t refusal = cowslip_sender_write(panel, sizeof panel, COWSLIP_CLOCK, clock_text, sizeof clock_text,
                                            small, sizeof small, &place, 1);
    expect(refusal == COWSLIP_SHORT_BUFFER && place == sizeof small, "the panel writes into a short buffer");
    printf("panel refused to write a clock into %zu bytes: refusal %u, place %zu; it stays at %zu\n", sizeof small,
           (unsigned)refusal, place, panel_number());
    frame = write_frame(COWSLIP_CLOCK, clock_text, sizeof clock_text);
    take_frame(&frame, clock_text);
    frame = write_frame(COWSLIP_OUTPUT, output, sizeof output);
    take_frame(&frame, output);

    expect(panel_number() == head_number(), "the ends have come apart");
    printf("panel at %zu, head at %zu\n", panel_number(), head_number());

    wipe(panel, sizeof panel);
    wipe(head, sizeof head);
    expect(cowslip_sender_tell(panel, sizeof panel, &place, 1) == COWSLIP_NO_STATE, "a wiped end still tells a number");
    expect(cowslip_receiver_tell(head, sizeof head, &place, 1) == COWSLIP_NO_STATE, "a wiped end still tells a number");
    printf("both ends are wiped\n");
    return 0;
}
