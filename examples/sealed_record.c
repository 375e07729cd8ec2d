/* A record that is sealed and opened again, under a key that the deck function derives; and a digest of two strings.
 *
 *     gcc -std=c99 -Iinclude examples/sealed_record.c crates/cowslip/out/libcowslip.a -o target/sealed_record
 *
 * It prints what happens, and ends with status 1 as soon as a call answers something unexpected. */

#include <stdio.h>
#include <stdlib.h>
#include <string.h>

#include "cowslip.h"

/* For showing only. A real key is secret and random, and no nonce serves twice under it. */
static const uint8_t MASTER[] = "a key of any length";
static const uint8_t NONCE[COWSLIP_NONCE_SIZE] = {16, 17, 18, 19, 20, 21, 22, 23, 24, 25, 26, 27, 28, 29, 30, 31};

/* The strings: two that lie in one buffer. */
static const uint8_t STRINGS[] = "panel 3record 17";
static const cowslip_entry ENTRIES[2] = {{0, 7}, {7, 9}};
enum { STRINGS_LENGTH = sizeof STRINGS - 1 };

static void expect(int holds, const char *what)
{
    if (holds)
        return;
    fflush(stdout);
    fprintf(stderr, "sealed_record: unexpected: %s\n", what);
    exit(1);
}

static void print_bytes(const char *what, const uint8_t *bytes, size_t length)
{
    printf("%s: ", what);
    for (size_t i = 0; i < length; i++)
        printf("%02x", bytes[i]);
    printf("\n");
}

int main(void)
{
    static const uint8_t ad[] = {17}; /* the record's number */
    static const uint8_t record[] = "zone 4: fault";
    uint8_t digest[32], key[COWSLIP_KEY_SIZE], tag[COWSLIP_TAG_SIZE];
    uint8_t sealing[COWSLIP_SESSION_SIZE], opening[COWSLIP_SESSION_SIZE], before[COWSLIP_SESSION_SIZE];
    uint8_t sealed[sizeof record], text[sizeof record];
    size_t place;

    expect(cowslip_digest(STRINGS, STRINGS_LENGTH, ENTRIES, 2, digest, sizeof digest, NULL, 0) == COWSLIP_ACCEPTED,
           "no digest");
    print_bytes("digest of two strings", digest, sizeof digest);
    expect(cowslip_digest(STRINGS, 15, ENTRIES, 2, digest, sizeof digest, &place, 1) == COWSLIP_ENTRY_OUTSIDE,
           "an entry may reach past the buffer");
    printf("in a buffer of 15 bytes: refusal %d, place %zu\n", COWSLIP_ENTRY_OUTSIDE, place);
    expect(cowslip_deck(MASTER, sizeof MASTER - 1, STRINGS, STRINGS_LENGTH, ENTRIES, 2, key, sizeof key, NULL, 0)
           == COWSLIP_ACCEPTED, "no key");
    print_bytes("key derived for them", key, sizeof key);

    expect(cowslip_session_begin(key, sizeof key, NONCE, sizeof NONCE, sealing, sizeof sealing, NULL, 0)
           == COWSLIP_ACCEPTED, "no session to seal");
    memcpy(opening, sealing, sizeof sealing); /* one of the two only opens */
    expect(cowslip_session_seal(sealing, sizeof sealing, ad, sizeof ad, record, sizeof record, sealed, sizeof sealed,
                                tag, sizeof tag, NULL, 0) == COWSLIP_ACCEPTED, "the record is not sealed");
    print_bytes("record sealed", sealed, sizeof sealed);
    print_bytes("its tag", tag, sizeof tag);

    memcpy(before, opening, sizeof opening); /* to go back to after refusal 7 */
    sealed[0] ^= 1;
    expect(cowslip_session_open(opening, sizeof opening, ad, sizeof ad, sealed, sizeof sealed, tag, sizeof tag,
                                text, sizeof text, &place, 1) == COWSLIP_TAG_DIFFERS, "a changed record opens");
    printf("with a bit flipped: refusal %d, place %zu\n", COWSLIP_TAG_DIFFERS, place);
    sealed[0] ^= 1;
    memcpy(opening, before, sizeof opening);
    expect(cowslip_session_open(opening, sizeof opening, ad, sizeof ad, sealed, sizeof sealed, tag, sizeof tag,
                                text, sizeof text, NULL, 0) == COWSLIP_ACCEPTED, "the record does not open");
    expect(memcmp(text, record, sizeof record) == 0, "another record");
    expect(memcmp(opening, sealing, sizeof opening) == 0, "the sessions have come apart");
    printf("opened again: %s\n", (const char *)text);
    return 0;
}
