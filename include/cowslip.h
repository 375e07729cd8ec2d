/* The C interface of Cowslipdado: digests, sessions and the two ends of a link, in lent memory.
 *
 * Link crates/cowslip/out/libcowslip.a, which `rt lib` in crates/cowslip proves and writes. docs/C.md has the page about
 * building, docs/SUITE.md, SESSION.md, LINK.md and DIGEST.md have the rules that these functions follow, and
 * docs/REFUSALS.md has the refusals.
 *
 * RULES OF EVERY CALL
 *
 * Answer. Every function returns 0 (COWSLIP_ACCEPTED) or the number of a refusal. Where several refusals apply, the
 * first in the list under REFUSALS of the function is told.
 *
 * Slices. A slice is a pointer and then a length, counted in elements. Where the length is 0 the pointer may be NULL.
 * Otherwise it must point to so many elements, aligned as C wants them for their type. A slice through a pointer to
 * const is an input and is only read. The others are lent: the function reads and writes them during the call and
 * keeps no pointer to them.
 *
 * Overlap. A lent slice must not overlap another slice of the same call. Inputs may overlap each other.
 *
 * Told. `told` is a lent slice of any length, also 0. On a refusal its first element, if it has one, becomes the place
 * of the refusal. On acceptance the numbers listed under TOLD go into it from the front, as many as it has room for.
 * All other elements stay as they were; where nothing is listed, all stay.
 *
 * Buffers. Each function says what it leaves in a lent slice. What is not said to change stays as it was, byte for
 * byte, whether the call is refused or not. A buffer may be longer than what goes into it; the bytes past that stay.
 *
 * State. A session and an end live in memory of the caller, of exactly 34 and 38 bytes. One of the begin functions
 * writes it, whatever stood there before. It can lie anywhere, needs no alignment, and may be moved.
 *   - Only a begin function makes a state, and only the other functions change it. Memory with the right mark that was
 *     written otherwise is taken for a state, with no key and no nonce behind it.
 *   - Never use a copy of an end, nor a copy of a session that seals, beside the original: two texts would be sealed in
 *     one state. A session that only opens may be copied, for instance to go back to it after refusal 7. After moving a
 *     state, wipe the old place.
 *   - One key and nonce serve one that seals, once: one sending end or one session, not one of each.
 *   - No call wipes a state, nor what a call leaves on the stack, which may be the key, the bits of the state or text.
 *     It is all as secret as the key: overwrite the state when it is no longer needed, and the stack where others can
 *     come to read it.
 *   - Two calls must not use one state at the same time. Calls on different states may run at the same time.
 *
 *     byte 0          the mark: 53 a session, 57 a sending end, 52 a receiving end (hexadecimal)
 *     bytes 1 to 33   the 257 bits: bit i at place i mod 8 (0 the lowest) of byte 1 + i div 8; the seven high bits of
 *                     byte 33 are written as 0 and not read
 *     bytes 34 to 37  an end's number, lowest byte first, at most 1,000,000
 *
 * REFUSALS 30 AND 31 are those of this interface; they are looked for before all others, 30 first.
 *   30  a slice of fixed length (key, nonce, tag, session or end) has another length. Place: the first such argument,
 *       counted from 0 in the order of the declaration, a slice with its length counting as one.
 *   31  the memory holds no state of the sort that the function works on: its mark is another, or the number of an end
 *       is above 1,000,000. Place: 0.
 * The functions say again below where they can come up.
 */

#ifndef COWSLIP_H
#define COWSLIP_H

#include <stddef.h>
#include <stdint.h>

#if SIZE_MAX != UINT64_MAX
#error "libcowslip.a is built for a size_t of 64 bits"
#endif

#ifdef __cplusplus
extern "C" {
#endif

/* Lengths in bytes. */
#define COWSLIP_KEY_SIZE 16       /* of a session or an end; the deck function takes a key of any length */
#define COWSLIP_NONCE_SIZE 16
#define COWSLIP_TAG_SIZE 16
#define COWSLIP_SESSION_SIZE 34
#define COWSLIP_END_SIZE 38
#define COWSLIP_FRAME_OVERHEAD 21 /* a frame has so many bytes more than its text */
#define COWSLIP_LONGEST_TEXT 32   /* a text buffer of this length has room for every kind */
#define COWSLIP_LONGEST_FRAME 53  /* and so has a frame buffer of this length */

/* The largest number of an end. An end at this number writes and takes nothing more. */
#define COWSLIP_LARGEST_NUMBER 1000000

/* What a function returns. */
enum cowslip_refusal {
    COWSLIP_ACCEPTED = 0,
    COWSLIP_NUMBER_SPENT = 1,     /* the end's number is 1,000,000; place 0 */
    COWSLIP_EMPTY_FRAME = 2,      /* the frame has no byte; place 0 */
    COWSLIP_UNKNOWN_KIND = 3,     /* no kind has this byte; place 0 */
    COWSLIP_WRONG_LENGTH = 4,     /* the frame or the text has not the kind's length; place: its length */
    COWSLIP_SHORT_BUFFER = 5,     /* the output buffer is too short; place: its length */
    COWSLIP_WRONG_NUMBER = 6,     /* the frame's number is not the end's; place 1 */
    COWSLIP_TAG_DIFFERS = 7,      /* the tag differs; place: the ciphertext's length, from an end raised by 5 */
    COWSLIP_ENTRY_OUTSIDE = 8,    /* an entry reaches past the buffer; place: the first such entry, from 0 */
    COWSLIP_ARGUMENT_LENGTH = 30, /* a slice of fixed length has another length; place: which argument */
    COWSLIP_NO_STATE = 31         /* the memory holds no state of this sort; place 0 */
};

/* The kinds of a frame, and how many bytes of text each has. */
enum cowslip_kind {
    COWSLIP_POLL_VALUE = 1, /* 4 */
    COWSLIP_ALARM = 2,      /* 6 */
    COWSLIP_OUTPUT = 3,     /* 3 */
    COWSLIP_CLOCK = 4,      /* 7 */
    COWSLIP_ZONE_NAME = 5,  /* 32 */
    COWSLIP_HEARTBEAT = 6   /* 0 */
};

/* A string in a buffer: `length` bytes from `start` on. */
typedef struct {
    size_t start;
    size_t length;
} cowslip_entry;

/* DIGEST AND DECK (docs/DIGEST.md) */

/* Digest of a list of strings. The strings are the entries' bytes of `buffer`, in the order of the entries. Two
 * entries may share bytes, bytes may belong to none, and a length may be 0; a list with one empty string is not the
 * empty list.
 *
 * ACCEPTED  `out` is filled whole with as many bytes of the digest as it is long, also 0.
 * REFUSALS  8: start plus length of an entry, as a sum that does not wrap around, is above the buffer's length. Place:
 *           the first such entry, counted from 0. `out` stays.
 * TOLD      nothing.
 */
uint32_t cowslip_digest(const uint8_t *buffer, size_t buffer_len,
                        const cowslip_entry *entries, size_t entries_len,
                        uint8_t *out, size_t out_len,
                        size_t *told, size_t told_len);

/* The deck function of a key and a list of strings, for deriving keys from a key. The key may have any length, also 0.
 * The rest is as for cowslip_digest.
 *
 * ACCEPTED  `out` is filled whole with as many bytes of the deck function as it is long, also 0.
 * REFUSALS  8: as above. `out` stays.
 * TOLD      nothing.
 */
uint32_t cowslip_deck(const uint8_t *key, size_t key_len,
                      const uint8_t *buffer, size_t buffer_len,
                      const cowslip_entry *entries, size_t entries_len,
                      uint8_t *out, size_t out_len,
                      size_t *told, size_t told_len);

/* SESSIONS (docs/SESSION.md) */

/* Begins a session under a key and a nonce.
 *
 * ACCEPTED  `session` holds the new session, all 34 bytes of it.
 * REFUSALS  30: `key` (place 0) or `nonce` (1) has not 16 bytes, or `session` (2) not 34. `session` stays.
 * TOLD      nothing.
 */
uint32_t cowslip_session_begin(const uint8_t *key, size_t key_len,
                               const uint8_t *nonce, size_t nonce_len,
                               uint8_t *session, size_t session_len,
                               size_t *told, size_t told_len);

/* Seals a text and associated data, both of any length.
 *
 * ACCEPTED  The first text_len bytes of `out` are the ciphertext, those after them stay; `tag` holds the tag; the
 *           session stands where sealing leaves it, the seven high bits of its byte 33 being 0.
 * REFUSALS  30: `session` (place 0) has not 34 bytes, or `tag` (4) not 16.
 *           31: `session` holds no session.
 *           5: `out` is shorter than the text. Place: out_len.
 *           The session, `out` and `tag` stay.
 * TOLD      the text's length.
 */
uint32_t cowslip_session_seal(uint8_t *session, size_t session_len,
                              const uint8_t *ad, size_t ad_len,
                              const uint8_t *text, size_t text_len,
                              uint8_t *out, size_t out_len,
                              uint8_t *tag, size_t tag_len,
                              size_t *told, size_t told_len);

/* Opens a ciphertext with its associated data and its tag.
 *
 * ACCEPTED  The first ciphertext_len bytes of `out` are the text, those after them stay; the session stands where
 *           sealing this text would have left it, the seven high bits of its byte 33 being 0. A ciphertext and a tag
 *           are accepted just where sealing some text, with this associated data and where the session stands, would
 *           have given them.
 * REFUSALS  30: `session` (place 0) has not 34 bytes, or `tag` (3) not 16. All stays.
 *           31: `session` holds no session. All stays.
 *           5: `out` is shorter than the ciphertext. All stays. Place: out_len.
 *           7: the tag differs. Place: ciphertext_len. The first ciphertext_len bytes of `out` are 0, those after them
 *           stay, and the session has moved on by the ciphertext and associated data that were handed over, the seven
 *           high bits of its byte 33 being 0. It stands where the sealing one does if these were as sealed and the tag
 *           alone was not; otherwise what was sealed next may not open.
 * TOLD      the ciphertext's length.
 */
uint32_t cowslip_session_open(uint8_t *session, size_t session_len,
                              const uint8_t *ad, size_t ad_len,
                              const uint8_t *ciphertext, size_t ciphertext_len,
                              const uint8_t *tag, size_t tag_len,
                              uint8_t *out, size_t out_len,
                              size_t *told, size_t told_len);

/* THE LINK (docs/LINK.md). A refused call never changes a byte of an end's memory. */

/* Begins a sending end under a key and a nonce, with the number 0. One key and nonce serve one sending end, once.
 *
 * ACCEPTED  `end` holds the new sending end, all 38 bytes of it.
 * REFUSALS  30: `key` (place 0) or `nonce` (1) has not 16 bytes, or `end` (2) not 38. `end` stays.
 * TOLD      nothing.
 */
uint32_t cowslip_sender_begin(const uint8_t *key, size_t key_len,
                              const uint8_t *nonce, size_t nonce_len,
                              uint8_t *end, size_t end_len,
                              size_t *told, size_t told_len);

/* Writes the next frame: seals a text of a kind under the end's number, and raises the number by one.
 *
 * ACCEPTED  The first text_len + 21 bytes of `out` are the frame, those after them stay; the end stands after it, the
 *           seven high bits of its byte 33 being 0.
 * REFUSALS  30: `end` (place 0) has not 38 bytes.
 *           31: `end` holds no sending end.
 *           1: the end's number is 1,000,000.
 *           3: `kind` is no kind (C cuts a larger number to a byte before the call).
 *           4: the text has not the kind's length. Place: text_len.
 *           5: `out` is shorter than the frame. Place: out_len.
 *           `end` and `out` stay.
 * TOLD      the frame's length; the number that the frame carries.
 */
uint32_t cowslip_sender_write(uint8_t *end, size_t end_len,
                              uint8_t kind,
                              const uint8_t *text, size_t text_len,
                              uint8_t *out, size_t out_len,
                              size_t *told, size_t told_len);

/* Begins a receiving end under the key and the nonce of the sending one, with the number 0.
 *
 * ACCEPTED  `end` holds the new receiving end, all 38 bytes of it.
 * REFUSALS  30: `key` (place 0) or `nonce` (1) has not 16 bytes, or `end` (2) not 38. `end` stays.
 * TOLD      nothing.
 */
uint32_t cowslip_receiver_begin(const uint8_t *key, size_t key_len,
                                const uint8_t *nonce, size_t nonce_len,
                                uint8_t *end, size_t end_len,
                                size_t *told, size_t told_len);

/* Takes a frame: opens it if a sending end that stands where this end stands could write it next, and raises the number
 * by one. So the frames that the sending end under this key and nonce writes are accepted in their order. A refusal
 * leaves the end where it is, so the frame that is due is still accepted after it.
 *
 * ACCEPTED  The first frame_len - 21 bytes of `text` are the text, those after them stay; the end stands after the
 *           frame, the seven high bits of its byte 33 being 0.
 * REFUSALS  30: `end` (place 0) has not 38 bytes.
 *           31: `end` holds no receiving end.
 *           1: the end's number is 1,000,000.
 *           2: the frame has no byte.
 *           3: the frame's first byte is no kind.
 *           4: the frame has not the kind's length. Place: frame_len.
 *           5: `text` is shorter than the frame's text. Place: text_len.
 *           6: the frame's number is not the end's.
 *           7: the tag differs. Place: the ciphertext's length, raised by 5. The first frame_len - 21 bytes of `text`
 *           are 0, those after them stay.
 *           `end` stays, and but for 7 `text` does.
 * TOLD      the kind's byte.
 */
uint32_t cowslip_receiver_take(uint8_t *end, size_t end_len,
                               const uint8_t *frame, size_t frame_len,
                               uint8_t *text, size_t text_len,
                               size_t *told, size_t told_len);

/* Tells the number of a sending end: how many frames it has written.
 *
 * ACCEPTED  Nothing changes but `told`.
 * REFUSALS  30: `end` (place 0) has not 38 bytes.
 *           31: `end` holds no sending end.
 * TOLD      the number.
 */
uint32_t cowslip_sender_tell(const uint8_t *end, size_t end_len,
                             size_t *told, size_t told_len);

/* Tells the number of a receiving end: how many frames it has taken.
 *
 * ACCEPTED  Nothing changes but `told`.
 * REFUSALS  30: `end` (place 0) has not 38 bytes.
 *           31: `end` holds no receiving end.
 * TOLD      the number.
 */
uint32_t cowslip_receiver_tell(const uint8_t *end, size_t end_len,
                               size_t *told, size_t told_len);

#ifdef __cplusplus
}
#endif

#endif
