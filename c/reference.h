/* A second implementation of the functions of cowslip.h, under the prefix ref_, for comparing with the library.
 * It follows the pages under docs/ and the header, one byte for each of the 257 bits. */

#ifndef REFERENCE_H
#define REFERENCE_H

#include "cowslip.h"

uint32_t ref_digest(const uint8_t *buffer, size_t buffer_len,
                    const cowslip_entry *entries, size_t entries_len,
                    uint8_t *out, size_t out_len,
                    size_t *told, size_t told_len);

uint32_t ref_deck(const uint8_t *key, size_t key_len,
                  const uint8_t *buffer, size_t buffer_len,
                  const cowslip_entry *entries, size_t entries_len,
                  uint8_t *out, size_t out_len,
                  size_t *told, size_t told_len);

uint32_t ref_session_begin(const uint8_t *key, size_t key_len,
                           const uint8_t *nonce, size_t nonce_len,
                           uint8_t *session, size_t session_len,
                           size_t *told, size_t told_len);

uint32_t ref_session_seal(uint8_t *session, size_t session_len,
                          const uint8_t *ad, size_t ad_len,
                          const uint8_t *text, size_t text_len,
                          uint8_t *out, size_t out_len,
                          uint8_t *tag, size_t tag_len,
                          size_t *told, size_t told_len);

uint32_t ref_session_open(uint8_t *session, size_t session_len,
                          const uint8_t *ad, size_t ad_len,
                          const uint8_t *ciphertext, size_t ciphertext_len,
                          const uint8_t *tag, size_t tag_len,
                          uint8_t *out, size_t out_len,
                          size_t *told, size_t told_len);

uint32_t ref_sender_begin(const uint8_t *key, size_t key_len,
                          const uint8_t *nonce, size_t nonce_len,
                          uint8_t *end, size_t end_len,
                          size_t *told, size_t told_len);

uint32_t ref_sender_write(uint8_t *end, size_t end_len,
                          uint8_t kind,
                          const uint8_t *text, size_t text_len,
                          uint8_t *out, size_t out_len,
                          size_t *told, size_t told_len);

uint32_t ref_receiver_begin(const uint8_t *key, size_t key_len,
                            const uint8_t *nonce, size_t nonce_len,
                            uint8_t *end, size_t end_len,
                            size_t *told, size_t told_len);

uint32_t ref_receiver_take(uint8_t *end, size_t end_len,
                           const uint8_t *frame, size_t frame_len,
                           uint8_t *text, size_t text_len,
                           size_t *told, size_t told_len);

uint32_t ref_sender_tell(const uint8_t *end, size_t end_len,
                         size_t *told, size_t told_len);

uint32_t ref_receiver_tell(const uint8_t *end, size_t end_len,
                           size_t *told, size_t told_len);

#endif
