/* A stand-in for a card, so that the examples run anywhere: AES-CBC, HMAC-SHA-256 and ChaCha20-Poly1305, written to be read and not to be used: it is
 * slow, takes a time that depends on the key, and wipes nothing. */
#ifndef CARD_H
#define CARD_H

#include <stdbool.h>
#include <stddef.h>
#include <stdint.h>

/* SP 800-38A, encryption with a key of 16, 24 or 32 bytes and an IV of 16; len is a multiple of 16. */
void card_aes_cbc(const uint8_t *key, size_t key_len, const uint8_t *iv, const uint8_t *in, size_t len, uint8_t *out);

/* RFC 2104 with SHA-256; the key has at most 64 bytes. */
void card_hmac_sha256(const uint8_t *key, size_t key_len, const uint8_t *text, size_t text_len, uint8_t mac[32]);

/* RFC 8439, with a key of 32 bytes, an IV of 12 and a tag of 16. `out` takes as many bytes as there are in `in`. */
void card_seal(const uint8_t *key, const uint8_t *iv, const uint8_t *aad, size_t aad_len, const uint8_t *in, size_t len, uint8_t *out, uint8_t tag[16]);

/* Writes nothing and gives false where the tag is wrong. */
bool card_open(const uint8_t *key, const uint8_t *iv, const uint8_t *aad, size_t aad_len, const uint8_t *in, size_t len, const uint8_t tag[16], uint8_t *out);

#endif
