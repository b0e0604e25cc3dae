/* See card.h. The examples compare it with published test vectors. */
#include "card.h"

#include <string.h>

static uint32_t turned(uint32_t x, int left)
{
    return x << left | x >> (32 - left);
}

static uint32_t low_first(const uint8_t *at)
{
    return at[0] | (uint32_t)at[1] << 8 | (uint32_t)at[2] << 16 | (uint32_t)at[3] << 24;
}

static void put_low_first(uint8_t *at, uint64_t x, int bytes)
{
    for (int i = 0; i < bytes; i++)
        at[i] = (uint8_t)(x >> 8 * i);
}

/* ---- AES, FIPS 197, encryption alone */

/* The product modulo x^8 + x^4 + x^3 + x + 1. */
static uint8_t times(uint8_t a, uint8_t b)
{
    uint8_t product = 0;
    for (; b; b >>= 1) {
        if (b & 1)
            product ^= a;
        a = (uint8_t)(a << 1) ^ (a & 0x80 ? 0x1b : 0);
    }
    return product;
}

/* The inverse, which is the 254th power, and the affine map. */
static uint8_t substituted(uint8_t x)
{
    uint8_t inverse = 1, square = x, out = 0x63;
    for (int power = 254; power; power >>= 1) {
        if (power & 1)
            inverse = times(inverse, square);
        square = times(square, square);
    }
    for (int i = 0; i < 5; i++)
        out ^= (uint8_t)(inverse << i | inverse >> (8 - i));
    return out;
}

/* Writes the round keys, 16 bytes each, and gives the number of rounds. */
static int aes_schedule(const uint8_t *key, size_t key_len, uint8_t schedule[15 * 16])
{
    int rounds = (int)key_len / 4 + 6;
    uint8_t round_constant = 1;
    memcpy(schedule, key, key_len);
    for (size_t i = key_len; i < (size_t)(rounds + 1) * 16; i += 4) {
        uint8_t *word = schedule + i, last[4];
        memcpy(last, word - 4, 4);
        if (i % key_len == 0) {
            for (int j = 0; j < 4; j++)
                last[j] = substituted(word[(j + 1) % 4 - 4]);
            last[0] ^= round_constant;
            round_constant = times(round_constant, 2);
        } else if (key_len == 32 && i % 32 == 16) {
            for (int j = 0; j < 4; j++)
                last[j] = substituted(last[j]);
        }
        for (int j = 0; j < 4; j++)
            word[j] = schedule[i - key_len + (size_t)j] ^ last[j];
    }
    return rounds;
}

static void aes_round(uint8_t block[16], const uint8_t *round_key, bool mixes)
{
    uint8_t moved[16];
    for (int i = 0; i < 16; i++) /* bytes substituted and rows shifted: byte i of column c comes from column c + i */
        moved[i] = substituted(block[(i + i % 4 * 4) % 16]);
    for (int i = 0; i < 16; i++) {
        const uint8_t *column = moved + i / 4 * 4;
        uint8_t a = column[i % 4], b = column[(i + 1) % 4], c = column[(i + 2) % 4], d = column[(i + 3) % 4];
        block[i] = round_key[i] ^ (mixes ? times(a, 2) ^ times(b, 3) ^ c ^ d : a);
    }
}

void card_aes_cbc(const uint8_t *key, size_t key_len, const uint8_t *iv, const uint8_t *in, size_t len, uint8_t *out)
{
    uint8_t schedule[15 * 16], block[16];
    int rounds = aes_schedule(key, key_len, schedule);
    memcpy(block, iv, 16);
    for (size_t at = 0; at < len; at += 16) {
        for (int i = 0; i < 16; i++)
            block[i] ^= in[at + (size_t)i] ^ schedule[i];
        for (int round = 1; round <= rounds; round++)
            aes_round(block, schedule + 16 * round, round < rounds);
        memcpy(out + at, block, 16);
    }
}

/* ---- SHA-256, FIPS 180-4 */

struct sha256 {
    uint32_t state[8];
    uint8_t block[64];
    uint64_t size; /* bytes so far */
};

static const uint32_t sha256_start[8] = {0x6a09e667, 0xbb67ae85, 0x3c6ef372, 0xa54ff53a, 0x510e527f, 0x9b05688c, 0x1f83d9ab, 0x5be0cd19};

static const uint32_t sha256_round[64] = {
    0x428a2f98, 0x71374491, 0xb5c0fbcf, 0xe9b5dba5, 0x3956c25b, 0x59f111f1, 0x923f82a4, 0xab1c5ed5, 0xd807aa98, 0x12835b01, 0x243185be,
    0x550c7dc3, 0x72be5d74, 0x80deb1fe, 0x9bdc06a7, 0xc19bf174, 0xe49b69c1, 0xefbe4786, 0x0fc19dc6, 0x240ca1cc, 0x2de92c6f, 0x4a7484aa,
    0x5cb0a9dc, 0x76f988da, 0x983e5152, 0xa831c66d, 0xb00327c8, 0xbf597fc7, 0xc6e00bf3, 0xd5a79147, 0x06ca6351, 0x14292967, 0x27b70a85,
    0x2e1b2138, 0x4d2c6dfc, 0x53380d13, 0x650a7354, 0x766a0abb, 0x81c2c92e, 0x92722c85, 0xa2bfe8a1, 0xa81a664b, 0xc24b8b70, 0xc76c51a3,
    0xd192e819, 0xd6990624, 0xf40e3585, 0x106aa070, 0x19a4c116, 0x1e376c08, 0x2748774c, 0x34b0bcb5, 0x391c0cb3, 0x4ed8aa4a, 0x5b9cca4f,
    0x682e6ff3, 0x748f82ee, 0x78a5636f, 0x84c87814, 0x8cc70208, 0x90befffa, 0xa4506ceb, 0xbef9a3f7, 0xc67178f2};

static void sha256_block(uint32_t state[8], const uint8_t block[64])
{
    uint32_t w[64], s[8];
    for (int i = 0; i < 16; i++)
        w[i] = (uint32_t)block[4 * i] << 24 | (uint32_t)block[4 * i + 1] << 16 | (uint32_t)block[4 * i + 2] << 8 | block[4 * i + 3];
    for (int i = 16; i < 64; i++) {
        uint32_t a = turned(w[i - 15], 25) ^ turned(w[i - 15], 14) ^ w[i - 15] >> 3;
        uint32_t b = turned(w[i - 2], 15) ^ turned(w[i - 2], 13) ^ w[i - 2] >> 10;
        w[i] = w[i - 16] + a + w[i - 7] + b;
    }
    memcpy(s, state, sizeof s);
    for (int i = 0; i < 64; i++) {
        uint32_t e = turned(s[4], 26) ^ turned(s[4], 21) ^ turned(s[4], 7);
        uint32_t choice = (s[4] & s[5]) ^ (~s[4] & s[6]);
        uint32_t one = s[7] + e + choice + sha256_round[i] + w[i];
        uint32_t a = turned(s[0], 30) ^ turned(s[0], 19) ^ turned(s[0], 10);
        uint32_t two = a + ((s[0] & s[1]) ^ (s[0] & s[2]) ^ (s[1] & s[2]));
        memmove(s + 1, s, 7 * sizeof s[0]);
        s[4] += one;
        s[0] = one + two;
    }
    for (int i = 0; i < 8; i++)
        state[i] += s[i];
}

static void sha256_begin(struct sha256 *h)
{
    memcpy(h->state, sha256_start, sizeof h->state);
    h->size = 0;
}

static void sha256_add(struct sha256 *h, const uint8_t *bytes, size_t size)
{
    for (size_t i = 0; i < size; i++) {
        h->block[h->size++ % 64] = bytes[i];
        if (h->size % 64 == 0)
            sha256_block(h->state, h->block);
    }
}

static void sha256_end(struct sha256 *h, uint8_t digest[32])
{
    uint8_t bits[8];
    for (int i = 0; i < 8; i++)
        bits[i] = (uint8_t)(h->size * 8 >> 8 * (7 - i));
    sha256_add(h, (const uint8_t[]){0x80}, 1);
    while (h->size % 64 != 56)
        sha256_add(h, (const uint8_t[]){0}, 1);
    sha256_add(h, bits, 8);
    for (int i = 0; i < 32; i++)
        digest[i] = (uint8_t)(h->state[i / 4] >> 8 * (3 - i % 4));
}

void card_hmac_sha256(const uint8_t *key, size_t key_len, const uint8_t *text, size_t text_len, uint8_t mac[32])
{
    struct sha256 h;
    uint8_t inner[64] = {0}, outer[64];
    memcpy(inner, key, key_len);
    for (int i = 0; i < 64; i++) {
        outer[i] = inner[i] ^ 0x5c;
        inner[i] ^= 0x36;
    }
    sha256_begin(&h);
    sha256_add(&h, inner, 64);
    sha256_add(&h, text, text_len);
    sha256_end(&h, mac);
    sha256_begin(&h);
    sha256_add(&h, outer, 64);
    sha256_add(&h, mac, 32);
    sha256_end(&h, mac);
}

/* ---- ChaCha20, RFC 8439, 2.1 to 2.4 */

static void quarter_round(uint32_t s[16], int a, int b, int c, int d)
{
    s[a] += s[b], s[d] = turned(s[d] ^ s[a], 16);
    s[c] += s[d], s[b] = turned(s[b] ^ s[c], 12);
    s[a] += s[b], s[d] = turned(s[d] ^ s[a], 8);
    s[c] += s[d], s[b] = turned(s[b] ^ s[c], 7);
}

static void chacha20_block(const uint8_t *key, uint32_t counter, const uint8_t *iv, uint8_t out[64])
{
    uint32_t start[16] = {0x61707865, 0x3320646e, 0x79622d32, 0x6b206574}, s[16];
    for (int i = 0; i < 8; i++)
        start[4 + i] = low_first(key + 4 * i);
    start[12] = counter;
    for (int i = 0; i < 3; i++)
        start[13 + i] = low_first(iv + 4 * i);
    memcpy(s, start, sizeof s);
    for (int i = 0; i < 80; i++) /* ten times the four columns, then the four diagonals */
        if (i % 8 < 4)
            quarter_round(s, i % 4, 4 + i % 4, 8 + i % 4, 12 + i % 4);
        else
            quarter_round(s, i % 4, 4 + (i + 1) % 4, 8 + (i + 2) % 4, 12 + (i + 3) % 4);
    for (int i = 0; i < 16; i++)
        put_low_first(out + 4 * i, s[i] + start[i], 4);
}

static void chacha20(const uint8_t *key, const uint8_t *iv, const uint8_t *in, size_t len, uint8_t *out)
{
    uint8_t block[64];
    for (size_t i = 0; i < len; i++) {
        if (i % 64 == 0)
            chacha20_block(key, (uint32_t)(1 + i / 64), iv, block);
        out[i] = in[i] ^ block[i % 64];
    }
}

/* ---- Poly1305, RFC 8439, 2.5: numbers modulo 2^130 - 5 in five limbs of 26 bits */

static void limbs_of(const uint8_t *bytes, uint32_t high, uint32_t limbs[5])
{
    limbs[0] = low_first(bytes) & 0x3ffffff;
    limbs[1] = low_first(bytes + 3) >> 2 & 0x3ffffff;
    limbs[2] = low_first(bytes + 6) >> 4 & 0x3ffffff;
    limbs[3] = low_first(bytes + 9) >> 6 & 0x3ffffff;
    limbs[4] = low_first(bytes + 12) >> 8 | high << 24;
}

/* h = (h + block) * r, each limb but the second below 2^26 again. */
static void poly1305_block(uint32_t h[5], const uint32_t r[5], const uint8_t block[16])
{
    uint32_t m[5];
    uint64_t sum[5] = {0}, carry = 0;
    limbs_of(block, 1, m);
    for (int i = 0; i < 5; i++)
        h[i] += m[i];
    for (int i = 0; i < 5; i++)
        for (int j = 0; j < 5; j++)
            sum[(i + j) % 5] += (uint64_t)h[i] * r[j] * (i + j < 5 ? 1 : 5);
    for (int i = 0; i < 5; i++) {
        sum[i] += carry;
        carry = sum[i] >> 26;
        h[i] = sum[i] & 0x3ffffff;
    }
    carry = h[0] + carry * 5;
    h[0] = carry & 0x3ffffff;
    h[1] += (uint32_t)(carry >> 26);
}

/* h modulo 2^130 - 5, plus s, modulo 2^128. */
static void poly1305_end(uint32_t h[5], const uint8_t s[16], uint8_t tag[16])
{
    uint32_t carry = 0;
    for (int i = 1; i < 11; i++) { /* from the second limb on, twice around */
        h[i % 5] += carry;
        carry = (h[i % 5] >> 26) * (i % 5 == 4 ? 5 : 1);
        h[i % 5] &= 0x3ffffff;
    }
    uint32_t less[5]; /* h + 5, which passes 2^130 exactly if h is 2^130 - 5 or more */
    carry = 5;
    for (int i = 0; i < 5; i++) {
        less[i] = h[i] + carry;
        carry = less[i] >> 26;
        less[i] &= 0x3ffffff;
    }
    const uint32_t *least = carry ? less : h;
    uint64_t sum = 0, bits = 0;
    int limb = 0, have = 0;
    for (int i = 0; i < 16; i++) {
        while (have < 8 && limb < 5) {
            bits |= (uint64_t)least[limb++] << have;
            have += 26;
        }
        sum += (bits & 0xff) + s[i];
        tag[i] = (uint8_t)sum;
        sum >>= 8;
        bits >>= 8;
        have -= 8;
    }
}

struct poly1305 {
    uint32_t r[5], h[5];
    uint8_t s[16];
};

static void poly1305_padded(struct poly1305 *p, const uint8_t *bytes, size_t size)
{
    for (size_t at = 0; at < size; at += 16) {
        uint8_t block[16] = {0};
        memcpy(block, bytes + at, size - at < 16 ? size - at : 16);
        poly1305_block(p->h, p->r, block);
    }
}

/* ---- the two together, RFC 8439, 2.8 */

static void aead_tag(const uint8_t *key, const uint8_t *iv, const uint8_t *aad, size_t aad_len, const uint8_t *sealed, size_t len, uint8_t tag[16])
{
    uint8_t once[64], sizes[16];
    struct poly1305 p = {.h = {0}};
    chacha20_block(key, 0, iv, once);
    for (int i = 3; i < 16; i++) /* the bits of r that must be clear */
        once[i] &= i % 4 == 3 ? 0x0f : i % 4 == 0 ? 0xfc : 0xff;
    limbs_of(once, 0, p.r);
    memcpy(p.s, once + 16, 16);
    poly1305_padded(&p, aad, aad_len);
    poly1305_padded(&p, sealed, len);
    put_low_first(sizes, aad_len, 8);
    put_low_first(sizes + 8, len, 8);
    poly1305_padded(&p, sizes, 16);
    poly1305_end(p.h, p.s, tag);
}

void card_seal(const uint8_t *key, const uint8_t *iv, const uint8_t *aad, size_t aad_len, const uint8_t *in, size_t len, uint8_t *out, uint8_t tag[16])
{
    chacha20(key, iv, in, len, out);
    aead_tag(key, iv, aad, aad_len, out, len, tag);
}

bool card_open(const uint8_t *key, const uint8_t *iv, const uint8_t *aad, size_t aad_len, const uint8_t *in, size_t len, const uint8_t tag[16], uint8_t *out)
{
    uint8_t right[16], differ = 0;
    aead_tag(key, iv, aad, aad_len, in, len, right);
    for (int i = 0; i < 16; i++)
        differ |= right[i] ^ tag[i];
    if (differ)
        return false;
    chacha20(key, iv, in, len, out);
    return true;
}
