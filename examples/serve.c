/* See serve.h. */
#include "serve.h"

#include "card.h"

#include <string.h>

uint8_t host_start(struct host *h, const struct vcrypto_config *config)
{
    const uint8_t reserves[VCRYPTO_GUESTS] = {8, 8, 8, 8, 8, 8, 8, 8};
    const uint8_t caps[VCRYPTO_GUESTS] = {32, 32, 32, 32, 32, 32, 32, 32};
    struct vcrypto_reply reply = vcrypto_set_up((const uint8_t *)config, sizeof *config, reserves, caps, h->store, sizeof h->store);
    h->table = reply.table;
    return reply.answer;
}

uint8_t host_attach(struct host *h, uint8_t guest)
{
    struct vcrypto_reply reply = vcrypto_attach(h->table, guest, VCRYPTO_REVISION_1, h->store, sizeof h->store);
    h->table = reply.table;
    return reply.answer;
}

uint8_t host_control(struct host *h, uint8_t guest, const uint8_t *readable, size_t readable_len, uint8_t *writable, size_t writable_len)
{
    struct vcrypto_reply reply = vcrypto_control(h->table, guest, readable, readable_len, writable, writable_len, h->store, sizeof h->store);
    h->table = reply.table;
    return reply.answer;
}

const struct vcrypto_slot *find_session(const struct vcrypto_table *t, uint8_t guest, uint64_t number)
{
    for (int s = 0; s < VCRYPTO_SLOTS; s++) {
        uint64_t word = s < 64 ? t->occupied.low : t->occupied.high;
        bool held = (word >> (s % 64)) & 1;
        if (held && t->slots[s].owner == guest && t->slots[s].number == number)
            return &t->slots[s];
    }
    return NULL;
}

/* What the card is given. */
struct job {
    const struct vcrypto_slot *session;
    uint32_t opcode;
    const uint8_t *key, *iv, *source, *aad;
    size_t key_len, source_len, aad_len;
    uint8_t *out;
};

/* The number of an algorithm means something only within its service, so the service comes first. */
static uint8_t run_cipher(const struct job *j)
{
    if (j->session->algo != VCRYPTO_AES_CBC || j->opcode != VCRYPTO_CIPHER_ENCRYPT)
        return VCRYPTO_ERR; /* this card has no other */
    card_aes_cbc(j->key, j->key_len, j->iv, j->source, j->source_len, j->out);
    return VCRYPTO_OK;
}

static uint8_t run_mac(const struct job *j)
{
    uint8_t mac[32];
    if (j->session->algo != VCRYPTO_HMAC_SHA_256)
        return VCRYPTO_ERR;
    card_hmac_sha256(j->key, j->key_len, j->source, j->source_len, mac);
    memcpy(j->out, mac, j->session->result); /* a shorter result is the front of it */
    return VCRYPTO_OK;
}

static uint8_t run_aead(const struct job *j)
{
    if (j->session->algo != VCRYPTO_CHACHA20_POLY1305)
        return VCRYPTO_ERR;
    if (j->opcode == VCRYPTO_AEAD_ENCRYPT) {
        card_seal(j->key, j->iv, j->aad, j->aad_len, j->source, j->source_len, j->out, j->out + j->source_len); /* the tag goes behind the ciphertext */
        return VCRYPTO_OK;
    }
    size_t text = j->source_len - j->session->result; /* the tag is the end of the source */
    return card_open(j->key, j->iv, j->aad, j->aad_len, j->source, text, j->source + text, j->out) ? VCRYPTO_OK : VCRYPTO_BADMSG;
}

static uint8_t run(const struct job *j)
{
    switch (j->session->service) {
    case VCRYPTO_CIPHER:
        return run_cipher(j);
    case VCRYPTO_MAC:
        return run_mac(j);
    case VCRYPTO_AEAD:
        return run_aead(j);
    default:
        return VCRYPTO_ERR;
    }
}

uint8_t host_data(struct host *h, uint8_t guest, const uint8_t *readable, size_t readable_len, uint8_t *writable, size_t writable_len)
{
    struct vcrypto_admission admitted = vcrypto_admit(h->table, guest, readable, readable_len, writable, writable_len);
    if (admitted.answer != VCRYPTO_OK)
        return admitted.answer;

    struct vcrypto_span iv = vcrypto_iv(h->table, guest, readable, readable_len, writable, writable_len);
    struct vcrypto_span source = vcrypto_source(h->table, guest, readable, readable_len, writable, writable_len);
    struct vcrypto_span aad = vcrypto_aad(h->table, guest, readable, readable_len, writable, writable_len);
    struct vcrypto_span key = vcrypto_key(h->table, guest, admitted.number, h->store, sizeof h->store);
    struct job job = {
        .session = find_session(&h->table, guest, admitted.number),
        .opcode = admitted.opcode,
        .key = h->store + key.start,
        .key_len = key.size,
        .iv = readable + iv.start,
        .source = readable + source.start,
        .source_len = source.size,
        .aad = readable + aad.start,
        .aad_len = aad.size,
        .out = writable,
    };
    uint8_t verdict = job.session ? run(&job) : VCRYPTO_ERR;
    if (verdict != VCRYPTO_OK)
        memset(writable, 0, writable_len - VCRYPTO_DATA_OUTCOME); /* nothing of the card's output goes to the guest */
    return vcrypto_finish(h->table, guest, admitted.opcode, verdict, writable, writable_len);
}
