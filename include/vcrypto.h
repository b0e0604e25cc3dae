/* libvcrypto: the device side of a virtio crypto device for eight guests, as ten calls.
 *
 * A host takes requests from its guests' queues, calls the library with their bytes, has its card do what was accepted, and reports how that
 * went. docs/RULES.md has the whole of the rules, and the numbers in brackets below are its rules. examples/ has a host for cipher, MAC and AEAD.
 *
 * Every call answers for any bytes, any lengths and any table. Its memory is the caller's care [12.2]:
 *   - each pointer has as many bytes as its length says; a null pointer is fine where the length is 0;
 *   - no writable bytes, and not the key store, overlap other bytes lent to the same call;
 *   - the bytes of a request do not change: those of a data request from vcrypto_admit to vcrypto_finish, through all calls made for it. Where a guest
 *     could still write to them, make a copy first;
 *   - a bool in a table is 0 or 1.
 * What is promised over many calls, such as reserves and keys that are gone, is promised to a host that hands on the table that the last call returned,
 * lends always the same key store, which nobody else writes, and makes one call at a time [12.1]. The calls keep nothing of their own.
 *
 * Every answer but VCRYPTO_OK leaves table and key store as they were; one from VCRYPTO_BAD_GUEST on writes nothing at all [2.3, 2.4].
 * Integers in configurations, requests and outcomes have their lowest byte first [1.3]. The archive is for x86-64 and its System V calls; a call takes some
 * 20 kilobytes of stack, since tables go by value. */
#ifndef VCRYPTO_H
#define VCRYPTO_H

#include <stdbool.h>
#include <stddef.h>
#include <stdint.h>

#ifdef __cplusplus
extern "C" {
#endif

#define VCRYPTO_VERSION_MAJOR 0
#define VCRYPTO_VERSION_MINOR 1
#define VCRYPTO_VERSION_PATCH 0
#define VCRYPTO_VERSION "0.1.0"

/* ---- numbers */

/* Answers [2.1]. 0 to 5 are also the status that a guest reads. Each call below says what its answers come from. */
enum {
    VCRYPTO_OK = 0,           /* granted, accepted */
    VCRYPTO_ERR = 1,          /* refused, for a reason without a number of its own */
    VCRYPTO_BADMSG = 2,       /* the tag of an AEAD decryption is wrong; by vcrypto_finish alone */
    VCRYPTO_NOTSUPP = 3,      /* service, operation, algorithm or mode not offered */
    VCRYPTO_INVSESS = 4,      /* no such session, for a data request or key fetch; a destroy of none is ERR */
    VCRYPTO_NOSPC = 5,        /* no room for another session of this guest */
    VCRYPTO_BAD_GUEST = 16,   /* above 7, or not attached */
    VCRYPTO_NO_OUTCOME = 17,  /* no place for the outcome in the writable bytes */
    VCRYPTO_BAD_STORE = 18,   /* the key store is not VCRYPTO_STORE_SIZE bytes */
    VCRYPTO_BAD_FEATURE = 19, /* feature word refused */
    VCRYPTO_BAD_SHARES = 20,  /* reserves and caps refused */
    VCRYPTO_BAD_CONFIG = 21   /* configuration refused */
};

/* Services. 1u << VCRYPTO_MAC is the bit of one in the configuration's crypto_services [3.1]. */
enum {
    VCRYPTO_CIPHER = 0,
    VCRYPTO_HASH = 1,
    VCRYPTO_MAC = 2,
    VCRYPTO_AEAD = 3
};

/* Opcodes of control requests [3.2]. */
enum {
    VCRYPTO_CIPHER_CREATE = 0x0002,
    VCRYPTO_CIPHER_DESTROY = 0x0003,
    VCRYPTO_HASH_CREATE = 0x0102,
    VCRYPTO_HASH_DESTROY = 0x0103,
    VCRYPTO_MAC_CREATE = 0x0202,
    VCRYPTO_MAC_DESTROY = 0x0203,
    VCRYPTO_AEAD_CREATE = 0x0302,
    VCRYPTO_AEAD_DESTROY = 0x0303
};

/* Opcodes of data requests [3.3]. */
enum {
    VCRYPTO_CIPHER_ENCRYPT = 0x0000,
    VCRYPTO_CIPHER_DECRYPT = 0x0001,
    VCRYPTO_HASH_DATA = 0x0100,
    VCRYPTO_MAC_DATA = 0x0200,
    VCRYPTO_AEAD_ENCRYPT = 0x0300,
    VCRYPTO_AEAD_DECRYPT = 0x0301
};

/* Directions of a cipher or AEAD session [3.4]. */
enum {
    VCRYPTO_DIR_ENCRYPT = 1,
    VCRYPTO_DIR_DECRYPT = 2
};

/* Algorithms of cipher, hash, MAC and AEAD. 1u << VCRYPTO_AES_CBC is the bit of one in the mask of its service [3.5]. Their key, IV, result and tag
 * lengths: [9]. */
enum {
    VCRYPTO_AES_ECB = 2,
    VCRYPTO_AES_CBC = 3,
    VCRYPTO_AES_CTR = 4,
    VCRYPTO_3DES_CBC = 8,
    VCRYPTO_AES_XTS = 13
};
enum {
    VCRYPTO_MD5 = 1,
    VCRYPTO_SHA1 = 2,
    VCRYPTO_SHA_224 = 3,
    VCRYPTO_SHA_256 = 4,
    VCRYPTO_SHA_384 = 5,
    VCRYPTO_SHA_512 = 6
};
enum {
    VCRYPTO_HMAC_MD5 = 1,
    VCRYPTO_HMAC_SHA1 = 2,
    VCRYPTO_HMAC_SHA_224 = 3,
    VCRYPTO_HMAC_SHA_256 = 4,
    VCRYPTO_HMAC_SHA_384 = 5,
    VCRYPTO_HMAC_SHA_512 = 6,
    VCRYPTO_CMAC_AES = 26
};
enum {
    VCRYPTO_GCM = 1,
    VCRYPTO_CCM = 2,
    VCRYPTO_CHACHA20_POLY1305 = 3
};

/* All bits of crypto_services and of each mask [4.2]. */
enum {
    VCRYPTO_ALL_SERVICES = 0x0f,
    VCRYPTO_ALL_CIPHERS = 0x211c,
    VCRYPTO_ALL_HASHES = 0x7e,
    VCRYPTO_ALL_MACS = 0x0400007e,
    VCRYPTO_ALL_AEADS = 0x0e
};

/* Values that a request or a configuration must have to be taken. */
enum {
    VCRYPTO_READY = 1,        /* the configuration's status [4.2] */
    VCRYPTO_REVISION_1 = 1,   /* the feature word of an attach [5.1] */
    VCRYPTO_SESSION_MODE = 1, /* flag in the header of a data request [10.2] */
    VCRYPTO_OP_CIPHER = 1     /* op_type of cipher requests [8.3, 10.3] */
};

/* Sizes in bytes of what a request is made of: header, then the fixed part of its operation, then the variable parts [8, 10]. */
enum {
    VCRYPTO_CONTROL_HEADER = 16,
    VCRYPTO_CIPHER_CREATE_PART = 56,
    VCRYPTO_HASH_CREATE_PART = 8,
    VCRYPTO_MAC_CREATE_PART = 16,
    VCRYPTO_AEAD_CREATE_PART = 24,
    VCRYPTO_DESTROY_PART = 8,
    VCRYPTO_CREATE_OUTCOME = 16, /* session_id (8), status (4), padding (4) */
    VCRYPTO_DESTROY_OUTCOME = 1, /* status */
    VCRYPTO_DATA_HEADER = 24,
    VCRYPTO_CIPHER_DATA_PART = 48,
    VCRYPTO_HASH_DATA_PART = 8,
    VCRYPTO_MAC_DATA_PART = 8,
    VCRYPTO_AEAD_DATA_PART = 24,
    VCRYPTO_DATA_OUTCOME = 1 /* status, behind the destination or result */
};

enum {
    VCRYPTO_GUESTS = 8,
    VCRYPTO_SLOTS = 128,
    VCRYPTO_KEY_AREA = 128, /* of each slot in the key store */
    VCRYPTO_STORE_SIZE = 16384,
    VCRYPTO_CONFIG_SIZE = 56,
    VCRYPTO_TABLE_SIZE = 3272,
    VCRYPTO_KEY_LIMIT = 64,       /* the largest max_cipher_key_len and max_auth_key_len of a configuration */
    VCRYPTO_SIZE_LIMIT = 1048576, /* its largest max_size: what a data request reads and writes in sum, so twice the source of a cipher and its IV */
    VCRYPTO_QUEUE_LIMIT = 8       /* its largest max_dataqueues */
};

/* ---- structures */

/* A configuration, field by field in the order of its 56 bytes [4.1]: on x86-64 the bytes of this struct are those of a configuration. */
struct vcrypto_config {
    uint32_t status;
    uint32_t queues;    /* max_dataqueues */
    uint32_t services;  /* crypto_services */
    uint32_t ciphers;   /* cipher_algo_l */
    uint32_t ciphers2;  /* cipher_algo_h */
    uint32_t hashes;    /* hash_algo */
    uint32_t macs;      /* mac_algo_l */
    uint32_t macs2;     /* mac_algo_h */
    uint32_t aeads;     /* aead_algo */
    uint32_t cipherkey; /* max_cipher_key_len */
    uint32_t authkey;   /* max_auth_key_len */
    uint32_t reserved;
    uint64_t size; /* max_size */
};

/* Which slots are held: slot s by bit s of `low` for s up to 63, and by bit s - 64 of `high` from there on [6.2]. */
struct vcrypto_occupied {
    uint64_t low;
    uint64_t high;
};

/* A session [6.3]. What the fields of a slot hold whose bit is clear means nothing; a slot that is freed is left all zero.
 * `result` is the length of a hash or MAC result, or of an AEAD tag. */
struct vcrypto_slot {
    uint64_t number;
    uint32_t aad;
    uint8_t owner;
    uint8_t service;
    uint8_t algo;
    uint8_t direction;
    uint8_t keylen;
    uint8_t result;
};

/* A guest's shares, and the last session number given to it since its last attach [6.5]. */
struct vcrypto_guest {
    bool attached;
    uint8_t reserve;
    uint8_t cap;
    uint64_t last;
};

struct vcrypto_table {
    struct vcrypto_config config;
    struct vcrypto_occupied occupied;
    struct vcrypto_slot slots[VCRYPTO_SLOTS];
    struct vcrypto_guest guests[VCRYPTO_GUESTS];
};

#if defined(__cplusplus) && __cplusplus >= 201103L
static_assert(sizeof(struct vcrypto_table) == VCRYPTO_TABLE_SIZE, "the archive has another table");
#elif defined(__STDC_VERSION__) && __STDC_VERSION__ >= 201112L
_Static_assert(sizeof(struct vcrypto_table) == VCRYPTO_TABLE_SIZE, "the archive has another table");
#endif

/* An answer, and the table afterwards. */
struct vcrypto_reply {
    uint8_t answer;
    struct vcrypto_table table;
};

/* An answer, and what an accepted data request names; zeros on refusal. */
struct vcrypto_admission {
    uint8_t answer;
    uint8_t guest;
    uint64_t number;
    uint32_t opcode;
};

/* Where a part or key lies in the bytes that were lent; both 0 where it is empty. */
struct vcrypto_span {
    size_t start;
    size_t size;
};

/* ---- the calls; each lists its checks in order, with the answer where one fails */

/* A fresh table from a configuration and each guest's reserve and cap; eight bytes each. [4]
 *   BAD_STORE    store_len is not 16,384
 *   BAD_CONFIG   not 56 bytes; status not 1; max_dataqueues not 1 to 8; a bit of crypto_services above 3; a mask's bit of no algorithm above;
 *                a key limit above 64; reserved not 0; max_size above 1,048,576
 *   BAD_SHARES   a reserve above its cap, a cap above 128, or reserves that sum to more than 128
 * OK: all slots free, no guest attached, the store all zero. Else: a table that offers nothing, and the store as it was, old keys included. */
struct vcrypto_reply vcrypto_set_up(const uint8_t *config, size_t config_len, const uint8_t reserves[VCRYPTO_GUESTS], const uint8_t caps[VCRYPTO_GUESTS],
                                    uint8_t *store, size_t store_len);

/* Attaches a guest; of an attached one it is the reset. Frees its slots, zeroes their key areas, restarts its session numbers. `word` has the feature
 * bits of the device that the guest took, and none of the transport's. A refusal leaves its sessions and keys: do not serve it then. [5, 12.8]
 *   BAD_STORE    store_len is not 16,384
 *   BAD_GUEST    guest above 7
 *   BAD_FEATURE  word is not 1 */
struct vcrypto_reply vcrypto_attach(struct vcrypto_table table, uint8_t guest, uint32_t word, uint8_t *store, size_t store_len);

/* One control request: a create or a destroy. [8]
 *   BAD_STORE    store_len is not 16,384
 *   BAD_GUEST    guest above 7, or not attached
 *   NO_OUTCOME   neither 16 writable bytes nor 1
 *   ERR          fewer readable bytes than the header's 16
 *   NOTSUPP      unknown opcode, or its service is not offered
 *   ERR          not 16 writable bytes for a create, 1 for a destroy
 *   ERR          fewer readable bytes than header and fixed part
 * then of a create:
 *   NOTSUPP      cipher: op_type is not 1
 *   NOTSUPP      the fixed part's algorithm is not offered
 *   ERR          the header's algo is another
 *   ERR          cipher, AEAD: the direction is neither 1 nor 2
 *   ERR          key, result or tag length against the rules, or a key above the configuration's limit [9]
 *   ERR          readable bytes are not exactly header, fixed part and key
 *   ERR          no session number is left for this guest
 *   NOSPC        it holds its cap; or its reserve, and what is left is kept for the others' reserves; or no slot is free [6.10]
 * of a destroy:
 *   ERR          not 24 readable bytes
 *   ERR          no live session of this guest and service has that number
 * The outcome goes by the writable length: 16 bytes take session_id (0 on refusal), status and padding 0; one byte takes the status.
 * A granted create writes its slot's whole key area, a granted destroy zeroes it. */
struct vcrypto_reply vcrypto_control(struct vcrypto_table table, uint8_t guest, const uint8_t *readable, size_t readable_len, uint8_t *writable,
                                     size_t writable_len, uint8_t *store, size_t store_len);

/* Takes or refuses one data request. [10]
 *   BAD_GUEST    guest above 7, or not attached
 *   NO_OUTCOME   no writable byte
 *   ERR          fewer readable bytes than the header's 24
 *   NOTSUPP      unknown opcode, or its service is not offered
 *   NOTSUPP      flag is 0
 *   ERR          flag is not 1
 *   INVSESS      no live session of this guest, of this service and direction, has that number
 *   ERR          fewer readable bytes than header and fixed part
 *   NOTSUPP      cipher: op_type is not 1
 *   ERR          IV, source, AAD and what is written sum to more than max_size
 *   ERR          readable bytes are not exactly header, fixed part, IV, source and AAD, or writable ones not destination or result and 1
 *   ERR          lengths against the rules, or AAD, tag or result not the session's [9]
 * A refusal from 1 to 5 writes the last writable byte; an acceptance writes nothing until vcrypto_finish. The table does not change.
 *
 * How a host learns what its card is to run [12.4]: after OK, the session is the held slot of the table whose owner and number are the guest and the number
 * that were named; in any table that calls have left there is one. Its service and algo together are the algorithm, the opcode gives the direction,
 * and its result is the length of the tag or result. find_session in examples/serve.c does this; a call for it is to come. */
struct vcrypto_admission vcrypto_admit(struct vcrypto_table table, uint8_t guest, const uint8_t *readable, size_t readable_len, uint8_t *writable,
                                       size_t writable_len);

/* Where the IV, the source and the AAD of a data request lie in its readable bytes; empty where it is refused or has none. They write nothing, and of
 * the writable bytes they look at the length. Ask right after an OK, with the same arguments: each decides the admission anew, and an empty part is no
 * sign of an error. [10.11]
 * Of an AEAD encryption the tag goes behind the ciphertext: the destination is source and tag. Of a decryption the last bytes of the source are the
 * tag, as many as the session's `result`, and the destination is shorter by them. [12.5] */
struct vcrypto_span vcrypto_iv(struct vcrypto_table table, uint8_t guest, const uint8_t *readable, size_t readable_len, const uint8_t *writable,
                               size_t writable_len);
struct vcrypto_span vcrypto_source(struct vcrypto_table table, uint8_t guest, const uint8_t *readable, size_t readable_len, const uint8_t *writable,
                                   size_t writable_len);
struct vcrypto_span vcrypto_aad(struct vcrypto_table table, uint8_t guest, const uint8_t *readable, size_t readable_len, const uint8_t *writable,
                                size_t writable_len);

/* The answer of a key fetch; writes nothing. [7.5]
 *   BAD_STORE    store_len is not 16,384
 *   BAD_GUEST    guest above 7, or not attached
 *   INVSESS      no live session of this guest has that number */
uint8_t vcrypto_key_answer(struct vcrypto_table table, uint8_t guest, uint64_t number, const uint8_t *store, size_t store_len);

/* Where the session's key lies in the store; empty where that answer is not OK, and for a hash. Writes nothing. The key stays there until the next
 * set-up, attach or control request: a card that works longer needs a copy. [7.6, 12.9] */
struct vcrypto_span vcrypto_key(struct vcrypto_table table, uint8_t guest, uint64_t number, const uint8_t *store, size_t store_len);

/* Writes the verdict on an accepted data request as the last writable byte, and answers that byte: OK, ERR, or BADMSG where the opcode is
 * VCRYPTO_AEAD_DECRYPT; ERR for any other verdict. The opcode is the one that vcrypto_admit named. With any verdict but OK, leave nothing of the
 * card's output in the writable bytes: nobody else takes it out. [11, 12.5]
 *   BAD_GUEST    guest above 7, or not attached
 *   NO_OUTCOME   no writable byte */
uint8_t vcrypto_finish(struct vcrypto_table table, uint8_t guest, uint32_t opcode, uint8_t verdict, uint8_t *writable, size_t writable_len);

#ifdef __cplusplus
}
#endif

#endif
