/* A guest of the cipher service: guest 0 makes an AES-CBC session, has 32 bytes encrypted, ends the session, and asks again.
 * Key, IV, text and result are those of SP 800-38A, section F.2.1. serve.c is the host. README.md says how to build it. */
#include "guest.h"
#include "serve.h"

/* Header (16 bytes), fixed part (56), key (16). */
static void put_create(uint8_t readable[88], const uint8_t key[16])
{
    uint8_t *part = readable + VCRYPTO_CONTROL_HEADER;
    memset(readable, 0, 88);
    put_le32(readable + 0, VCRYPTO_CIPHER_CREATE);
    put_le32(readable + 4, VCRYPTO_AES_CBC);
    put_le32(part + 0, VCRYPTO_AES_CBC);
    put_le32(part + 4, 16); /* key_len */
    put_le32(part + 8, VCRYPTO_DIR_ENCRYPT);
    put_le32(part + 48, VCRYPTO_OP_CIPHER);
    memcpy(part + VCRYPTO_CIPHER_CREATE_PART, key, 16);
}

/* Header (16 bytes) and session number (8). */
static void put_destroy(uint8_t readable[24], uint64_t session)
{
    memset(readable, 0, 24);
    put_le32(readable + 0, VCRYPTO_CIPHER_DESTROY);
    put_le64(readable + VCRYPTO_CONTROL_HEADER, session);
}

/* Header (24 bytes), fixed part (48), IV (16), source (32). */
static void put_data(uint8_t readable[120], uint64_t session, const uint8_t iv[16], const uint8_t source[32])
{
    uint8_t *part = readable + VCRYPTO_DATA_HEADER;
    memset(readable, 0, 120);
    put_le32(readable + 0, VCRYPTO_CIPHER_ENCRYPT);
    put_le64(readable + 8, session);
    put_le32(readable + 16, VCRYPTO_SESSION_MODE);
    put_le32(part + 0, 16); /* iv_len */
    put_le32(part + 4, 32); /* src_data_len */
    put_le32(part + 8, 32); /* dst_data_len */
    put_le32(part + 40, VCRYPTO_OP_CIPHER);
    memcpy(part + VCRYPTO_CIPHER_DATA_PART, iv, 16);
    memcpy(part + VCRYPTO_CIPHER_DATA_PART + 16, source, 32);
}

static const struct vcrypto_config config = {
    .status = VCRYPTO_READY,
    .queues = 1,
    .services = 1u << VCRYPTO_CIPHER,
    .ciphers = 1u << VCRYPTO_AES_CBC,
    .cipherkey = VCRYPTO_KEY_LIMIT,
    .size = 65536,
};

static const uint8_t key[16] = {0x2b, 0x7e, 0x15, 0x16, 0x28, 0xae, 0xd2, 0xa6, 0xab, 0xf7, 0x15, 0x88, 0x09, 0xcf, 0x4f, 0x3c};
static const uint8_t iv[16] = {0, 1, 2, 3, 4, 5, 6, 7, 8, 9, 10, 11, 12, 13, 14, 15};
static const uint8_t text[32] = {0x6b, 0xc1, 0xbe, 0xe2, 0x2e, 0x40, 0x9f, 0x96, 0xe9, 0x3d, 0x7e, 0x11, 0x73, 0x93, 0x17, 0x2a,
                                 0xae, 0x2d, 0x8a, 0x57, 0x1e, 0x03, 0xac, 0x9c, 0x9e, 0xb7, 0x6f, 0xac, 0x45, 0xaf, 0x8e, 0x51};

static struct host host;

int main(void)
{
    expect("set-up:", host_start(&host, &config), VCRYPTO_OK);
    expect("attach:", host_attach(&host, 0), VCRYPTO_OK);

    uint8_t create[88], created[VCRYPTO_CREATE_OUTCOME] = {0};
    put_create(create, key);
    expect("create:", host_control(&host, 0, create, sizeof create, created, sizeof created), VCRYPTO_OK);
    uint64_t session = get_le64(created);
    expect("its session number:", session, 1);

    uint8_t data[120], done[32 + VCRYPTO_DATA_OUTCOME] = {0};
    put_data(data, session, iv, text);
    expect("data:", host_data(&host, 0, data, sizeof data, done, sizeof done), VCRYPTO_OK);
    expect("its status byte:", done[32], VCRYPTO_OK);
    show("ciphertext:", done, 32);

    uint8_t destroy[24], destroyed[VCRYPTO_DESTROY_OUTCOME];
    put_destroy(destroy, session);
    expect("destroy:", host_control(&host, 0, destroy, sizeof destroy, destroyed, sizeof destroyed), VCRYPTO_OK);

    expect("key store bytes that are not zero:", count_nonzero(host.store, sizeof host.store), 0);

    expect("data again:", host_data(&host, 0, data, sizeof data, done, sizeof done), VCRYPTO_INVSESS);
    expect("its status byte:", done[32], VCRYPTO_INVSESS);
    return wrong;
}
