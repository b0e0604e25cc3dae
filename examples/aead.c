/* A guest of the AEAD service: guest 1 has a text encrypted and decrypted again by ChaCha20-Poly1305, then a text with a wrong tag.
 * Key, IV, AAD, text and result are those of RFC 8439, section 2.8.2. serve.c is the host. README.md says how to build it. */
#include "guest.h"
#include "serve.h"

enum { GUEST = 1, KEY = 32, IV = 12, AAD = 12, TAG = 16, TEXT = 114 };

/* Header (16 bytes), fixed part (24), key. */
static size_t put_create(uint8_t *readable, uint32_t direction, const uint8_t key[KEY])
{
    uint8_t *part = readable + VCRYPTO_CONTROL_HEADER;
    memset(readable, 0, VCRYPTO_CONTROL_HEADER + VCRYPTO_AEAD_CREATE_PART);
    put_le32(readable + 0, VCRYPTO_AEAD_CREATE);
    put_le32(readable + 4, VCRYPTO_CHACHA20_POLY1305);
    put_le32(part + 0, VCRYPTO_CHACHA20_POLY1305);
    put_le32(part + 4, KEY);
    put_le32(part + 8, TAG);
    put_le32(part + 12, AAD);
    put_le32(part + 16, direction);
    memcpy(part + VCRYPTO_AEAD_CREATE_PART, key, KEY);
    return VCRYPTO_CONTROL_HEADER + VCRYPTO_AEAD_CREATE_PART + KEY;
}

/* Header (24 bytes), fixed part (24), IV, source, AAD. The source of a decryption is ciphertext and tag. */
static size_t put_data(uint8_t *readable, uint32_t opcode, uint64_t session, const uint8_t iv[IV], const uint8_t *source, uint32_t source_len,
                       const uint8_t aad[AAD])
{
    uint8_t *part = readable + VCRYPTO_DATA_HEADER, *at = part + VCRYPTO_AEAD_DATA_PART;
    memset(readable, 0, VCRYPTO_DATA_HEADER + VCRYPTO_AEAD_DATA_PART);
    put_le32(readable + 0, opcode);
    put_le64(readable + 8, session);
    put_le32(readable + 16, VCRYPTO_SESSION_MODE);
    put_le32(part + 0, IV);
    put_le32(part + 4, AAD);
    put_le32(part + 8, source_len);
    put_le32(part + 12, opcode == VCRYPTO_AEAD_ENCRYPT ? source_len + TAG : source_len - TAG); /* dst_data_len */
    put_le32(part + 16, TAG);
    memcpy(at, iv, IV);
    memcpy(at + IV, source, source_len);
    memcpy(at + IV + source_len, aad, AAD);
    return VCRYPTO_DATA_HEADER + VCRYPTO_AEAD_DATA_PART + IV + source_len + AAD;
}

static const struct vcrypto_config config = {
    .status = VCRYPTO_READY,
    .queues = 1,
    .services = 1u << VCRYPTO_AEAD,
    .aeads = 1u << VCRYPTO_CHACHA20_POLY1305,
    .cipherkey = VCRYPTO_KEY_LIMIT,
    .size = 65536,
};

static struct host host;

static uint64_t create(uint32_t direction, const uint8_t key[KEY])
{
    uint8_t request[VCRYPTO_CONTROL_HEADER + VCRYPTO_AEAD_CREATE_PART + KEY], created[VCRYPTO_CREATE_OUTCOME] = {0};
    size_t size = put_create(request, direction, key);
    expect("create:", host_control(&host, GUEST, request, size, created, sizeof created), VCRYPTO_OK);
    return get_le64(created);
}

int main(void)
{
    static const uint8_t iv[IV] = {7, 0, 0, 0, 0x40, 0x41, 0x42, 0x43, 0x44, 0x45, 0x46, 0x47};
    static const uint8_t aad[AAD] = {0x50, 0x51, 0x52, 0x53, 0xc0, 0xc1, 0xc2, 0xc3, 0xc4, 0xc5, 0xc6, 0xc7};
    static const char text[TEXT + 1] = "Ladies and Gentlemen of the class of '99: "
                                       "If I could offer you only one tip for the future, sunscreen would be it.";
    uint8_t key[KEY], request[VCRYPTO_DATA_HEADER + VCRYPTO_AEAD_DATA_PART + IV + TEXT + TAG + AAD];
    uint8_t sealed[TEXT + TAG + VCRYPTO_DATA_OUTCOME] = {0}, opened[TEXT + VCRYPTO_DATA_OUTCOME] = {0};
    for (int i = 0; i < KEY; i++)
        key[i] = (uint8_t)(0x80 + i);

    expect("set-up:", host_start(&host, &config), VCRYPTO_OK);
    expect("attach:", host_attach(&host, GUEST), VCRYPTO_OK);
    uint64_t sealing = create(VCRYPTO_DIR_ENCRYPT, key), opening = create(VCRYPTO_DIR_DECRYPT, key);

    size_t size = put_data(request, VCRYPTO_AEAD_ENCRYPT, sealing, iv, (const uint8_t *)text, TEXT, aad);
    expect("encryption:", host_data(&host, GUEST, request, size, sealed, sizeof sealed), VCRYPTO_OK);
    expect("its status byte:", sealed[TEXT + TAG], VCRYPTO_OK);
    show("ciphertext:", sealed, TEXT);
    show("tag:", sealed + TEXT, TAG);

    size = put_data(request, VCRYPTO_AEAD_DECRYPT, opening, iv, sealed, TEXT + TAG, aad);
    expect("decryption:", host_data(&host, GUEST, request, size, opened, sizeof opened), VCRYPTO_OK);
    expect("its status byte:", opened[TEXT], VCRYPTO_OK);
    printf("text: %.*s\n", TEXT, (const char *)opened);

    sealed[TEXT] ^= 1; /* a bit of the tag */
    size = put_data(request, VCRYPTO_AEAD_DECRYPT, opening, iv, sealed, TEXT + TAG, aad);
    expect("a wrong tag:", host_data(&host, GUEST, request, size, opened, sizeof opened), VCRYPTO_BADMSG);
    expect("its status byte:", opened[TEXT], VCRYPTO_BADMSG);
    expect("bytes before it that are not zero:", count_nonzero(opened, TEXT), 0);

    /* A session serves its own direction alone. */
    size = put_data(request, VCRYPTO_AEAD_DECRYPT, sealing, iv, sealed, TEXT + TAG, aad);
    expect("decryption with the other session:", host_data(&host, GUEST, request, size, opened, sizeof opened), VCRYPTO_INVSESS);
    return wrong;
}
