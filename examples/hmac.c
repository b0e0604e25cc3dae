/* A guest of the MAC service: guest 3 has a text authenticated by HMAC-SHA-256, whole and cut to 16 bytes.
 * Key, text and result are test case 2 of RFC 4231. serve.c is the host. README.md says how to build it. */
#include "guest.h"
#include "serve.h"

enum { GUEST = 3, KEY = 4, TEXT = 28, RESULT = 32 };

/* Header (16 bytes), fixed part (16), key. */
static size_t put_create(uint8_t *readable, uint32_t result_len, const uint8_t *key, uint32_t key_len)
{
    uint8_t *part = readable + VCRYPTO_CONTROL_HEADER;
    memset(readable, 0, VCRYPTO_CONTROL_HEADER + VCRYPTO_MAC_CREATE_PART);
    put_le32(readable + 0, VCRYPTO_MAC_CREATE);
    put_le32(readable + 4, VCRYPTO_HMAC_SHA_256);
    put_le32(part + 0, VCRYPTO_HMAC_SHA_256);
    put_le32(part + 4, result_len);
    put_le32(part + 8, key_len);
    memcpy(part + VCRYPTO_MAC_CREATE_PART, key, key_len);
    return VCRYPTO_CONTROL_HEADER + VCRYPTO_MAC_CREATE_PART + key_len;
}

/* Header (24 bytes), fixed part (8), source. */
static size_t put_data(uint8_t *readable, uint64_t session, const uint8_t *source, uint32_t source_len, uint32_t result_len)
{
    uint8_t *part = readable + VCRYPTO_DATA_HEADER;
    memset(readable, 0, VCRYPTO_DATA_HEADER + VCRYPTO_MAC_DATA_PART);
    put_le32(readable + 0, VCRYPTO_MAC_DATA);
    put_le64(readable + 8, session);
    put_le32(readable + 16, VCRYPTO_SESSION_MODE);
    put_le32(part + 0, source_len);
    put_le32(part + 4, result_len);
    memcpy(part + VCRYPTO_MAC_DATA_PART, source, source_len);
    return VCRYPTO_DATA_HEADER + VCRYPTO_MAC_DATA_PART + source_len;
}

static const struct vcrypto_config config = {
    .status = VCRYPTO_READY,
    .queues = 1,
    .services = 1u << VCRYPTO_MAC,
    .macs = 1u << VCRYPTO_HMAC_SHA_256,
    .authkey = VCRYPTO_KEY_LIMIT,
    .size = 65536,
};

static struct host host;

static void authenticate(uint32_t result_len)
{
    const uint8_t *key = (const uint8_t *)"Jefe", *text = (const uint8_t *)"what do ya want for nothing?";
    uint8_t request[VCRYPTO_DATA_HEADER + VCRYPTO_MAC_DATA_PART + TEXT], created[VCRYPTO_CREATE_OUTCOME] = {0}, done[RESULT + VCRYPTO_DATA_OUTCOME] = {0};

    size_t size = put_create(request, result_len, key, KEY);
    expect("create:", host_control(&host, GUEST, request, size, created, sizeof created), VCRYPTO_OK);
    size = put_data(request, get_le64(created), text, TEXT, result_len);
    expect("data:", host_data(&host, GUEST, request, size, done, result_len + VCRYPTO_DATA_OUTCOME), VCRYPTO_OK);
    expect("its status byte:", done[result_len], VCRYPTO_OK);
    show("result:", done, result_len);

    /* The lengths of the session bind: a byte less is refused, though its buffer fits. */
    size = put_data(request, get_le64(created), text, TEXT, result_len - 1);
    expect("a shorter result:", host_data(&host, GUEST, request, size, done, result_len), VCRYPTO_ERR);
}

int main(void)
{
    expect("set-up:", host_start(&host, &config), VCRYPTO_OK);
    expect("attach:", host_attach(&host, GUEST), VCRYPTO_OK);
    authenticate(RESULT);
    authenticate(16);
    return wrong;
}
