/* The offsets, sizes and numbers of the definitions and of vcrypto.h against those of the kernel's own header. ours.h is made from crates/model/specs
 * by ours.awk, page.h from docs/RULES.md by page.awk.
 * The kernel's header has the requests of devices without revision 1: each service's structure is padded to 56 or 48 bytes, so the unpadded ones are
 * compared. Where its fields differ from document 001's, a comment says how. */
#include <linux/virtio_crypto.h>
#include <stddef.h>
#include <stdio.h>

#include "ours.h"
#include "page.h"
#include "vcrypto.h"

#define COUNT(...) (sizeof((size_t[]){__VA_ARGS__}) / sizeof(size_t))
#define SIZE_OF(type, field) sizeof(((struct type *)0)->field)

static int wrong = 0;

static void same(const char *what, size_t ours, size_t theirs)
{
    if (ours != theirs) {
        printf("tests/layout: %s: %zu here, %zu in the kernel's header\n", what, ours, theirs);
        wrong = 1;
    }
}

static void same_list(const char *what, const size_t *ours, size_t n, const size_t *theirs, size_t m)
{
    same(what, n, m);
    for (size_t i = 0; i < n && i < m; i++)
        same(what, ours[i], theirs[i]);
}

/* A field that is read, which in the kernel's header stands `base` bytes and its structure's offset from the start. */
#define FIELD(read, base, type, field)                                                   \
    do {                                                                                 \
        same("offset of " #type "." #field, READ_##read, (base) + offsetof(struct type, field)); \
        same("width of " #type "." #field, WIDTH_##read, SIZE_OF(type, field));          \
    } while (0)

/* All numbers of a definition, and one of them. */
#define LIST(name, ...) same_list(#name, (size_t[]){NUMBERS_##name}, COUNT(NUMBERS_##name), (size_t[]){__VA_ARGS__}, COUNT(__VA_ARGS__))
#define NUMBER(name, i, theirs) same(#name, (size_t[]){NUMBERS_##name}[i], theirs)

/* The mask with these bits. */
#define MASK(...) mask_of((size_t[]){__VA_ARGS__}, COUNT(__VA_ARGS__))

static size_t mask_of(const size_t *bits, size_t n)
{
    size_t mask = 0;
    for (size_t i = 0; i < n; i++)
        mask |= (size_t)1 << bits[i];
    return mask;
}

/* A constant of vcrypto.h, by its name there. */
#define CONSTANT(name, theirs) same("VCRYPTO_" #name, VCRYPTO_##name, theirs)

/* A field of the configuration, read by the definition and declared in vcrypto.h. */
#define CONFIG(ours, theirs)                                                                                         \
    do {                                                                                                             \
        FIELD(config_of_##ours, 0, virtio_crypto_config, theirs);                                                    \
        same("vcrypto_config." #ours, offsetof(struct vcrypto_config, ours), offsetof(struct virtio_crypto_config, theirs)); \
        same("vcrypto_config." #ours, SIZE_OF(vcrypto_config, ours), SIZE_OF(virtio_crypto_config, theirs));         \
    } while (0)

static void configuration(void)
{
    CONFIG(status, status);
    CONFIG(queues, max_dataqueues);
    CONFIG(services, crypto_services);
    CONFIG(ciphers, cipher_algo_l);
    CONFIG(ciphers2, cipher_algo_h);
    CONFIG(hashes, hash_algo);
    CONFIG(macs, mac_algo_l);
    CONFIG(macs2, mac_algo_h);
    CONFIG(aeads, aead_algo);
    CONFIG(cipherkey, max_cipher_key_len);
    CONFIG(authkey, max_auth_key_len);
    /* 001 has no asymmetric service, and this field is reserved in it */
    CONFIG(reserved, akcipher_algo);
    CONFIG(size, max_size);
    NUMBER(set_up_order, 0, sizeof(struct virtio_crypto_config));
    same("VCRYPTO_CONFIG_SIZE", VCRYPTO_CONFIG_SIZE, sizeof(struct virtio_crypto_config));
    NUMBER(config_ok, 0, VIRTIO_CRYPTO_S_HW_READY);
    CONSTANT(READY, VIRTIO_CRYPTO_S_HW_READY);
    LIST(size_limit, VCRYPTO_SIZE_LIMIT);
    /* status 1, queues 1 to 8, key limits */
    LIST(config_ok, VCRYPTO_READY, 1, VCRYPTO_QUEUE_LIMIT, VCRYPTO_KEY_LIMIT, VCRYPTO_KEY_LIMIT, 0);
}

static void control_requests(void)
{
    const size_t part = offsetof(struct virtio_crypto_op_ctrl_req, u);

    /* flag at 8 is read by nobody, nor the field at 12: reserved in 001, queue_id in the kernel's header */
    FIELD(opcode, 0, virtio_crypto_ctrl_header, opcode);
    FIELD(form_checks, 0, virtio_crypto_ctrl_header, algo);
    NUMBER(new_entry, 0, sizeof(struct virtio_crypto_ctrl_header));
    same("fixed part of a control request", sizeof(struct virtio_crypto_ctrl_header), part);
    CONSTANT(CONTROL_HEADER, sizeof(struct virtio_crypto_ctrl_header));

    /* asked_1 to asked_4: cipher, hash, MAC, AEAD */
    FIELD(asked_1_algo, part, virtio_crypto_sym_create_session_req, u.cipher.para.algo);
    FIELD(asked_1_keylen, part, virtio_crypto_sym_create_session_req, u.cipher.para.keylen);
    FIELD(asked_1_direction, part, virtio_crypto_sym_create_session_req, u.cipher.para.op);
    FIELD(plain_create, part, virtio_crypto_sym_create_session_req, op_type);
    LIST(plain_create, VIRTIO_CRYPTO_SYM_OP_CIPHER);
    CONSTANT(OP_CIPHER, VIRTIO_CRYPTO_SYM_OP_CIPHER);

    FIELD(asked_2_algo, part, virtio_crypto_hash_session_para, algo);
    FIELD(asked_2_result, part, virtio_crypto_hash_session_para, hash_result_len);

    FIELD(asked_3_algo, part, virtio_crypto_mac_session_para, algo);
    FIELD(asked_3_result, part, virtio_crypto_mac_session_para, hash_result_len);
    FIELD(asked_3_keylen, part, virtio_crypto_mac_session_para, auth_key_len);

    /* 001 calls hash_result_len tag_len */
    FIELD(asked_4_algo, part, virtio_crypto_aead_session_para, algo);
    FIELD(asked_4_keylen, part, virtio_crypto_aead_session_para, key_len);
    FIELD(asked_4_result, part, virtio_crypto_aead_session_para, hash_result_len);
    FIELD(asked_4_aad, part, virtio_crypto_aead_session_para, aad_len);
    FIELD(asked_4_direction, part, virtio_crypto_aead_session_para, op);

    /* 001's fixed part of a hash ends before the kernel's padding */
    LIST(create_part, sizeof(struct virtio_crypto_sym_create_session_req), offsetof(struct virtio_crypto_hash_session_para, padding),
         sizeof(struct virtio_crypto_mac_session_para), sizeof(struct virtio_crypto_aead_session_para));
    LIST(create_part, VCRYPTO_CIPHER_CREATE_PART, VCRYPTO_HASH_CREATE_PART, VCRYPTO_MAC_CREATE_PART, VCRYPTO_AEAD_CREATE_PART);

    /* so does that of a destroy */
    FIELD(control_act, part, virtio_crypto_destroy_session_req, session_id);
    FIELD(destroy_checks, part, virtio_crypto_destroy_session_req, session_id);
    NUMBER(end_checks, 0, part + offsetof(struct virtio_crypto_destroy_session_req, padding));
    NUMBER(head_checks, 4, offsetof(struct virtio_crypto_destroy_session_req, padding));
    CONSTANT(DESTROY_PART, offsetof(struct virtio_crypto_destroy_session_req, padding));

    /* le 8 session_id, le 4 status, le 4 padding */
    NUMBER(control_outcome, 0, sizeof(struct virtio_crypto_session_input));
    same("session_id is first", 0, offsetof(struct virtio_crypto_session_input, session_id));
    NUMBER(control_outcome, 1, offsetof(struct virtio_crypto_session_input, status));
    NUMBER(control_outcome, 2, SIZE_OF(virtio_crypto_session_input, status));
    NUMBER(control_outcome, 3, SIZE_OF(virtio_crypto_session_input, padding));
    CONSTANT(CREATE_OUTCOME, sizeof(struct virtio_crypto_session_input));
    CONSTANT(DESTROY_OUTCOME, sizeof(struct virtio_crypto_inhdr));
}

static void data_requests(void)
{
    const size_t part = offsetof(struct virtio_crypto_op_data_req, u);

    /* algo at 4 and padding at 20 are read by nobody */
    FIELD(opcode, 0, virtio_crypto_op_header, opcode);
    FIELD(number, 0, virtio_crypto_op_header, session_id);
    FIELD(flag, 0, virtio_crypto_op_header, flag);
    NUMBER(start_of, 0, sizeof(struct virtio_crypto_op_header));
    same("fixed part of a data request", sizeof(struct virtio_crypto_op_header), part);
    CONSTANT(DATA_HEADER, sizeof(struct virtio_crypto_op_header));

    /* lengths_1 to lengths_3: cipher, AEAD, and both hash and MAC */
    FIELD(lengths_1_iv, part, virtio_crypto_sym_data_req, u.cipher.para.iv_len);
    FIELD(lengths_1_source, part, virtio_crypto_sym_data_req, u.cipher.para.src_data_len);
    FIELD(lengths_1_written, part, virtio_crypto_sym_data_req, u.cipher.para.dst_data_len);
    FIELD(plain_data, part, virtio_crypto_sym_data_req, op_type);
    LIST(plain_data, VIRTIO_CRYPTO_SYM_OP_CIPHER);

    FIELD(lengths_2_iv, part, virtio_crypto_aead_para, iv_len);
    FIELD(lengths_2_aad, part, virtio_crypto_aead_para, aad_len);
    FIELD(lengths_2_source, part, virtio_crypto_aead_para, src_data_len);
    FIELD(lengths_2_written, part, virtio_crypto_aead_para, dst_data_len);
    /* 001 has tag_len and a reserved field behind them, which the kernel's header has not */
    same("tag_len", READ_lengths_2_result, part + sizeof(struct virtio_crypto_aead_para));

    FIELD(lengths_3_source, part, virtio_crypto_hash_para, src_data_len);
    FIELD(lengths_3_written, part, virtio_crypto_hash_para, hash_result_len);
    FIELD(lengths_3_result, part, virtio_crypto_hash_para, hash_result_len);
    FIELD(lengths_3_source, part, virtio_crypto_mac_para, hash.src_data_len);
    FIELD(lengths_3_result, part, virtio_crypto_mac_para, hash.hash_result_len);

    /* hash and MAC are one number in the definition */
    LIST(data_part, sizeof(struct virtio_crypto_sym_data_req), sizeof(struct virtio_crypto_hash_para),
         sizeof(struct virtio_crypto_aead_para) + sizeof(__le32) + sizeof(__le32));
    same("fixed part of a MAC", sizeof(struct virtio_crypto_mac_para), sizeof(struct virtio_crypto_hash_para));
    LIST(data_part, VCRYPTO_CIPHER_DATA_PART, VCRYPTO_HASH_DATA_PART, VCRYPTO_AEAD_DATA_PART);
    CONSTANT(MAC_DATA_PART, sizeof(struct virtio_crypto_mac_para));
    CONSTANT(DATA_OUTCOME, sizeof(struct virtio_crypto_inhdr));
}

/* A field of a table of docs/RULES.md, by its rule. */
#define PAGE(rule, field, base, type, theirs)                                                              \
    do {                                                                                                   \
        same("rule " #rule ", offset of " #field, AT_##rule##_##field, (base) + offsetof(struct type, theirs)); \
        same("rule " #rule ", width of " #field, WIDTH_##rule##_##field, SIZE_OF(type, theirs));           \
    } while (0)

static void page_configuration(void)
{
    PAGE(4_1, status, 0, virtio_crypto_config, status);
    PAGE(4_1, max_dataqueues, 0, virtio_crypto_config, max_dataqueues);
    PAGE(4_1, crypto_services, 0, virtio_crypto_config, crypto_services);
    PAGE(4_1, cipher_algo_l, 0, virtio_crypto_config, cipher_algo_l);
    PAGE(4_1, cipher_algo_h, 0, virtio_crypto_config, cipher_algo_h);
    PAGE(4_1, hash_algo, 0, virtio_crypto_config, hash_algo);
    PAGE(4_1, mac_algo_l, 0, virtio_crypto_config, mac_algo_l);
    PAGE(4_1, mac_algo_h, 0, virtio_crypto_config, mac_algo_h);
    PAGE(4_1, aead_algo, 0, virtio_crypto_config, aead_algo);
    PAGE(4_1, max_cipher_key_len, 0, virtio_crypto_config, max_cipher_key_len);
    PAGE(4_1, max_auth_key_len, 0, virtio_crypto_config, max_auth_key_len);
    PAGE(4_1, reserved, 0, virtio_crypto_config, akcipher_algo);
    PAGE(4_1, max_size, 0, virtio_crypto_config, max_size);
}

static void page_control(void)
{
    const size_t part = offsetof(struct virtio_crypto_op_ctrl_req, u);
    PAGE(8_2, opcode, 0, virtio_crypto_ctrl_header, opcode);
    PAGE(8_2, algo, 0, virtio_crypto_ctrl_header, algo);
    PAGE(8_2, flag, 0, virtio_crypto_ctrl_header, flag);
    PAGE(8_2, reserved, 0, virtio_crypto_ctrl_header, queue_id);
    PAGE(8_3, algo, part, virtio_crypto_sym_create_session_req, u.cipher.para.algo);
    PAGE(8_3, key_len, part, virtio_crypto_sym_create_session_req, u.cipher.para.keylen);
    PAGE(8_3, op, part, virtio_crypto_sym_create_session_req, u.cipher.para.op);
    PAGE(8_3, op_type, part, virtio_crypto_sym_create_session_req, op_type);
    PAGE(8_4, algo, part, virtio_crypto_hash_session_para, algo);
    PAGE(8_4, hash_result_len, part, virtio_crypto_hash_session_para, hash_result_len);
    PAGE(8_5, algo, part, virtio_crypto_mac_session_para, algo);
    PAGE(8_5, hash_result_len, part, virtio_crypto_mac_session_para, hash_result_len);
    PAGE(8_5, auth_key_len, part, virtio_crypto_mac_session_para, auth_key_len);
    PAGE(8_6, algo, part, virtio_crypto_aead_session_para, algo);
    PAGE(8_6, key_len, part, virtio_crypto_aead_session_para, key_len);
    PAGE(8_6, tag_len, part, virtio_crypto_aead_session_para, hash_result_len);
    PAGE(8_6, aad_len, part, virtio_crypto_aead_session_para, aad_len);
    PAGE(8_6, op, part, virtio_crypto_aead_session_para, op);
    PAGE(8_7, session_id, part, virtio_crypto_destroy_session_req, session_id);
}

static void page_data(void)
{
    const size_t part = offsetof(struct virtio_crypto_op_data_req, u);
    PAGE(10_2, opcode, 0, virtio_crypto_op_header, opcode);
    PAGE(10_2, algo, 0, virtio_crypto_op_header, algo);
    PAGE(10_2, session_id, 0, virtio_crypto_op_header, session_id);
    PAGE(10_2, flag, 0, virtio_crypto_op_header, flag);
    PAGE(10_3, iv_len, part, virtio_crypto_sym_data_req, u.cipher.para.iv_len);
    PAGE(10_3, src_data_len, part, virtio_crypto_sym_data_req, u.cipher.para.src_data_len);
    PAGE(10_3, dst_data_len, part, virtio_crypto_sym_data_req, u.cipher.para.dst_data_len);
    PAGE(10_3, op_type, part, virtio_crypto_sym_data_req, op_type);
    PAGE(10_4, src_data_len, part, virtio_crypto_hash_para, src_data_len);
    PAGE(10_4, hash_result_len, part, virtio_crypto_hash_para, hash_result_len);
    PAGE(10_5, iv_len, part, virtio_crypto_aead_para, iv_len);
    PAGE(10_5, aad_len, part, virtio_crypto_aead_para, aad_len);
    PAGE(10_5, src_data_len, part, virtio_crypto_aead_para, src_data_len);
    PAGE(10_5, dst_data_len, part, virtio_crypto_aead_para, dst_data_len);
    /* behind the kernel's structure */
    same("rule 10_5, tag_len", AT_10_5_tag_len, part + sizeof(struct virtio_crypto_aead_para));
    same("rule 10_5, reserved", AT_10_5_reserved, part + sizeof(struct virtio_crypto_aead_para) + WIDTH_10_5_tag_len);
    same("rule 10_5, its end", AT_10_5_reserved + WIDTH_10_5_reserved, VCRYPTO_DATA_HEADER + VCRYPTO_AEAD_DATA_PART);
}

static void numbers(void)
{
    LIST(cipher, VIRTIO_CRYPTO_SERVICE_CIPHER);
    LIST(hash, VIRTIO_CRYPTO_SERVICE_HASH);
    LIST(mac, VIRTIO_CRYPTO_SERVICE_MAC);
    LIST(aead, VIRTIO_CRYPTO_SERVICE_AEAD);
    LIST(encrypt, VIRTIO_CRYPTO_OP_ENCRYPT);
    LIST(decrypt, VIRTIO_CRYPTO_OP_DECRYPT);
    CONSTANT(CIPHER, VIRTIO_CRYPTO_SERVICE_CIPHER);
    CONSTANT(HASH, VIRTIO_CRYPTO_SERVICE_HASH);
    CONSTANT(MAC, VIRTIO_CRYPTO_SERVICE_MAC);
    CONSTANT(AEAD, VIRTIO_CRYPTO_SERVICE_AEAD);
    CONSTANT(DIR_ENCRYPT, VIRTIO_CRYPTO_OP_ENCRYPT);
    CONSTANT(DIR_DECRYPT, VIRTIO_CRYPTO_OP_DECRYPT);

    LIST(opcode_ok, VIRTIO_CRYPTO_CIPHER_CREATE_SESSION, VIRTIO_CRYPTO_CIPHER_DESTROY_SESSION, VIRTIO_CRYPTO_HASH_CREATE_SESSION,
         VIRTIO_CRYPTO_HASH_DESTROY_SESSION, VIRTIO_CRYPTO_MAC_CREATE_SESSION, VIRTIO_CRYPTO_MAC_DESTROY_SESSION, VIRTIO_CRYPTO_AEAD_CREATE_SESSION,
         VIRTIO_CRYPTO_AEAD_DESTROY_SESSION);
    LIST(opcode_ok, VCRYPTO_CIPHER_CREATE, VCRYPTO_CIPHER_DESTROY, VCRYPTO_HASH_CREATE, VCRYPTO_HASH_DESTROY, VCRYPTO_MAC_CREATE, VCRYPTO_MAC_DESTROY,
         VCRYPTO_AEAD_CREATE, VCRYPTO_AEAD_DESTROY);
    LIST(operation_ok, VIRTIO_CRYPTO_CIPHER_ENCRYPT, VIRTIO_CRYPTO_CIPHER_DECRYPT, VIRTIO_CRYPTO_HASH, VIRTIO_CRYPTO_MAC, VIRTIO_CRYPTO_AEAD_ENCRYPT,
         VIRTIO_CRYPTO_AEAD_DECRYPT);
    LIST(operation_ok, VCRYPTO_CIPHER_ENCRYPT, VCRYPTO_CIPHER_DECRYPT, VCRYPTO_HASH_DATA, VCRYPTO_MAC_DATA, VCRYPTO_AEAD_ENCRYPT, VCRYPTO_AEAD_DECRYPT);
    LIST(service_of, VIRTIO_CRYPTO_OPCODE(1, 0));
    NUMBER(status, 0, VIRTIO_CRYPTO_AEAD_DECRYPT);

    LIST(ciphers, VIRTIO_CRYPTO_CIPHER_AES_ECB, VIRTIO_CRYPTO_CIPHER_AES_CBC, VIRTIO_CRYPTO_CIPHER_AES_CTR, VIRTIO_CRYPTO_CIPHER_3DES_CBC,
         VIRTIO_CRYPTO_CIPHER_AES_XTS);
    LIST(hashes, VIRTIO_CRYPTO_HASH_MD5, VIRTIO_CRYPTO_HASH_SHA1, VIRTIO_CRYPTO_HASH_SHA_224, VIRTIO_CRYPTO_HASH_SHA_256, VIRTIO_CRYPTO_HASH_SHA_384,
         VIRTIO_CRYPTO_HASH_SHA_512);
    LIST(macs, VIRTIO_CRYPTO_MAC_HMAC_MD5, VIRTIO_CRYPTO_MAC_HMAC_SHA1, VIRTIO_CRYPTO_MAC_HMAC_SHA_224, VIRTIO_CRYPTO_MAC_HMAC_SHA_256,
         VIRTIO_CRYPTO_MAC_HMAC_SHA_384, VIRTIO_CRYPTO_MAC_HMAC_SHA_512, VIRTIO_CRYPTO_MAC_CMAC_AES);
    LIST(aeads, VIRTIO_CRYPTO_AEAD_GCM, VIRTIO_CRYPTO_AEAD_CCM, VIRTIO_CRYPTO_AEAD_CHACHA20_POLY1305);
    LIST(ciphers, VCRYPTO_AES_ECB, VCRYPTO_AES_CBC, VCRYPTO_AES_CTR, VCRYPTO_3DES_CBC, VCRYPTO_AES_XTS);
    LIST(hashes, VCRYPTO_MD5, VCRYPTO_SHA1, VCRYPTO_SHA_224, VCRYPTO_SHA_256, VCRYPTO_SHA_384, VCRYPTO_SHA_512);
    LIST(macs, VCRYPTO_HMAC_MD5, VCRYPTO_HMAC_SHA1, VCRYPTO_HMAC_SHA_224, VCRYPTO_HMAC_SHA_256, VCRYPTO_HMAC_SHA_384, VCRYPTO_HMAC_SHA_512,
         VCRYPTO_CMAC_AES);
    LIST(aeads, VCRYPTO_GCM, VCRYPTO_CCM, VCRYPTO_CHACHA20_POLY1305);
    CONSTANT(ALL_SERVICES, MASK(NUMBERS_cipher, NUMBERS_hash, NUMBERS_mac, NUMBERS_aead));
    CONSTANT(ALL_CIPHERS, MASK(NUMBERS_ciphers));
    CONSTANT(ALL_HASHES, MASK(NUMBERS_hashes));
    CONSTANT(ALL_MACS, MASK(NUMBERS_macs));
    CONSTANT(ALL_AEADS, MASK(NUMBERS_aeads));

    /* the kernel's KEY_REJECTED, 6, is of the asymmetric service */
    LIST(ok, VIRTIO_CRYPTO_OK);
    LIST(err, VIRTIO_CRYPTO_ERR);
    LIST(badmsg, VIRTIO_CRYPTO_BADMSG);
    LIST(notsupp, VIRTIO_CRYPTO_NOTSUPP);
    LIST(invsess, VIRTIO_CRYPTO_INVSESS);
    LIST(nospc, VIRTIO_CRYPTO_NOSPC);
    LIST(ok, VCRYPTO_OK);
    LIST(err, VCRYPTO_ERR);
    LIST(badmsg, VCRYPTO_BADMSG);
    LIST(notsupp, VCRYPTO_NOTSUPP);
    LIST(invsess, VCRYPTO_INVSESS);
    LIST(nospc, VCRYPTO_NOSPC);
    same("the status of a data request", 1, sizeof(struct virtio_crypto_inhdr));

    /* the device's own answers, and its sizes */
    LIST(bad_guest, VCRYPTO_BAD_GUEST);
    LIST(no_outcome, VCRYPTO_NO_OUTCOME);
    LIST(bad_store, VCRYPTO_BAD_STORE);
    LIST(bad_feature, VCRYPTO_BAD_FEATURE);
    LIST(bad_shares, VCRYPTO_BAD_SHARES);
    LIST(bad_config, VCRYPTO_BAD_CONFIG);
    LIST(slot_count, VCRYPTO_SLOTS);
    LIST(area_size, VCRYPTO_KEY_AREA);
    LIST(store_size, VCRYPTO_STORE_SIZE);
    NUMBER(present, 0, VCRYPTO_GUESTS);
    /* the one value that each is compared with: eqb word 1, eqb flag 1 */
    NUMBER(attach_checks, 1, VCRYPTO_REVISION_1);
    NUMBER(operation_checks, 3, VCRYPTO_SESSION_MODE);
}

int main(void)
{
    configuration();
    control_requests();
    data_requests();
    page_configuration();
    page_control();
    page_data();
    numbers();
    return wrong;
}
