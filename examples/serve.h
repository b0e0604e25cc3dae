/* A host: what it keeps, and what it does with each request. The examples' guests call it in the place of queues. */
#ifndef SERVE_H
#define SERVE_H

#include "vcrypto.h"

/* The table that the last call returned, and the one key store. */
struct host {
    struct vcrypto_table table;
    uint8_t store[VCRYPTO_STORE_SIZE];
};

/* Each gives the library's answer. A request's readable bytes are the host's own copy: the guest can no longer change them. */
uint8_t host_start(struct host *h, const struct vcrypto_config *config);
uint8_t host_attach(struct host *h, uint8_t guest);
uint8_t host_control(struct host *h, uint8_t guest, const uint8_t *readable, size_t readable_len, uint8_t *writable, size_t writable_len);
uint8_t host_data(struct host *h, uint8_t guest, const uint8_t *readable, size_t readable_len, uint8_t *writable, size_t writable_len);

/* The session that an accepted data request names: the held slot with this owner and number. */
const struct vcrypto_slot *find_session(const struct vcrypto_table *t, uint8_t guest, uint64_t number);

#endif
