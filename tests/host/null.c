/* A buffer of length 0 may be a null pointer: each call with null for each buffer that may be empty answers as with a pointer that is not null, and
 * neither changes anything. */
#include "guest.h"
#include "serve.h"

static const struct vcrypto_config config = {
    .status = VCRYPTO_READY,
    .queues = 1,
    .services = 1u << VCRYPTO_HASH,
    .hashes = 1u << VCRYPTO_MD5,
    .size = 65536,
};

static struct host host;
static uint8_t here[1]; /* not null, and of no use */

static int same_table(const struct vcrypto_table *a, const struct vcrypto_table *b)
{
    int same = memcmp(&a->config, &b->config, sizeof a->config) == 0 && a->occupied.low == b->occupied.low && a->occupied.high == b->occupied.high;
    for (int i = 0; i < VCRYPTO_SLOTS; i++) {
        const struct vcrypto_slot *x = &a->slots[i], *y = &b->slots[i];
        same = same && x->number == y->number && x->aad == y->aad && x->owner == y->owner && x->service == y->service && x->algo == y->algo &&
               x->direction == y->direction && x->keylen == y->keylen && x->result == y->result;
    }
    for (int i = 0; i < VCRYPTO_GUESTS; i++) {
        const struct vcrypto_guest *x = &a->guests[i], *y = &b->guests[i];
        same = same && x->attached == y->attached && x->reserve == y->reserve && x->cap == y->cap && x->last == y->last;
    }
    return same;
}

static void answers(const char *what, struct vcrypto_reply with_null, struct vcrypto_reply without, uint8_t answer, const struct vcrypto_table *table)
{
    if (with_null.answer != answer || without.answer != answer || !same_table(&with_null.table, table) || !same_table(&without.table, table)) {
        printf("tests/host: %s: %u with null, %u without, expected %u, or another table\n", what, with_null.answer, without.answer, answer);
        wrong = 1;
    }
}

static void is(const char *what, uint64_t with_null, uint64_t without, uint64_t expected)
{
    if (with_null != expected || without != expected) {
        printf("tests/host: %s: %llu with null, %llu without, expected %llu\n", what, (unsigned long long)with_null, (unsigned long long)without,
               (unsigned long long)expected);
        wrong = 1;
    }
}

static void set_up_and_attach(void)
{
    static const struct vcrypto_table empty;
    const uint8_t shares[VCRYPTO_GUESTS] = {8, 8, 8, 8, 8, 8, 8, 8};
    uint8_t *s = host.store;
    answers("set-up, configuration", vcrypto_set_up(NULL, 0, shares, shares, s, VCRYPTO_STORE_SIZE), vcrypto_set_up(here, 0, shares, shares, s, VCRYPTO_STORE_SIZE),
            VCRYPTO_BAD_CONFIG, &empty);
    answers("set-up, store", vcrypto_set_up(NULL, 0, shares, shares, NULL, 0), vcrypto_set_up(here, 0, shares, shares, here, 0), VCRYPTO_BAD_STORE, &empty);
    answers("attach", vcrypto_attach(host.table, 0, 1, NULL, 0), vcrypto_attach(host.table, 0, 1, here, 0), VCRYPTO_BAD_STORE, &host.table);
}

static void control(const uint8_t *create, size_t size)
{
    const struct vcrypto_table *t = &host.table;
    uint8_t *s = host.store, one[VCRYPTO_CREATE_OUTCOME], two[VCRYPTO_CREATE_OUTCOME];
    memset(one, 0xee, sizeof one);
    memset(two, 0xee, sizeof two);
    answers("control, readable", vcrypto_control(*t, 0, NULL, 0, one, sizeof one, s, VCRYPTO_STORE_SIZE), vcrypto_control(*t, 0, here, 0, two, sizeof two, s, VCRYPTO_STORE_SIZE),
            VCRYPTO_ERR, t);
    is("its outcome", get_le64(one) + one[8], get_le64(two) + two[8], VCRYPTO_ERR);
    answers("control, writable", vcrypto_control(*t, 0, create, size, NULL, 0, s, VCRYPTO_STORE_SIZE), vcrypto_control(*t, 0, create, size, here, 0, s, VCRYPTO_STORE_SIZE),
            VCRYPTO_NO_OUTCOME, t);
    answers("control, store", vcrypto_control(*t, 0, create, size, one, sizeof one, NULL, 0), vcrypto_control(*t, 0, create, size, two, sizeof two, here, 0), VCRYPTO_BAD_STORE, t);
    answers("control, all", vcrypto_control(*t, 0, NULL, 0, NULL, 0, NULL, 0), vcrypto_control(*t, 0, here, 0, here, 0, here, 0), VCRYPTO_BAD_STORE, t);
}

static uint64_t place(struct vcrypto_span span)
{
    return span.start + span.size;
}

static void data(const uint8_t *request, size_t size)
{
    const struct vcrypto_table t = host.table;
    uint8_t one[1] = {0xee}, two[1] = {0xee};
    is("admit, readable", vcrypto_admit(t, 0, NULL, 0, one, 1).answer, vcrypto_admit(t, 0, here, 0, two, 1).answer, VCRYPTO_ERR);
    is("its status", one[0], two[0], VCRYPTO_ERR);
    is("admit, writable", vcrypto_admit(t, 0, request, size, NULL, 0).answer, vcrypto_admit(t, 0, request, size, here, 0).answer, VCRYPTO_NO_OUTCOME);
    is("iv", place(vcrypto_iv(t, 0, NULL, 0, one, 1)), place(vcrypto_iv(t, 0, request, size, NULL, 0)), 0);
    is("source", place(vcrypto_source(t, 0, NULL, 0, one, 1)), place(vcrypto_source(t, 0, request, size, NULL, 0)), 0);
    is("aad", place(vcrypto_aad(t, 0, NULL, 0, one, 1)), place(vcrypto_aad(t, 0, request, size, NULL, 0)), 0);
    is("key answer", vcrypto_key_answer(t, 0, 1, NULL, 0), vcrypto_key_answer(t, 0, 1, here, 0), VCRYPTO_BAD_STORE);
    is("key", place(vcrypto_key(t, 0, 1, NULL, 0)), place(vcrypto_key(t, 0, 1, here, 0)), 0);
    is("finish", vcrypto_finish(t, 0, 0, 0, NULL, 0), vcrypto_finish(t, 0, 0, 0, here, 0), VCRYPTO_NO_OUTCOME);
}

int main(void)
{
    /* a hash session, and a request for it that is accepted with its buffers whole */
    uint8_t create[24] = {0}, request[32] = {0}, outcome[VCRYPTO_CREATE_OUTCOME], done[16 + VCRYPTO_DATA_OUTCOME], before[VCRYPTO_STORE_SIZE];
    put_le32(create + 0, VCRYPTO_HASH_CREATE);
    put_le32(create + 4, VCRYPTO_MD5);
    put_le32(create + 16, VCRYPTO_MD5);
    put_le32(create + 20, 16);
    put_le32(request + 0, VCRYPTO_HASH_DATA);
    put_le64(request + 8, 1);
    put_le32(request + 16, VCRYPTO_SESSION_MODE);
    put_le32(request + 28, 16);
    uint8_t answer = host_start(&host, &config) | host_attach(&host, 0);
    answer |= host_control(&host, 0, create, sizeof create, outcome, sizeof outcome);
    answer |= vcrypto_admit(host.table, 0, request, sizeof request, done, sizeof done).answer;
    is("the session", answer, answer, VCRYPTO_OK);

    memcpy(before, host.store, sizeof before);
    set_up_and_attach();
    control(create, sizeof create);
    data(request, sizeof request);
    is("the store", memcmp(before, host.store, sizeof before) != 0, here[0], 0);
    return wrong;
}
