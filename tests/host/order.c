/* In what order a control request's buffers are written, seen on pages that may not be written at first: all outcome bytes, then the key store. And what a
 * create stores where the outcome bytes overlap the request, against rule 12.2: the session that was checked. */
#define _GNU_SOURCE
#include "guest.h"

#include <signal.h>
#include <stdlib.h>
#include <sys/mman.h>

enum { GUEST = 2, PAGE = 4096, FIXED = VCRYPTO_CONTROL_HEADER + VCRYPTO_CIPHER_CREATE_PART, KEY = 32 };

static uint8_t *outcome, *store;                     /* on pages of their own */
static char order[8];                                /* which was written first and which next: o and s */
static uint8_t before_store[VCRYPTO_CREATE_OUTCOME]; /* the outcome as it was when the store was first written */

static bool within(const void *at, const uint8_t *start, size_t size)
{
    return (uintptr_t)at - (uintptr_t)start < size;
}

/* The first write to either: it is noted, and allowed from now on. */
static void written(int number, siginfo_t *info, void *context)
{
    (void)number, (void)context;
    bool first = within(info->si_addr, outcome, PAGE);
    if (!first && !within(info->si_addr, store, VCRYPTO_STORE_SIZE))
        _Exit(2);
    order[strlen(order)] = first ? 'o' : 's';
    if (!first)
        memcpy(before_store, outcome, sizeof before_store);
    mprotect(first ? outcome : store, first ? PAGE : VCRYPTO_STORE_SIZE, PROT_READ | PROT_WRITE);
}

static uint8_t *pages(size_t size)
{
    uint8_t *at = mmap(NULL, size, PROT_READ | PROT_WRITE, MAP_PRIVATE | MAP_ANONYMOUS, -1, 0);
    if (at == MAP_FAILED)
        exit(2);
    return at;
}

static struct vcrypto_table control(const char *what, struct vcrypto_table table, const uint8_t *request, size_t size, size_t room, uint8_t answer,
                                    const char *expected)
{
    memset(order, 0, sizeof order);
    mprotect(outcome, PAGE, PROT_READ | PROT_WRITE);
    memset(outcome, 0xee, PAGE);
    mprotect(outcome, PAGE, PROT_READ);
    mprotect(store, VCRYPTO_STORE_SIZE, PROT_READ);
    struct vcrypto_reply reply = vcrypto_control(table, GUEST, request, size, outcome, room, store, VCRYPTO_STORE_SIZE);
    if (reply.answer != answer || strcmp(order, expected) != 0) {
        printf("tests/host: %s: answer %u, written %s, expected %u and %s\n", what, reply.answer, order, answer, expected);
        wrong = 1;
    }
    if (strchr(order, 's') && memcmp(before_store, outcome, sizeof before_store) != 0) {
        printf("tests/host: %s: the key store is written before the whole outcome\n", what);
        wrong = 1;
    }
    return reply.table;
}

/* The create again, in slot 0, with its outcome in the request itself from byte `at` on: up to the key, which the outcome would change. */
static void overlap(struct vcrypto_table table, const uint8_t *create, size_t at)
{
    uint8_t request[FIXED + KEY];
    memcpy(request, create, sizeof request);
    memset(store, 0xee, VCRYPTO_KEY_AREA);
    struct vcrypto_reply reply =
        vcrypto_control(table, GUEST, request, sizeof request, request + at, VCRYPTO_CREATE_OUTCOME, store, VCRYPTO_STORE_SIZE);
    const struct vcrypto_slot *x = &reply.table.slots[0];
    if (reply.answer != VCRYPTO_OK || x->service != VCRYPTO_CIPHER || x->algo != VCRYPTO_AES_CBC || x->direction != VCRYPTO_DIR_ENCRYPT || x->keylen != KEY ||
        memcmp(store, create + FIXED, KEY) != 0) {
        printf("tests/host: outcome from byte %zu: answer %u, algo %u, direction %u, key length %u, or another key\n", at, reply.answer, x->algo,
               x->direction, x->keylen);
        wrong = 1;
    }
}

int main(void)
{
    static const struct vcrypto_config config = {
        .status = VCRYPTO_READY, .queues = 1, .services = 1u << VCRYPTO_CIPHER, .ciphers = 1u << VCRYPTO_AES_CBC, .cipherkey = 64, .size = 65536};
    const uint8_t shares[VCRYPTO_GUESTS] = {8, 8, 8, 8, 8, 8, 8, 8};
    outcome = pages(PAGE);
    store = pages(VCRYPTO_STORE_SIZE);
    struct sigaction action = {.sa_sigaction = written, .sa_flags = SA_SIGINFO};
    sigaction(SIGSEGV, &action, NULL);

    struct vcrypto_table fresh = vcrypto_set_up((const uint8_t *)&config, sizeof config, shares, shares, store, VCRYPTO_STORE_SIZE).table;
    struct vcrypto_table attached = vcrypto_attach(fresh, GUEST, VCRYPTO_REVISION_1, store, VCRYPTO_STORE_SIZE).table;

    uint8_t create[FIXED + KEY] = {0}, destroy[VCRYPTO_CONTROL_HEADER + VCRYPTO_DESTROY_PART] = {0};
    put_le32(create + 0, VCRYPTO_CIPHER_CREATE);
    put_le32(create + 4, VCRYPTO_AES_CBC);
    put_le32(create + 16, VCRYPTO_AES_CBC);
    put_le32(create + 20, KEY);
    put_le32(create + 24, VCRYPTO_DIR_ENCRYPT);
    put_le32(create + 64, VCRYPTO_OP_CIPHER);
    for (int i = 0; i < KEY; i++)
        create[FIXED + i] = (uint8_t)(i + 1);
    put_le32(destroy + 0, VCRYPTO_CIPHER_DESTROY);
    put_le64(destroy + 16, 1);

    struct vcrypto_table created = control("a create", attached, create, sizeof create, VCRYPTO_CREATE_OUTCOME, VCRYPTO_OK, "os");
    struct vcrypto_table freed = control("a destroy", created, destroy, sizeof destroy, VCRYPTO_DESTROY_OUTCOME, VCRYPTO_OK, "os");
    control("a destroy of no session", freed, destroy, sizeof destroy, VCRYPTO_DESTROY_OUTCOME, VCRYPTO_ERR, "o");
    control("a create with a byte missing", freed, create, sizeof create - 1, VCRYPTO_CREATE_OUTCOME, VCRYPTO_ERR, "o");
    control("no place for an outcome", freed, create, sizeof create, 2, VCRYPTO_NO_OUTCOME, "");

    mprotect(store, VCRYPTO_STORE_SIZE, PROT_READ | PROT_WRITE);
    for (size_t at = 0; at + VCRYPTO_CREATE_OUTCOME <= FIXED; at++)
        overlap(attached, create, at);
    return wrong;
}
