/* The sizes and places of the header's structures on x86-64, as libvcrypto.a lays them out. */
#include "vcrypto.h"

#define SIZE(name, n) _Static_assert(sizeof(struct vcrypto_##name) == (n), #name " has another size")
#define AT(name, field, n) _Static_assert(offsetof(struct vcrypto_##name, field) == (n), #name "." #field " stands elsewhere")

SIZE(config, VCRYPTO_CONFIG_SIZE);
SIZE(occupied, 16);
SIZE(slot, 24);
SIZE(guest, 16);
SIZE(table, VCRYPTO_TABLE_SIZE);
SIZE(reply, 8 + VCRYPTO_TABLE_SIZE);
SIZE(admission, 24);
SIZE(span, 16);

AT(config, size, 48);
AT(slot, aad, 8);
AT(slot, owner, 12);
AT(slot, result, 17);
AT(guest, last, 8);
AT(occupied, high, 8);
AT(table, occupied, VCRYPTO_CONFIG_SIZE);
AT(table, slots, VCRYPTO_CONFIG_SIZE + 16);
AT(table, guests, VCRYPTO_CONFIG_SIZE + 16 + VCRYPTO_SLOTS * 24);
AT(reply, table, 8);
AT(admission, number, 8);
AT(admission, opcode, 16);
AT(span, size, 8);

_Static_assert(VCRYPTO_TABLE_SIZE == 3272, "the table's size is written elsewhere too");
_Static_assert(VCRYPTO_STORE_SIZE == VCRYPTO_SLOTS * 128, "a slot has 128 key bytes");
