#!/usr/bin/env python3
"""Writes the traces of this folder and, beside each, what replay must print: every answer is given here, by hand, from the papers."""
import pathlib
import struct

HERE = pathlib.Path(__file__).parent
ATTACH, CONTROL, DATA = 0, 1, 2
CIPHER, HASH, MAC, AEAD = 0, 1, 2, 3
AES_CBC, SHA_256, HMAC_SHA_256, GCM = 3, 4, 4, 1
ENCRYPT, DECRYPT = 1, 2
BAD = "bad trace\n"


def words(*xs):
    return struct.pack("<%dI" % len(xs), *xs)


def store(name, trace, printed):
    (HERE / (name + ".trace")).write_bytes(trace)
    (HERE / (name + ".out")).write_text(printed)
    return len(trace), len(printed)


class Trace:
    def __init__(self, before=b""):
        self.before, self.records, self.answers = before, b"", []

    def add(self, kind, guest, readable, writable, answer):
        self.records += struct.pack("<BBHH", kind, guest, len(readable), writable) + readable
        self.answers.append(answer)

    def attach(self, guest, answer, word=1):
        self.add(ATTACH, guest, words(word), 0, answer)

    def control(self, guest, readable, answer, writable=16):
        self.add(CONTROL, guest, readable, writable, answer)

    def data(self, guest, readable, writable, answer):
        self.add(DATA, guest, readable, writable, answer)

    def write(self, name, distance=None, count=None, good=True):
        trailer = words(len(self.records) if distance is None else distance, len(self.answers) if count is None else count)
        lines = ["%d %d\n" % (i, a) for i, a in enumerate(self.answers)]
        lines.append("done %d %d\n" % (len(self.answers), self.answers.count(0)))
        return store(name, self.before + self.records + trailer, "".join(lines) if good else BAD)


# ---- requests: control header 16 bytes, data header 24


def create(service, algo, fixed, key=b""):
    return words(service * 256 + 2, algo, 0, 0) + fixed + key


def cbc_create(key, direction=ENCRYPT):
    return create(CIPHER, AES_CBC, words(AES_CBC, len(key), direction, 0) + bytes(32) + words(1, 0), key)


def hash_create(result=32):
    return create(HASH, SHA_256, words(SHA_256, result))


def mac_create(key, result=32):
    return create(MAC, HMAC_SHA_256, words(HMAC_SHA_256, result, len(key), 0), key)


def gcm_create(key, tag=16, aad=20, direction=ENCRYPT):
    return create(AEAD, GCM, words(GCM, len(key), tag, aad, direction, 0), key)


def destroy(service, number):
    return words(service * 256 + 3, 0, 0, 0) + struct.pack("<Q", number)


def header(opcode, number, flag=1):
    return words(opcode, 0) + struct.pack("<Q", number) + words(flag, 0)


def cbc_data(number, source, opcode=0, flag=1):
    return header(opcode, number, flag) + words(16, source, source, 0) + bytes(24) + words(1, 0) + bytes(16 + source)


def hash_data(number, source, result=32):
    return header(0x100, number) + words(source, result) + bytes(source)


def aead_data(opcode, number, source, destination, iv, aad, tag):
    return header(opcode, number) + words(iv, aad, source, destination, tag, 0) + bytes(iv + source + aad)


def gcm_data(number, source, aad=20):
    return aead_data(0x300, number, source, source + 16, 12, aad, 16)


def gcm_decrypt(number, source, destination):
    return aead_data(0x301, number, source, destination, 12, 20, 16)


# ---- the traces

t = Trace()
t.attach(0, 0)
t.control(0, create(HASH, 4, words(4, 32)), 0)
t.write("example")

Trace().write("empty")

# a long key, its session destroyed, a short key in the same slot; the old number is dead
t = Trace()
t.attach(3, 0)
t.control(3, cbc_create(bytes(range(1, 33))), 0)
t.data(3, cbc_data(1, 32), 33, 0)
t.control(3, destroy(CIPHER, 1), 0, writable=1)
t.control(3, cbc_create(bytes(range(101, 117))), 0)
t.data(3, cbc_data(1, 32), 33, 4)
t.data(3, cbc_data(2, 32), 33, 0)
t.control(3, destroy(CIPHER, 1), 1, writable=1)
t.write("pharmacy")

# every answer that replay can give: 0, 1, 3, 4, 5, 16, 17, 19
t = Trace(before=b"bytes before the first record are skipped")
t.control(0, cbc_create(bytes(16)), 16)
t.data(0, cbc_data(1, 32), 33, 16)
t.attach(8, 16)
t.attach(0, 19, word=0)
t.attach(0, 19, word=3)
t.attach(0, 0)
t.control(8, cbc_create(bytes(16)), 16)
t.control(0, cbc_create(bytes(16)), 17, writable=2)
t.control(0, cbc_create(bytes(16)), 17, writable=0)
t.control(0, b"", 1)
t.control(0, words(4, 0, 0, 0), 3)
t.control(0, words(0x402, 0, 0, 0), 3)
t.control(0, cbc_create(bytes(16)), 1, writable=1)
t.control(0, cbc_create(bytes(16))[:-1], 1)
t.control(0, cbc_create(bytes(20)), 1)
t.control(0, cbc_create(bytes(16), direction=3), 1)
t.control(0, create(CIPHER, 5, words(5, 16, 1, 0) + bytes(32) + words(1, 0), bytes(16)), 3)
t.control(0, cbc_create(bytes(16)), 0)
t.control(0, hash_create(), 0)
t.control(0, mac_create(bytes(64)), 0)
t.control(0, mac_create(b""), 1)
t.control(0, mac_create(bytes(65)), 1)
t.control(0, gcm_create(bytes(16)), 0)
t.control(0, gcm_create(bytes(16), tag=5), 1)
t.data(0, cbc_data(1, 32), 33, 0)
t.data(0, cbc_data(1, 31), 32, 1)
t.data(0, cbc_data(1, 32), 32, 1)
t.data(0, cbc_data(1, 32), 0, 17)
t.data(0, cbc_data(1, 32)[:23], 33, 1)
t.data(0, cbc_data(1, 32, opcode=1), 33, 4)
t.data(0, cbc_data(2, 32), 33, 4)
t.data(0, cbc_data(5, 32), 33, 4)
t.data(0, cbc_data(2**32 + 1, 32), 33, 4)
t.data(0, cbc_data(1, 32, flag=0), 33, 3)
t.data(0, cbc_data(1, 32, flag=2), 33, 1)
t.data(0, cbc_data(1, 32, opcode=2), 33, 3)
t.data(0, hash_data(2, 7), 33, 0)
t.data(0, hash_data(2, 7, result=31), 32, 1)
t.data(0, gcm_data(4, 100), 117, 0)
t.data(0, gcm_data(4, 100, aad=19), 117, 1)
t.data(1, gcm_data(4, 100), 117, 16)
t.control(0, destroy(HASH, 1), 1, writable=1)
t.control(0, destroy(CIPHER, 9), 1, writable=1)
t.control(0, destroy(CIPHER, 1), 1)
t.control(0, destroy(CIPHER, 1), 0, writable=1)
t.data(0, cbc_data(1, 32), 33, 4)
# cap 32: three sessions are held
for _ in range(29):
    t.control(0, hash_create(), 0)
t.control(0, hash_create(), 5)
# the reset: none is held, and the numbers start again from 1
t.attach(0, 0)
t.data(0, hash_data(2, 7), 33, 4)
t.control(0, hash_create(), 0)
t.data(0, hash_data(1, 7), 33, 0)
t.write("answers")

# guests take all that they get, then more: caps of 32, and a share of the slots that leaves the others their unmet reserves
t = Trace()
for g in range(4):
    t.attach(g, 0)
taken = 0
for g in range(4):
    for i in range(33):
        granted = i < 32 and (i < 8 or taken + 8 * (7 - g) < 128)
        t.control(g, hash_create(), 0 if granted else 5)
        taken += granted
for g in range(4, 8):
    t.attach(g, 0)
    for i in range(9):
        granted = i < 8
        t.control(g, hash_create(), 0 if granted else 5)
t.write("reserves")

# the largest request that a trace can carry, in one of 65,536 bytes: 4,096 writable bytes, and as much AAD as is left, which is read and not written;
# IV, source, AAD and destination are 69,497 bytes in sum, which ticket K12 allows
t = Trace()
t.attach(0, 0)
t.control(0, gcm_create(bytes(16), aad=61311), 0)
t.data(0, gcm_data(1, 4079, aad=61311), 4096, 0)
size, _ = t.write("largest")
assert size == 65536, size

# the longest output: as many records as fit, of a head alone, each refused with two digits since the guest never attached; two bytes are left over
t = Trace(before=bytes(2))
for _ in range(10921):
    t.data(0, b"", 0, 16)
sizes = t.write("longest")
assert sizes == (65536, 87192), sizes

# ticket K4: a decryption reads ciphertext and tag, and writes what the source has more than the tag; an encryption writes its tag
t = Trace()
t.attach(0, 0)
t.control(0, gcm_create(bytes(16), direction=DECRYPT), 0)
t.control(0, gcm_create(bytes(16), direction=ENCRYPT), 0)
t.data(0, gcm_decrypt(1, 116, 100), 101, 0)
t.data(0, gcm_decrypt(1, 16, 0), 1, 0)
t.data(0, gcm_decrypt(1, 15, 0), 1, 1)
t.data(0, gcm_decrypt(1, 0, 0), 1, 1)
t.data(0, gcm_decrypt(1, 116, 99), 100, 1)
t.data(0, gcm_decrypt(1, 116, 116), 117, 1)
t.data(0, gcm_decrypt(1, 100, 116), 117, 1)
t.data(0, gcm_decrypt(2, 116, 100), 101, 4)
t.data(0, gcm_data(2, 100), 117, 0)
t.data(0, gcm_data(2, 0), 17, 0)
t.data(0, aead_data(0x300, 2, 116, 100, 12, 20, 16), 101, 1)
t.write("decryption")

# ---- bad ones

t = Trace()
t.attach(0, 0)
t.control(0, hash_create(), 0)
t.write("bad-count", count=3, good=False)
t.write("bad-distance", distance=len(t.records) + 1, good=False)
t = Trace()
t.add(3, 0, b"", 0, 0)
t.write("bad-kind", good=False)
t = Trace()
t.add(ATTACH, 0, words(1) + b"\0", 0, 0)
t.write("bad-attach", good=False)
t = Trace()
t.attach(0, 0)
t.add(DATA, 0, b"", 4097, 0)
t.write("bad-writable", good=False)
size, _ = Trace(before=bytes(65529)).write("bad-length", good=False)
assert size == 65537, size
store("bad-empty", b"", BAD)
