//! A host in Rust: guest 7 makes an HMAC-SHA-256 session with a key of 40 bytes and has a text authenticated. The card is a stand-in that mixes bytes.
//! README.md says how to build it.
mod vcrypto;

use vcrypto::{HMAC_SHA_256, MAC_CREATE, MAC_DATA, OK, READY, REVISION_1, SESSION_MODE};

const RESULT: usize = 32;

fn put32(bytes: &mut [u8], at: usize, x: u32) {
    bytes[at..at + 4].copy_from_slice(&x.to_le_bytes());
}

/// The front of a request: fields of 32 bits at their offsets, 0 elsewhere.
fn fields(size: usize, fields: &[(usize, u32)]) -> Vec<u8> {
    let mut bytes = vec![0; size];
    for (at, x) in fields {
        put32(&mut bytes, *at, *x);
    }
    bytes
}

/// Here a host calls its card; this mixes the bytes.
fn card(key: &[u8], source: &[u8], result: &mut [u8]) {
    result.fill(0);
    for (i, byte) in source.iter().enumerate() {
        let at = i % result.len();
        result[at] = result[at].wrapping_mul(3) ^ byte ^ key[i % key.len()];
    }
}

fn main() {
    let guest = 7;
    let mut store = vec![0xff; vcrypto::STORE_SIZE];
    // status, max_dataqueues, crypto_services: MAC, mac_algo_l, max_auth_key_len, max_size
    let config = fields(56, &[(0, READY), (4, 1), (8, 1 << vcrypto::MAC), (24, 1 << HMAC_SHA_256), (40, 64), (48, 65536)]);
    let reply = vcrypto::set_up(&config, &[8; 8], &[32; 8], &mut store);
    println!("set-up: {}", reply.answer);
    let reply = vcrypto::attach(&reply.table, guest, REVISION_1, &mut store);
    println!("attach: {}", reply.answer);

    // header: opcode, algo; fixed part: algo, hash_result_len, auth_key_len; then the key
    let secret: Vec<u8> = (1..=40).collect();
    let mut create = fields(32, &[(0, MAC_CREATE), (4, HMAC_SHA_256), (16, HMAC_SHA_256), (20, RESULT as u32), (24, 40)]);
    create.extend(&secret);
    let mut outcome = [0xff; 16];
    let reply = vcrypto::control(&reply.table, guest, &create, &mut outcome, &mut store);
    println!("create: {}, outcome {outcome:02x?}", reply.answer);
    let table = reply.table;
    let slot = table.slots[0];
    println!("slot 0: owner {}, number {}, algorithm {}, key {}, result {}", slot.owner, slot.number, slot.algo, slot.keylen, slot.result);
    let record = table.guests[usize::from(guest)];
    println!("guest 7: attached {}, reserve {}, cap {}, last {}", record.attached, record.reserve, record.cap, record.last);

    // header: opcode, session_id, flag; fixed part: src_data_len, hash_result_len; then the source
    let text = b"a text to be authenticated";
    let mut data = fields(32, &[(0, MAC_DATA), (8, 1), (16, SESSION_MODE), (24, text.len() as u32), (28, RESULT as u32)]);
    data.extend(text);
    let mut writable = [0xff; RESULT + 1];
    let job = vcrypto::admit(&table, guest, &data, &mut writable);
    println!("data: {}, session {}, opcode {:#06x}", job.answer, job.number, job.opcode);
    if job.answer != OK {
        return;
    }
    let source = vcrypto::source(&table, guest, &data, &writable);
    let key = vcrypto::key(&table, guest, job.number, &store);
    println!("source: {}, key: the {} bytes given: {}", String::from_utf8_lossy(source), key.len(), key == secret);
    println!("key of guest 6's session 1: {} bytes, answer {}", vcrypto::key(&table, 6, 1, &store).len(), vcrypto::key_answer(&table, 6, 1, &store));

    let mut result = [0; RESULT];
    card(key, source, &mut result);
    writable[..RESULT].copy_from_slice(&result);
    println!("finish: {}, status byte {}", vcrypto::finish(&table, guest, job.opcode, OK, &mut writable), writable[RESULT]);
}
