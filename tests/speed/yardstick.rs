// The yardstick: data admission, finish and control in ordinary Rust, written from paper 01 and tickets K2, K4 and K12. The table is
// passed by value, as the library's is; the forms that end in `_ref` take it by reference.
use std::slice::{from_raw_parts, from_raw_parts_mut};

mod control;
pub use control::{yard_control, Reply};

#[derive(Clone, Copy, PartialEq, Debug)]
#[repr(C)]
pub struct Config {
    pub services: u32,
    pub ciphers: u32,
    pub hashes: u32,
    pub macs: u32,
    pub aeads: u32,
    pub cipher_key_limit: u32,
    pub auth_key_limit: u32,
    pub unused: [u32; 5],
    pub max_size: u64,
}

#[derive(Clone, Copy, PartialEq, Debug)]
#[repr(C)]
pub struct Slot {
    pub number: u64,
    pub aad: u32,
    pub owner: u8,
    pub service: u8,
    pub algo: u8,
    pub direction: u8,
    pub key_len: u8,
    pub result: u8,
}

#[derive(Clone, Copy, PartialEq, Debug)]
#[repr(C)]
pub struct Guest {
    pub last: u64,
    pub attached: bool,
    pub reserve: u8,
    pub cap: u8,
}

// Slot s is held exactly if bit s % 64 of word s / 64 is set; the fields of a clear slot mean nothing.
#[derive(Clone, Copy, PartialEq, Debug)]
#[repr(C)]
pub struct Table {
    pub config: Config,
    pub occupied: [u64; 2],
    pub slots: [Slot; 128],
    pub guests: [Guest; 8],
}

#[derive(Clone, Copy, PartialEq, Debug)]
#[repr(C)]
pub struct Admission {
    pub answer: u8,
    pub guest: u8,
    pub number: u64,
    pub opcode: u32,
}

const REFUSED: Admission = Admission { answer: 0, guest: 0, number: 0, opcode: 0 };

const OK: u8 = 0;
const ERR: u8 = 1;
const BADMSG: u8 = 2;
const NOTSUPP: u8 = 3;
const INVSESS: u8 = 4;
const NOSPC: u8 = 5;
const BAD_GUEST: u8 = 16;
const NO_OUTCOME: u8 = 17;
const BAD_STORE: u8 = 18;

const CIPHER: u8 = 0;
const HASH: u8 = 1;
const MAC: u8 = 2;
const AEAD: u8 = 3;

// The algorithms that stand in the rules, by service.
const KNOWN: [u32; 4] = [1 << 2 | 1 << 3 | 1 << 4 | 1 << 8 | 1 << 13, 0x7e, 0x7e | 1 << 26, 0xe];
const DIGESTS: [u32; 7] = [0, 16, 20, 28, 32, 48, 64];

fn bit(mask: u32, n: u32) -> bool {
    n < 32 && mask >> n & 1 == 1
}

// A session's fields in the width of the wire, so that 256 + 3 is not taken for 3.
struct Fields {
    service: u8,
    algo: u32,
    direction: u32,
    key_len: u32,
    result: u32,
    aad: u32,
}

// The algorithm stands in the rules, and its bit and its service's bit are set.
fn offered(k: &Config, f: &Fields) -> bool {
    let mask = match f.service {
        CIPHER => k.ciphers,
        HASH => k.hashes,
        MAC => k.macs,
        AEAD => k.aeads,
        _ => return false,
    };
    bit(k.services, f.service.into()) && bit(mask & KNOWN[usize::from(f.service)], f.algo)
}

// Direction and lengths keep the rules of the algorithm and the key limits.
fn fits(k: &Config, f: &Fields) -> bool {
    let aes = matches!(f.key_len, 16 | 24 | 32);
    let lengths = match (f.service, f.algo) {
        (CIPHER, 2..=4) => aes,
        (CIPHER, 8) => f.key_len == 24,
        (CIPHER, 13) => f.key_len == 32 || f.key_len == 64,
        (HASH, 1..=6) => (1..=DIGESTS[f.algo as usize]).contains(&f.result),
        (MAC, 1..=6) => (1..=64).contains(&f.key_len) && (1..=DIGESTS[f.algo as usize]).contains(&f.result),
        (MAC, 26) => aes && (1..=16).contains(&f.result),
        (AEAD, 1) => aes && matches!(f.result, 4 | 8 | 12..=16),
        (AEAD, 2) => aes && matches!(f.result, 4 | 6 | 8 | 10 | 12 | 14 | 16),
        (AEAD, 3) => f.key_len == 32 && f.result == 16,
        _ => false,
    };
    let direction = f.direction == 1 || f.direction == 2;
    lengths
        && match f.service {
            HASH => true,
            MAC => f.key_len <= k.auth_key_limit,
            _ => direction && f.key_len <= k.cipher_key_limit,
        }
}

// The slot's fields pass step 4 of a create.
fn accepted(k: &Config, s: &Slot) -> bool {
    let (algo, direction, key_len, result) = (s.algo.into(), s.direction.into(), s.key_len.into(), s.result.into());
    let f = Fields { service: s.service, algo, direction, key_len, result, aad: s.aad };
    offered(k, &f) && fits(k, &f)
}

fn attached(t: &Table, guest: u8) -> Option<&Guest> {
    t.guests.get(usize::from(guest)).filter(|g| g.attached)
}

fn held(t: &Table, slot: usize) -> bool {
    t.occupied[slot / 64] >> (slot % 64) & 1 == 1
}

// The slot of a number's live session: the lowest that matches. The number comes first, as it rules out the most.
fn find(t: &Table, g: &Guest, guest: u8, number: u64) -> Option<usize> {
    if number == 0 || number > g.last {
        return None;
    }
    let live = |(i, s): (usize, &Slot)| s.number == number && held(t, i) && s.owner == guest && accepted(&t.config, s);
    t.slots.iter().enumerate().position(live)
}

fn le32(r: &[u8], at: usize) -> u32 {
    u32::from_le_bytes(r[at..at + 4].try_into().unwrap())
}

fn le64(r: &[u8], at: usize) -> u64 {
    u64::from_le_bytes(r[at..at + 8].try_into().unwrap())
}

struct Lengths {
    iv: u32,
    source: u32,
    aad: u32,
    written: u32,
    result: u32,
}

// IV and source lengths of a cipher or AEAD, by the rules; a CCM payload is below 256 to the power (15 minus IV length).
fn lengths_ok(s: &Slot, n: &Lengths) -> bool {
    let payload = if s.direction == 2 { n.written } else { n.source };
    match (s.service, s.algo) {
        (CIPHER, 2) => n.iv == 0 && n.source % 16 == 0,
        (CIPHER, 3) => n.iv == 16 && n.source % 16 == 0,
        (CIPHER, 4) => n.iv == 16,
        (CIPHER, 8) => n.iv == 8 && n.source % 8 == 0,
        (CIPHER, 13) => n.iv == 16 && n.source >= 16,
        (AEAD, 1 | 3) => n.iv == 12,
        (AEAD, 2) => (7..=13).contains(&n.iv) && u128::from(payload) < 1 << (8 * (15 - n.iv)),
        _ => true,
    }
}

// The checks in paper 01's order: the session number and opcode of an accepted request, or the refusal's number.
#[inline(always)]
fn judge(t: &Table, guest: u8, r: &[u8], room: usize) -> Result<(u64, u32), u8> {
    let g = attached(t, guest).ok_or(BAD_GUEST)?;
    if room == 0 {
        return Err(NO_OUTCOME);
    }
    if r.len() < 24 {
        return Err(ERR);
    }
    let opcode = le32(r, 0);
    let (service, direction) = match opcode {
        0 => (CIPHER, 1),
        1 => (CIPHER, 2),
        0x100 => (HASH, 0),
        0x200 => (MAC, 0),
        0x300 => (AEAD, 1),
        0x301 => (AEAD, 2),
        _ => return Err(NOTSUPP),
    };
    if !bit(t.config.services, service.into()) {
        return Err(NOTSUPP);
    }
    match le32(r, 16) {
        0 => return Err(NOTSUPP),
        1 => {}
        _ => return Err(ERR),
    }
    let number = le64(r, 8);
    let s = &t.slots[find(t, g, guest, number).ok_or(INVSESS)?];
    if s.service != service || (direction != 0 && s.direction != direction) {
        return Err(INVSESS);
    }
    let start = match service {
        CIPHER => 72,
        AEAD => 48,
        _ => 32,
    };
    if r.len() < start {
        return Err(ERR);
    }
    if service == CIPHER && le32(r, 64) != 1 {
        return Err(NOTSUPP);
    }
    let n = match service {
        CIPHER => Lengths { iv: le32(r, 24), source: le32(r, 28), aad: 0, written: le32(r, 32), result: 0 },
        AEAD => Lengths { iv: le32(r, 24), aad: le32(r, 28), source: le32(r, 32), written: le32(r, 36), result: le32(r, 40) },
        _ => Lengths { iv: 0, source: le32(r, 24), aad: 0, written: le32(r, 28), result: le32(r, 28) },
    };
    let read = u64::from(n.iv) + u64::from(n.source) + u64::from(n.aad);
    if read + u64::from(n.written) > t.config.max_size {
        return Err(ERR);
    }
    if r.len() as u64 != start as u64 + read || room as u64 != u64::from(n.written) + 1 {
        return Err(ERR);
    }
    let written = match (service, direction) {
        (CIPHER, _) => Some(n.source),
        (AEAD, 2) => n.source.checked_sub(n.result),
        (AEAD, _) => n.source.checked_add(n.result),
        _ => Some(n.result),
    };
    let same = (service == CIPHER || n.result == u32::from(s.result)) && (service != AEAD || n.aad == s.aad);
    if Some(n.written) != written || !same || !lengths_ok(s, &n) {
        return Err(ERR);
    }
    Ok((number, opcode))
}

#[inline(always)]
fn admit(t: &Table, guest: u8, readable: &[u8], writable: &mut [u8]) -> Admission {
    match judge(t, guest, readable, writable.len()) {
        Ok((number, opcode)) => Admission { answer: OK, guest, number, opcode },
        Err(answer) => {
            if let (1..=5, Some(last)) = (answer, writable.last_mut()) {
                *last = answer;
            }
            Admission { answer, ..REFUSED }
        }
    }
}

#[inline(always)]
fn finish(t: &Table, guest: u8, opcode: u32, verdict: u8, writable: &mut [u8]) -> u8 {
    if attached(t, guest).is_none() {
        return BAD_GUEST;
    }
    let Some(last) = writable.last_mut() else {
        return NO_OUTCOME;
    };
    *last = match verdict {
        OK | ERR => verdict,
        BADMSG if opcode == 0x301 => BADMSG,
        _ => ERR,
    };
    *last
}

// For all four: each pointer has its length's bytes, and the writable bytes overlap no others.
#[no_mangle]
#[inline(never)]
pub unsafe extern "C" fn yard_admit(
    t: Table,
    guest: u8,
    readable: *const u8,
    readable_len: usize,
    writable: *mut u8,
    writable_len: usize,
) -> Admission {
    unsafe { admit(&t, guest, from_raw_parts(readable, readable_len), from_raw_parts_mut(writable, writable_len)) }
}

#[no_mangle]
#[inline(never)]
pub unsafe extern "C" fn yard_finish(t: Table, guest: u8, opcode: u32, verdict: u8, writable: *mut u8, writable_len: usize) -> u8 {
    unsafe { finish(&t, guest, opcode, verdict, from_raw_parts_mut(writable, writable_len)) }
}

#[no_mangle]
#[inline(never)]
pub unsafe extern "C" fn yard_admit_ref(
    t: &Table,
    guest: u8,
    readable: *const u8,
    readable_len: usize,
    writable: *mut u8,
    writable_len: usize,
) -> Admission {
    unsafe { admit(t, guest, from_raw_parts(readable, readable_len), from_raw_parts_mut(writable, writable_len)) }
}

#[no_mangle]
#[inline(never)]
pub unsafe extern "C" fn yard_finish_ref(t: &Table, guest: u8, opcode: u32, verdict: u8, writable: *mut u8, writable_len: usize) -> u8 {
    unsafe { finish(t, guest, opcode, verdict, from_raw_parts_mut(writable, writable_len)) }
}
