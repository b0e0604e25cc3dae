// Control requests: create and destroy of a session. Shares its rules with data admission in yardstick.rs.
use super::{attached, bit, find, fits, le32, le64, offered, Fields, Slot, Table};
use super::{AEAD, BAD_GUEST, BAD_STORE, CIPHER, ERR, HASH, MAC, NOSPC, NOTSUPP, NO_OUTCOME, OK};
use std::slice::{from_raw_parts, from_raw_parts_mut};

#[derive(Clone, Copy, PartialEq, Debug)]
#[repr(C)]
pub struct Reply {
    pub answer: u8,
    pub table: Table,
}

const CLEAR: Slot = Slot { number: 0, aad: 0, owner: 0, service: 0, algo: 0, direction: 0, key_len: 0, result: 0 };

// One slot more for a guest, in a word of eight counts.
const ONE: [u64; 8] = [1, 1 << 8, 1 << 16, 1 << 24, 1 << 32, 1 << 40, 1 << 48, 1 << 56];

type Store = [u8; 16384];

// The key bytes that a slot owns.
fn area(store: &mut Store, slot: usize) -> &mut [u8] {
    &mut store[128 * slot..128 * slot + 128]
}

// The places of a word's set bits, from the lowest.
fn set_bits(mut rest: u64) -> impl Iterator<Item = usize> {
    std::iter::from_fn(move || {
        let n = rest.trailing_zeros() as usize;
        rest &= rest.wrapping_sub(1);
        (n < 64).then_some(n)
    })
}

// How many slots each guest holds, live or not; no count outgrows its byte, as there are 128 slots.
fn holdings(t: &Table) -> [u8; 8] {
    let [low, high] = t.occupied;
    let owners = set_bits(low).chain(set_bits(high).map(|n| 64 + n)).map(|i| usize::from(t.slots[i].owner));
    owners.map(|owner| ONE.get(owner).copied().unwrap_or(0)).sum::<u64>().to_le_bytes()
}

// The lowest clear slot; 128 if there is none.
fn first_clear(occupied: &[u64; 2]) -> usize {
    let low = (!occupied[0]).trailing_zeros();
    let slot = if low < 64 { low } else { 64 + (!occupied[1]).trailing_zeros() };
    slot as usize
}

// The slot that a create takes, or none if it is NOSPC.
fn place(t: &Table, guest: usize) -> Option<usize> {
    let counts = holdings(t);
    let (mine, g) = (counts[guest], &t.guests[guest]);
    if mine >= g.cap {
        return None;
    }
    if mine >= g.reserve {
        // The guest's own reserve is met, so the sum is that of the others.
        let unmet: u32 = t.guests.iter().zip(counts).map(|(g, n)| u32::from(g.reserve.saturating_sub(n))).sum();
        if t.occupied[0].count_ones() + t.occupied[1].count_ones() + unmet >= 128 {
            return None;
        }
    }
    Some(first_clear(&t.occupied)).filter(|&slot| slot < 128)
}

// What the fixed part of a create asks for; 0 stands where the service has no such field.
fn fields(service: u8, r: &[u8]) -> Fields {
    let none = Fields { service, algo: le32(r, 16), direction: 0, key_len: 0, result: 0, aad: 0 };
    match service {
        CIPHER => Fields { key_len: le32(r, 20), direction: le32(r, 24), ..none },
        HASH => Fields { result: le32(r, 20), ..none },
        MAC => Fields { result: le32(r, 20), key_len: le32(r, 24), ..none },
        _ => Fields { key_len: le32(r, 20), result: le32(r, 24), aad: le32(r, 28), direction: le32(r, 32), ..none },
    }
}

// Steps 3 and 4: the new session's number, or the refusal's answer.
fn create(t: &mut Table, guest: u8, service: u8, r: &[u8], store: &mut Store) -> Result<u64, u8> {
    let start = match service {
        CIPHER => 72,
        HASH => 24,
        AEAD => 40,
        _ => 32,
    };
    if r.len() < start {
        return Err(ERR);
    }
    if service == CIPHER && le32(r, 64) != 1 {
        return Err(NOTSUPP);
    }
    let (f, key) = (fields(service, r), &r[start..]);
    if !offered(&t.config, &f) {
        return Err(NOTSUPP);
    }
    if le32(r, 4) != f.algo || !fits(&t.config, &f) || key.len() != f.key_len as usize {
        return Err(ERR);
    }
    let owner = usize::from(guest);
    let number = t.guests[owner].last.checked_add(1).ok_or(ERR)?;
    let i = place(t, owner).ok_or(NOSPC)?;
    t.guests[owner].last = number;
    t.occupied[i / 64] |= 1 << (i % 64);
    // Nothing is cut off: what passed the rules is at most 64.
    let (algo, direction, key_len, result) = (f.algo as u8, f.direction as u8, f.key_len as u8, f.result as u8);
    t.slots[i] = Slot { number, aad: f.aad, owner: guest, service, algo, direction, key_len, result };
    let (area, at) = (area(store, i), if service == MAC { 64 } else { 0 });
    area.fill(0);
    area[at..at + key.len()].copy_from_slice(key);
    Ok(number)
}

// Steps 3 and 5: 0 in place of a session number, or the refusal's answer.
fn destroy(t: &mut Table, guest: u8, service: u8, r: &[u8], store: &mut Store) -> Result<u64, u8> {
    if r.len() != 24 {
        return Err(ERR);
    }
    let i = find(t, &t.guests[usize::from(guest)], guest, le64(r, 16)).ok_or(ERR)?;
    if t.slots[i].service != service {
        return Err(ERR);
    }
    t.occupied[i / 64] &= !(1 << (i % 64));
    t.slots[i] = CLEAR;
    area(store, i).fill(0);
    Ok(0)
}

// Steps 2 to 5, for an attached guest and 1 or 16 writable bytes.
#[inline(always)]
fn obey(t: &mut Table, guest: u8, r: &[u8], room: usize, store: &mut Store) -> Result<u64, u8> {
    if r.len() < 16 {
        return Err(ERR);
    }
    let opcode = le32(r, 0);
    let (service, op) = (opcode >> 8, opcode & 0xff);
    if service > 3 || !(op == 2 || op == 3) || !bit(t.config.services, service) {
        return Err(NOTSUPP);
    }
    match (op, room) {
        (2, 16) => create(t, guest, service as u8, r, store),
        (3, 1) => destroy(t, guest, service as u8, r, store),
        _ => Err(ERR),
    }
}

#[inline(always)]
fn control(t: &mut Table, guest: u8, readable: &[u8], writable: &mut [u8], store: &mut [u8]) -> u8 {
    let Ok(store) = <&mut Store>::try_from(store) else {
        return BAD_STORE;
    };
    if attached(t, guest).is_none() {
        return BAD_GUEST;
    }
    if !matches!(writable.len(), 1 | 16) {
        return NO_OUTCOME;
    }
    let (answer, number) = match obey(t, guest, readable, writable.len(), store) {
        Ok(number) => (OK, number),
        Err(answer) => (answer, 0),
    };
    match writable {
        [status] => *status = answer,
        // Session number, status and padding are the 16 bytes of one number.
        _ => writable.copy_from_slice(&(u128::from(answer) << 64 | u128::from(number)).to_le_bytes()),
    }
    answer
}

// Each pointer has its length's bytes, and the writable bytes, the store and the table overlap no others.
#[no_mangle]
#[inline(never)]
pub unsafe extern "C" fn yard_control(
    mut t: Table,
    guest: u8,
    readable: *const u8,
    readable_len: usize,
    writable: *mut u8,
    writable_len: usize,
    store: *mut u8,
    store_len: usize,
) -> Reply {
    let readable = unsafe { from_raw_parts(readable, readable_len) };
    let (writable, store) = unsafe { (from_raw_parts_mut(writable, writable_len), from_raw_parts_mut(store, store_len)) };
    let answer = control(&mut t, guest, readable, writable, store);
    Reply { answer, table: t }
}
