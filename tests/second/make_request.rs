//! Random requests: well-formed ones aimed at a session, then damaged in one place or at an edge.

use crate::rng::Rng;
use crate::rules::Service::{self, *};
use crate::rules::{Algorithm, Lengths, ALGORITHMS};
use crate::second::{Live, Session, Table};

// Lengths at and beside the edges of all algorithms.
const KEYS: [u64; 16] = [0, 1, 8, 15, 16, 17, 23, 24, 25, 31, 32, 33, 48, 63, 64, 65];
const RESULTS: [u64; 33] = [
    0, 1, 2, 3, 4, 5, 6, 7, 8, 9, 10, 11, 12, 13, 14, 15, 16, 17, 19, 20, 21, 27, 28, 29, 31, 32,
    33, 47, 48, 49, 63, 64, 65,
];
const IVS: [u64; 13] = [0, 6, 7, 8, 9, 10, 11, 12, 13, 14, 15, 16, 17];
const SOURCES: [u64; 16] = [0, 1, 7, 8, 9, 15, 16, 17, 24, 31, 32, 33, 40, 48, 100, 257];
/// The data opcodes and their neighbours.
pub const OPCODES: [u64; 14] = [
    0x000,
    0x001,
    0x002,
    0x100,
    0x101,
    0x200,
    0x201,
    0x300,
    0x301,
    0x302,
    0x400,
    0x1_0000,
    0x1_0301,
    0x8000_0301,
];
/// The largest 32-bit number.
const LOW: u64 = 4_294_967_295;
/// AEAD's algorithm CCM.
const CCM: u64 = 2;
/// The first payloads that CCM refuses, with an IV of 13 and of 12 bytes (ticket K12).
const PAST_13: u64 = 1 << 16;
const PAST_12: u64 = 1 << 24;
/// The largest max_size before ticket K12, and an AAD that brings a short source near it.
const OLD: u64 = 65_536;
pub const LONG_AAD: u64 = 61_000;
/// Room for all lengths but a source that is aimed at an edge, which comes on top.
const ROOM: u64 = 70_000;

/// A session after the rules, with a number near those given.
pub fn invented(rng: &mut Rng, owner: u8, last: u64) -> Session {
    let rules = some_rules(rng);
    let number = match rng.below(8) {
        0 => last,
        1 => last.saturating_sub(rng.below(3)),
        2 => rng.beside(last),
        // At and past 32 bits, the low half also that of another session.
        3 | 4 if last > LOW => LOW - 2 + rng.below(40),
        _ => 1 + rng.below(last.clamp(1, 40)),
    };
    let (key, direction) = match rules.service {
        Hash => (0, 0),
        Mac => (rng.length(rules.key, &KEYS), 0),
        Cipher | Aead => (rng.length(rules.key, &KEYS), 1 + rng.below(2)),
    };
    let result = match rules.service {
        Cipher => 0,
        _ => rng.length(rules.result, &RESULTS),
    };
    let aad = match rules.service {
        Aead => some_aad(rng),
        _ => 0,
    };
    Session {
        owner,
        number,
        service: rules.service as u8,
        algo: rules.number as u8,
        direction: direction as u8,
        key: key as u8,
        result: result as u8,
        aad: aad as u32,
    }
}

/// Any algorithm, those with the most rules more often.
fn some_rules(rng: &mut Rng) -> &'static Algorithm {
    let service = rng.pick(&[Cipher, Cipher, Cipher, Hash, Mac, Mac, Aead, Aead, Aead]);
    let (first, count) = [(0, 5), (5, 6), (11, 7), (18, 3)][service as usize];
    &ALGORITHMS[first + rng.below(count) as usize]
}

fn some_aad(rng: &mut Rng) -> u64 {
    if rng.one_in(40) {
        LONG_AAD
    } else {
        rng.pick(&[0, 0, 1, 13, 20, 20, 64, 300, 65_536, 4_294_967_295])
    }
}

/// Writes fields over bytes that are otherwise random, as the ignored ones must not matter.
fn place(bytes: &mut [u8], at: usize, field: u64) {
    bytes[at..at + 4].copy_from_slice(&(field as u32).to_le_bytes());
}

fn place_long(bytes: &mut [u8], at: usize, field: u64) {
    bytes[at..at + 8].copy_from_slice(&field.to_le_bytes());
}

/// A buffer of a claimed length, or a short one where the claim is past the longest.
fn lent(rng: &mut Rng, claimed: u64, least: usize, longest: u64) -> usize {
    if claimed <= longest {
        claimed as usize
    } else {
        least + rng.below(80) as usize
    }
}

/// Another length for a buffer: one off, cut short, or beside a header.
fn resized(rng: &mut Rng, size: usize, fixed: usize) -> usize {
    match rng.below(5) {
        0 => size + 1,
        1 => size.saturating_sub(1),
        2 => rng.pick(&[0, 1, 15, 16, 17, 23, 24, 25]),
        3 => rng.pick(&[15, 16, 17, 23, 24, 25]) + fixed,
        _ => rng.below(size as u64 + 1) as usize,
    }
}

/// The ways a request is damaged: seldom two at once, so that the order of the checks shows.
fn ways(rng: &mut Rng, damaged: bool, count: u64) -> Vec<u64> {
    let many = if damaged { rng.pick(&[1, 1, 1, 2]) } else { 0 };
    (0..many).map(|_| rng.below(count)).collect()
}

pub fn create(rng: &mut Rng, table: &Table, damaged: bool) -> (Vec<u8>, usize) {
    let mut rules = some_rules(rng);
    for _ in 0..4 {
        if table.config.offered(rules.service, rules.number).is_none() {
            rules = some_rules(rng);
        }
    }
    let (mut opcode, mut algo) = (rules.service as u64 * 256 + 2, rules.number);
    let (mut direction, mut op_type) = (1 + rng.below(2), 1);
    let mut key = match rules.service {
        Hash => 0,
        _ => rng.length(rules.key, &KEYS),
    };
    let mut result = rng.length(rules.result, &RESULTS);
    let fixed = [56, 8, 16, 24][rules.service as usize];
    let mut writable = 16;
    let ways = ways(rng, damaged, 13);
    for way in &ways {
        match way {
            0 => opcode = rng.beside(opcode),
            1 => opcode = rng.pick(&[0x001, 0x004, 0x402, 0x1_0302, 0x002, 0x102, 0x202, 0x302]),
            2 => algo = rng.below(32),
            3 => algo = rng.beside(algo),
            4 => direction = rng.pick(&[0, 3, 0x101, 0x1_0001, 0x8000_0002]),
            5 => key = rng.beside(key),
            6 => key = rng.pick(&KEYS),
            7 => result = rng.pick(&RESULTS),
            8 => result = rng.beside(result),
            9 => op_type = rng.pick(&[0, 2, 3, 0x101, 0x1_0001]),
            10 => writable = rng.pick(&[0, 1, 1, 1, 2, 8, 15, 17, 24]),
            _ => {}
        }
    }
    let size = lent(rng, 16 + fixed as u64 + (key & LOW), 16 + fixed, ROOM);
    let mut bytes = rng.bytes(size);
    place(&mut bytes, 0, opcode);
    let other = rng.beside(algo);
    place(&mut bytes, 4, if ways.contains(&11) { other } else { algo });
    let aad = some_aad(rng);
    let fields: &[(usize, u64)] = match rules.service {
        Cipher => &[(0, algo), (4, key), (8, direction), (48, op_type)],
        Hash => &[(0, algo), (4, result)],
        Mac => &[(0, algo), (4, result), (8, key)],
        Aead => &[(0, algo), (4, key), (8, result), (12, aad), (16, direction)],
    };
    for (at, field) in fields {
        place(&mut bytes, 16 + at, *field);
    }
    if ways.contains(&12) {
        bytes.resize(resized(rng, size, fixed), 0x5a);
    }
    (bytes, writable)
}

pub fn destroy(rng: &mut Rng, session: &Session, damaged: bool) -> (Vec<u8>, usize) {
    let mut opcode = u64::from(session.service) * 256 + 3;
    let mut number = session.number;
    let (mut size, mut writable) = (24, 1);
    if damaged {
        match rng.below(6) {
            0 => opcode = rng.pick(&[0x003, 0x103, 0x203, 0x303, 0x403]),
            1 => opcode = rng.beside(opcode),
            2 => number = rng.beside(number),
            3 => number = number.wrapping_add(1 << 32),
            4 => size = resized(rng, size, 8),
            _ => writable = rng.pick(&[0, 2, 15, 16, 17]),
        }
    }
    let mut bytes = rng.bytes(24);
    place(&mut bytes, 0, opcode);
    place_long(&mut bytes, 16, number);
    bytes.resize(size, 0xa5);
    (bytes, writable)
}

/// The lengths that a data request names.
struct Asked {
    iv: u64,
    source: u64,
    aad: u64,
    written: u64,
    tag: u64,
}

impl Asked {
    /// Each length has 32 bits on the wire; what else follows from a damaged one follows it.
    fn damage(&mut self, rng: &mut Rng, service: Service, decrypts: bool) {
        match rng.below(if service == Aead { 12 } else { 9 }) {
            0 => self.iv = rng.pick(&IVS),
            1 => {
                let off = if rng.one_in(2) { 1 } else { u64::MAX };
                self.source = self.source.wrapping_add(off) & LOW;
                if matches!(service, Cipher | Aead) {
                    self.written = self.written.wrapping_add(off) & LOW;
                }
            }
            2 => self.written = rng.beside(self.written) & LOW,
            3 => self.written = self.source,
            4 if service == Aead => self.aad = rng.beside(self.aad) & LOW,
            5 => self.tag = rng.beside(self.tag) & LOW,
            6 => {
                self.tag = rng.pick(&RESULTS);
                self.written = written(service, decrypts, self.source, self.tag);
            }
            7 if self.iv > 0 => {
                // The same sum, shared otherwise between IV and source.
                self.iv -= 1;
                self.source += 1;
            }
            // The destination of the other direction.
            9 => self.written = written(service, !decrypts, self.source, self.tag) & LOW,
            10 | 11 => {
                // Short of the tag, mostly by one: less the tag 0 if cut off there, LOW if wrapped.
                self.source = self.tag.saturating_sub(rng.pick(&[1, 1, 1, 2, self.tag]));
                let sum = self.source + self.tag & LOW;
                self.written = rng.pick(&[0, 0, 1, LOW, self.source, sum]);
            }
            _ => {
                // Sums that are small again in 32 bits; less a tag, a destination stays large.
                let large = decrypts && rng.one_in(2);
                self.source = LOW - rng.below(20);
                self.written = written(service, large, self.source, self.tag) & LOW;
            }
        }
    }

    /// The fields at their offsets in the fixed part.
    fn fields(&self, service: Service) -> Vec<(usize, u64)> {
        let lengths = match service {
            Cipher => vec![self.iv, self.source, self.written],
            Hash | Mac => vec![self.source, self.written],
            Aead => vec![self.iv, self.aad, self.source, self.written, self.tag],
        };
        (0..).step_by(4).zip(lengths).collect()
    }
}

pub fn data(rng: &mut Rng, table: &Table, session: &Session, damaged: bool) -> (Vec<u8>, usize) {
    let named =
        |a: &&Algorithm| (a.service as u8, a.number) == (session.service, session.algo.into());
    let found = ALGORITHMS.iter().find(named);
    let rules = found.unwrap_or_else(|| some_rules(rng));
    let service = rules.service;
    let fixed = [48, 8, 8, 24][service as usize];
    let decrypts = matches!(service, Cipher | Aead) && session.direction == 2;
    let mut opcode = service as u64 * 256 + u64::from(decrypts);
    let (mut number, mut flag, mut op_type) = (session.number, 1, 1);
    let mut asked = right_lengths(rng, table, session, rules, damaged);
    let longest = ROOM + asked.source;
    let ways = ways(rng, damaged, 18);
    for way in &ways {
        match way {
            0 => opcode = rng.pick(&OPCODES),
            1 => opcode = rng.beside(opcode),
            2 => flag = rng.pick(&[0, 2, 3, 0x101, 0x1_0001, 0x8000_0001]),
            3 => number = number.wrapping_add(1 << 32),
            4 => number = rng.beside(number),
            5 => op_type = rng.pick(&[0, 2, 3, 0x101, 0x1_0001]),
            6..=14 => asked.damage(rng, service, decrypts),
            _ => {}
        }
    }
    // Where the sum read passes 32 bits, the readable bytes are as many as it is in 32 bits.
    let read = 24 + fixed as u64 + asked.iv + asked.source + asked.aad;
    let mut size = lent(rng, read & LOW, 24 + fixed, longest).max(24 + fixed);
    let mut writable = lent(rng, (asked.written & LOW) + 1, 0, longest);
    let mut bytes = rng.bytes(size);
    place(&mut bytes, 0, opcode);
    place_long(&mut bytes, 8, number);
    place(&mut bytes, 16, flag);
    for (at, field) in asked.fields(service) {
        place(&mut bytes, 24 + at, field);
    }
    if service == Cipher {
        place(&mut bytes, 24 + 40, op_type);
    }
    for way in &ways {
        match way {
            15 => size = resized(rng, size, fixed),
            16 => writable = rng.pick(&[0, 1, writable.saturating_sub(1), writable + 1]),
            17 => {
                let at = rng.below(24 + fixed as u64) as usize;
                bytes[at] = rng.next() as u8;
            }
            _ => {}
        }
    }
    bytes.resize(size, 0xc3);
    (bytes, writable)
}

/// The lengths of a request that is accepted, at times with its sum at or beside max_size or the
/// old limit, or with its payload at or beside CCM's bound.
fn right_lengths(
    rng: &mut Rng,
    table: &Table,
    session: &Session,
    rules: &Algorithm,
    damaged: bool,
) -> Asked {
    let service = rules.service;
    let tag = u64::from(session.result);
    let (mut iv, aad, share) = match service {
        Cipher => (rng.length(rules.iv, &IVS), 0, 2),
        Hash | Mac => (0, 0, 1),
        Aead => (rng.length(rules.iv, &IVS), session.aad.into(), 2),
    };
    let mut source = rng.length(rules.source, &SOURCES);
    let max = table.config.max_size;
    let near = iv + aad + written(service, false, 0, tag);
    // Long requests are slow to make; where the AAD is long, they all are.
    let limit = match max {
        ..=600 => rng.one_in(2).then_some(max),
        _ if aad == LONG_AAD => rng.one_in(2).then_some(OLD + rng.below(3)),
        601..=70_000 => rng.one_in(50).then_some(max),
        _ if rng.one_in(200) => Some(OLD + rng.below(3)),
        70_001..=1_100_000 => rng.one_in(300).then_some(max),
        _ => None,
    };
    if let Some(limit) = limit.filter(|limit| *limit >= near) {
        let unit = match rules.source {
            Lengths::MultipleOf(unit) => unit,
            _ => 1,
        };
        source = (limit - near) / share / unit * unit + rng.pick(&[0, 0, unit]);
        if rng.one_in(6) {
            source = source.saturating_sub(unit);
        }
    } else if let Some(bound) = at_bound(rng, table, session, rules, damaged) {
        (iv, source) = bound;
    }
    let decrypts = session.direction == 2;
    if service == Aead && decrypts {
        // The tag is read rather than written, and the sum is the same.
        source += tag;
    }
    Asked {
        iv,
        source,
        aad,
        written: written(service, decrypts, source, tag),
        tag,
    }
}

/// Now and then an IV and a payload at or beside CCM's bound, for the other AEADs too, where
/// max_size has room for them.
fn at_bound(
    rng: &mut Rng,
    table: &Table,
    session: &Session,
    rules: &Algorithm,
    damaged: bool,
) -> Option<(u64, u64)> {
    let (tag, aad) = (u64::from(session.result), u64::from(session.aad));
    let room = table.config.max_size.saturating_sub(aad + 300) / 2;
    if rules.service != Aead || aad > ROOM || room <= PAST_13 {
        return None;
    }
    let ccm = rules.number == CCM;
    if rng.one_in(if ccm { 8 } else { 50 }) {
        let any = 7 + rng.below(7);
        let iv = rng.pick(&[13, 13, 13, 12, any]);
        let payload = PAST_13 - 2 + rng.below(4);
        // Payload and tag at the bound, which is where a bound on the wrong length would bite.
        let short = PAST_13 - tag - rng.below(2);
        let payload = rng.pick(&[payload, payload, short]);
        return Some((if ccm { iv } else { 12 }, payload));
    }
    // These are the slowest, so none is spent on what is refused anyway.
    let chances = [350, 500, 2_000][rules.number as usize - 1];
    let few = room > PAST_12 && !damaged && rng.one_in(chances);
    let same = |live: Live<'_>| live.session == session;
    let live = few && table.find(session.owner, session.number).is_some_and(same);
    live.then(|| (12, PAST_12 - u64::from(ccm && rng.one_in(4))))
}

/// What a request writes, apart from the status; 0 where a source is short of its tag.
fn written(service: Service, decrypts: bool, source: u64, result: u64) -> u64 {
    match service {
        Cipher => source,
        Hash | Mac => result,
        Aead if decrypts => source.saturating_sub(result),
        Aead => source + result,
    }
}
