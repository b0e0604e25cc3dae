// What is timed and compared: tables with live sessions, and requests.
use crate::library::{vcrypto_attach, vcrypto_control, vcrypto_set_up, Table};
use yardstick as yard;

// ---- the table: live sessions over eight guests

pub struct Random(pub u64);

impl Random {
    pub fn below(&mut self, n: u64) -> u64 {
        self.0 ^= self.0 << 13;
        self.0 ^= self.0 >> 7;
        self.0 ^= self.0 << 17;
        (self.0 >> 11) % n
    }
}

// A create: service, algorithm, direction, key, result or tag, AAD.
const SESSIONS: [[u32; 6]; 16] = [
    [0, 3, 1, 16, 0, 0],
    [0, 3, 2, 16, 0, 0],
    [3, 1, 1, 16, 16, 20],
    [3, 1, 2, 16, 16, 20],
    [0, 4, 1, 32, 0, 0],
    [0, 4, 2, 32, 0, 0],
    [1, 4, 0, 0, 32, 0],
    [2, 4, 0, 32, 32, 0],
    [3, 3, 1, 32, 16, 13],
    [3, 3, 2, 32, 16, 13],
    [0, 13, 1, 64, 0, 0],
    [2, 26, 0, 16, 16, 0],
    [3, 2, 2, 24, 8, 8],
    [0, 8, 2, 24, 0, 0],
    [1, 2, 0, 0, 20, 0],
    [0, 2, 1, 24, 0, 0],
];

fn words(w: &[u32]) -> Vec<u8> {
    w.iter().flat_map(|x| x.to_le_bytes()).collect()
}

fn create(k: usize) -> Vec<u8> {
    let [service, algo, direction, key, result, aad] = SESSIONS[k % SESSIONS.len()];
    let mut r = words(&[service * 256 + 2, algo, 0, 0]);
    match service {
        0 => r.extend(words(&[algo, key, direction, 0, 0, 0, 0, 0, 0, 0, 0, 0, 1, 0])),
        1 => r.extend(words(&[algo, result])),
        2 => r.extend(words(&[algo, result, key, 0])),
        _ => r.extend(words(&[algo, key, result, aad, direction, 0])),
    }
    r.resize(r.len() + key as usize, 0x5a);
    r
}

fn control(t: Table, guest: u8, r: &[u8], room: usize, store: &mut [u8]) -> Table {
    let mut w = [0; 16];
    let reply = unsafe { vcrypto_control(t, guest, r.as_ptr(), r.len(), w.as_mut_ptr(), room, store.as_mut_ptr(), store.len()) };
    assert_eq!(reply.answer, 0, "a session was not made or not ended");
    reply.table
}

// 110 creates, 30 destroys, and creates up to so many sessions: the numbers have gaps and the slots are not in their order.
pub fn live_table(sessions: usize, random: &mut Random) -> Table {
    let mut store = vec![0; 16384];
    let config = [words(&[1, 8, 15, 8476, 0, 126, 67108990, 0, 14, 64, 64, 0]), 65536u64.to_le_bytes().to_vec()].concat();
    let set = unsafe { vcrypto_set_up(config.as_ptr(), config.len(), &[8; 8], &[32; 8], store.as_mut_ptr(), store.len()) };
    assert_eq!(set.answer, 0, "set-up was refused");
    let mut t = set.table;
    for guest in 0..8 {
        t = unsafe { vcrypto_attach(t, guest, 1, store.as_mut_ptr(), store.len()).table };
    }
    for k in 0..110 {
        t = control(t, (k % 8) as u8, &create(k), 16, &mut store);
    }
    for _ in 0..30 {
        let live = t.live();
        let s = t.slots[live[random.below(live.len() as u64) as usize]];
        t = control(t, s.owner, &destroy(&s, s.number).readable, 1, &mut store);
    }
    for k in 110..30 + sessions {
        t = control(t, (k % 8) as u8, &create(k), 16, &mut store);
    }
    assert_eq!(t.live().len(), sessions);
    t
}

// ---- the requests

#[derive(Clone)]
pub struct Request {
    pub guest: u8,
    pub verdict: u8,
    pub readable: Vec<u8>,
    pub writable: Vec<u8>,
}

fn set(r: &mut [u8], at: usize, x: u32) {
    r[at..at + 4].copy_from_slice(&x.to_le_bytes());
}

pub fn get(r: &[u8], at: usize) -> u32 {
    u32::from_le_bytes(r[at..at + 4].try_into().unwrap())
}

// A request of the session with an IV and a source of these lengths.
pub fn data(s: &yard::Slot, iv: u32, source: u32, verdict: u8) -> Request {
    let result = u32::from(s.result);
    let destination = if s.direction == 2 { source - result } else { source + result }; // of an AEAD; no tag is above 16
    let opcode = u32::from(s.service) * 256 + u32::from(s.direction == 2);
    let mut r = words(&[opcode, 0, s.number as u32, (s.number >> 32) as u32, 1, 0]);
    let (part, more, written) = match s.service {
        0 => (vec![iv, source, source, 0, 0, 0, 0, 0, 0, 0, 1, 0], iv + source, source),
        3 => (vec![iv, s.aad, source, destination, result, 0], iv + source + s.aad, destination),
        _ => (vec![source, result], source, result),
    };
    r.extend(words(&part));
    r.resize(r.len() + more as usize, 0xa5);
    Request { guest: s.owner, verdict, readable: r, writable: vec![0xee; written as usize + 1] }
}

// A packet of 16 to 1,500 bytes for the session, as its algorithm takes it.
fn good(s: &yard::Slot, random: &mut Random) -> Request {
    let any = 16 + random.below(1485) as u32;
    let source = if s.service == 0 && s.algo != 4 { any / 16 * 16 } else { any };
    let iv = match (s.service, s.algo) {
        (0, 2) => 0,
        (0, 8) => 8,
        (0, _) => 16,
        _ => 12,
    };
    data(s, iv, source, [0, 0, 0, 0, 0, 0, 1, 2][random.below(8) as usize])
}

// One thing wrong with a good request; the reasons by their share of 20.
fn spoil(q: &mut Request, t: &Table, random: &mut Random) {
    let r = &mut q.readable;
    let (opcode, first) = (get(r, 0), get(r, 24));
    let sided = opcode < 2 || opcode > 767;
    match random.below(20) {
        0 | 1 => set(r, 8, 1000 + random.below(1000) as u32), // never given
        2 | 3 => loop {
            // given, but ended
            let number = 1 + random.below(t.guests[q.guest as usize].last);
            if t.slot_of(q.guest, number).is_none() {
                set(r, 8, number as u32);
                break;
            }
        },
        4 => set(r, 12, 1), // the same in the low half
        5..=7 if sided => set(r, 0, opcode ^ 1),
        5..=7 => set(r, 0, opcode ^ 0x300), // hash for MAC, MAC for hash
        8 | 9 => r.push(0),
        10 | 11 => r.truncate(random.below(r.len() as u64) as usize),
        12 => set(r, 24, first + 1), // another IV or source
        13 => set(r, 28, 65536),
        14 | 15 => q.writable.push(0xee),
        16 => drop(q.writable.pop()),
        17 => set(r, 16, 0),
        18 => set(r, 16, 2 + random.below(9) as u32),
        _ => set(r, 0, 0x400 + random.below(9) as u32),
    }
}

pub fn prepare(n: usize, t: &Table, random: &mut Random) -> Vec<Request> {
    let live = t.live();
    let mut all: Vec<Request> = (0..n)
        .map(|k| {
            let mut q = good(&t.slots[live[random.below(live.len() as u64) as usize]], random);
            if k < n / 2 {
                spoil(&mut q, t, random);
            }
            q
        })
        .collect();
    for k in (1..n).rev() {
        all.swap(k, random.below(k as u64 + 1) as usize);
    }
    all
}

// A create of each kind by each guest; all are granted where there is room.
pub fn creates() -> Vec<Request> {
    let one = |k: usize| Request { guest: (k % 8) as u8, verdict: 0, readable: create(k / 8), writable: vec![0xee; 16] };
    (0..8 * SESSIONS.len()).map(one).collect()
}

fn destroy(s: &yard::Slot, number: u64) -> Request {
    let readable = [words(&[u32::from(s.service) * 256 + 3, 0, 0, 0]), number.to_le_bytes().to_vec()].concat();
    Request { guest: s.owner, verdict: 0, readable, writable: vec![0xee; 1] }
}

// A destroy of each live session.
pub fn ends(t: &Table) -> Vec<Request> {
    t.live().into_iter().map(|slot| destroy(&t.slots[slot], t.slots[slot].number)).collect()
}

// The same, and of the numbers after them.
pub fn destroys(t: &Table) -> Vec<Request> {
    let after = t.live().into_iter().map(|slot| destroy(&t.slots[slot], t.slots[slot].number + 1));
    ends(t).into_iter().chain(after).collect()
}
