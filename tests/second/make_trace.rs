//! Random traces for the replay, good ones and ones that are bad in each way the scope paper names.

use crate::make::{attach, call, Call, Mood};
use crate::make_request::LONG_AAD;
use crate::rng::Rng;
use crate::second::{set_up, word, STORE};
use crate::trace::{largest_config, CAPS, RESERVES};

const LONGEST: usize = 65_536;
const WIDEST: usize = 4_096;

pub fn trace(rng: &mut Rng) -> Vec<u8> {
    let long = LONGEST - 8;
    let room = rng.pick(&[0, 60, 400, 400, 3_000, 3_000, 10_000, long, long]);
    let mut records = if rng.one_in(32) {
        short_records(rng)
    } else {
        records(rng, room)
    };
    let mut prefix = rng.pick(&[0, 0, 0, 1, 7, 40]);
    let body: usize = records.iter().map(Vec::len).sum();
    let spare = LONGEST - 8 - body;
    prefix = prefix.min(spare);
    let mut distance = body as u32;
    let mut count = records.len() as u32;
    let chosen = rng.below(records.len().max(1) as u64) as usize;
    let way = rng.below(24);
    match (way, records.get_mut(chosen)) {
        (0, _) => prefix = spare,
        (1, _) => prefix = spare + 1,
        (2, _) => prefix = spare + 2 + rng.below(5_000) as usize,
        (3, _) => distance = rng.pick(&[distance + 1, distance.wrapping_sub(1), 0, 5, 6, u32::MAX]),
        (4, _) => distance += prefix as u32 + rng.below(3) as u32,
        (5, _) => {
            count = rng.pick(&[
                count + 1,
                count.wrapping_sub(1),
                0,
                count ^ 1 << 16,
                u32::MAX,
            ])
        }
        (6, Some(record)) => record[0] = rng.pick(&[3, 4, 255]),
        (7, Some(record)) => *record = record_of(0, 0, &rng.bytes(3), 0),
        (8, Some(record)) => *record = record_of(0, 0, &rng.bytes(5), 0),
        (9, Some(record)) => record[4..6].copy_from_slice(&(WIDEST as u16).to_le_bytes()),
        (10, Some(record)) => record[4..6].copy_from_slice(&(WIDEST as u16 + 1).to_le_bytes()),
        (11, Some(record)) => record[2] ^= 1 << rng.below(8),
        (12, Some(record)) => {
            record.pop();
        }
        (13, Some(record)) => record.push(0),
        (14, Some(record)) => {
            let at = rng.below(6.min(record.len()) as u64) as usize;
            record[at] = rng.next() as u8;
        }
        _ => {}
    }
    if (7..=13).contains(&way) && rng.one_in(2) || way == 7 || way == 8 {
        // The distance follows the bytes, so that the length alone is bad.
        distance = records.iter().map(Vec::len).sum::<usize>() as u32;
    }
    let mut trace = rng.bytes(prefix);
    trace.extend(records.concat());
    trace.extend(distance.to_le_bytes());
    trace.extend(count.to_le_bytes());
    if way == 15 {
        trace.truncate(rng.below(9) as usize);
    }
    trace
}

/// Records whose requests are aimed at the sessions that the earlier ones made.
fn records(rng: &mut Rng, room: usize) -> Vec<Vec<u8>> {
    let mut store = vec![0; STORE];
    let (_, mut table) = set_up(&largest_config(), &RESERVES, &CAPS, &mut store);
    let mut mood = Mood::random(rng);
    mood.weights[4..].fill(0);
    // Here the table only aims data requests, and none with a longer sum need be made.
    table.config.max_size = LONGEST as u64;
    // Some long traces keep their room for a request with a long AAD, its sum about that length.
    let keeps = room > 60_000 && rng.one_in(2);
    let brief = if keeps { 2_000 } else { room };
    let mut opening = mood.guests.clone();
    let (mut records, mut used) = (Vec::new(), 0);
    for _ in 0..2_000 {
        let next = match opening.pop() {
            Some(guest) if !rng.one_in(12) => attach(rng, guest),
            _ => call(rng, &mood, &table),
        };
        let (kind, guest, mut readable, mut writable) = match next {
            Call::Attach { guest, word } => {
                let writable = rng.pick(&[0, 0, 1, 16, WIDEST]);
                (0, guest, word.to_le_bytes().to_vec(), vec![0; writable])
            }
            Call::Control(request) => (1, request.guest, request.readable, request.writable),
            Call::Data(request) => (2, request.guest, request.readable, request.writable),
            _ => continue,
        };
        // All AEAD sessions of such a trace have the long AAD.
        if keeps && kind == 1 && readable.len() > 40 && word(&readable, 0) == 0x302 {
            readable[28..32].copy_from_slice(&(LONG_AAD as u32).to_le_bytes());
        }
        let room = if readable.len() > 60_000 { room } else { brief };
        if readable.len() > 65_535 || writable.len() > WIDEST || used + 6 + readable.len() > room {
            continue;
        }
        used += 6 + readable.len();
        records.push(record_of(kind, guest, &readable, writable.len()));
        // Granted or refused, the table is then as the next record finds it.
        let _ = match kind {
            0 => table.attach(guest, word(&readable, 0) as u32, &mut store),
            1 => table.control(guest, &readable, &mut writable, &mut store),
            _ => Ok(()),
        };
    }
    records
}

/// Very many short records, up to the most that fit: they print more bytes than they have.
fn short_records(rng: &mut Rng) -> Vec<Vec<u8>> {
    let room = LONGEST - 8 - rng.pick(&[0, 0, 0, 6, 6, 9_000]);
    // Heads alone are the most records, and without an attach each answer has two digits.
    let heads = rng.one_in(3);
    let (mut records, mut used) = (Vec::new(), 0);
    while used + 6 <= room {
        let guest = rng.pick(&[0, 0, 1, 7, 8, 255]);
        let writable = rng.pick(&[0, 1, 2, 16, WIDEST]);
        let record = if heads || !rng.one_in(12) {
            record_of(rng.pick(&[1, 2]), guest, &[], writable)
        } else if rng.one_in(4) {
            let word = rng.pick(&[0, 1, 1, 1, 3]);
            record_of(0, guest, &u32::to_le_bytes(word), writable)
        } else {
            let readable = rng.below(24) as usize;
            record_of(rng.pick(&[1, 2]), guest, &rng.bytes(readable), writable)
        };
        if used + record.len() <= room {
            used += record.len();
            records.push(record);
        }
    }
    records
}

fn record_of(kind: u8, guest: u8, readable: &[u8], writable: usize) -> Vec<u8> {
    let mut record = vec![kind, guest];
    record.extend((readable.len() as u16).to_le_bytes());
    record.extend((writable as u16).to_le_bytes());
    record.extend(readable);
    record
}
