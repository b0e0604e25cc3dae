//! Random set-ups, and tables filled by hand.

use crate::host;
use crate::make::SetUp;
use crate::make_request::invented;
use crate::rng::Rng;
use crate::second::{CONFIG, GUESTS, LAST, MAX_SIZE, SLOTS, STORE};

/// The masks of all algorithms in the rules, in the order of the configuration.
const MASKS: [u32; 6] = [0x211c, 0, 0x7e, 0x400_007e, 0, 0xe];
const KEY_LIMITS: [u32; 9] = [64, 64, 64, 63, 32, 31, 24, 16, 0];

/// A configuration and shares; one set-up in so many is refused.
pub fn set_up(rng: &mut Rng, damage: u64) -> SetUp {
    let mut config = config(rng);
    let (mut reserves, mut caps) = shares(rng);
    // At times two things are bad, so that the order of the answers shows.
    let bad = rng.pick(&[1, 1, 1, 2]);
    for _ in 0..if rng.one_in(damage) { bad } else { 0 } {
        match rng.below(4) {
            0 => config.resize(rng.pick(&[0, 1, 48, 55, 57, 64, 112]), 0),
            1 | 2 if config.len() >= CONFIG => damage_config(rng, &mut config[..CONFIG]),
            _ => damage_shares(rng, &mut reserves, &mut caps),
        }
    }
    SetUp {
        config,
        reserves,
        caps,
    }
}

fn config(rng: &mut Rng) -> Vec<u8> {
    let queues = 1 + rng.below(8) as u32;
    let (cipher_key, auth_key) = (rng.pick(&KEY_LIMITS), rng.pick(&KEY_LIMITS));
    let mut fields = [1, queues, 15, 0, 0, 0, 0, 0, 0, cipher_key, auth_key, 0];
    fields[3..9].copy_from_slice(&MASKS);
    if rng.one_in(4) {
        fields[2] = rng.below(16) as u32;
    }
    if rng.one_in(4) {
        fields[3..9]
            .iter_mut()
            .for_each(|mask| *mask &= rng.next() as u32);
    }
    let max_size = match rng.below(8) {
        0..=2 => MAX_SIZE,
        3 | 4 => rng.below(600),
        5 => rng.pick(&[0, 1, 4_096, 65_535]),
        6 => 65_536,
        _ => rng.pick(&[65_537, MAX_SIZE - 1]),
    };
    fields
        .iter()
        .flat_map(|field| field.to_le_bytes())
        .chain(max_size.to_le_bytes())
        .collect()
}

fn damage_config(rng: &mut Rng, config: &mut [u8]) {
    let field = rng.below(13) as usize;
    if field == 12 {
        let size = rng.pick(&[
            MAX_SIZE + 1,
            MAX_SIZE + 1,
            MAX_SIZE + (1 << 32),
            65_536 + (1 << 32),
            1 << 32,
            1 << 40,
            u64::MAX,
        ]);
        config[48..].copy_from_slice(&size.to_le_bytes());
        return;
    }
    let value = match field {
        0 => rng.pick(&[0, 2, 3, 0x101]),
        1 => rng.pick(&[0, 9, 0x101, u32::MAX]),
        2 => 1 << rng.below(32),
        3..=8 => MASKS[field - 3] | 1 << rng.below(32),
        9 | 10 => rng.pick(&[65, 0x110, u32::MAX]),
        _ => 1 << rng.below(32),
    };
    config[4 * field..4 * field + 4].copy_from_slice(&value.to_le_bytes());
}

fn shares(rng: &mut Rng) -> ([u8; GUESTS], [u8; GUESTS]) {
    match rng.below(7) {
        0 => ([8; GUESTS], [128; GUESTS]),
        1 => ([16; GUESTS], [128; GUESTS]),
        2 => ([8; GUESTS], [32; GUESTS]),
        3 => ([0; GUESTS], [128; GUESTS]),
        4 => {
            // All 128 are reserved, in uneven shares.
            let mut reserves = [0; GUESTS];
            (0..SLOTS).for_each(|_| reserves[rng.below(8) as usize] += 1);
            (
                reserves,
                reserves.map(|reserve| reserve + rng.below(u64::from(129 - reserve)) as u8),
            )
        }
        5 => {
            let mut reserves = [0; GUESTS];
            reserves[rng.below(8) as usize] = rng.pick(&[128, 127, 100]);
            (reserves, [128; GUESTS])
        }
        _ => {
            let caps: [u8; GUESTS] = std::array::from_fn(|_| rng.pick(&[0, 1, 2, 5, 16, 40, 128]));
            (
                caps.map(|cap| rng.below(u64::from(cap.min(15)) + 1) as u8),
                caps,
            )
        }
    }
}

fn damage_shares(rng: &mut Rng, reserves: &mut [u8; GUESTS], caps: &mut [u8; GUESTS]) {
    let guest = rng.below(8) as usize;
    match rng.below(5) {
        0 => caps[guest] = rng.pick(&[129, 255]),
        1 => reserves[guest] = caps[guest].saturating_add(1),
        2 => {
            // A sum of 129, or one that is 0 in 8 bits.
            *caps = [128; GUESTS];
            *reserves = rng.pick(&[
                [16, 16, 16, 16, 16, 16, 16, 17],
                [128, 1, 0, 0, 0, 0, 0, 0],
                [32; GUESTS],
                [128; GUESTS],
            ]);
        }
        3 => caps[guest] = reserves[guest].saturating_sub(1),
        _ => {
            *reserves = std::array::from_fn(|_| rng.below(256) as u8);
            *caps = std::array::from_fn(|_| rng.below(256) as u8);
        }
    }
}

/// A key store of random bytes, seldom of another length.
pub fn store(rng: &mut Rng) -> Vec<u8> {
    let other = rng.pick(&[0, 1, STORE - 128, STORE - 1, STORE + 1, STORE + 128]);
    let size = if rng.one_in(40) { other } else { STORE };
    rng.bytes(size)
}

/// Fields anything, but enough of them sound that calls on the table are also granted.
pub fn by_hand(rng: &mut Rng) -> host::Table {
    let mut table = host::Table::EMPTY;
    table.config = config_by_hand(rng);
    let style = rng.below(3);
    for guest in &mut table.guests {
        let low = rng.below(20) as u8;
        let (reserve, cap) = match style {
            0 => (0, 255),
            1 => (low, low.saturating_add(rng.below(120) as u8)),
            _ => (rng.next() as u8, rng.next() as u8),
        };
        let last = match rng.below(10) {
            0 => 0,
            1 => rng.pick(&[LAST - 2, LAST - 1]),
            2 => LAST,
            3 => (1 << 32) - 3 + rng.below(9),
            4 => rng.next() >> rng.below(64),
            _ => 1 + rng.below(40),
        };
        *guest = host::Guest {
            attached: !rng.one_in(10),
            reserve,
            cap,
            last,
        };
    }
    let filled = rng.pick(&[2, 10, 60, 120, 127, 128]);
    let odd = rng.pick(&[2, 8, 40]);
    let few = rng.one_in(3).then(|| rng.below(8));
    for place in 0..SLOTS {
        let held = rng.below(128) < filled;
        table.mark(place, held);
        if held || rng.one_in(8) {
            let owner = few
                .filter(|_| !rng.one_in(4))
                .unwrap_or_else(|| rng.below(8));
            let session = invented(rng, owner as u8, table.guests[owner as usize].last);
            let slot = &mut table.slots[place];
            *slot = host::Slot::from_second(&session);
            if rng.one_in(odd) {
                odd_field(rng, slot);
            }
        }
    }
    // marks set and cleared whatever the fields hold: one, a word of them, all, all but the last
    let one = 1 << rng.below(64);
    match rng.below(16) {
        0 => table.occupied[0] ^= one,
        1 => table.occupied[1] ^= one,
        2 => table.occupied[0] = u64::MAX,
        3 => table.occupied[1] = u64::MAX,
        4 => table.occupied = [u64::MAX; 2],
        5 => table.occupied = [u64::MAX, u64::MAX >> 1],
        _ => {}
    }
    table
}

fn odd_field(rng: &mut Rng, slot: &mut host::Slot) {
    let any = rng.next() as u8;
    match rng.below(9) {
        0 => slot.number = rng.beside(slot.number),
        1 => slot.aad = rng.next() as u32,
        2 => slot.owner = rng.pick(&[8, 9, 255, any]),
        3 => slot.service = rng.pick(&[0, 1, 2, 3, 4, 5, 255]),
        4 => slot.algo = rng.below(34) as u8,
        5 => slot.direction = rng.pick(&[0, 3, any]),
        6 => slot.keylen = rng.pick(&[0, 1, 15, 16, 17, 24, 32, 33, 63, 64, 65, 128, any]),
        7 => slot.result = rng.pick(&[0, 1, 4, 5, 7, 8, 12, 13, 16, 17, 20, 33, 64, 65, any]),
        _ => slot.number = 0,
    }
}

fn config_by_hand(rng: &mut Rng) -> host::Config {
    let mut fields = [0; 12].map(|_: u32| rng.next() as u32);
    fields[2] = if rng.one_in(6) {
        rng.next() as u32
    } else {
        15 | fields[2] & !15
    };
    for (field, mask) in fields[3..9].iter_mut().zip(MASKS) {
        *field = if rng.one_in(8) { *field } else { mask | *field };
    }
    fields[9] = rng.pick(&[64, 64, 64, 65, 255, u32::MAX, 63, 32, 31, 16]);
    fields[10] = rng.pick(&[64, 64, 64, 65, 255, u32::MAX, 63, 32, 31, 16]);
    let size = match rng.below(8) {
        0 | 1 => rng.below(600),
        2 => u64::MAX,
        3 => rng.pick(&[
            1 << 32,
            (1 << 32) + 15,
            1 << 33,
            1 << 34,
            1 << 40,
            u64::MAX - 1,
            68_000,
        ]),
        4 => rng.next(),
        5 => rng.pick(&[65_535, 65_536, 65_536, 65_537]),
        6 => MAX_SIZE,
        _ => rng.pick(&[MAX_SIZE - 1, MAX_SIZE + 1]),
    };
    host::Config { fields, size }
}
