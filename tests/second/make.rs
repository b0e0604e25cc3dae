//! Random calls, most of them aimed at what the table holds.

use crate::make_request::{create, data, destroy, invented, OPCODES};
use crate::rng::Rng;
use crate::second::{Session, Table, GUESTS};

pub enum Call {
    SetUp(SetUp),
    Attach { guest: u8, word: u32 },
    Control(Request),
    Data(Request),
    Key { guest: u8, number: u64 },
    Finish(Finish),
}

impl Call {
    /// The guest that it names; a set-up names none.
    pub fn guest(&self) -> Option<u8> {
        match self {
            Call::SetUp(_) => None,
            Call::Attach { guest, .. } | Call::Key { guest, .. } => Some(*guest),
            Call::Control(request) | Call::Data(request) => Some(request.guest),
            Call::Finish(finish) => Some(finish.guest),
        }
    }

    /// A control request whose opcode is a create's.
    pub fn creates(&self) -> bool {
        matches!(self, Call::Control(request) if request.readable.first() == Some(&2))
    }
}

pub struct SetUp {
    pub config: Vec<u8>,
    pub reserves: [u8; GUESTS],
    pub caps: [u8; GUESTS],
}

pub struct Request {
    pub guest: u8,
    pub readable: Vec<u8>,
    pub writable: Vec<u8>,
}

pub struct Finish {
    pub guest: u8,
    pub opcode: u32,
    pub verdict: u8,
    pub writable: Vec<u8>,
}

/// The character of a list of calls.
pub struct Mood {
    pub guests: Vec<u8>,
    /// Of attach, create, destroy, data, key fetch and finish.
    pub weights: [u64; 6],
    /// One request in so many is damaged.
    damage: u64,
}

impl Mood {
    pub fn random(rng: &mut Rng) -> Mood {
        let guests = match rng.below(3) {
            0 => vec![rng.below(8) as u8],
            1 => (0..rng.below(3) + 2).map(|_| rng.below(8) as u8).collect(),
            _ => (0..8).collect(),
        };
        // To fill the table, to fill it between resets, to use it, to churn, to reset often.
        let weights = rng.pick(&[
            [0, 90, 2, 8, 3, 1],
            [1, 300, 40, 60, 15, 9],
            [2, 30, 18, 40, 10, 5],
            [1, 45, 40, 10, 4, 1],
            [12, 40, 10, 30, 5, 3],
        ]);
        Mood {
            guests,
            weights,
            damage: rng.pick(&[2, 4, 10]),
        }
    }

    /// The place of the next call's kind among the weights.
    fn kind(&self, rng: &mut Rng) -> usize {
        let mut die = rng.below(self.weights.iter().sum());
        let taken = |weight: &u64| {
            let taken = die < *weight;
            die = die.saturating_sub(*weight);
            taken
        };
        self.weights.iter().position(taken).unwrap_or(0)
    }

    /// For a table filled by hand, on which a single call is made.
    pub fn single() -> Mood {
        Mood {
            guests: (0..8).collect(),
            weights: [2, 10, 10, 24, 6, 3],
            damage: 3,
        }
    }
}

const GUEST_NUMBERS: [u8; 12] = [0, 1, 2, 3, 4, 5, 6, 7, 8, 9, 128, 255];
const FEATURES: [u32; 10] = [0, 2, 3, 5, 17, 31, 0x101, 0x1_0001, 0x8000_0001, u32::MAX];

pub fn call(rng: &mut Rng, mood: &Mood, table: &Table) -> Call {
    let damaged = rng.one_in(mood.damage);
    let stray = rng.one_in(40).then(|| rng.pick(&GUEST_NUMBERS));
    let guest = stray.unwrap_or_else(|| rng.pick(&mood.guests));
    let session = target(rng, mood, table);
    let owner = stray.unwrap_or(session.owner);
    match mood.kind(rng) {
        0 => attach(rng, guest),
        1 => Call::Control(request(rng, guest, |rng| create(rng, table, damaged))),
        2 => Call::Control(request(rng, owner, |rng| destroy(rng, &session, damaged))),
        3 => Call::Data(request(rng, owner, |rng| {
            data(rng, table, &session, damaged)
        })),
        4 => {
            let beside = rng.beside(session.number);
            let number = if damaged { beside } else { session.number };
            Call::Key {
                guest: owner,
                number,
            }
        }
        _ => finish(rng, guest),
    }
}

/// The writable bytes are random too, as those that are not written must stay.
fn request(rng: &mut Rng, guest: u8, made: impl Fn(&mut Rng) -> (Vec<u8>, usize)) -> Request {
    let (readable, writable) = made(rng);
    let writable = rng.bytes(writable);
    Request {
        guest,
        readable,
        writable,
    }
}

fn finish(rng: &mut Rng, guest: u8) -> Call {
    let other = rng.pick(&OPCODES) as u32;
    let opcode = if rng.one_in(3) { 0x301 } else { other };
    let verdict = rng.pick(&[0, 1, 2, 2, 2, 3, 4, 5, 128, 255]);
    let writable = rng.pick(&[0, 1, 2, 16, 17, 117]);
    let writable = rng.bytes(writable);
    Call::Finish(Finish {
        guest,
        opcode,
        verdict,
        writable,
    })
}

/// One attach in eight is refused.
pub fn attach(rng: &mut Rng, guest: u8) -> Call {
    let stray = rng.pick(&[8, 9, 255]);
    let guest = if rng.one_in(16) { stray } else { guest };
    let other = rng.pick(&FEATURES);
    let word = if rng.one_in(16) { other } else { 1 };
    Call::Attach { guest, word }
}

/// A held session of the table, most often one that is live, seldom one that is not there.
fn target(rng: &mut Rng, mood: &Mood, table: &Table) -> Session {
    for _ in 0..4 {
        let start = rng.below(128) as usize;
        let held = table.slots[start..]
            .iter()
            .chain(&table.slots[..start])
            .flatten()
            .next();
        let Some(session) = held.filter(|_| !rng.one_in(40)) else {
            break;
        };
        // Of two with one number the live one is asked for more often.
        match table.find(session.owner, session.number) {
            Some(live) if !rng.one_in(8) => return live.session.clone(),
            _ if rng.one_in(5) => return session.clone(),
            _ => {}
        }
    }
    let owner = rng.pick(&mood.guests);
    invented(rng, owner, table.guests[usize::from(owner)].last)
}
