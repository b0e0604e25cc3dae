//! The second program: the rules of the crypto device once more, written from the papers alone.
//! It follows the scope paper, as tickets K4 and K12 amend it, section by section; answers have the
//! numbers of its first table. Ticket K2 changes no answer: its bits are read in the host's table.

use crate::rules::Service::*;
use crate::rules::{Algorithm, Service, ALGORITHMS};
use Refusal::*;

pub const SLOTS: usize = 128;
pub const GUESTS: usize = 8;
pub const AREA: usize = 128;
pub const STORE: usize = SLOTS * AREA;
pub const CONFIG: usize = 56;
/// The most that max_size may be, from ticket K12.
pub const MAX_SIZE: u64 = 1_048_576;
/// The last session number that a guest can be given, from ticket K12.
pub const LAST: u64 = 18_446_744_073_709_551_615;

// ---- Answer numbers ----

/// Every answer but OK; BADMSG is not among them, as finish alone gives it, as a verdict.
#[derive(Clone, Copy, Debug, PartialEq)]
pub enum Refusal {
    Error = 1,
    NotSupported = 3,
    InvalidSession = 4,
    NoSpace = 5,
    NoGuest = 16,
    NoPlace = 17,
    BadStore = 18,
    BadFeature = 19,
    BadShares = 20,
    BadConfig = 21,
}

pub fn answer<T>(outcome: &Result<T, Refusal>) -> u8 {
    match outcome {
        Ok(_) => 0,
        Err(refusal) => *refusal as u8,
    }
}

pub fn demand(holds: bool, otherwise: Refusal) -> Result<(), Refusal> {
    holds.then_some(()).ok_or(otherwise)
}

// ---- Set-up and attach ----

/// The configuration: twelve 32-bit fields in document 001's order, and max_size.
#[derive(Clone, Debug, Default, PartialEq)]
pub struct Config {
    pub fields: [u32; 12],
    pub max_size: u64,
}

impl Config {
    fn read(bytes: &[u8]) -> Config {
        Config {
            fields: std::array::from_fn(|place| word(bytes, 4 * place) as u32),
            max_size: long(bytes, 48),
        }
    }

    fn accepted(&self) -> bool {
        let [status, queues, services, .., cipher_key, auth_key, reserved] = self.fields;
        let known = |service| {
            ALGORITHMS
                .iter()
                .filter(|a| a.service == service)
                .fold(0u64, |mask, a| mask | 1 << a.number)
        };
        status == 1
            && (1..=8).contains(&queues)
            && services < 16
            && [Cipher, Hash, Mac, Aead]
                .into_iter()
                .all(|service| self.mask(service) & !known(service) == 0)
            && cipher_key <= 64
            && auth_key <= 64
            && reserved == 0
            && self.max_size <= MAX_SIZE
    }

    fn mask(&self, service: Service) -> u64 {
        let two = |low: usize| u64::from(self.fields[low]) | u64::from(self.fields[low + 1]) << 32;
        match service {
            Cipher => two(3),
            Hash => self.fields[5].into(),
            Mac => two(6),
            Aead => self.fields[8].into(),
        }
    }

    /// The service of a number, if its bit is set.
    pub fn service(&self, number: u64) -> Option<Service> {
        let service = *[Cipher, Hash, Mac, Aead].get(number as usize)?;
        (self.fields[2] >> number & 1 == 1).then_some(service)
    }

    pub fn offered(&self, service: Service, number: u64) -> Option<&'static Algorithm> {
        let algorithm = ALGORITHMS
            .iter()
            .find(|a| a.service == service && a.number == number)?;
        self.service(service as u64)?;
        (self.mask(service) >> number & 1 == 1).then_some(algorithm)
    }

    /// A create's lengths against the algorithm's rules and the key limits.
    pub fn lengths_fit(&self, algorithm: &Algorithm, key: u64, result: u64) -> bool {
        let limit = match algorithm.service {
            Cipher | Aead => self.fields[9].into(),
            Mac => self.fields[10].into(),
            Hash => u64::MAX,
        };
        algorithm.key.allow(key) && key <= limit && algorithm.result.allow(result)
    }
}

/// A refused set-up gives the empty table beside its answer.
pub fn set_up(
    config: &[u8],
    reserves: &[u8; GUESTS],
    caps: &[u8; GUESTS],
    store: &mut [u8],
) -> (Result<(), Refusal>, Table) {
    let judged = || {
        demand(store.len() == STORE, BadStore)?;
        demand(config.len() == CONFIG, BadConfig)?;
        let config = Config::read(config);
        demand(config.accepted(), BadConfig)?;
        let each = reserves
            .iter()
            .zip(caps)
            .all(|(reserve, cap)| reserve <= cap && *cap <= 128);
        let sum: u64 = reserves.iter().map(|reserve| u64::from(*reserve)).sum();
        demand(each && sum <= 128, BadShares)?;
        Ok(config)
    };
    match judged() {
        Err(refusal) => (
            Err(refusal),
            Table::fresh(Config::default(), &[0; GUESTS], &[0; GUESTS]),
        ),
        Ok(config) => {
            store.fill(0);
            (Ok(()), Table::fresh(config, reserves, caps))
        }
    }
}

// ---- The session table ----

#[derive(Clone, Debug, PartialEq)]
pub struct Session {
    pub owner: u8,
    pub number: u64,
    pub service: u8,
    pub algo: u8,
    pub direction: u8,
    pub key: u8,
    pub result: u8,
    pub aad: u32,
}

#[derive(Clone, Debug, PartialEq)]
pub struct Guest {
    pub attached: bool,
    pub reserve: u8,
    pub cap: u8,
    /// The last session number given since the last attach.
    pub last: u64,
}

#[derive(Clone, Debug, PartialEq)]
pub struct Table {
    pub config: Config,
    /// A free slot is `None`: whatever bytes lie in it, it names nobody.
    pub slots: Vec<Option<Session>>,
    pub guests: Vec<Guest>,
}

/// A session that matches, with its slot and its algorithm's rules.
pub struct Live<'a> {
    pub slot: usize,
    pub session: &'a Session,
    pub algorithm: &'static Algorithm,
}

impl Table {
    fn fresh(config: Config, reserves: &[u8; GUESTS], caps: &[u8; GUESTS]) -> Table {
        let shares = reserves.iter().zip(caps);
        let guests = shares
            .map(|(reserve, cap)| Guest {
                attached: false,
                reserve: *reserve,
                cap: *cap,
                last: 0,
            })
            .collect();
        Table {
            config,
            slots: vec![None; SLOTS],
            guests,
        }
    }

    pub fn attach(&mut self, guest: u8, word: u32, store: &mut [u8]) -> Result<(), Refusal> {
        demand(store.len() == STORE, BadStore)?;
        let record = self.guests.get_mut(usize::from(guest)).ok_or(NoGuest)?;
        demand(word == 1, BadFeature)?;
        record.attached = true;
        record.last = 0;
        for slot in 0..SLOTS {
            if self.slots[slot]
                .as_ref()
                .is_some_and(|session| session.owner == guest)
            {
                self.free(slot, store);
            }
        }
        Ok(())
    }

    pub fn free(&mut self, slot: usize, store: &mut [u8]) {
        self.slots[slot] = None;
        store[slot * AREA..][..AREA].fill(0);
    }

    pub fn attached(&self, guest: u8) -> Result<&Guest, Refusal> {
        self.guests
            .get(usize::from(guest))
            .filter(|record| record.attached)
            .ok_or(NoGuest)
    }

    fn held_by(&self, guest: u8) -> u64 {
        self.slots
            .iter()
            .flatten()
            .filter(|session| session.owner == guest)
            .count() as u64
    }

    pub fn no_space(&self, guest: u8) -> bool {
        let own = &self.guests[usize::from(guest)];
        let holds = self.held_by(guest);
        let all = self.slots.iter().flatten().count() as u64;
        let others = (0u8..)
            .zip(&self.guests)
            .filter(|(other, _)| *other != guest);
        let unmet: u64 = others
            .map(|(other, record)| u64::from(record.reserve).saturating_sub(self.held_by(other)))
            .sum();
        holds >= own.cap.into()
            || holds >= own.reserve.into() && all + unmet >= 128
            || self.slots.iter().all(Option::is_some)
    }

    /// The rules of a session that matches, or nothing if it matches no number.
    fn rules_of(&self, session: &Session) -> Option<&'static Algorithm> {
        let owner = self.attached(session.owner).ok()?;
        let service = self.config.service(session.service.into())?;
        let algorithm = self.config.offered(service, session.algo.into())?;
        let given = (1..=owner.last).contains(&session.number);
        let direction = !service.directed() || matches!(session.direction, 1 | 2);
        let lengths = self
            .config
            .lengths_fit(algorithm, session.key.into(), session.result.into());
        (given && direction && lengths).then_some(algorithm)
    }

    /// The lowest slot that matches.
    pub fn find(&self, guest: u8, number: u64) -> Option<Live<'_>> {
        self.slots.iter().enumerate().find_map(|(slot, held)| {
            let session = held
                .as_ref()
                .filter(|session| session.owner == guest && session.number == number)?;
            Some(Live {
                slot,
                session,
                algorithm: self.rules_of(session)?,
            })
        })
    }

    fn fetch(&self, guest: u8, number: u64, store: &[u8]) -> Result<Live<'_>, Refusal> {
        demand(store.len() == STORE, BadStore)?;
        self.attached(guest)?;
        self.find(guest, number).ok_or(InvalidSession)
    }

    pub fn key_answer(&self, guest: u8, number: u64, store: &[u8]) -> Result<(), Refusal> {
        self.fetch(guest, number, store).map(|_| ())
    }

    pub fn key<'s>(&self, guest: u8, number: u64, store: &'s [u8]) -> &'s [u8] {
        let found = self.fetch(guest, number, store).ok();
        let place = found.and_then(|live| {
            Some((
                live.slot * AREA + live.algorithm.service.key_start()?,
                live.session.key,
            ))
        });
        place.map_or(&[], |(start, size)| &store[start..][..size.into()])
    }
}

// ---- Little endian fields ----

pub fn word(bytes: &[u8], at: usize) -> u64 {
    (0..4).fold(0, |value, place| {
        value | u64::from(bytes[at + place]) << (8 * place)
    })
}

pub fn long(bytes: &[u8], at: usize) -> u64 {
    word(bytes, at) | word(bytes, at + 4) << 32
}
