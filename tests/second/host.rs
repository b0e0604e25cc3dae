//! The device's archive: its calls and structures, and the second program's table in them.

use crate::second;
use crate::second::{GUESTS, SLOTS};

#[repr(C)]
#[derive(Clone, Copy, Debug, Default, PartialEq)]
pub struct Config {
    pub fields: [u32; 12],
    pub size: u64,
}

#[repr(C)]
#[derive(Clone, Copy, Debug, Default, PartialEq)]
pub struct Slot {
    pub number: u64,
    pub aad: u32,
    pub owner: u8,
    pub service: u8,
    pub algo: u8,
    pub direction: u8,
    pub keylen: u8,
    pub result: u8,
}

#[repr(C)]
#[derive(Clone, Copy, Debug, Default, PartialEq)]
pub struct Guest {
    pub attached: bool,
    pub reserve: u8,
    pub cap: u8,
    pub last: u64,
}

#[repr(C)]
#[derive(Clone, Copy, Debug, PartialEq)]
pub struct Table {
    pub config: Config,
    /// Slot s is held if bit s % 64 of word s / 64 is set.
    pub occupied: [u64; 2],
    pub slots: [Slot; SLOTS],
    pub guests: [Guest; GUESTS],
}

#[repr(C)]
pub struct Reply {
    pub answer: u8,
    pub table: Table,
}

#[repr(C)]
#[derive(Clone, Copy, Debug, Default, PartialEq)]
pub struct Admission {
    pub answer: u8,
    pub guest: u8,
    pub number: u64,
    pub opcode: u32,
}

#[repr(C)]
#[derive(Clone, Copy, Debug, PartialEq)]
pub struct Span {
    pub start: usize,
    pub size: usize,
}

mod archive {
    use super::{Admission, Reply, Span, Table};

    extern "C" {
        pub fn vcrypto_set_up(
            config: *const u8,
            config_len: usize,
            reserves: *const u8,
            caps: *const u8,
            store: *mut u8,
            store_len: usize,
        ) -> Reply;
        pub fn vcrypto_attach(
            table: Table,
            guest: u8,
            word: u32,
            store: *mut u8,
            store_len: usize,
        ) -> Reply;
        pub fn vcrypto_control(
            table: Table,
            guest: u8,
            readable: *const u8,
            readable_len: usize,
            writable: *mut u8,
            writable_len: usize,
            store: *mut u8,
            store_len: usize,
        ) -> Reply;
        pub fn vcrypto_admit(
            table: Table,
            guest: u8,
            readable: *const u8,
            readable_len: usize,
            writable: *mut u8,
            writable_len: usize,
        ) -> Admission;
        pub fn vcrypto_iv(
            table: Table,
            guest: u8,
            readable: *const u8,
            readable_len: usize,
            writable: *const u8,
            writable_len: usize,
        ) -> Span;
        pub fn vcrypto_source(
            table: Table,
            guest: u8,
            readable: *const u8,
            readable_len: usize,
            writable: *const u8,
            writable_len: usize,
        ) -> Span;
        pub fn vcrypto_aad(
            table: Table,
            guest: u8,
            readable: *const u8,
            readable_len: usize,
            writable: *const u8,
            writable_len: usize,
        ) -> Span;
        pub fn vcrypto_key_answer(
            table: Table,
            guest: u8,
            number: u64,
            store: *const u8,
            store_len: usize,
        ) -> u8;
        pub fn vcrypto_key(
            table: Table,
            guest: u8,
            number: u64,
            store: *const u8,
            store_len: usize,
        ) -> Span;
        pub fn vcrypto_finish(
            table: Table,
            guest: u8,
            opcode: u32,
            verdict: u8,
            writable: *mut u8,
            writable_len: usize,
        ) -> u8;
    }
}

// Each call below lends slices, whose pointers are never null and have their length's bytes.

pub fn set_up(
    config: &[u8],
    reserves: &[u8; GUESTS],
    caps: &[u8; GUESTS],
    store: &mut [u8],
) -> Reply {
    unsafe {
        archive::vcrypto_set_up(
            config.as_ptr(),
            config.len(),
            reserves.as_ptr(),
            caps.as_ptr(),
            store.as_mut_ptr(),
            store.len(),
        )
    }
}

/// Which part of a data request.
#[derive(Clone, Copy)]
pub enum Part {
    Iv,
    Source,
    Aad,
}

impl Table {
    pub fn attach(&self, guest: u8, word: u32, store: &mut [u8]) -> Reply {
        unsafe { archive::vcrypto_attach(*self, guest, word, store.as_mut_ptr(), store.len()) }
    }

    pub fn control(
        &self,
        guest: u8,
        readable: &[u8],
        writable: &mut [u8],
        store: &mut [u8],
    ) -> Reply {
        let (store, size) = (store.as_mut_ptr(), store.len());
        unsafe {
            archive::vcrypto_control(
                *self,
                guest,
                readable.as_ptr(),
                readable.len(),
                writable.as_mut_ptr(),
                writable.len(),
                store,
                size,
            )
        }
    }

    pub fn admit(&self, guest: u8, readable: &[u8], writable: &mut [u8]) -> Admission {
        unsafe {
            archive::vcrypto_admit(
                *self,
                guest,
                readable.as_ptr(),
                readable.len(),
                writable.as_mut_ptr(),
                writable.len(),
            )
        }
    }

    pub fn part(&self, part: Part, guest: u8, readable: &[u8], writable: &[u8]) -> Span {
        let call = match part {
            Part::Iv => archive::vcrypto_iv,
            Part::Source => archive::vcrypto_source,
            Part::Aad => archive::vcrypto_aad,
        };
        unsafe {
            call(
                *self,
                guest,
                readable.as_ptr(),
                readable.len(),
                writable.as_ptr(),
                writable.len(),
            )
        }
    }

    pub fn key_answer(&self, guest: u8, number: u64, store: &[u8]) -> u8 {
        unsafe { archive::vcrypto_key_answer(*self, guest, number, store.as_ptr(), store.len()) }
    }

    pub fn key(&self, guest: u8, number: u64, store: &[u8]) -> Span {
        unsafe { archive::vcrypto_key(*self, guest, number, store.as_ptr(), store.len()) }
    }

    pub fn finish(&self, guest: u8, opcode: u32, verdict: u8, writable: &mut [u8]) -> u8 {
        unsafe {
            archive::vcrypto_finish(
                *self,
                guest,
                opcode,
                verdict,
                writable.as_mut_ptr(),
                writable.len(),
            )
        }
    }

    pub const EMPTY: Table = Table {
        config: Config {
            fields: [0; 12],
            size: 0,
        },
        occupied: [0; 2],
        slots: [Slot {
            number: 0,
            aad: 0,
            owner: 0,
            service: 0,
            algo: 0,
            direction: 0,
            keylen: 0,
            result: 0,
        }; SLOTS],
        guests: [Guest {
            attached: false,
            reserve: 0,
            cap: 0,
            last: 0,
        }; GUESTS],
    };

    pub fn held(&self, place: usize) -> bool {
        self.occupied[place / 64] >> (place % 64) & 1 == 1
    }

    pub fn mark(&mut self, place: usize, held: bool) {
        let bit = 1 << (place % 64);
        self.occupied[place / 64] &= !bit;
        if held {
            self.occupied[place / 64] |= bit;
        }
    }

    pub fn to_second(&self) -> second::Table {
        let guest = |g: &Guest| second::Guest {
            attached: g.attached,
            reserve: g.reserve,
            cap: g.cap,
            last: g.last,
        };
        second::Table {
            config: second::Config {
                fields: self.config.fields,
                max_size: self.config.size,
            },
            slots: (0..SLOTS)
                .map(|place| self.held(place).then(|| self.slots[place].to_second()))
                .collect(),
            guests: self.guests.iter().map(guest).collect(),
        }
    }

    /// The table a call on this one must return: a slot that stays free keeps its bytes, one
    /// that is freed is all zero.
    pub fn after(&self, second: &second::Table) -> Table {
        let mut table = *self;
        table.config = Config {
            fields: second.config.fields,
            size: second.config.max_size,
        };
        for (place, held) in second.slots.iter().enumerate() {
            match held {
                Some(session) => table.slots[place] = Slot::from_second(session),
                None if self.held(place) => table.slots[place] = Slot::default(),
                None => {}
            }
            table.mark(place, held.is_some());
        }
        for (guest, g) in table.guests.iter_mut().zip(&second.guests) {
            *guest = Guest {
                attached: g.attached,
                reserve: g.reserve,
                cap: g.cap,
                last: g.last,
            };
        }
        table
    }
}

impl Slot {
    fn to_second(self) -> second::Session {
        second::Session {
            owner: self.owner,
            number: self.number,
            service: self.service,
            algo: self.algo,
            direction: self.direction,
            key: self.keylen,
            result: self.result,
            aad: self.aad,
        }
    }

    pub fn from_second(session: &second::Session) -> Slot {
        Slot {
            number: session.number,
            aad: session.aad,
            owner: session.owner,
            service: session.service,
            algo: session.algo,
            direction: session.direction,
            keylen: session.key,
            result: session.result,
        }
    }
}
