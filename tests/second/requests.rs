//! The second program's requests: control, data admission with its parts, and finish.

use crate::rules::Service::{self, *};
use crate::second::Refusal::*;
use crate::second::*;

/// The one op_type of a cipher request: no chaining.
const PLAIN: u64 = 1;

/// What an accepted data request names, and its parts.
pub struct Accepted<'a> {
    pub guest: u8,
    pub number: u64,
    pub opcode: u32,
    pub parts: Parts<'a>,
}

#[derive(Default)]
pub struct Parts<'a> {
    pub iv: &'a [u8],
    pub source: &'a [u8],
    pub aad: &'a [u8],
}

// ---- Control requests ----

impl Table {
    pub fn control(
        &mut self,
        guest: u8,
        readable: &[u8],
        writable: &mut [u8],
        store: &mut [u8],
    ) -> Result<(), Refusal> {
        let outcome = self.session_operation(guest, readable, writable.len(), store);
        let status = answer(&outcome);
        if status <= 5 {
            match writable {
                [only] => *only = status,
                whole => {
                    whole.fill(0);
                    whole[..8].copy_from_slice(&outcome.unwrap_or(0).to_le_bytes());
                    whole[8] = status;
                }
            }
        }
        outcome.map(|_| ())
    }

    /// Gives the session number of a create, 0 of a destroy.
    fn session_operation(
        &mut self,
        guest: u8,
        readable: &[u8],
        writable: usize,
        store: &mut [u8],
    ) -> Result<u64, Refusal> {
        demand(store.len() == STORE, BadStore)?;
        self.attached(guest)?;
        demand(matches!(writable, 1 | 16), NoPlace)?;

        demand(readable.len() >= 16, Error)?;
        let opcode = word(readable, 0);
        let service = self.config.service(opcode >> 8).ok_or(NotSupported)?;
        match opcode & 0xff {
            2 => {
                demand(writable == 16, Error)?;
                self.create(guest, service, readable, store)
            }
            3 => {
                demand(writable == 1, Error)?;
                self.destroy(guest, service, readable, store)
            }
            _ => Err(NotSupported),
        }
    }

    fn create(
        &mut self,
        guest: u8,
        service: Service,
        readable: &[u8],
        store: &mut [u8],
    ) -> Result<u64, Refusal> {
        let size = match service {
            Cipher => 56,
            Hash => 8,
            Mac => 16,
            Aead => 24,
        };
        demand(readable.len() >= 16 + size, Error)?;
        let (fixed, key) = readable[16..].split_at(size);
        let field = |at| word(fixed, at);
        let (key_len, direction, result, aad) = match service {
            Cipher => (field(4), field(8), 0, 0),
            Hash => (0, 0, field(4), 0),
            Mac => (field(8), 0, field(4), 0),
            Aead => (field(4), field(16), field(8), field(12)),
        };

        demand(service != Cipher || field(48) == PLAIN, NotSupported)?;
        let algorithm = self.config.offered(service, field(0)).ok_or(NotSupported)?;
        demand(word(readable, 4) == field(0), Error)?;
        demand(!service.directed() || matches!(direction, 1 | 2), Error)?;
        demand(self.config.lengths_fit(algorithm, key_len, result), Error)?;
        demand(key.len() as u64 == key_len, Error)?;
        let last = self.guests[usize::from(guest)].last;
        demand(last < LAST, Error)?;
        let number = last + 1;
        demand(!self.no_space(guest), NoSpace)?;

        let slot = self.slots.iter().position(Option::is_none).ok_or(NoSpace)?;
        self.slots[slot] = Some(Session {
            owner: guest,
            number,
            service: service as u8,
            algo: field(0) as u8,
            direction: direction as u8,
            key: key_len as u8,
            result: result as u8,
            aad: aad as u32,
        });
        self.guests[usize::from(guest)].last = number;
        let area = &mut store[slot * AREA..][..AREA];
        area.fill(0);
        if let Some(start) = service.key_start() {
            area[start..][..key.len()].copy_from_slice(key);
        }
        Ok(number)
    }

    fn destroy(
        &mut self,
        guest: u8,
        service: Service,
        readable: &[u8],
        store: &mut [u8],
    ) -> Result<u64, Refusal> {
        demand(readable.len() == 24, Error)?;
        let live = self.find(guest, long(readable, 16)).ok_or(Error)?;
        demand(live.algorithm.service == service, Error)?;
        let slot = live.slot;
        self.free(slot, store);
        Ok(0)
    }
}

// ---- Data requests ----

/// The lengths of a data request: read, written (destination or result), and the tag's.
struct Claimed {
    iv: u64,
    source: u64,
    aad: u64,
    written: u64,
    tag: u64,
}

impl Table {
    pub fn admit<'a>(
        &self,
        guest: u8,
        readable: &'a [u8],
        writable: &mut [u8],
    ) -> Result<Accepted<'a>, Refusal> {
        let outcome = self.judge(guest, readable, writable.len());
        if let (status @ 1..=5, Some(last)) = (answer(&outcome), writable.last_mut()) {
            *last = status;
        }
        outcome
    }

    pub fn parts<'a>(&self, guest: u8, readable: &'a [u8], writable: &[u8]) -> Parts<'a> {
        let outcome = self.judge(guest, readable, writable.len());
        outcome.map_or_else(|_| Parts::default(), |accepted| accepted.parts)
    }

    fn judge<'a>(
        &self,
        guest: u8,
        readable: &'a [u8],
        writable: usize,
    ) -> Result<Accepted<'a>, Refusal> {
        self.attached(guest)?;
        demand(writable > 0, NoPlace)?;
        demand(readable.len() >= 24, Error)?;
        let opcode = word(readable, 0) as u32;
        let direction = match opcode {
            0x000 | 0x300 => 1,
            0x001 | 0x301 => 2,
            0x100 | 0x200 => 0,
            _ => return Err(NotSupported),
        };
        let service = self
            .config
            .service(u64::from(opcode >> 8))
            .ok_or(NotSupported)?;
        match word(readable, 16) {
            0 => return Err(NotSupported),
            1 => {}
            _ => return Err(Error),
        }
        let live = self.find(guest, long(readable, 8)).ok_or(InvalidSession)?;
        demand(live.algorithm.service == service, InvalidSession)?;
        demand(
            !service.directed() || live.session.direction == direction,
            InvalidSession,
        )?;

        let size = match service {
            Cipher => 48,
            Hash | Mac => 8,
            Aead => 24,
        };
        demand(readable.len() >= 24 + size, Error)?;
        let (fixed, variable) = readable[24..].split_at(size);
        demand(service != Cipher || word(fixed, 40) == PLAIN, NotSupported)?;
        let claimed = Claimed::read(service, fixed);
        demand(
            claimed.fit(
                service,
                variable.len(),
                writable,
                &live,
                self.config.max_size,
            ),
            Error,
        )?;

        let (iv, rest) = variable.split_at(claimed.iv as usize);
        let (source, aad) = rest.split_at(claimed.source as usize);
        Ok(Accepted {
            guest,
            number: live.session.number,
            opcode,
            parts: Parts { iv, source, aad },
        })
    }

    // ---- Finish ----

    /// Gives the byte written.
    pub fn finish(
        &self,
        guest: u8,
        opcode: u32,
        verdict: u8,
        writable: &mut [u8],
    ) -> Result<u8, Refusal> {
        self.attached(guest)?;
        let last = writable.last_mut().ok_or(NoPlace)?;
        *last = match verdict {
            0 | 1 => verdict,
            2 if opcode == 0x301 => 2,
            _ => 1,
        };
        Ok(*last)
    }
}

impl Claimed {
    fn read(service: Service, fixed: &[u8]) -> Claimed {
        let field = |at| word(fixed, at);
        match service {
            Cipher => Claimed {
                iv: field(0),
                source: field(4),
                aad: 0,
                written: field(8),
                tag: 0,
            },
            Hash | Mac => Claimed {
                iv: 0,
                source: field(0),
                aad: 0,
                written: field(4),
                tag: 0,
            },
            Aead => Claimed {
                iv: field(0),
                source: field(8),
                aad: field(4),
                written: field(12),
                tag: field(16),
            },
        }
    }

    /// The last three checks of a data request, all of them answered alike.
    fn fit(
        &self,
        service: Service,
        variable: usize,
        writable: usize,
        live: &Live<'_>,
        max_size: u64,
    ) -> bool {
        let read = self.iv + self.source + self.aad;
        let within = read + self.written <= max_size;
        let exact = variable as u64 == read && writable as u64 == self.written + 1;
        let kept = u64::from(live.session.result);
        let rules = match service {
            Cipher => self.written == self.source,
            Hash | Mac => self.written == kept,
            Aead => {
                // Ticket K4: a decrypted source ends in the tag, an encrypted destination does.
                // Ticket K12: the payload is the one of the two without the tag.
                let (payload, destination) = match live.session.direction {
                    2 => (self.written, self.source.checked_sub(kept)),
                    _ => (self.source, Some(self.source + kept)),
                };
                self.tag == kept
                    && self.aad == live.session.aad.into()
                    && destination == Some(self.written)
                    && live.algorithm.payload_allowed(self.iv, payload)
            }
        };
        within
            && exact
            && rules
            && live.algorithm.iv.allow(self.iv)
            && live.algorithm.source.allow(self.source)
    }
}
