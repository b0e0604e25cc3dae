//! The scope paper's rules per algorithm, as one list. The numbers are document 001's.

use Service::*;

#[derive(Clone, Copy, Debug, PartialEq)]
pub enum Service {
    Cipher,
    Hash,
    Mac,
    Aead,
}

impl Service {
    /// Only a cipher or AEAD session encrypts or decrypts.
    pub fn directed(self) -> bool {
        matches!(self, Cipher | Aead)
    }

    /// Where in a slot's key area the key starts; a hash has none.
    pub fn key_start(self) -> Option<usize> {
        match self {
            Cipher | Aead => Some(0),
            Mac => Some(64),
            Hash => None,
        }
    }
}

/// The lengths that a rule allows; `Any` also where the service has no such field.
#[derive(Clone, Copy)]
pub enum Lengths {
    Any,
    OneOf(&'static [u64]),
    Between(u64, u64),
    MultipleOf(u64),
    AtLeast(u64),
}

impl Lengths {
    pub fn allow(self, length: u64) -> bool {
        match self {
            Lengths::Any => true,
            Lengths::OneOf(list) => list.contains(&length),
            Lengths::Between(low, high) => (low..=high).contains(&length),
            Lengths::MultipleOf(unit) => length % unit == 0,
            Lengths::AtLeast(low) => length >= low,
        }
    }
}

pub struct Algorithm {
    pub service: Service,
    pub number: u64,
    pub key: Lengths,
    pub iv: Lengths,
    /// The tag sets a least length too, for AEAD decryption, and the IV a greatest, for CCM.
    pub source: Lengths,
    /// A hash or MAC result, or an AEAD tag.
    pub result: Lengths,
}

impl Algorithm {
    /// Ticket K12: a CCM payload is below 256 to the power (15 minus IV length).
    pub fn payload_allowed(&self, iv: u64, payload: u64) -> bool {
        match (self.service, self.number) {
            (Aead, 2) => iv <= 15 && u128::from(payload) < 256u128.pow(15 - iv as u32),
            _ => true,
        }
    }
}

const AES: Lengths = Lengths::OneOf(&[16, 24, 32]);

const fn cipher(number: u64, key: Lengths, iv: &'static [u64], source: Lengths) -> Algorithm {
    Algorithm {
        service: Cipher,
        number,
        key,
        iv: Lengths::OneOf(iv),
        source,
        result: Lengths::Any,
    }
}

const fn hash(number: u64, digest: u64) -> Algorithm {
    let result = Lengths::Between(1, digest);
    Algorithm {
        service: Hash,
        number,
        key: Lengths::Any,
        iv: Lengths::Any,
        source: Lengths::Any,
        result,
    }
}

const fn mac(number: u64, key: Lengths, digest: u64) -> Algorithm {
    let result = Lengths::Between(1, digest);
    Algorithm {
        service: Mac,
        number,
        key,
        iv: Lengths::Any,
        source: Lengths::Any,
        result,
    }
}

const fn aead(number: u64, key: Lengths, iv: Lengths, tag: &'static [u64]) -> Algorithm {
    Algorithm {
        service: Aead,
        number,
        key,
        iv,
        source: Lengths::Any,
        result: Lengths::OneOf(tag),
    }
}

pub static ALGORITHMS: [Algorithm; 21] = [
    cipher(2, AES, &[0], Lengths::MultipleOf(16)),
    cipher(3, AES, &[16], Lengths::MultipleOf(16)),
    cipher(4, AES, &[16], Lengths::Any),
    cipher(8, Lengths::OneOf(&[24]), &[8], Lengths::MultipleOf(8)),
    cipher(13, Lengths::OneOf(&[32, 64]), &[16], Lengths::AtLeast(16)),
    hash(1, 16),
    hash(2, 20),
    hash(3, 28),
    hash(4, 32),
    hash(5, 48),
    hash(6, 64),
    mac(1, Lengths::Between(1, 64), 16),
    mac(2, Lengths::Between(1, 64), 20),
    mac(3, Lengths::Between(1, 64), 28),
    mac(4, Lengths::Between(1, 64), 32),
    mac(5, Lengths::Between(1, 64), 48),
    mac(6, Lengths::Between(1, 64), 64),
    mac(26, AES, 16),
    aead(1, AES, Lengths::OneOf(&[12]), &[4, 8, 12, 13, 14, 15, 16]),
    aead(2, AES, Lengths::Between(7, 13), &[4, 6, 8, 10, 12, 14, 16]),
    aead(3, Lengths::OneOf(&[32]), Lengths::OneOf(&[12]), &[16]),
];
