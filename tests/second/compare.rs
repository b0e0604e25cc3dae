//! One call made on both programs, and everything it leaves compared.

use crate::host::{self, Admission, Part, Span};
use crate::make::{Call, Finish, Request, SetUp};
use crate::report::{account, Tally};
use crate::second::{self, answer};
use std::fmt::Debug;

/// What a call is made on.
#[derive(Clone)]
pub struct State {
    pub table: host::Table,
    pub store: Vec<u8>,
}

/// A part or key: its place in the bytes lent, and its bytes unless the place is outside them.
pub struct Piece<'a> {
    pub name: &'static str,
    pub span: Span,
    bytes: Option<&'a [u8]>,
}

/// All that a call leaves. What a kind of call does not touch stays empty.
#[derive(Default)]
pub struct Outcome<'a> {
    pub answer: u8,
    table: Option<host::Table>,
    store: Option<Vec<u8>>,
    pub writable: Vec<u8>,
    pub named: Admission,
    pub pieces: Vec<Piece<'a>>,
}

fn by_second<'a>(state: &'a State, call: &'a Call) -> Outcome<'a> {
    let mut table = state.table.to_second();
    match call {
        Call::SetUp(SetUp {
            config,
            reserves,
            caps,
        }) => {
            let mut store = state.store.clone();
            let (outcome, table) = second::set_up(config, reserves, caps, &mut store);
            let table = Some(host::Table::EMPTY.after(&table));
            Outcome {
                answer: answer(&outcome),
                table,
                store: Some(store),
                ..Outcome::default()
            }
        }
        Call::Attach { guest, word } => {
            let mut store = state.store.clone();
            let answer = answer(&table.attach(*guest, *word, &mut store));
            Outcome {
                answer,
                table: Some(state.table.after(&table)),
                store: Some(store),
                ..Outcome::default()
            }
        }
        Call::Control(Request {
            guest,
            readable,
            writable,
        }) => {
            let (mut store, mut writable) = (state.store.clone(), writable.clone());
            let answer = answer(&table.control(*guest, readable, &mut writable, &mut store));
            let table = Some(state.table.after(&table));
            Outcome {
                answer,
                table,
                store: Some(store),
                writable,
                ..Outcome::default()
            }
        }
        Call::Data(Request {
            guest,
            readable,
            writable,
        }) => {
            let parts = table.parts(*guest, readable, writable);
            let pieces = [
                ("iv", parts.iv),
                ("source", parts.source),
                ("aad", parts.aad),
            ];
            let pieces = pieces
                .map(|(name, bytes)| Piece::of(name, bytes, readable))
                .into();
            let mut writable = writable.clone();
            let outcome = table.admit(*guest, readable, &mut writable);
            let answer = answer(&outcome);
            let named = outcome.map_or_else(
                |_| Admission {
                    answer,
                    ..Admission::default()
                },
                |a| Admission {
                    answer,
                    guest: a.guest,
                    number: a.number,
                    opcode: a.opcode,
                },
            );
            Outcome {
                answer,
                writable,
                named,
                pieces,
                ..Outcome::default()
            }
        }
        Call::Key { guest, number } => {
            let answer = answer(&table.key_answer(*guest, *number, &state.store));
            let key = Piece::of(
                "key",
                table.key(*guest, *number, &state.store),
                &state.store,
            );
            Outcome {
                answer,
                store: Some(state.store.clone()),
                pieces: vec![key],
                ..Outcome::default()
            }
        }
        Call::Finish(Finish {
            guest,
            opcode,
            verdict,
            writable,
        }) => {
            let mut writable = writable.clone();
            let outcome = table.finish(*guest, *opcode, *verdict, &mut writable);
            let answer = outcome.unwrap_or_else(|refusal| refusal as u8);
            Outcome {
                answer,
                writable,
                ..Outcome::default()
            }
        }
    }
}

fn by_device<'a>(state: &'a State, call: &'a Call) -> Outcome<'a> {
    let table = &state.table;
    match call {
        Call::SetUp(SetUp {
            config,
            reserves,
            caps,
        }) => {
            let mut store = state.store.clone();
            let reply = host::set_up(config, reserves, caps, &mut store);
            Outcome {
                answer: reply.answer,
                table: Some(reply.table),
                store: Some(store),
                ..Outcome::default()
            }
        }
        Call::Attach { guest, word } => {
            let mut store = state.store.clone();
            let reply = table.attach(*guest, *word, &mut store);
            Outcome {
                answer: reply.answer,
                table: Some(reply.table),
                store: Some(store),
                ..Outcome::default()
            }
        }
        Call::Control(Request {
            guest,
            readable,
            writable,
        }) => {
            let (mut store, mut writable) = (state.store.clone(), writable.clone());
            let reply = table.control(*guest, readable, &mut writable, &mut store);
            Outcome {
                answer: reply.answer,
                table: Some(reply.table),
                store: Some(store),
                writable,
                ..Outcome::default()
            }
        }
        Call::Data(Request {
            guest,
            readable,
            writable,
        }) => {
            // The parts come first on the same writable bytes, as a write of theirs would show.
            let mut writable = writable.clone();
            let pieces = [
                ("iv", Part::Iv),
                ("source", Part::Source),
                ("aad", Part::Aad),
            ];
            let pieces = pieces
                .map(|(name, part)| {
                    Piece::at(
                        name,
                        table.part(part, *guest, readable, &writable),
                        readable,
                    )
                })
                .into();
            let named = table.admit(*guest, readable, &mut writable);
            Outcome {
                answer: named.answer,
                writable,
                named,
                pieces,
                ..Outcome::default()
            }
        }
        Call::Key { guest, number } => {
            let store = state.store.clone();
            let answer = table.key_answer(*guest, *number, &store);
            let key = Piece::at("key", table.key(*guest, *number, &store), &state.store);
            Outcome {
                answer,
                store: Some(store),
                pieces: vec![key],
                ..Outcome::default()
            }
        }
        Call::Finish(Finish {
            guest,
            opcode,
            verdict,
            writable,
        }) => {
            let mut writable = writable.clone();
            let answer = table.finish(*guest, *opcode, *verdict, &mut writable);
            Outcome {
                answer,
                writable,
                ..Outcome::default()
            }
        }
    }
}

impl<'a> Piece<'a> {
    /// A piece of the second program, whose bytes lie in those lent.
    fn of(name: &'static str, bytes: &'a [u8], lent: &'a [u8]) -> Piece<'a> {
        let start = if bytes.is_empty() {
            0
        } else {
            bytes.as_ptr() as usize - lent.as_ptr() as usize
        };
        Piece {
            name,
            span: Span {
                start,
                size: bytes.len(),
            },
            bytes: Some(bytes),
        }
    }

    fn at(name: &'static str, span: Span, lent: &'a [u8]) -> Piece<'a> {
        let bytes = span
            .start
            .checked_add(span.size)
            .and_then(|end| lent.get(span.start..end));
        Piece { name, span, bytes }
    }
}

// ---- The first difference ----

fn same<T: PartialEq + Debug>(name: &str, second: &T, device: &T) -> Result<(), String> {
    let told = || format!("{name}: second {second:?}, device {device:?}");
    (second == device).then_some(()).ok_or_else(told)
}

fn same_each<T: PartialEq + Debug>(name: &str, second: &[T], device: &[T]) -> Result<(), String> {
    same(&format!("count of {name}"), &second.len(), &device.len())?;
    match (0..second.len()).find(|place| second[*place] != device[*place]) {
        Some(place) => same(&format!("{name} {place}"), &second[place], &device[place]),
        None => Ok(()),
    }
}

fn compare(second: &Outcome<'_>, device: &Outcome<'_>) -> Result<(), String> {
    same("answer", &second.answer, &device.answer)?;
    if let (Some(ours), Some(theirs)) = (&second.table, &device.table) {
        if ours != theirs {
            same("config", &ours.config, &theirs.config)?;
            same("occupied", &ours.occupied, &theirs.occupied)?;
            same_each("slot", &ours.slots, &theirs.slots)?;
            same_each("guest", &ours.guests, &theirs.guests)?;
        }
    }
    if second.store != device.store {
        same_each(
            "store byte",
            second.store.as_deref().unwrap_or(&[]),
            device.store.as_deref().unwrap_or(&[]),
        )?;
    }
    same_each("writable byte", &second.writable, &device.writable)?;
    same("admission", &second.named, &device.named)?;
    for (ours, theirs) in second.pieces.iter().zip(&device.pieces) {
        same(ours.name, &ours.span, &theirs.span)?;
        same(ours.name, &ours.bytes, &theirs.bytes)?;
    }
    Ok(())
}

/// What the device gives its caller, with the bytes of a part or key and not their place.
#[derive(Debug, PartialEq)]
pub struct Gets {
    pub answer: u8,
    writable: Vec<u8>,
    named: Admission,
    pieces: Vec<Option<Vec<u8>>>,
}

pub fn gets(state: &State, call: &Call) -> Gets {
    let outcome = by_device(state, call);
    let bytes = |piece: &Piece<'_>| piece.bytes.map(<[u8]>::to_vec);
    Gets {
        answer: outcome.answer,
        pieces: outcome.pieces.iter().map(bytes).collect(),
        writable: outcome.writable,
        named: outcome.named,
    }
}

/// Makes the call on both. Gives the state after it, or the whole account of a disagreement.
pub fn agreed(state: &State, call: &Call, tally: &mut Tally) -> Result<State, String> {
    let (second, device) = (by_second(state, call), by_device(state, call));
    compare(&second, &device)
        .map_err(|difference| account(state, call, &second, &device, &difference))?;
    tally.add(call, &second);
    Ok(State {
        table: device.table.unwrap_or(state.table),
        store: device.store.unwrap_or_else(|| state.store.clone()),
    })
}
