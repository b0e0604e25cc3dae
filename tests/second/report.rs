//! How often each kind of call got each answer, and the whole account of a disagreement.

use crate::compare::{Outcome, State};
use crate::host::Slot;
use crate::make::{Call, Finish, Request, SetUp};
use crate::second::word;
use std::collections::BTreeMap;

/// The kinds of calls, in the order of the tally's lines.
pub const KINDS: [&str; 8] = [
    "set-up", "attach", "create", "destroy", "control", "data", "key", "finish",
];

fn kind(call: &Call) -> usize {
    match call {
        Call::SetUp(_) => 0,
        Call::Attach { .. } => 1,
        Call::Control(request) if request.readable.len() >= 16 => {
            match word(&request.readable, 0) {
                0x002 | 0x102 | 0x202 | 0x302 => 2,
                0x003 | 0x103 | 0x203 | 0x303 => 3,
                _ => 4,
            }
        }
        Call::Control(_) => 4,
        Call::Data(_) => 5,
        Call::Key { .. } => 6,
        Call::Finish(_) => 7,
    }
}

const ANSWERS: [usize; 12] = [0, 1, 2, 3, 4, 5, 16, 17, 18, 19, 20, 21];

#[derive(Default)]
pub struct Tally {
    pub calls: u64,
    answers: [[u64; 22]; KINDS.len()],
    /// Parts and keys by name: those with bytes, and the empty ones.
    pieces: BTreeMap<&'static str, [u64; 2]>,
}

impl Tally {
    pub fn add(&mut self, call: &Call, outcome: &Outcome<'_>) {
        self.calls += 1;
        self.answers[kind(call)][usize::from(outcome.answer)] += 1;
        for piece in &outcome.pieces {
            self.pieces.entry(piece.name).or_default()[usize::from(piece.span.size == 0)] += 1;
        }
    }

    pub fn text(&self) -> String {
        let row = |name: &str, count: &str, columns: [u64; ANSWERS.len()]| {
            let columns = columns.map(|column| format!("{column:>8}")).concat();
            format!("{name:8}{count:>8}{columns}\n")
        };
        let mut text = row("call", "count", ANSWERS.map(|answer| answer as u64));
        for (kind, counts) in KINDS.iter().zip(&self.answers) {
            let count = counts.iter().sum::<u64>().to_string();
            text += &row(kind, &count, ANSWERS.map(|answer| counts[answer]));
        }
        for (name, [filled, empty]) in &self.pieces {
            let count = filled + empty;
            text += &format!("{name:8}{count:>8}{filled:>8} with bytes{empty:>8} empty\n");
        }
        text
    }
}

/// The most bytes that are shown of one buffer: a whole trace, of a long request its start.
const SHOWN: usize = 65_537;

pub fn hex(bytes: &[u8]) -> String {
    let shown = bytes.iter().take(SHOWN);
    let text: String = shown.map(|byte| format!("{byte:02x}")).collect();
    let rest = bytes.len().saturating_sub(SHOWN);
    if rest == 0 {
        text
    } else {
        format!("{text} and {rest} bytes more")
    }
}

/// The call with all its arguments, the table it was made on, and both results.
pub fn account(
    state: &State,
    call: &Call,
    second: &Outcome<'_>,
    device: &Outcome<'_>,
    difference: &str,
) -> String {
    let mut text = format!("second: disagreement in {}\n", KINDS[kind(call)]);
    text += &match call {
        Call::SetUp(SetUp {
            config,
            reserves,
            caps,
        }) => {
            let config = hex(config);
            format!("config {config}\nreserves {reserves:?}\ncaps {caps:?}\n")
        }
        Call::Attach { guest, word } => format!("guest {guest}\nword {word:#x}\n"),
        Call::Control(request) | Call::Data(request) => {
            let Request {
                guest,
                readable,
                writable,
            } = request;
            let read = format!("readable {} {}", readable.len(), hex(readable));
            let write = format!("writable {} {}", writable.len(), hex(writable));
            format!("guest {guest}\n{read}\n{write}\n")
        }
        Call::Key { guest, number } => format!("guest {guest}\nnumber {number:#x}\n"),
        Call::Finish(Finish {
            guest,
            opcode,
            verdict,
            writable,
        }) => {
            let named = format!("opcode {opcode:#x}\nverdict {verdict}");
            format!("guest {guest}\n{named}\nwritable {}\n", hex(writable))
        }
    };
    text += &format!("store of {} bytes\n", state.store.len());
    text += &format!("{:?}\n", state.table.config);
    text += &format!("occupied {:#x?}\n", state.table.occupied);
    for (place, guest) in state.table.guests.iter().enumerate() {
        text += &format!("guest {place} {guest:?}\n");
    }
    for (place, slot) in state.table.slots.iter().enumerate() {
        if *slot != Slot::default() {
            text += &format!("slot {place} {slot:?}\n");
        }
    }
    for (name, outcome) in [("second", second), ("device", device)] {
        let tail = hex(&outcome.writable[outcome.writable.len().saturating_sub(16)..]);
        let named = outcome.named;
        text += &format!(
            "{name}: answer {}, writable ends {tail}, {named:?}\n",
            outcome.answer
        );
        for piece in &outcome.pieces {
            text += &format!("{name}: {} {:?}\n", piece.name, piece.span);
        }
    }
    text + "first difference: " + difference + "\n"
}
