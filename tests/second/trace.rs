//! The scope paper's replay: a trace read whole, then run on the second program.

use crate::second::{answer, set_up, word, GUESTS, MAX_SIZE, STORE};

#[derive(Clone, Copy, PartialEq)]
pub enum Kind {
    Attach,
    Control,
    Data,
}

struct Record<'a> {
    kind: Kind,
    guest: u8,
    readable: &'a [u8],
    writable: usize,
}

/// The records, or nothing if the trace is bad.
fn read(trace: &[u8]) -> Option<Vec<Record<'_>>> {
    if trace.len() > 65_536 {
        return None;
    }
    let (body, trailer) = trace.split_at(trace.len().checked_sub(8)?);
    let distance = word(trailer, 0) as usize;
    let mut rest = &body[body.len().checked_sub(distance)?..];
    let mut records = Vec::new();
    while !rest.is_empty() {
        let (head, after) = rest.split_at_checked(6)?;
        let kind = match head[0] {
            0 => Kind::Attach,
            1 => Kind::Control,
            2 => Kind::Data,
            _ => return None,
        };
        let half = |at: usize| usize::from(head[at]) | usize::from(head[at + 1]) << 8;
        let (readable, after) = after.split_at_checked(half(2))?;
        let writable = half(4);
        if kind == Kind::Attach && readable.len() != 4 || writable > 4_096 {
            return None;
        }
        records.push(Record {
            kind,
            guest: head[1],
            readable,
            writable,
        });
        rest = after;
    }
    (records.len() as u64 == word(trailer, 4)).then_some(records)
}

/// Everything offered and the limits at their largest.
pub fn largest_config() -> Vec<u8> {
    let fields: [u32; 12] = [1, 8, 15, 0x211c, 0, 0x7e, 0x400_007e, 0, 0xe, 64, 64, 0];
    fields
        .iter()
        .flat_map(|field| field.to_le_bytes())
        .chain(MAX_SIZE.to_le_bytes())
        .collect()
}

pub const RESERVES: [u8; GUESTS] = [8; GUESTS];
pub const CAPS: [u8; GUESTS] = [32; GUESTS];

/// Each record's kind with its answer.
pub fn answers(trace: &[u8]) -> Option<Vec<(Kind, u8)>> {
    let records = read(trace)?;
    let mut store = vec![0; STORE];
    let (_, mut table) = set_up(&largest_config(), &RESERVES, &CAPS, &mut store);
    let run = |record: Record<'_>| {
        let mut writable = vec![0; record.writable];
        let answer = match record.kind {
            Kind::Attach => {
                answer(&table.attach(record.guest, word(record.readable, 0) as u32, &mut store))
            }
            Kind::Control => {
                answer(&table.control(record.guest, record.readable, &mut writable, &mut store))
            }
            Kind::Data => answer(&table.admit(record.guest, record.readable, &mut writable)),
        };
        (record.kind, answer)
    };
    Some(records.into_iter().map(run).collect())
}

/// Exactly what a replay of the trace prints.
pub fn text(trace: &[u8]) -> String {
    let Some(answers) = answers(trace) else {
        return "bad trace\n".to_string();
    };
    let lines = answers
        .iter()
        .enumerate()
        .map(|(index, (_, answer))| format!("{index} {answer}\n"));
    let granted = answers.iter().filter(|(_, answer)| *answer == 0).count();
    lines
        .chain([format!("done {} {granted}\n", answers.len())])
        .collect()
}
