//! Ticket K7 on the device: two histories from one set-up, in which one guest makes the same calls
//! and the others differ at will.

use crate::compare::{agreed, gets, State};
use crate::host;
use crate::make::{call, Call, Mood};
use crate::make_table;
use crate::report::{hex, Tally};
use crate::rng::Rng;

/// How the pairs ended, and how many calls of the guest were compared.
#[derive(Default)]
struct Ends {
    same: u64,
    differ: u64,
    calls: u64,
}

pub fn pairs(seed: u64, count: u64) -> Result<String, String> {
    let mut rng = Rng(seed);
    let (mut ends, mut tally) = (Ends::default(), Tally::default());
    for index in 0..count {
        pair(&mut rng, &mut ends, &mut tally)
            .map_err(|account| format!("{account}second: pair {index} fails, seed {seed}\n"))?;
    }
    let Ends {
        same,
        differ,
        calls,
    } = ends;
    let all = tally.calls;
    let text = format!("second: {count} pairs, {calls} calls of the guest, {all} calls in all, seed {seed}: {same} equal, {differ} part at a create for room\n");
    // A run that shows one end alone would be no trial of the other.
    if same == 0 || differ == 0 {
        return Err(text);
    }
    Ok(text)
}

fn pair(rng: &mut Rng, ends: &mut Ends, tally: &mut Tally) -> Result<(), String> {
    let guest = rng.below(8) as u8;
    let fresh = State {
        table: host::Table::EMPTY,
        store: make_table::store(rng),
    };
    let mut here = agreed(&fresh, &Call::SetUp(make_table::set_up(rng, 12)), tally)?;
    // So that the table can fill up; what comes between is at will.
    for guest in 0..8 {
        here = agreed(&here, &Call::Attach { guest, word: 1 }, tally)?;
    }
    let mut there = here.clone();
    let [mut own, mut ours, mut theirs] = [(); 3].map(|()| Mood::random(rng));
    own.guests = vec![guest];
    let rest: Vec<u8> = (0..8).filter(|other| *other != guest).collect();
    ours.guests.clone_from(&rest);
    theirs.guests = rest;
    for _ in 0..20 + rng.below(100) {
        here = others(rng, &ours, guest, here, tally)?;
        there = others(rng, &theirs, guest, there, tally)?;
        let call = next(rng, &own, &here, |named| named == guest);
        let (one, other) = (gets(&here, &call), gets(&there, &call));
        here = agreed(&here, &call, tally)?;
        there = agreed(&there, &call, tally)?;
        ends.calls += 1;
        if one != other {
            ends.differ += 1;
            return judged(&call, one.answer, other.answer)
                .then_some(())
                .ok_or_else(|| account(&call, &format!("{one:?}\n{other:?}\n")));
        }
    }
    ends.same += 1;
    Ok(())
}

/// The first difference is a create that is granted in one and NOSPC in the other; 5 has no other
/// cause.
fn judged(call: &Call, one: u8, other: u8) -> bool {
    call.creates() && matches!((one, other), (0, 5) | (5, 0))
}

fn others(
    rng: &mut Rng,
    mood: &Mood,
    guest: u8,
    mut state: State,
    tally: &mut Tally,
) -> Result<State, String> {
    for _ in 0..rng.below(12) {
        let call = next(rng, mood, &state, |named| named != guest);
        state = agreed(&state, &call, tally)?;
    }
    Ok(state)
}

/// A random call whose guest passes the test, aimed at what the table holds.
fn next(rng: &mut Rng, mood: &Mood, state: &State, test: impl Fn(u8) -> bool) -> Call {
    loop {
        let call = call(rng, mood, &state.table.to_second());
        if call.guest().is_some_and(&test) {
            return call;
        }
    }
}

fn account(call: &Call, both: &str) -> String {
    let readable = match call {
        Call::Control(request) | Call::Data(request) => hex(&request.readable),
        _ => String::new(),
    };
    format!("guest {:?} readable {readable}\n{both}", call.guest())
}
