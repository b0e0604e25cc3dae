//! Compares the device's archive and its replay with a second program, written from the papers
//! alone.
//!
//! second calls SEED [COUNT]: random calls on both.
//! second pairs SEED COUNT: random pairs of histories in which one guest makes the same calls.
//! second replay BIN SEED COUNT: random traces through the program BIN and the second program.
//! second trace: what the second program prints for the trace on standard input.

mod compare;
mod host;
mod make;
mod make_request;
mod make_table;
mod make_trace;
mod pairs;
mod report;
mod requests;
mod rng;
mod rules;
mod second;
mod trace;

use compare::{agreed, State};
use make::{call, Call, Mood};
use report::{hex, Tally};
use rng::Rng;
use std::io::{Read, Write};
use std::process::{Command, ExitCode, Stdio};

fn main() -> ExitCode {
    let words: Vec<String> = std::env::args().skip(1).collect();
    let words: Vec<&str> = words.iter().map(String::as_str).collect();
    let number = |word: &str| {
        word.parse::<u64>()
            .map_err(|_| format!("not a number: {word}\n"))
    };
    let done = match words[..] {
        ["calls", seed] => number(seed).and_then(|seed| calls(seed, 1_000_000)),
        ["calls", seed, count] => number(seed).and_then(|seed| calls(seed, number(count)?)),
        ["pairs", seed, count] => {
            number(seed).and_then(|seed| pairs::pairs(seed, number(count)?))
        }
        ["replay", program, seed, count] => {
            number(seed).and_then(|seed| replay(program, seed, number(count)?))
        }
        ["trace"] => print_trace(),
        _ => Err("second calls SEED [COUNT] | pairs SEED COUNT | replay BIN SEED COUNT | trace\n".to_string()),
    };
    match done {
        Ok(text) => {
            print!("{text}");
            ExitCode::SUCCESS
        }
        Err(text) => {
            print!("{text}");
            ExitCode::FAILURE
        }
    }
}

// ---- Calls ----

fn calls(seed: u64, count: u64) -> Result<String, String> {
    let mut rng = Rng(seed);
    let mut tally = Tally::default();
    let mut agrees = Ok(());
    while tally.calls < count && agrees.is_ok() {
        agrees = list(&mut rng, &mut tally).and_then(|()| singles(&mut rng, &mut tally));
    }
    let counted = format!("seed {seed}\n{}", tally.text());
    let calls = tally.calls;
    match agrees {
        Ok(()) => Ok(format!(
            "{counted}second: {calls} calls agree, seed {seed}\n"
        )),
        Err(account) => Err(format!(
            "{counted}{account}second: call {calls} disagrees, seed {seed}\n"
        )),
    }
}

/// A list of calls from one set-up, each on what the last one left.
fn list(rng: &mut Rng, tally: &mut Tally) -> Result<(), String> {
    let mood = Mood::random(rng);
    let fresh = State {
        table: host::Table::EMPTY,
        store: make_table::store(rng),
    };
    let mut state = agreed(&fresh, &Call::SetUp(make_table::set_up(rng, 12)), tally)?;
    // In half of the lists each guest is surely attached, so that the table can fill up.
    let sure = rng.one_in(2);
    for guest in mood.guests.iter().copied() {
        if sure {
            state = agreed(&state, &Call::Attach { guest, word: 1 }, tally)?;
        } else if !rng.one_in(12) {
            state = agreed(&state, &make::attach(rng, guest), tally)?;
        }
    }
    for _ in 0..50 + rng.below(1_950) {
        state = agreed(&state, &call(rng, &mood, &state.table.to_second()), tally)?;
    }
    Ok(())
}

/// Single calls on tables filled by hand, and set-ups.
fn singles(rng: &mut Rng, tally: &mut Tally) -> Result<(), String> {
    let mood = Mood::single();
    for _ in 0..120 {
        let state = State {
            table: make_table::by_hand(rng),
            store: make_table::store(rng),
        };
        let table = state.table.to_second();
        for _ in 0..8 {
            let call = if rng.one_in(10) {
                Call::SetUp(make_table::set_up(rng, 2))
            } else {
                call(rng, &mood, &table)
            };
            agreed(&state, &call, tally)?;
        }
    }
    Ok(())
}

// ---- Traces ----

/// A longer output does not fit into a buffer as long as the longest trace.
const LONG: usize = 65_536;

fn replay(program: &str, seed: u64, count: u64) -> Result<String, String> {
    let mut rng = Rng(seed);
    let mut answers = [[0u64; 22]; 3];
    let (mut bad, mut long, mut longest) = (0, 0, 0);
    for index in 0..count {
        let trace = make_trace::trace(&mut rng);
        let expected = trace::text(&trace);
        let printed = printed(program, &trace).map_err(|error| format!("{program}: {error}\n"))?;
        if printed != expected.as_bytes() {
            let account = difference(&trace, &expected, &printed);
            let place = format!("second: trace {index} disagrees, seed {seed}");
            return Err(format!("{account}{place}\n"));
        }
        long += u64::from(printed.len() > LONG);
        longest = longest.max(printed.len());
        match trace::answers(&trace) {
            Some(records) => records
                .iter()
                .for_each(|(kind, answer)| answers[*kind as usize][usize::from(*answer)] += 1),
            None => bad += 1,
        }
    }
    let mut text = format!("seed {seed}\n");
    for (kind, counts) in ["attach", "control", "data"].iter().zip(answers) {
        let given = counts.iter().enumerate().filter(|(_, times)| **times > 0);
        let given: Vec<String> = given
            .map(|(answer, times)| format!("{answer}: {times}"))
            .collect();
        text += &format!("{kind:8} {}\n", given.join(", "));
    }
    text += &format!("{long} printed more than {LONG} bytes, the longest {longest}\n");
    // So many traces have long outputs among them, or the generator has lost them.
    if count >= 1_000 && long == 0 {
        return Err(format!("{text}second: no output is long, seed {seed}\n"));
    }
    Ok(format!(
        "{text}second: {count} traces agree, {bad} of them bad, seed {seed}\n"
    ))
}

/// The trace, both texts, and the place where they part.
fn difference(trace: &[u8], expected: &str, printed: &[u8]) -> String {
    let pairs = expected.bytes().zip(printed);
    let at = pairs
        .take_while(|(second, device)| second == *device)
        .count();
    let (trace, printed) = (hex(trace), String::from_utf8_lossy(printed));
    let both = format!("second prints\n{expected}device prints\n{printed}");
    format!("trace {trace}\n{both}\nfirst difference: byte {at}\n")
}

/// What a program prints for a trace on its standard input.
fn printed(program: &str, trace: &[u8]) -> std::io::Result<Vec<u8>> {
    let mut child = Command::new(program)
        .stdin(Stdio::piped())
        .stdout(Stdio::piped())
        .spawn()?;
    let input = child.stdin.take();
    std::thread::scope(|scope| {
        // A program may stop reading once the trace is too long, so a broken pipe is no fault.
        scope.spawn(move || input.map(|mut input| input.write_all(trace)));
        let output = child.wait_with_output()?;
        Ok(output.stdout)
    })
}

fn print_trace() -> Result<String, String> {
    let mut trace = Vec::new();
    std::io::stdin()
        .read_to_end(&mut trace)
        .map_err(|error| format!("standard input: {error}\n"))?;
    Ok(trace::text(&trace))
}
