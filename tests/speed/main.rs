// Data admission and control through libvcrypto.a against the yardstick: the same prepared requests, over tables with live sessions. Of the data
// requests half are refused, and each accepted job is finished at once and measured with it; the creates are all granted. `run` builds several
// binaries of this and says how. Without a word the two sides are compared; `time MILLIONS` prints times, and `count FORM LIST` makes one pass of
// one form, for whoever counts its instructions.
mod library;
mod make;

use library::{vcrypto_admit, vcrypto_attach, vcrypto_control, vcrypto_finish, vcrypto_key, yard_table, Table};
use make::{creates, data, destroys, ends, get, live_table, prepare, Random, Request};
use std::arch::global_asm;
use std::env::args;
use std::hint::black_box;
use std::time::Instant;
use yardstick as yard;

// Bytes that stand in front of all code that is timed, so that binaries differ in where it lies.
global_asm!(concat!(".pushsection .text.pad,\"axR\",@progbits\n.skip ", env!("PAD"), "\n.popsection"));

// ---- the forms that are measured: each makes one pass over its requests and sums up what it was told

macro_rules! form {
    ($name:ident, $table:ty, $admit:path, $finish:path, $($by:tt)*) => {
        #[inline(never)]
        #[no_mangle]
        fn $name(t: $table, requests: &mut [Request]) -> u64 {
            let mut sum = 0;
            for q in requests.iter_mut() {
                let (w, room) = (q.writable.as_mut_ptr(), q.writable.len());
                let a = unsafe { $admit($($by)* t, q.guest, q.readable.as_ptr(), q.readable.len(), w, room) };
                sum += u64::from(a.answer);
                if a.answer == 0 {
                    sum += a.number + u64::from(unsafe { $finish($($by)* t, a.guest, a.opcode, q.verdict, w, room) });
                }
            }
            sum
        }
    };
}

form!(form_library, &Table, vcrypto_admit, vcrypto_finish, *);
form!(form_yardstick, &yard::Table, yard::yard_admit, yard::yard_finish, *);
form!(form_reference, &yard::Table, yard::yard_admit_ref, yard::yard_finish_ref,);

macro_rules! control_form {
    ($name:ident, $table:ty, $control:path) => {
        #[inline(never)]
        #[no_mangle]
        fn $name(t: &$table, requests: &mut [Request], store: &mut [u8]) -> u64 {
            let mut sum = 0;
            for q in requests.iter_mut() {
                let (w, room) = (q.writable.as_mut_ptr(), q.writable.len());
                let a = unsafe { $control(*t, q.guest, q.readable.as_ptr(), q.readable.len(), w, room, store.as_mut_ptr(), store.len()) };
                sum += u64::from(a.answer) + a.table.guests[q.guest as usize].last;
            }
            sum
        }
    };
}

control_form!(control_library, Table, vcrypto_control);
control_form!(control_yardstick, yard::Table, yard::yard_control);

#[inline(never)]
#[no_mangle]
fn attach_library(t: &Table, store: &mut [u8]) -> u64 {
    let mut sum = 0;
    for guest in 0..8 {
        let a = unsafe { vcrypto_attach(*t, guest, 1, store.as_mut_ptr(), store.len()) };
        sum += u64::from(a.answer) + a.table.occupied[0];
    }
    sum
}

#[inline(never)]
#[no_mangle]
fn key_library(t: &Table, slots: &[yard::Slot], store: &[u8]) -> u64 {
    let mut sum = 0;
    for s in slots {
        let key = unsafe { vcrypto_key(*t, s.owner, s.number, store.as_ptr(), store.len()) };
        sum += (key.start + key.size) as u64;
    }
    sum
}

// ---- equal answers, jobs, writable bytes, tables and key stores

fn compare(t: &Table, y: &yard::Table, q: &Request) -> u8 {
    let (r, len) = (q.readable.as_ptr(), q.readable.len());
    let (mut ours, mut theirs) = (q.writable.clone(), q.writable.clone());
    let (o, w, n) = (ours.as_mut_ptr(), theirs.as_mut_ptr(), ours.len());
    let a = unsafe { vcrypto_admit(*t, q.guest, r, len, o, n) };
    let b = unsafe { yard::yard_admit(*y, q.guest, r, len, w, n) };
    assert_eq!(a, b, "the answers or jobs differ");
    assert!(ours == theirs, "the writable bytes differ");
    for (opcode, verdict) in [(a.opcode, q.verdict), (0x301, 2), (0x300, 2), (a.opcode, 77)] {
        let (o, w) = (ours.as_mut_ptr(), theirs.as_mut_ptr());
        let a = unsafe { vcrypto_finish(*t, q.guest, opcode, verdict, o, n) };
        let b = unsafe { yard::yard_finish(*y, q.guest, opcode, verdict, w, n) };
        assert_eq!(a, b, "the answers of finish differ");
        assert!(ours == theirs, "the writable bytes after finish differ");
    }
    a.answer
}

// The same with one thing changed in the request or the table: tables filled by hand, guests that are not there.
fn compare_changed(t: &Table, q: &Request, random: &mut Random) {
    let mut t = *t;
    let mut c = q.clone();
    let g = random.below(8) as usize;
    let byte = random.below(70) as u8;
    let live = if q.readable.len() > 15 { t.slot_of(q.guest, get(&q.readable, 8).into()) } else { None };
    let s = &mut t.slots[live.unwrap_or(0)];
    match random.below(18) {
        0 => c.guest = byte,
        1 => c.writable.clear(),
        2 => t.guests[q.guest as usize].attached = false,
        3 => t.guests[g].last = u64::from(byte % 20),
        4 => t.config.services = u32::from(byte),
        5 => t.config.ciphers ^= 1 << (byte % 32),
        6 => t.config.macs ^= 1 << (byte % 32),
        7 => t.config.aeads ^= 1 << (byte % 8),
        8 => t.config.cipherkey = u32::from(byte),
        9 => t.config.size = u64::from(byte) * 20,
        10 => s.algo = byte % 32,
        11 => s.key_len = byte,
        12 => s.result = byte,
        13 => s.direction = byte % 4,
        14 => s.service = byte % 6,
        15 => {
            // a second slot of the same number, below it or above, in the other direction; half of them fail the rules
            let second = yard::Slot { algo: s.algo + byte % 2 * 50, direction: s.direction ^ 3, ..*s };
            t.slots[random.below(128) as usize] = second;
        }
        // a slot cleared with its fields left in it, or marked whatever they hold
        16 => t.occupied[usize::from(byte % 2)] ^= 1 << random.below(64),
        _ if c.readable.is_empty() => {}
        _ => {
            let at = random.below(c.readable.len().min(80) as u64) as usize;
            c.readable[at] = byte;
        }
    }
    compare(&t, &yard_table(&t), &c);
}

// A control request on both sides; the store's bytes are none of the requests'.
fn compare_control(t: &Table, q: &Request) -> u8 {
    let y = yard_table(t);
    let (r, len) = (q.readable.as_ptr(), q.readable.len());
    let (mut ours, mut theirs) = (q.writable.clone(), q.writable.clone());
    let (mut store, mut other) = (vec![0xdd; 16384], vec![0xdd; 16384]);
    let (o, w, n) = (ours.as_mut_ptr(), theirs.as_mut_ptr(), ours.len());
    let a = unsafe { vcrypto_control(*t, q.guest, r, len, o, n, store.as_mut_ptr(), store.len()) };
    let b = unsafe { yard::yard_control(y, q.guest, r, len, w, n, other.as_mut_ptr(), other.len()) };
    assert_eq!(a.answer, b.answer, "the answers to a control request differ");
    assert!(ours == theirs, "the outcome bytes differ");
    assert!(yard_table(&a.table) == b.table, "the tables differ");
    assert!(store == other, "the key stores differ");
    a.answer
}

// Creates and destroys, and each with a byte of the request or some marks and shares of the table changed: left-over fields, holes in both words, no room.
fn check_control(t: &Table, random: &mut Random) -> [usize; 6] {
    let mut answers = [0; 6];
    for q in creates().into_iter().chain(destroys(t)) {
        answers[compare_control(t, &q) as usize] += 1;
        for _ in 0..8 {
            let (mut t, mut c) = (*t, q.clone());
            let at = random.below(c.readable.len().min(76) as u64) as usize;
            match random.below(6) {
                0 => c.readable[at] = random.below(256) as u8,
                1 => t.occupied[random.below(2) as usize] = u64::MAX,
                2 => t.occupied = [u64::MAX, u64::MAX >> random.below(2)],
                3 => t.guests[random.below(8) as usize].reserve = random.below(40) as u8,
                4 => t.guests[q.guest as usize].cap = random.below(24) as u8,
                _ => t.occupied[random.below(2) as usize] ^= 1 << random.below(64),
            }
            compare_control(&t, &c);
        }
    }
    answers
}

// All of them, and four changes of each; the answers to the requests as they are, by number.
fn check(t: &Table, requests: &[Request], random: &mut Random) -> [usize; 22] {
    let y = yard_table(t);
    let mut answers = [0; 22];
    for q in requests {
        answers[compare(t, &y, q) as usize] += 1;
        for _ in 0..4 {
            compare_changed(t, q, random);
        }
    }
    assert_eq!(answers[0], requests.len() / 2, "not half of the requests are refused");
    answers
}

// Ticket K12: payloads at CCM's bound, of every AEAD session in both directions. Of CCM's the longer one with the longer IV is refused, and no other.
fn check_payloads(t: &Table) {
    let mut t = *t;
    t.config.size = u64::MAX;
    for at in t.live().into_iter().filter(|&at| t.slots[at].service == 3).collect::<Vec<_>>() {
        for direction in [1, 2] {
            t.slots[at].direction = direction;
            let (s, y) = (t.slots[at], yard_table(&t));
            for (iv, payload) in [(12, 65535), (12, 65536), (13, 65535), (13, 65536)] {
                let tag = if direction == 2 { u32::from(s.result) } else { 0 };
                let refused = if s.algo == 2 { (iv, payload) == (13, 65536) } else { iv == 13 };
                assert_eq!(compare(&t, &y, &data(&s, iv, payload + tag, 0)), u8::from(refused));
            }
        }
    }
}

// ---- the measure

// Two pages for a table. What a copy costs depends on where it is copied from, so both sides' tables stand at the same place, another each round.
#[repr(C, align(4096))]
struct Pages([u64; 1024]);

impl Pages {
    fn put<T: Copy>(&mut self, word: usize, t: &T) -> &T {
        let room = &mut self.0[word..word + size_of::<T>() / 8];
        let at = room.as_mut_ptr().cast::<T>();
        // room has T's size, and T's alignment is that of its numbers, at most 8
        unsafe {
            at.write(*t);
            &*at
        }
    }
}

fn quantile(v: &[f64], q: f64) -> f64 {
    let mut w = v.to_vec();
    w.sort_by(f64::total_cmp);
    w[((w.len() - 1) as f64 * q).round() as usize]
}

// The times of N forms for one call, in ns. A turn is one pass, under a millisecond, so that what disturbs one form of a round meets the others too.
fn measure<const N: usize>(rounds: usize, calls: usize, mut form: impl FnMut(usize, usize) -> u64) -> [Vec<f64>; N] {
    let mut times = [const { Vec::new() }; N];
    for round in 0..rounds {
        let mut sums = [0; N];
        for k in 0..N {
            let which = (round + k) % N;
            let start = Instant::now();
            sums[which] = form(round, which);
            times[which].push(start.elapsed().as_secs_f64() * 1e9 / calls as f64);
        }
        assert!(sums.iter().all(|sum| *sum == sums[0]), "the answers differ");
    }
    times
}

// Least time and median of each form; of the library over each other form the ratio of the least times, and the median, 10 % and 90 % of the rounds'
// ratios; how many rounds were left out of the medians, and of how many. A round is disturbed where the yardstick took 1.25 of its least time.
fn report(times: &[Vec<f64>]) {
    let least = |form: &[f64]| quantile(form, 0.0);
    let limit = 1.25 * least(&times[1]);
    let calm: Vec<usize> = (0..times[1].len()).filter(|&round| times[1][round] <= limit).collect();
    let kept = |form: &[f64]| -> Vec<f64> { calm.iter().map(|&round| form[round]).collect() };
    for form in times {
        print!("{:.1} {:.1} ", least(form), quantile(&kept(form), 0.5));
    }
    for under in &times[1..] {
        let ratio: Vec<f64> = kept(&times[0]).iter().zip(kept(under)).map(|(a, b)| a / b).collect();
        print!("{:.2} {:.2} {:.2} {:.2} ", least(&times[0]) / least(under), quantile(&ratio, 0.5), quantile(&ratio, 0.1), quantile(&ratio, 0.9));
    }
    println!("{} {}", times[1].len() - calm.len(), times[1].len());
}

const ROUNDS: usize = 256; // for a million
const REQUESTS: usize = 4096; // ROUNDS * REQUESTS = 1,048,576 for each form
const CREATES: usize = 128; // ROUNDS * CREATES = 32,768 for each form

fn time(millions: usize, tables: &[Table; 2], requests: &mut [Request]) {
    let mut pages = [Box::new(Pages([0; 1024])), Box::new(Pages([0; 1024]))];
    let (t, y) = (&tables[0], yard_table(&tables[0]));
    report(&measure::<3>(ROUNDS * millions, REQUESTS, |round, form| {
        let word = round * 41 % 512;
        match form {
            0 => form_library(black_box(pages[0].put(word, t)), requests),
            1 => form_yardstick(black_box(pages[1].put(word, &y)), requests),
            _ => form_reference(black_box(pages[1].put(word, &y)), requests),
        }
    }));
    let (mut store, mut requests) = (vec![0; 16384], creates());
    assert_eq!(requests.len(), CREATES);
    for t in tables {
        let y = yard_table(t);
        report(&measure::<2>(ROUNDS * millions, CREATES, |round, form| {
            let word = round * 41 % 512;
            match form {
                0 => control_library(black_box(pages[0].put(word, t)), &mut requests, &mut store),
                _ => control_yardstick(black_box(pages[1].put(word, &y)), &mut requests, &mut store),
            }
        }));
    }
}

// One pass of a form over a list; the result is how many calls or data requests that is.
fn count(form: &str, list: &str, tables: &[Table; 2], requests: &mut [Request]) -> usize {
    let mut store = vec![0; 16384];
    let (t, mut controls) = match list {
        "crowded" => (&tables[1], creates()),
        "destroys" => (&tables[0], ends(&tables[0])),
        _ => (&tables[0], creates()),
    };
    let (y, slots): (_, Vec<yard::Slot>) = (yard_table(t), t.live().into_iter().map(|at| t.slots[at]).collect());
    let (sum, calls) = match form {
        "form_library" => (form_library(t, requests), requests.len()),
        "form_yardstick" => (form_yardstick(&y, requests), requests.len()),
        "control_library" => (control_library(t, &mut controls, &mut store), controls.len()),
        "control_yardstick" => (control_yardstick(&y, &mut controls, &mut store), controls.len()),
        "attach_library" => (attach_library(t, &mut store), 8),
        "key_library" => (key_library(t, &slots, &store), slots.len()),
        _ => panic!("no form {form}"),
    };
    black_box(sum);
    calls
}

fn main() {
    assert_eq!(size_of::<Table>(), size_of::<yard::Table>());
    let mut random = Random(88172645463325252);
    let tables = [live_table(100, &mut random), live_table(127, &mut random)];
    let mut requests = prepare(REQUESTS, &tables[0], &mut random);
    let words: Vec<String> = args().skip(1).collect();
    match words.iter().map(String::as_str).collect::<Vec<_>>()[..] {
        ["count", form, list] => println!("{}", count(form, list, &tables, &mut requests)),
        ["time", millions] => time(millions.parse().unwrap(), &tables, &mut requests),
        _ => {
            let answers = check(&tables[0], &requests, &mut random);
            check_payloads(&tables[0]);
            let controls = tables.map(|t| check_control(&t, &mut random));
            println!("answers 0 to 5: {:?} of {REQUESTS} data requests, {controls:?} of control requests", &answers[..6]);
        }
    }
}
