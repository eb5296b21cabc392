//! Times of the proved checker and of the original on the same listings; and of reading and writing alone, in both.

use classes::Class;
use oracle::answer;
use oracle::listing::{self, Listing, MAX_BYTES, MAX_OPS};
use oracle::verify_typed::typed_check_module;
use std::hint::black_box;
use std::process::ExitCode;

mod classes;
#[path = "../../oracle/src/stagecheck.rs"]
mod stagecheck;

/// Each figure is the least of so many rounds, after some that are not counted.
const ROUNDS: usize = 25;
/// The rounds of a class that takes seconds.
const FEW_ROUNDS: usize = 3;
/// A round repeats a class until it takes so many nanoseconds at least.
const LEAST_ROUND: u64 = 8_000_000;

// ── What is measured ─────────────────────────────────────────────────────────────────────

type Tables = Box<[u64; stagecheck::TABLE_WORDS]>;
type Answer = [u64; stagecheck::ANSWER_WORDS];

/// Calls of the static library with both sheets of the greatest length, and with lent tables or without; and with a buffer for
/// the longest listing.
struct Ours {
    tables: Tables,
    heights: Vec<u8>,
    blinds: Vec<u8>,
    buffer: Vec<u8>,
}

impl Ours {
    fn new() -> Ours {
        let tables = vec![0; stagecheck::TABLE_WORDS].into_boxed_slice().try_into().expect("it has so many words");
        Ours { tables, heights: vec![0; MAX_OPS], blinds: vec![0; MAX_OPS], buffer: vec![0; MAX_BYTES] }
    }

    /// With the tables lent, as the call before left them.
    fn check(&mut self, bytes: &[u8]) -> Answer {
        let mut answer = [0; stagecheck::ANSWER_WORDS];
        stagecheck::check_in(black_box(bytes), &mut self.tables, &mut self.heights, &mut self.blinds, &mut answer);
        answer
    }

    /// With tables of the call's own, on its stack.
    fn check_alone(&mut self, bytes: &[u8]) -> Answer {
        let mut answer = [0; stagecheck::ANSWER_WORDS];
        stagecheck::check(black_box(bytes), &mut self.heights, &mut self.blinds, &mut answer);
        answer
    }

    /// Reads into the tables, as the call before left them.
    fn read(&mut self, bytes: &[u8]) -> Answer {
        let mut answer = [0; stagecheck::ANSWER_WORDS];
        stagecheck::read(black_box(bytes), &mut self.tables, &mut answer);
        answer
    }

    /// Writes tables that were read before.
    fn write(&mut self, tables: &Tables) -> Answer {
        let mut answer = [0; stagecheck::ANSWER_WORDS];
        stagecheck::write(black_box(tables), &mut self.buffer, &mut answer);
        answer
    }
}

/// The original on a module that was read before.
fn rust_check(listing: &Listing) -> bool {
    typed_check_module(&black_box(listing).module, listing.word_bytes, listing.float_bytes).is_ok()
}

/// The oracle's reader, then the original. What was read is freed.
fn rust_with_reader(bytes: &[u8]) -> bool {
    listing::read(black_box(bytes)).is_ok_and(|listing| rust_check(&listing))
}

/// The oracle's reader alone. What was read is freed.
fn rust_read(bytes: &[u8]) -> bool {
    listing::read(black_box(bytes)).is_ok()
}

/// The oracle's writer, into a buffer that has room. It is given a module that was read before.
fn rust_write(listing: &Listing, out: &mut Vec<u8>) -> usize {
    out.clear();
    listing::write_to(black_box(listing), out);
    out.len()
}

/// The same bytes with a last line that cannot follow: reading goes as far, and nothing comes after it.
fn last_line_damaged(bytes: &[u8]) -> Vec<u8> {
    let mut bytes = bytes.to_vec();
    let at = bytes.len() - 2;
    assert_eq!(&bytes[at..], b")\n", "a listing ends so");
    bytes[at] = b'x';
    bytes
}

/// A class with what each measurement is given. A listing that does not read has nothing but its bytes.
struct Prepared {
    bytes: Vec<Vec<u8>>,
    damaged: Vec<Vec<u8>>,
    read: Vec<Listing>,
}

/// Prepares a class. Every answer must be the oracle's.
fn prepare(listings: Vec<Vec<u8>>) -> Prepared {
    let mut ours = Ours::new();
    for bytes in &listings {
        agree(&mut ours, bytes);
    }
    let read: Vec<Listing> = listings.iter().filter_map(|bytes| listing::read(bytes).ok()).collect();
    assert!(read.is_empty() || read.len() == listings.len(), "a class is read or is not");
    let damaged: Vec<Vec<u8>> = listings.iter().take(read.len()).map(|bytes| last_line_damaged(bytes)).collect();
    for bytes in &damaged {
        agree(&mut ours, bytes);
        let lines = bytes.iter().filter(|byte| **byte == b'\n').count() as u64;
        assert_eq!(ours.check(bytes)[..3], [1, 0, lines - 1], "it is the last line that cannot follow");
    }
    Prepared { bytes: listings, damaged, read }
}

fn agree(ours: &mut Ours, bytes: &[u8]) {
    let mut words = answer::answer(bytes).words().expect("an answer that is compared");
    words.resize(stagecheck::ANSWER_WORDS, 0);
    assert_eq!(ours.check(bytes)[..], words, "both answer alike");
    assert_eq!(ours.check_alone(bytes)[..], words, "both answer alike");
}

// ── Measuring ────────────────────────────────────────────────────────────────────────────

#[repr(C)]
struct Timespec {
    seconds: i64,
    nanoseconds: i64,
}

unsafe extern "C" {
    fn clock_gettime(clock: i32, time: *mut Timespec) -> i32;
}

/// The time that this thread has had on a processor: what others do meanwhile does not count.
fn now() -> u64 {
    const CLOCK_THREAD_CPUTIME_ID: i32 = 3;
    let mut time = Timespec { seconds: 0, nanoseconds: 0 };
    // SAFETY: the pointer is good for the call; the layout is that of 64-bit Linux.
    let status = unsafe { clock_gettime(CLOCK_THREAD_CPUTIME_ID, &mut time) };
    assert_eq!(status, 0, "there is such a clock");
    time.seconds as u64 * 1_000_000_000 + time.nanoseconds as u64
}

/// One measurement of a class: all its listings once.
type Measured<'a> = Box<dyn FnMut() + 'a>;

fn over<'a, T, R>(inputs: &'a [T], mut call: impl FnMut(&T) -> R + 'a) -> Measured<'a> {
    Box::new(move || {
        for input in inputs {
            black_box(call(input));
        }
    })
}

fn nanoseconds(measured: &mut Measured, repeats: u64) -> u64 {
    let start = now();
    for _ in 0..repeats {
        measured();
    }
    now() - start
}

/// How often a measurement is repeated in a round.
fn repeats(measured: &mut Measured) -> u64 {
    let mut repeats = 1;
    while nanoseconds(measured, repeats) < LEAST_ROUND {
        repeats *= 2;
    }
    repeats
}

/// Microseconds for each listing, none where there is nothing to measure.
struct Times {
    our_reading: Option<f64>,
    our_check: f64,
    check_alone: f64,
    rust_check: Option<f64>,
    rust_with_reader: f64,
    /// The greatest of the medians' excess over the least, of all.
    spread: f64,
}

impl Times {
    /// What comes after our reading, over the Rust's check, which is given a module that was read.
    fn after_reading(&self) -> Option<f64> {
        Some((self.our_check - self.our_reading?) / self.rust_check?)
    }
}

/// What measurements of so many listings take, in their order.
struct Least {
    /// Microseconds for each listing, none where there is nothing to measure.
    times: Vec<Option<f64>>,
    /// The greatest of the medians' excess over the least, of all.
    spread: f64,
}

/// Measures in so many rounds, in each of which all measurements take their turn.
fn least(mut all: Vec<Option<Measured>>, listings: usize, count: usize) -> Least {
    let repeated: Vec<u64> = all.iter_mut().map(|measured| measured.as_mut().map_or(0, repeats)).collect();
    let mut rounds = vec![Vec::new(); all.len()];
    for _ in 0..count {
        for ((measured, repeats), times) in all.iter_mut().zip(&repeated).zip(&mut rounds) {
            let Some(measured) = measured else { continue };
            let calls = repeats * listings as u64;
            times.push(nanoseconds(measured, *repeats) as f64 / calls as f64 / 1_000.0);
        }
    }
    rounds.iter_mut().for_each(|times: &mut Vec<f64>| times.sort_by(f64::total_cmp));
    let excess = rounds.iter().filter(|times| !times.is_empty()).map(|times| times[count / 2] / times[0] - 1.0);
    let spread = excess.fold(0.0, f64::max);
    Least { times: rounds.iter().map(|times| times.first().copied()).collect(), spread }
}

/// Measures a class.
fn measure(class: &Prepared, count: usize) -> Times {
    let (mut for_reading, mut for_check, mut alone) = (Ours::new(), Ours::new(), Ours::new());
    let is_read = !class.read.is_empty();
    let Least { times, spread } = least(
        vec![
            is_read.then(|| over(&class.damaged, |bytes| for_reading.check(bytes))),
            Some(over(&class.bytes, |bytes| for_check.check(bytes))),
            Some(over(&class.bytes, |bytes| alone.check_alone(bytes))),
            is_read.then(|| over(&class.read, rust_check)),
            Some(over(&class.bytes, |bytes| rust_with_reader(bytes))),
        ],
        class.bytes.len(),
        count,
    );
    Times {
        our_reading: times[0],
        our_check: times[1].expect("it is measured"),
        check_alone: times[2].expect("it is measured"),
        rust_check: times[3],
        rust_with_reader: times[4].expect("it is measured"),
        spread,
    }
}

// ── Printing ─────────────────────────────────────────────────────────────────────────────

fn median(mut numbers: Vec<usize>) -> usize {
    numbers.sort_unstable();
    let middle = numbers.len() / 2;
    if numbers.len() % 2 == 1 { numbers[middle] } else { (numbers[middle - 1] + numbers[middle]) / 2 }
}

fn instructions(bytes: &[u8]) -> usize {
    bytes.windows(4).filter(|window| window == b"(op ").count()
}

fn number(number: Option<f64>) -> String {
    number.map_or("-".to_string(), |number| format!("{number:.2}"))
}

fn row(name: &str, listings: Vec<Vec<u8>>, rounds: usize) -> Times {
    let class = prepare(listings);
    let times = measure(&class, rounds);
    println!(
        "| {name:<24} | {:>8} | {:>12} | {:>6} | {:>11} | {:>10} | {:>10} | {:>10} | {:>11} | {:>6.2} | {:>6.2} | {:>6} | {:>5.0}% |",
        class.bytes.len(),
        median(class.bytes.iter().map(|bytes| instructions(bytes)).collect()),
        median(class.bytes.iter().map(Vec::len).collect()),
        number(times.our_reading),
        number(Some(times.our_check)),
        number(Some(times.check_alone)),
        number(times.rust_check),
        number(Some(times.rust_with_reader)),
        times.our_check / times.rust_with_reader,
        times.check_alone / times.rust_with_reader,
        number(times.after_reading()),
        times.spread * 100.0,
    );
    times
}

fn head() {
    println!(
        "| {:<24} | {:>8} | {:>12} | {:>6} | {:>11} | {:>10} | {:>10} | {:>10} | {:>11} | {:>6} | {:>6} | {:>6} | {:>6} |",
        "class",
        "listings",
        "instructions",
        "bytes",
        "our reading",
        "our check",
        "own tables",
        "Rust check",
        "Rust + read",
        "ratio",
        "own t.",
        "alone",
        "spread"
    );
    println!("|---|---:|---:|---:|---:|---:|---:|---:|---:|---:|---:|---:|---:|");
}

/// A row of the second table: reading and writing alone. What each listing is read into is written as the listing.
fn writing_row(name: &str, listings: &[Vec<u8>]) {
    let mut ours = Ours::new();
    let mut tables: Vec<Tables> = Vec::new();
    let mut read: Vec<Listing> = Vec::new();
    for bytes in listings {
        assert_eq!(ours.read(bytes)[0], 0, "it reads");
        tables.push(ours.tables.clone());
        let written = ours.write(&ours.tables.clone());
        assert_eq!((written[0], &ours.buffer[..written[1] as usize]), (0, &bytes[..]), "it is written back");
        read.push(listing::read(bytes).expect("it reads"));
        assert_eq!(listing::write(&read[read.len() - 1]), *bytes, "it is written back");
    }
    let (mut for_reading, mut for_writing, mut buffer) = (Ours::new(), Ours::new(), Vec::with_capacity(MAX_BYTES));
    let all = vec![
        Some(over(listings, |bytes| for_reading.read(bytes))),
        Some(over(listings, |bytes| rust_read(bytes))),
        Some(over(&tables, |tables| for_writing.write(tables))),
        Some(over(&read, |listing| rust_write(listing, &mut buffer))),
    ];
    let Least { times, spread } = least(all, listings.len(), ROUNDS);
    let times: Vec<f64> = times.into_iter().map(|time| time.expect("it is measured")).collect();
    println!(
        "| {name:<24} | {:>8} | {:>6} | {:>11.2} | {:>12.2} | {:>6.2} | {:>11.2} | {:>12.2} | {:>6.2} | {:>5.0}% |",
        listings.len(),
        median(listings.iter().map(Vec::len).collect()),
        times[0],
        times[1],
        times[0] / times[1],
        times[2],
        times[3],
        times[2] / times[3],
        spread * 100.0,
    );
}

fn writing_head() {
    println!(
        "| {:<24} | {:>8} | {:>6} | {:>11} | {:>12} | {:>6} | {:>11} | {:>12} | {:>6} | {:>6} |",
        "class",
        "listings",
        "bytes",
        "our reading",
        "Rust reading",
        "ratio",
        "our writing",
        "Rust writing",
        "ratio",
        "spread"
    );
    println!("|---|---:|---:|---:|---:|---:|---:|---:|---:|---:|");
}

/// Rows of growing listings, then how the times grow from one to the next.
fn growth(title: &str, rounds: usize, listings: Vec<(String, Vec<u8>)>) {
    println!("\n{title}\n");
    head();
    let times: Vec<Times> = listings.into_iter().map(|(name, bytes)| row(&name, vec![bytes], rounds)).collect();
    println!();
    for pair in times.windows(2) {
        let ours = pair[1].our_check / pair[0].our_check;
        let rust = pair[1].rust_with_reader / pair[0].rust_with_reader;
        println!("from row to row: our check x {ours:.2}, Rust with its reader x {rust:.2}");
    }
}

/// The tables of checks: the classes, and growing listings.
fn print_checks(classes: &[Class], lines: &[(String, Vec<u8>)]) {
    head();
    for Class { name, listings } in classes {
        row(name, listings.clone(), ROUNDS);
    }
    growth("Straight lines, without loops:", ROUNDS, lines.to_vec());
    let nest = |locals| (format!("8 loops, {locals} of each widen"), classes::eight_loops_that_widen(locals));
    let nests = [1, 2, 3, 4].map(nest).to_vec();
    growth(&format!("Eight nested loops with locals that widen, least of {FEW_ROUNDS} rounds:"), FEW_ROUNDS, nests);
}

/// The table of reading and writing alone: the classes that read, and growing listings.
fn print_writing(classes: &[Class], lines: &[(String, Vec<u8>)]) {
    println!("\nReading into tables, and writing back, of what reads:\n");
    writing_head();
    for Class { name, listings } in classes.iter().filter(|class| rust_read(&class.listings[0])) {
        writing_row(name, listings);
    }
    for (name, bytes) in lines {
        writing_row(name, std::slice::from_ref(bytes));
    }
}

fn main() -> ExitCode {
    let arguments: Vec<String> = std::env::args().skip(1).collect();
    let only_writing = arguments == ["writing"];
    if !arguments.is_empty() && !only_writing {
        eprintln!("usage: times [writing]");
        return ExitCode::FAILURE;
    }
    let classes = classes::classes();
    let straight = |size| (format!("straight line of {size}"), classes::straight_line(size));
    let lines = [256, 512, 1_024, 2_048, MAX_OPS].map(straight);
    println!("Microseconds of processor time for each listing, the least of {ROUNDS} rounds.\n");
    if !only_writing {
        print_checks(&classes, &lines);
    }
    print_writing(&classes, &lines);
    ExitCode::SUCCESS
}
