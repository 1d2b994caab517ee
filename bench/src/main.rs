//! Times the proved library against plain Rust: same machine, same input, both built for release. Outputs are not cleared between calls.
//! `bench --input NODES THRESHOLD BOUND` writes the key program's input of such a row instead, for a profile; `bench --forms` prints the rows
//! of the form alone, `bench --worst-form [SECONDS]` looks for the tree that is worst for it; `bench --stack` prints the stack that each call
//! takes; `bench --against DIR [forms]` compares with an older build, by processes of `bench --turns WAY NAME`.

mod against;
mod clock;
mod forms;
mod lists;
mod pages;
mod profiles;
mod programs;
mod registers;
mod requests;
mod stack;
mod worst;

use bench::occurrence::{self, Case};
use bench::plain;
use compare::random::{self, Random};
use compare::{library, model};
use std::hint::black_box;
use std::io::Write;

fn main() {
    let words: Vec<String> = std::env::args().skip(1).collect();
    match words.iter().map(|word| word.as_str()).collect::<Vec<_>>()[..] {
        [] => tables(),
        ["--input", nodes, threshold, bound] => {
            let input = requests::nineteen(number(nodes), number(threshold), number(bound)).input();
            std::io::stdout().write_all(&input).expect("written");
        }
        ["--forms"] => form_table(),
        ["--profiles"] => profile_tables(),
        ["--worst-form"] => worst::run(worst::SECONDS),
        ["--worst-form", seconds] => worst::run(number(seconds)),
        ["--stack"] => stack::run(),
        ["--against", older] => against::run(older),
        ["--against", older, "forms"] => against::run_forms(older),
        ["--turns", way, name] => against::take_turns(way, name),
        _ => usage(),
    }
}

fn number(word: &str) -> usize {
    word.parse().unwrap_or_else(|_| usage())
}

fn usage() -> ! {
    eprintln!("usage: bench/run [--input NODES THRESHOLD BOUND | --forms | --profiles | --worst-form [SECONDS] | --stack | --against DIR [forms]]");
    std::process::exit(2);
}

fn tables() {
    let mut missed = vec![];
    head_of_two("proved", "plain");
    sheets();
    forms::run(&mut missed);
    requests::cases().iter().for_each(|case| occurrences(case, &mut missed));
    registers::keeping(&mut missed);
    lists::run(&mut missed);
    pages::run(&mut missed);
    registers::lists(&mut missed);
    registers::rounds();
    profiles::run(&mut missed);
    print_missed(&missed);
}

fn form_table() {
    let mut missed = vec![];
    head_of_two("proved", "plain");
    forms::run(&mut missed);
    print_missed(&missed);
}

fn profile_tables() {
    let mut missed = vec![];
    profiles::run(&mut missed);
    print_missed(&missed);
}

fn print_missed(missed: &lists::Missed) {
    println!("\nTargets missed: {}", missed.len());
    missed.iter().for_each(|row| println!("  {row}"));
}

/// A call with the least time of a batch so far. Batches are short, so that some of many fall where the machine does nothing else.
struct Timed<F> {
    call: F,
    batch: u32,
    least: f64,
}

const BATCH_MICROSECONDS: f64 = 200.0;
const BATCHES: usize = 1000;

impl<T, F: FnMut() -> T> Timed<F> {
    fn new(call: F) -> Timed<F> {
        Timed::by_batches_of(BATCH_MICROSECONDS, call)
    }

    fn by_batches_of(microseconds: f64, call: F) -> Timed<F> {
        let mut timed = Timed { call, batch: 1, least: f64::MAX };
        while timed.run_batch() < microseconds {
            timed.batch *= 2;
        }
        timed
    }

    fn run_batch(&mut self) -> f64 {
        let begun = clock::thread();
        (0..self.batch).for_each(|_| drop((self.call)()));
        clock::thread() - begun
    }

    fn again(&mut self) {
        self.least = self.least.min(self.run_batch() / self.batch as f64);
    }
}

/// Microseconds of one call.
fn time<T>(call: impl FnMut() -> T) -> f64 {
    let mut timed = Timed::new(call);
    (0..BATCHES).for_each(|_| timed.again());
    timed.least
}

/// Microseconds of one call of each, by so many batches in turn.
fn times_in_turn<T, U>(batches: usize, mut proved: Timed<impl FnMut() -> T>, mut plain: Timed<impl FnMut() -> U>) -> [f64; 2] {
    for _ in 0..batches {
        proved.again();
        plain.again();
    }
    [proved.least, plain.least]
}

/// Times both calls, in turn, and prints a row of a table; returns the ratio.
fn race<T, U>(name: &str, proved: impl FnMut() -> T, plain: impl FnMut() -> U) -> f64 {
    let [proved, plain] = times_in_turn(BATCHES, Timed::new(proved), Timed::new(plain));
    row(name, proved, plain);
    proved / plain
}

/// The head of a table, Markdown as in docs/BENCHMARKS.md.
fn head_of_two(one: &str, other: &str) {
    println!("| {:<59} | {one:>10} | {other:>10} | {:>6} |", "", "ratio");
    println!("|{}|{}:|{}:|{}:|", "-".repeat(61), "-".repeat(11), "-".repeat(11), "-".repeat(7));
}

/// A row of it.
fn row(name: &str, proved: f64, plain: f64) {
    println!("| {name:<59} | {proved:>7.2} µs | {plain:>7.2} µs | {:>6.2} |", proved / plain);
}

/// Reading and writing full sheets.
fn sheets() {
    let wide: Vec<u16> = (0..256).map(|i| if i == 0 { 101 } else { 1201 + i % 2 }).collect();
    let fleets = [
        ("4,096 nodes, all fields", wide.repeat(16)),
        ("nineteen plausible vehicles, about 200 nodes", random::plausible_fleet(&mut Random::new(1), 19, 200)),
    ];
    for (name, fleet) in fleets {
        let sheet = model::bytes_of(&fleet);
        let (mut pairs, mut bytes) = (vec![0u16; 4096], vec![0u8; 16388]);
        let (mut plain_pairs, mut plain_bytes) = (pairs.clone(), bytes.clone());
        assert_eq!(library::read(&sheet, &mut pairs), fleet.len() as i64, "{name}");
        assert_eq!(plain::read(&sheet, &mut plain_pairs), Ok(fleet.len()), "{name}");
        assert_eq!(library::write(&fleet, &mut bytes), sheet.len() as i64, "{name}");
        assert_eq!(plain::write(&fleet, &mut plain_bytes), Ok(sheet.len()), "{name}");
        for (pairs, bytes) in [(&pairs, &bytes), (&plain_pairs, &plain_bytes)] {
            assert_eq!((&pairs[..fleet.len()], &bytes[..sheet.len()]), (&fleet[..], &sheet[..]), "{name}");
        }
        race(
            &format!("read, {name}"),
            || black_box(library::read(black_box(&sheet), &mut pairs)),
            || black_box(plain::read(black_box(&sheet), &mut plain_pairs)),
        );
        race(
            &format!("write, {name}"),
            || black_box(library::write(black_box(&fleet), &mut bytes)),
            || black_box(plain::write(black_box(&fleet), &mut plain_bytes)),
        );
    }
}

/// Support and the heaviest placing take at most so many times plain Rust's time.
const OCCURRENCE_RATIO: f64 = 10.0;

/// Support in the fleet and the heaviest placing in its first tree. The proved calls check the fleet too.
fn occurrences(case: &Case, missed: &mut lists::Missed) {
    let (fleet, pattern) = (&case.fleet, &case.pattern);
    let mut output = [0u16; 16];
    assert_eq!(library::support(fleet, pattern), occurrence::support(fleet, pattern) as i64, "{}", case.name);
    let placed = library::place(fleet, 1, pattern, &mut output);
    match occurrence::place(fleet, pattern) {
        None => assert_eq!(placed, 0, "{}", case.name),
        Some(tuple) => assert_eq!(&output[..placed as usize], &tuple[..], "{}", case.name),
    }
    let support = race(
        &format!("support, {}", case.name),
        || black_box(library::support(black_box(fleet), black_box(pattern))),
        || black_box(occurrence::support(black_box(fleet), black_box(pattern))),
    );
    let place = race(
        &format!("place, {}", case.name),
        || black_box(library::place(black_box(fleet), 1, black_box(pattern), &mut output)),
        || black_box(occurrence::place(black_box(fleet), black_box(pattern))),
    );
    let over = [("support", support), ("place", place)].into_iter().filter(|(_, ratio)| *ratio > OCCURRENCE_RATIO);
    missed.extend(over.map(|(call, ratio)| format!("{call}, {}: {ratio:.3}, target {OCCURRENCE_RATIO}", case.name)));
}
