//! The list on pages against the list itself: the program against the key program and a plain one, as processes; the call against batches.
//! Each table says its targets.

use crate::lists::{self, by_batches, head, in_turn, Missed, LONG};
use crate::requests::{self, Request};
use crate::{clock, programs};
use bench::peers;
use compare::library::{self, PAGE};

/// Laying out a long list takes at most so many times the list.
const PAGES_RATIO: f64 = 1.3;

/// The call goes through the list twice if the pages fit.
const CALL_RATIO: f64 = 2.0 * PAGES_RATIO;

/// The answer to an output too short for the pages.
const SHORT_PAGES: i64 = -18;

pub fn run(missed: &mut Missed) {
    program(missed);
    call(missed);
}

/// Exam fleets, the longest list, and hard fleets.
fn all() -> impl Iterator<Item = Request> {
    requests::exam().into_iter().chain([requests::longest()]).chain(requests::hard())
}

fn misses(missed: &mut Missed, name: &str, request: &Request, ratio: f64, target: f64) {
    missed.extend((ratio > target).then(|| format!("{name}, {}: {ratio:.3}, target {target}", request.name)));
}

// ---------- the program ----------

fn program(missed: &mut Missed) {
    println!("\nThe pages program against the key program, and against a plain Rust program, as processes: fleet, threshold, bound.");
    println!("Target: at most {PAGES_RATIO} of the key program's time on lists of {LONG} forms or more.");
    head(&[("forms", 7), ("pages", 5), ("key", 10), ("a form", 8), ("on pages", 10), ("a form", 8), ("ratio", 6), ("plain", 10), ("ratio", 6)]);
    for request in all() {
        let (forms, ratio) = by_process(&request);
        if forms >= LONG {
            misses(missed, "pages program", &request, ratio, PAGES_RATIO);
        }
    }
}

/// Prints a row; returns how many forms are listed, and the ratio to the key program.
fn by_process(request: &Request) -> (usize, f64) {
    let input = request.input();
    let [key, pages, plain] = [programs::proved("key_main"), programs::proved("pages_main"), programs::plain("plain_pages")];
    let [(_, lines), (_, paper)] = [&key, &plain].map(|program| programs::run(program, &input));
    let time = |program, expected: &[u8]| {
        let (time, output) = programs::run(program, &input);
        assert!(output == expected, "the programs' outputs differ: {}", request.name);
        time
    };
    let [key, proved, plain] =
        in_turn([&mut || time(&key, &lines), &mut || time(&pages, &paper), &mut || time(&plain, &paper)]);
    let forms = programs::forms(&lines);
    let columns = columns(forms, paper.len(), &[key, proved]);
    println!("| {:<37} {columns} {:>6.2} | {plain:>7.1} ms | {:>6.2} |", request.name, proved / key, proved / plain);
    (forms, proved / key)
}

/// The columns of forms and pages, and of each time in all and a form.
fn columns(forms: usize, bytes: usize, times: &[f64]) -> String {
    let times: String = times.iter().map(|time| format!(" {time:>7.1} ms | {:>5.2} µs |", 1e3 * time / forms as f64)).collect();
    format!("| {forms:>7} | {:>5} |{times}", bytes / PAGE)
}

// ---------- the call ----------

fn call(missed: &mut Missed) {
    println!("\nhevolatsy_pages against the list in batches of 1,024 forms, in one process: fleet, threshold, bound; with room for all pages (the");
    println!("list twice), and with one byte too few (refused after the list once, but for the last page).");
    println!("Target: at most {CALL_RATIO} and {PAGES_RATIO} of the list's time on lists of {LONG} forms or more.");
    head(&[("forms", 7), ("pages", 5), ("list", 10), ("a form", 8), ("with room", 10), ("a form", 8), ("ratio", 6), ("refused", 10), ("ratio", 6)]);
    for request in all() {
        let (forms, [with_room, refused]) = by_call(&request);
        if forms >= LONG {
            misses(missed, "pages call", &request, with_room, CALL_RATIO);
            misses(missed, "refused pages call", &request, refused, PAGES_RATIO);
        }
    }
}

/// Prints a row; returns how many forms are listed, and the ratios to the list of the call with room and of the refused one.
fn by_call(request: &Request) -> (usize, [f64; 2]) {
    let (forms, paper) = laid_plainly(request);
    let (mut output, short) = (vec![0; paper.len()], paper.len() - 1);
    assert_eq!(library::pages(&request.fleet, request.asked(), &mut output[..short]), SHORT_PAGES, "{}", request.name);
    assert!(output.iter().all(|&byte| byte == 0), "a refused call wrote: {}", request.name);
    assert_eq!(library::pages(&request.fleet, request.asked(), &mut output), (paper.len() / PAGE) as i64, "{}", request.name);
    assert!(output == paper, "the pages differ: {}", request.name);
    let mut short_output = output[..short].to_vec();
    let [list, with_room, refused] = in_turn([
        &mut || lists::time(request, by_batches::<1024>, usize::MAX),
        &mut || time(request, &mut output),
        &mut || time(request, &mut short_output),
    ]);
    let columns = columns(forms, paper.len(), &[list, with_room]);
    println!("| {:<37} {columns} {:>6.2} | {refused:>7.1} ms | {:>6.2} |", request.name, with_room / list, refused / list);
    (forms, [with_room / list, refused / list])
}

/// How many forms are listed, and their pages, by the miner and the plain program's layout.
fn laid_plainly(request: &Request) -> (usize, Vec<u8>) {
    let (mut forms, mut pages) = (0, peers::Pages::new(vec![]));
    peers::mine(&request.fleet, request.asked(), &mut |form, support| {
        forms += 1;
        pages.form(form, support).is_ok()
    });
    pages.end().expect("the last page");
    (forms, pages.output)
}

/// Milliseconds of a call.
fn time(request: &Request, output: &mut [u8]) -> f64 {
    let begun = clock::thread();
    std::hint::black_box(library::pages(&request.fleet, request.asked(), output));
    (clock::thread() - begun) / 1e3
}
