//! Closed and maximal lists against the full one, which they are parts of, and against plain Rust: batches in this process, the list program as
//! a process. Each table says its target.

use crate::lists::{self, by_batches, by_miner, head, in_turn, Missed};
use crate::programs;
use crate::requests::{self, Request};
use compare::library::{CLOSED, FULL, MAXIMAL};

/// A closed or maximal list takes at most so many times the full one. What is bought with that is a list that is so much shorter.
const PROFILE_RATIO: f64 = 4.0;

pub fn run(missed: &mut Missed) {
    println!("\nClosed and maximal lists by batches of 1,024 forms against the full list by the same, and against the fast miner at the same");
    println!("profile, in one process: fleet, threshold, bound, each list to its end.");
    table("batches", by_batch, missed);
    println!("\nThe same by the list program, and against a plain Rust program, as processes, sheet to lines.");
    table("list program", by_process, missed);
}

/// How many forms the full list has and how many are kept; milliseconds of both lists, and of plain Rust for what is kept.
struct Times {
    forms: usize,
    kept: usize,
    full: f64,
    proved: f64,
    plain: f64,
}

fn table(way: &str, times: fn(full: &Request, part: &Request) -> Times, missed: &mut Missed) {
    println!("Target: at most {PROFILE_RATIO} of the full list's time.");
    head(&[("forms", 7), ("full", 10), ("profile", 7), ("kept", 6), ("proved", 10), ("ratio", 6), ("plain", 10), ("ratio", 6)]);
    for request in requests::exam().into_iter().chain([requests::longest()]).chain(requests::hard()) {
        for (profile, name) in [(CLOSED, "closed"), (MAXIMAL, "maximal")] {
            let Times { forms, kept, full, proved, plain } = times(&request.at(FULL), &request.at(profile));
            let (to_full, to_plain) = (proved / full, proved / plain);
            let before = format!("| {:<37} | {forms:>7} | {full:>7.1} ms | {name:>7} | {kept:>6}", request.name);
            println!("{before} | {proved:>7.1} ms | {to_full:>6.2} | {plain:>7.1} ms | {to_plain:>6.2} |");
            missed.extend((to_full > PROFILE_RATIO).then(|| format!("{way}, {name}, {}: {to_full:.3}, target {PROFILE_RATIO}", request.name)));
        }
    }
}

fn by_batch(full: &Request, part: &Request) -> Times {
    let [forms, kept] = [full, part].map(|request| lists::list(request, by_miner, usize::MAX));
    for (request, expected) in [(full, &forms), (part, &kept)] {
        assert!(lists::list(request, by_batches::<1024>, usize::MAX) == *expected, "the lists differ: {:?} {}", request.profile, request.name);
    }
    let time = |request, lister| lists::time(request, lister, usize::MAX);
    let [full, proved, plain] =
        in_turn([&mut || time(full, by_batches::<1024>), &mut || time(part, by_batches::<1024>), &mut || time(part, by_miner)]);
    Times { forms: forms.len(), kept: kept.len(), full, proved, plain }
}

fn by_process(full: &Request, part: &Request) -> Times {
    let [proved, plain] = [programs::proved("list_main"), programs::plain("plain_list")];
    let [full, part] = [full, part].map(|request| (request.list_input(), programs::run(&plain, &request.list_input()).1));
    let time = |program, (input, expected): &(Vec<u8>, Vec<u8>)| {
        let (time, output) = programs::run(program, input);
        assert!(output == *expected, "the programs' outputs differ");
        time
    };
    let [forms, kept] = [&full, &part].map(|(_, lines)| programs::forms(lines));
    let [full, proved, plain] = in_turn([&mut || time(&proved, &full), &mut || time(&proved, &part), &mut || time(&plain, &part)]);
    Times { forms, kept, full, proved, plain }
}
