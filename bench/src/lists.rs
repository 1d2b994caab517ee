//! The list: the key program against a plain one as processes; batches, and start and step, against the fast miner in this process.
//! Each table says its target.

use crate::requests::{self, Request};
use crate::{clock, programs};
use bench::peers;
use compare::{library, model};
use std::hint::black_box;

/// What is short is run again, up to so many times, until all runs of a row have taken so many milliseconds together.
const LEAST_RUNS: usize = 3;
const MOST_RUNS: usize = 50;
const MOST_MILLISECONDS: f64 = 1200.0;

/// A list of so many forms is long.
pub const LONG: usize = 300;

/// A batch of fewer forms takes little more than the fleet check and the tables of a call, which have no target.
const FEW: usize = 30;

/// The key program's time is at most this much of the plain one's: on every list, on long ones of exam fleets.
const KEY_RATIO: f64 = 1.1;
const LONG_KEY_RATIO: f64 = 0.5;

/// The same for batches of 64 forms, of the fast miner's time, and of 1,024.
const BATCH_RATIO: f64 = 0.5;
const LARGE_BATCH_RATIO: f64 = 0.25;

/// No start or step takes more than so many times the median.
const SLOWEST_STEP: f64 = 100.0;

/// Start and step give no more forms than these of a hard fleet's list, and of each quarter of the longest.
pub const MOST_STEPS: usize = 2000;

/// The rows that miss their target.
pub type Missed = Vec<String>;

pub fn run(missed: &mut Missed) {
    key_program(missed);
    batches(missed);
    start_and_step(missed);
    growth(&requests::longest());
}

/// The head of a table (Markdown, as in docs/BENCHMARKS.md): the first column, and the others with their widths.
pub fn head(columns: &[(&str, usize)]) {
    let named: String = columns.iter().map(|(name, width)| format!(" {name:>width$} |")).collect();
    let ruled: String = columns.iter().map(|(_, width)| format!("{}:|", "-".repeat(width + 1))).collect();
    println!("\n| {:<37} |{named}\n|{}|{ruled}", "", "-".repeat(39));
}

const RATIO_COLUMNS: [(&str, usize); 6] = [("forms", 7), ("proved", 10), ("a form", 8), ("plain", 10), ("a form", 8), ("ratio", 6)];

pub fn row(name: &str, forms: usize, proved: f64, plain: f64) -> String {
    let each = |time: f64| if forms == 0 { " ".repeat(8) } else { format!("{:>5.1} µs", 1e3 * time / forms as f64) };
    let (proved_each, plain_each, ratio) = (each(proved), each(plain), proved / plain);
    format!("| {name:<37} | {forms:>7} | {proved:>7.1} ms | {proved_each} | {plain:>7.1} ms | {plain_each} | {ratio:>6.2} |")
}

/// The least milliseconds of each side: a few runs in turn, more of them where they are short. Who is first changes, as the system may give
/// what comes first another core.
pub fn in_turn<const SIDES: usize>(sides: [&mut dyn FnMut() -> f64; SIDES]) -> [f64; SIDES] {
    let mut least = [f64::MAX; SIDES];
    let mut spent = 0.0;
    for run in 0..MOST_RUNS {
        if run >= LEAST_RUNS && spent > MOST_MILLISECONDS {
            break;
        }
        for i in 0..SIDES {
            let side = if run % 2 == 0 { i } else { SIDES - 1 - i };
            let time = sides[side]();
            least[side] = least[side].min(time);
            spent += time;
        }
    }
    least
}

// ---------- the key program ----------

fn key_program(missed: &mut Missed) {
    println!("\nThe key program against a plain Rust program, as processes, sheet to lines: fleet, threshold, bound, each list to its end.");
    println!("Target: ratio at most {KEY_RATIO}; at most {LONG_KEY_RATIO} on the exam fleets' lists of {LONG} forms or more.");
    let nothing_listed = requests::nineteen(200, 64, 8);
    key_table([nothing_listed].into_iter().chain(requests::exam()).chain([requests::longest()]), LONG_KEY_RATIO, missed);
    println!("\nThe same for exam fleets with many remarks, which are in no form. The same target.");
    key_table(requests::with_remarks(), LONG_KEY_RATIO, missed);
    println!("\nThe same for examples/nineteen and for hard fleets. Target: ratio at most {KEY_RATIO}.");
    key_table(requests::hard(), KEY_RATIO, missed);
}

fn key_table(requests: impl IntoIterator<Item = Request>, long_target: f64, missed: &mut Missed) {
    head(&RATIO_COLUMNS);
    for request in requests {
        let (forms, ratio) = by_process(&request);
        let target = if forms >= LONG { long_target } else { KEY_RATIO };
        missed.extend((ratio > target).then(|| format!("key program, {}: {ratio:.3}, target {target}", request.name)));
    }
}

/// Prints a row; returns how many forms are listed, and the ratio.
fn by_process(request: &Request) -> (usize, f64) {
    let (input, plain_key, proved_key) = (request.input(), programs::plain("plain_key"), programs::proved("key_main"));
    let (_, expected) = programs::run(&plain_key, &input);
    let forms = programs::forms(&expected);
    let time = |program| {
        let (time, output) = programs::run(program, &input);
        assert!(output == expected, "the programs' outputs differ: {}", request.name);
        time
    };
    let [plain, proved] = in_turn([&mut || time(&plain_key), &mut || time(&proved_key)]);
    println!("{}", row(&request.name, forms, proved, plain));
    (forms, proved / plain)
}

// ---------- ways to list in this process ----------

/// Calls `found` with each form and its support, until it says false.
pub type Lister = fn(&Request, found: &mut dyn FnMut(&[u16], usize) -> bool);

pub fn by_miner(request: &Request, found: &mut dyn FnMut(&[u16], usize) -> bool) {
    peers::mine(&request.fleet, request.asked(), found);
}

pub fn by_steps(request: &Request, found: &mut dyn FnMut(&[u16], usize) -> bool) {
    steps_from(request, &[], found);
}

/// From the start, or after a form.
fn steps_from(request: &Request, form: &[u16], found: &mut dyn FnMut(&[u16], usize) -> bool) {
    let (fleet, asked) = (&request.fleet, request.asked());
    let mut output = [0u16; 16];
    let mut answer = if form.is_empty() { library::start(fleet, asked, &mut output) } else { library::step(fleet, asked, form, &mut output) };
    while answer > 0 {
        let (form, nodes) = (output, answer as usize % 100);
        if !found(&form[..nodes], answer as usize / 100) {
            return;
        }
        answer = library::step(fleet, asked, &form[..nodes], &mut output);
    }
}

/// By batches of so many forms.
pub fn by_batches<const FORMS: usize>(request: &Request, found: &mut dyn FnMut(&[u16], usize) -> bool) {
    in_batches::<FORMS>(&|last, output, answers| library::batch(&request.fleet, request.asked(), last, output, answers), found);
}

/// Gives the forms behind the last one, with its outputs.
pub type BatchCall<'a> = &'a dyn Fn(&[u16], &mut [u16], &mut [usize]) -> i64;

pub fn in_batches<const FORMS: usize>(batch: BatchCall, found: &mut dyn FnMut(&[u16], usize) -> bool) {
    let (mut output, mut answers) = (vec![0u16; 16 * FORMS], [0usize; FORMS]);
    let (mut last, mut nodes) = ([0u16; 16], 0);
    loop {
        let count = batch(&last[..nodes], &mut output, &mut answers) as usize;
        let mut end = 0;
        for answer in &answers[..count] {
            nodes = answer % 100;
            end += nodes;
            if !found(&output[end - nodes..end], answer / 100) {
                return;
            }
        }
        if count < FORMS {
            return;
        }
        last[..nodes].copy_from_slice(&output[end - nodes..end]);
    }
}

/// Milliseconds of the first `most` forms.
pub fn time(request: &Request, lister: Lister, most: usize) -> f64 {
    let begun = clock::thread();
    let mut left = most;
    lister(request, &mut |form, support| {
        black_box((form, support));
        left -= 1;
        left > 0
    });
    (clock::thread() - begun) / 1e3
}

pub fn list(request: &Request, lister: Lister, most: usize) -> Vec<(Vec<u16>, usize)> {
    let mut list = vec![];
    lister(request, &mut |form, support| {
        list.push((form.to_vec(), support));
        list.len() < most
    });
    list
}

/// When it began and when each form was given, in microseconds; at last the end, where it comes before `most` forms.
fn course(request: &Request, lister: Lister, most: usize) -> Vec<f64> {
    let mut at = vec![clock::thread()];
    lister(request, &mut |_, _| {
        at.push(clock::thread());
        at.len() <= most
    });
    if at.len() <= most {
        at.push(clock::thread());
    }
    at
}

// ---------- batches ----------

fn batches(missed: &mut Missed) {
    println!("\nBatches of 16, 64 and 1,024 forms against the fast miner, in one process, time a form: fleet, threshold, bound, each list to its end.");
    println!("Target, on lists of {FEW} forms or more: ratio at most {BATCH_RATIO} for batches of 64, at most {LARGE_BATCH_RATIO} for those of 1,024.");
    batch_table(requests::exam().into_iter().chain([requests::longest()]), missed);
    println!("\nThe same for exam fleets with many remarks. The same target.");
    batch_table(requests::with_remarks(), missed);
}

fn batch_table(requests: impl IntoIterator<Item = Request>, missed: &mut Missed) {
    head(&[("forms", 7), ("plain", 10), ("a form", 8), ("of 16", 9), ("ratio", 6), ("of 64", 9), ("ratio", 6), ("of 1,024", 9), ("ratio", 6)]);
    for request in requests {
        let (forms, [_, of_64, of_1024]) = by_batch(&request);
        let targets = [("of 64", of_64, BATCH_RATIO), ("of 1,024", of_1024, LARGE_BATCH_RATIO)];
        for (size, ratio, target) in targets.into_iter().filter(|(_, ratio, target)| forms >= FEW && ratio > target) {
            missed.push(format!("batches {size}, {}: {ratio:.3}, target {target}", request.name));
        }
    }
}

/// Prints a row; returns how many forms are listed, and the ratio for each size of batch.
fn by_batch(request: &Request) -> (usize, [f64; 3]) {
    const LISTERS: [Lister; 3] = [by_batches::<16>, by_batches::<64>, by_batches::<1024>];
    let forms = list(request, by_miner, usize::MAX);
    for lister in LISTERS {
        assert!(list(request, lister, usize::MAX) == forms, "the lists differ: {}", request.name);
    }
    let time = |lister: Lister| time(request, lister, usize::MAX);
    let [of_16, of_64, of_1024] = LISTERS;
    let [plain, proved @ ..] =
        in_turn([&mut || time(by_miner), &mut || time(of_16), &mut || time(of_64), &mut || time(of_1024)]);
    let each = |time: f64| 1e3 * time / forms.len() as f64;
    let ratios = proved.map(|time| time / plain);
    let columns: String = proved.map(|time| format!(" {:>6.2} µs | {:>6.2} |", each(time), time / plain)).concat();
    println!("| {:<37} | {:>7} | {plain:>7.1} ms | {:>5.1} µs |{columns}", request.name, forms.len(), each(plain));
    (forms.len(), ratios)
}

// ---------- start and step ----------

fn start_and_step(missed: &mut Missed) {
    let exam = requests::exam();
    println!("\nStart and step of the C header against the fast miner, in one process: fleet, threshold, bound, each list to its end.");
    println!("Target: no step over {SLOWEST_STEP} times the median; for lists there are batches.");
    for request in exam.iter().filter(|request| (request.threshold, request.bound) == (12, 4)) {
        assert_eq!(library::vehicle(&request.fleet, 1), model::vehicles(&request.fleet)[0].len() as i64, "{}", request.name);
        let check = crate::time(|| black_box(library::vehicle(black_box(&request.fleet), 1)));
        println!("the fleet check in each call, {} nodes in all: {check:.1} µs", request.fleet.len());
    }
    step_table(&exam, usize::MAX, missed);
    println!("\nThe same for exam fleets with many remarks. The same target.");
    step_table(&requests::with_remarks(), usize::MAX, missed);
    println!("\nThe same for examples/nineteen and for hard fleets, the first {MOST_STEPS} forms. Target: no step over {SLOWEST_STEP} times the median.");
    step_table(&requests::hard(), MOST_STEPS, missed);
}

fn step_table(requests: &[Request], most: usize, missed: &mut Missed) {
    head(&[&RATIO_COLUMNS[..], &[("median", 8), ("slowest", 8), ("times", 5)]].concat());
    for request in requests {
        let times = by_step(request, most);
        missed.extend((times > SLOWEST_STEP).then(|| format!("slowest step, {}: {times:.0} medians, target {SLOWEST_STEP}", request.name)));
    }
}

/// Prints a row; returns how many times the median the slowest step takes. A step's time is its best too.
fn by_step(request: &Request, most: usize) -> f64 {
    let forms = list(request, by_miner, most);
    assert!(list(request, by_steps, most) == forms, "the lists differ: {}", request.name);
    let (mut proved, mut plain) = (f64::MAX, f64::MAX);
    let mut steps = vec![f64::MAX; forms.len() + 1];
    for _ in 0..LEAST_RUNS {
        plain = plain.min(time(request, by_miner, most));
        proved = proved.min(time(request, by_steps, most));
        let at = course(request, by_steps, most);
        steps.truncate(at.len() - 1);
        steps.iter_mut().zip(at.windows(2)).for_each(|(best, step)| *best = best.min(step[1] - step[0]));
    }
    steps.sort_by(f64::total_cmp);
    let (median, slowest) = (steps[steps.len() / 2], steps[steps.len() - 1]);
    println!("{} {median:>5.1} µs | {slowest:>5.1} µs | {:>5.1} |", row(&request.name, forms.len(), proved, plain), slowest / median);
    slowest / median
}

// ---------- growth ----------

/// Microseconds a form in each quarter of the list: the best of a few runs. Start and step go through the front of each quarter only.
fn growth(request: &Request) {
    println!("\nTime a form by quarters of the list of {}; start and step: the first {MOST_STEPS} forms of each.", request.name);
    head(&[("first", 8), ("second", 8), ("third", 8), ("last", 8)]);
    let (input, plain_key, proved_key) = (request.input(), programs::plain("plain_key"), programs::proved("key_main"));
    let forms = list(request, by_miner, usize::MAX);
    let quarter = forms.len() / 4;
    let by_program = |program| {
        let at = programs::lines_at(program, &input);
        [0, 1, 2, 3].map(|i| (at[(i + 1) * quarter] - at[i * quarter]) / quarter as f64)
    };
    let rows: [(&str, &dyn Fn() -> [f64; 4]); 5] = [
        ("key program", &|| by_program(&proved_key)),
        ("plain program", &|| by_program(&plain_key)),
        ("batches of 1,024", &|| quarters(request, by_batches::<1024>, quarter)),
        ("start and step", &|| [0, 1, 2, 3].map(|i| steps_behind(request, &forms[i * quarter].0))),
        ("fast miner", &|| quarters(request, by_miner, quarter)),
    ];
    for (name, times) in rows {
        let mut best = [f64::MAX; 4];
        for _ in 0..LEAST_RUNS {
            best.iter_mut().zip(times()).for_each(|(best, time)| *best = best.min(time));
        }
        println!("| {name:<37} |{}", best.map(|time| format!(" {time:>5.1} µs |")).concat());
    }
}

/// Time a form in each quarter, of so many forms.
fn quarters(request: &Request, lister: Lister, quarter: usize) -> [f64; 4] {
    let mut at = vec![clock::thread()];
    let mut given = 0;
    lister(request, &mut |_, _| {
        given += 1;
        if given % quarter == 0 {
            at.push(clock::thread());
        }
        true
    });
    [0, 1, 2, 3].map(|i| (at[i + 1] - at[i]) / quarter as f64)
}

/// Time a form of the steps behind this one.
fn steps_behind(request: &Request, form: &[u16]) -> f64 {
    let begun = clock::thread();
    let mut given = 0;
    steps_from(request, form, &mut |_, _| {
        given += 1;
        given < MOST_STEPS
    });
    (clock::thread() - begun) / given as f64
}
