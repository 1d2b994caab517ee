//! The present library and programs against those of an older build, on the same fleets (`bench/run --against DIR`). The two libraries
//! export the same names, so each is linked to a copy of this program of its own, and the two processes take turns. Remarks may count in
//! one build and not in the other; on fleets without any the answers are the same.

use crate::forms::{self, Group};
use crate::lists::{by_batches, by_steps, head, in_turn, Lister, Missed, LONG, MOST_STEPS};
use crate::requests::{self, Request};
use crate::{clock, programs, registers, Timed};
use bench::occurrence::Case;
use bench::remarks;
use compare::library::{self, PAGE};
use std::collections::hash_map::DefaultHasher;
use std::hash::{Hash, Hasher};
use std::hint::black_box;
use std::io::{BufRead, BufReader, Write};
use std::path::{Path, PathBuf};
use std::process::{Child, ChildStdin, ChildStdout, Command, Stdio};
use std::time::{Duration, Instant};

/// Without remarks nothing takes more than this much of the older build's time.
const SAME_RATIO: f64 = 1.05;

/// With many remarks a list that is long in the older build, and longer than in the present one, takes less than it did.
const QUICKER_RATIO: f64 = 1.0;

/// Each round starts both processes anew, as where things lie in memory matters too. A turn lasts so long, or one call; a round has no
/// more turns than these, and no further one after so long.
const ROUNDS: usize = 5;
const TURNS: usize = 10;
const TURN_MICROSECONDS: f64 = 5e3;
const ROUND: Duration = Duration::from_millis(200);

/// No list here takes more pages.
const MOST_PAGES: usize = 4000;

/// Calls of the library that give their answers to `found`.
type Job = Box<dyn FnMut(&mut dyn FnMut(&[u16], usize) -> bool)>;

// ---------- what is timed ----------

const LISTS: [(&str, Lister); 5] = [
    ("steps", by_steps),
    ("first steps", first_steps),
    ("of 64", by_batches::<64>),
    ("of 1,024", by_batches::<1024>),
    ("register", registers::by_batches),
];

const FORM: &str = "form";

const OCCURRENCES: [(&str, fn(Case) -> Job); 2] = [("support", support), ("place", place)];

fn first_steps(request: &Request, found: &mut dyn FnMut(&[u16], usize) -> bool) {
    let mut left = MOST_STEPS;
    by_steps(request, &mut |form, support| {
        left -= 1;
        found(form, support) && left > 0
    });
}

fn without_remarks() -> Vec<Request> {
    let all = requests::exam().into_iter().chain([requests::longest()]).chain(requests::hard());
    all.map(Request::without_remarks).collect()
}

fn job(way: &str, name: &str) -> Job {
    if let Some((_, of_case)) = OCCURRENCES.iter().find(|(known, _)| *known == way) {
        return of_case(requests::cases().into_iter().find(|case| case.name == name).expect("a case"));
    }
    if way == FORM {
        let mut groups = forms::large_groups().chain(forms::small_groups());
        return form(groups.find(|group| group.name == name).expect("a group"));
    }
    let mut requests = without_remarks().into_iter().chain(requests::with_remarks());
    let request = requests.find(|request| request.name == name).expect("a request");
    match LISTS.iter().find(|(known, _)| *known == way) {
        Some(&(_, lister)) => Box::new(move |found| lister(&request, found)),
        None => pages(request),
    }
}

fn support(case: Case) -> Job {
    Box::new(move |found| {
        found(&[], library::support(&case.fleet, &case.pattern) as usize);
    })
}

fn place(case: Case) -> Job {
    Box::new(move |found| {
        let mut output = [0; 16];
        let placed = library::place(&case.fleet, 1, &case.pattern, &mut output);
        found(&output, placed as usize);
    })
}

/// All forms of the group end to end, so that nothing but the calls is timed.
fn form(group: Group) -> Job {
    let mut output = vec![0; group.trees.iter().map(Vec::len).sum()];
    Box::new(move |found| {
        let mut at = 0;
        for tree in &group.trees {
            at += library::form(tree, &mut output[at..]) as usize;
        }
        found(&output, at);
    })
}

fn pages(request: Request) -> Job {
    let mut output = vec![0; MOST_PAGES * PAGE];
    Box::new(move |found| {
        let pages = library::pages(&request.fleet, request.asked(), &mut output);
        assert!(pages > 0, "more than {MOST_PAGES} pages: {}", request.name);
        found(&[], pages as usize);
    })
}

// ---------- a process of each side ----------

/// Says what the job answers, as one number; then, for each line that comes in, takes a turn and says the least microseconds so far.
pub fn take_turns(way: &str, name: &str) {
    let mut job = job(way, name);
    let mut hasher = DefaultHasher::new();
    job(&mut |form, support| {
        (form, support).hash(&mut hasher);
        true
    });
    let mut timed = Timed::new(|| {
        job(&mut |form, support| {
            black_box((form, support));
            true
        })
    });
    println!("{}", hasher.finish());
    for _ in std::io::stdin().lines() {
        let begun = clock::thread();
        while clock::thread() - begun < TURN_MICROSECONDS {
            timed.again();
        }
        println!("{}", timed.least);
    }
}

struct Worker {
    process: Child,
    to: ChildStdin,
    from: BufReader<ChildStdout>,
    answer: String,
    least: f64,
}

impl Worker {
    fn start(program: &Path, way: &str, name: &str) -> Worker {
        let command = &mut Command::new(program);
        let mut process = command.args(["--turns", way, name]).stdin(Stdio::piped()).stdout(Stdio::piped()).spawn().expect("a program");
        let (to, from) = (process.stdin.take().unwrap(), BufReader::new(process.stdout.take().unwrap()));
        let mut worker = Worker { process, to, from, answer: String::new(), least: f64::MAX };
        worker.answer = worker.line();
        worker
    }

    fn line(&mut self) -> String {
        let mut line = String::new();
        self.from.read_line(&mut line).expect("a line");
        line.trim().into()
    }

    fn turn(&mut self) {
        writeln!(self.to).expect("a turn asked for");
        self.least = self.line().parse().expect("microseconds");
    }

    fn end(mut self) {
        drop(self.to);
        assert!(self.process.wait().expect("an end").success());
    }
}

/// The present build and the older one, in this order wherever there are two.
struct Builds {
    workers: [PathBuf; 2],
    programs: [PathBuf; 2],
}

impl Builds {
    fn new(older: &str) -> Builds {
        let workers = [std::env::current_exe().expect("this program's path"), programs::older()];
        Builds { workers, programs: [programs::folder(), Path::new(older).join("bin")] }
    }

    /// The least milliseconds of each, and whether the answers are the same.
    fn time(&self, way: &str, name: &str) -> ([f64; 2], bool) {
        let (mut least, mut same) = ([f64::MAX; 2], true);
        for round in 0..ROUNDS {
            let mut workers = [0, 1].map(|side| Worker::start(&self.workers[side], way, name));
            let begun = Instant::now();
            for turn in 0..TURNS {
                if turn > 0 && begun.elapsed() > ROUND {
                    break;
                }
                let first = (round + turn) % 2;
                [first, 1 - first].iter().for_each(|&side| workers[side].turn());
            }
            same &= workers[0].answer == workers[1].answer;
            for (worker, least) in workers.into_iter().zip(&mut least) {
                *least = least.min(worker.least / 1e3);
                worker.end();
            }
        }
        (least, same)
    }

    /// The same for a program, with what each wrote.
    fn run(&self, program: &str, request: &Request) -> ([f64; 2], [Vec<u8>; 2]) {
        let (input, paths) = (request.input(), self.programs.each_ref().map(|folder| folder.join(program)));
        let outputs = paths.each_ref().map(|path| programs::run(path, &input).1);
        let [new, old] = paths;
        (in_turn([&mut || programs::run(&new, &input).0, &mut || programs::run(&old, &input).0]), outputs)
    }
}

// ---------- the tables ----------

/// Times the present build against the older one, whose programs are in the folder's `bin`; bench/run has linked its library.
pub fn run(older: &str) {
    let (builds, mut missed) = (Builds::new(older), vec![]);
    same_lists(&builds, &mut missed);
    occurrences(&builds, &mut missed);
    all_forms(&builds, &mut missed);
    lists_with_remarks(&builds, &mut missed);
    crate::print_missed(&missed);
}

/// The forms alone, which takes less time.
pub fn run_forms(older: &str) {
    let (builds, mut missed) = (Builds::new(older), vec![]);
    all_forms(&builds, &mut missed);
    crate::print_missed(&missed);
}

fn misses(missed: &mut Missed, way: &str, name: &str, [new, old]: [f64; 2], target: f64) {
    missed.extend((new / old > target).then(|| format!("{way}, {name}: {:.3}, target {target}", new / old)));
}

fn same_lists(builds: &Builds, missed: &mut Missed) {
    const CALLS: [&str; 5] = ["first steps", "of 64", "of 1,024", "register", "pages"];
    const PROGRAMS: [&str; 2] = ["key_main", "pages_main"];
    println!("The list without remarks, the present build's time / the older one's: fleet (remarks taken out), threshold, bound; the first");
    println!("{MOST_STEPS} forms by single steps, batches of 64 and of 1,024, register and list with it, the call for pages, the programs.");
    println!("Target: at most {SAME_RATIO}.");
    let columns: Vec<(&str, usize)> = CALLS.into_iter().chain(PROGRAMS).map(|name| (name, 11)).collect();
    head(&[&[("forms", 7)], &columns[..]].concat());
    for request in without_remarks() {
        let name = &request.name;
        assert!(!request.fleet.iter().any(|&pair| remarks::is_remark(pair)), "a remark: {name}");
        let mut ratios = String::new();
        let mut column = |way: &str, times: [f64; 2], same: bool| {
            assert!(same, "the builds' answers differ: {way}, {name}");
            misses(missed, way, name, times, SAME_RATIO);
            ratios += &format!(" {:>11.3} |", times[0] / times[1]);
        };
        for way in CALLS {
            let (times, same) = builds.time(way, name);
            column(way, times, same);
        }
        for program in PROGRAMS {
            let (times, [new, old]) = builds.run(program, &request);
            column(program, times, new == old);
        }
        println!("| {name:<37} | {:>7} |{ratios}", forms(builds, &request)[0]);
    }
}

fn occurrences(builds: &Builds, missed: &mut Missed) {
    println!("\nSupport, and the heaviest placing in the first tree, microseconds. Target: at most {SAME_RATIO}.\n");
    crate::head_of_two("present", "older");
    for case in requests::cases() {
        for (way, _) in OCCURRENCES {
            let (times, same) = builds.time(way, &case.name);
            let remark_asked = case.pattern.iter().any(|&pair| remarks::is_remark(pair));
            assert!(same || remark_asked, "the builds' answers differ: {way}, {}", case.name);
            crate::row(&format!("{way}, {}", case.name), 1e3 * times[0], 1e3 * times[1]);
            misses(missed, way, &case.name, times, SAME_RATIO);
        }
    }
}

fn all_forms(builds: &Builds, missed: &mut Missed) {
    println!("\nThe form of trees of at most 16 nodes, a tree, over groups of them. Target: at most {SAME_RATIO}.\n");
    crate::head_of_two("present", "older");
    for group in forms::small_groups() {
        let times = form_times(builds, &group);
        let [new, old] = times.map(|time| 1e6 * time);
        println!("| {:<59} | {new:>7.1} ns | {old:>7.1} ns | {:>6.3} |", group.name, new / old);
        misses(missed, FORM, &group.name, times, SAME_RATIO);
    }
    println!("\nThe form of trees of {} nodes.\n", forms::NODES);
    crate::head_of_two("present", "older");
    for group in forms::large_groups() {
        let [new, old] = form_times(builds, &group);
        crate::row(&group.name, 1e3 * new, 1e3 * old);
    }
}

/// Milliseconds of a tree.
fn form_times(builds: &Builds, Group { name, trees }: &Group) -> [f64; 2] {
    let (times, same) = builds.time(FORM, name);
    assert!(same, "the builds' answers differ: {FORM}, {name}");
    times.map(|time| time / trees.len() as f64)
}

fn lists_with_remarks(builds: &Builds, missed: &mut Missed) {
    println!("\nThe list with many remarks, which one build may count and the other not: whole lists, a form, and both ratios.");
    println!("Target: at most {SAME_RATIO}, and at most {QUICKER_RATIO} where the older list is longer and has {LONG} forms or more.");
    let requests = requests::with_remarks();
    let forms: Vec<[usize; 2]> = requests.iter().map(|request| forms(builds, request)).collect();
    for way in ["key_main", "of 1,024", "of 64", "register", "pages", "steps"] {
        println!("\n{way}:");
        head(&[("forms", 7), ("present", 10), ("a form", 9), ("forms", 7), ("older", 10), ("a form", 9), ("ratio", 6), ("a form", 6)]);
        for (request, &forms) in requests.iter().zip(&forms) {
            let times = if way == "key_main" { builds.run(way, request).0 } else { builds.time(way, &request.name).0 };
            let each = [0, 1].map(|side| 1e3 * times[side] / forms[side] as f64);
            let sides = [0, 1].map(|side| format!(" {:>7} | {:>7.2} ms | {:>6.2} µs |", forms[side], times[side], each[side])).concat();
            println!("| {:<37} |{sides} {:>6.3} | {:>6.3} |", request.name, times[0] / times[1], each[0] / each[1]);
            misses(missed, way, &request.name, times, if forms[1] >= LONG && forms[1] > forms[0] { QUICKER_RATIO } else { SAME_RATIO });
        }
    }
}

/// How many forms each build's key program lists.
fn forms(builds: &Builds, request: &Request) -> [usize; 2] {
    builds.programs.each_ref().map(|folder| programs::forms(&programs::run(&folder.join("key_main"), &request.input()).1))
}
