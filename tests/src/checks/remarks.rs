//! Slip 3 of document 02, "Remarks no longer count": cases by hand, every call on fleets full of remarks, fleets and vehicles that differ by
//! remarks alone, and what stays as it was.

use super::batch::{self, walk, Batch, BatchCall, Entries};
use super::listing::{self, affordable_bound, listing, mined, model_list, quick_list, Call};
use super::occurrence::{place_into, some_pattern, support_of};
use super::pages::{on_pages, Pages};
use super::register::{self, listed, Asked, Kept};
use super::{programs, sheet};
use crate::report::Report;
use compare::library::{self, Request};
use compare::model::{self, bytes_of, label, pair, parse, List, Register};
use compare::random::{self, among_remarks, without_remarks};
use compare::{miner, pages};

pub fn run(report: &mut Report) {
    placings(report);
    keys(report);
    steps(report);
    refusals(report);
    no_fleets(report);
    edges(report);
    for _ in 0..report.rounds * 5000 {
        placed_among_remarks(report);
    }
    for _ in 0..report.rounds * 300 {
        other_remarks(report);
        single_vehicles(report);
        swaps(report);
    }
    for _ in 0..report.rounds * 40 {
        small_fleets(report);
    }
    for _ in 0..report.rounds * 3 {
        plausible_fleets(report);
    }
}

// ---------- by hand ----------

/// Pattern, vehicle's tree, heaviest placing (none: it does not occur).
const PLACINGS: [(&str, &str, &[u16]); 23] = [
    // the numbers count remarks
    ("0.201", "0.101 1.600 1.201", &[3]),
    ("0.201", "0.101 1.201 1.600 1.201 1.600", &[4]),
    ("0.101 1.201", "0.101 1.601 1.699 1.201 2.600 1.602", &[1, 4]),
    ("0.101 1.201 2.301 3.401", "0.101 1.600 1.201 2.600 2.600 2.301 3.650 3.401 3.699", &[1, 3, 6, 8]),
    // document 01's cases, with remarks before, between and behind
    ("0.101 1.201 2.302 1.201 2.301", "0.101 1.600 1.201 2.601 2.302 2.301 3.600 1.699 1.201 2.302 2.602", &[1, 9, 10, 3, 6]),
    ("0.101 1.201 2.302 1.201 2.301", "0.101 1.201 2.600 2.302 1.600 1.600 1.201 2.302 2.600 2.301 2.699", &[1, 2, 4, 7, 10]),
    ("0.101 1.201 1.201", "0.101 1.600 1.201 1.600", &[]),
    ("0.201 1.301", "0.101 1.600 1.201 2.600 2.301", &[3, 5]),
    // a pattern holding a remark: at its root, inside, last, alone, out of its form
    ("0.600", "0.101 1.600 1.600", &[]),
    ("0.699", "0.101 1.201 2.301 3.699", &[]),
    ("0.101 1.600", "0.101 1.600 1.201", &[]),
    ("0.101 1.201 1.699", "0.101 1.201 1.699", &[]),
    ("0.101 1.650 1.201", "0.101 1.650 1.201", &[]),
    ("0.101 1.201 2.600 2.301", "0.101 1.201 2.600 2.301", &[]),
    ("0.201 1.301 2.601", "0.101 1.201 2.301 3.601", &[]),
    ("0.600 1.201", "0.101 1.201", &[]),
    ("0.101 1.600 2.201", "0.101 1.600 1.201", &[]),
    // a remark is no other label
    ("0.101 1.600", "0.101 1.601", &[]),
    // families 5 and 7
    ("0.599", "0.101 1.201 2.301 3.600 3.599 3.600", &[5]),
    ("0.301 1.599 1.500", "0.101 1.201 2.301 3.500 3.600 3.599 3.699", &[3, 6, 4]),
    ("0.700", "0.101 1.600", &[]),
    ("0.101 1.700", "0.101 1.699", &[]),
    ("0.101", "0.101 1.600 1.601 1.699", &[1]),
];

fn placings(report: &mut Report) {
    let name = "remarks: placings by hand";
    for (pattern_text, tree, placing) in PLACINGS {
        let (pattern, tree) = (parse(pattern_text), parse(tree));
        report.equal(name, model::heaviest_placing(&pattern, &tree).unwrap_or_default(), placing.to_vec(), pattern_text);
        report.equal(name, miner::heaviest_placing(&pattern, &tree).unwrap_or_default(), placing.to_vec(), pattern_text);
        let placed = place_into(report, name, &tree, 1, &pattern, pattern.len() + 1);
        report.equal(name, placed, placing.to_vec(), pattern_text);
        let support = support_of(report, name, &[tree.clone(), vec![199], tree].concat(), &pattern);
        report.equal(name, support, if placing.is_empty() { 0 } else { 2 }, pattern_text);
    }
    // the last number that there is
    let late = late_runs(256, 15);
    let sixteen = [vec![101], vec![1201; 15]].concat();
    let placed = place_into(report, name, &late, 1, &sixteen, 16);
    report.equal(name, placed, [1].into_iter().chain((242..=256).rev()).collect(), "sixteen nodes");
}

/// A vehicle of so many nodes: remarks, and so many runs behind them.
fn late_runs(nodes: usize, runs: usize) -> Vec<u16> {
    let remarks = (0..nodes - 1 - runs).map(|i| pair(1, 600 + i as u16 % 100));
    [101].into_iter().chain(remarks).chain(vec![1201; runs]).collect()
}

/// Remarks before, between and behind the children of vehicle, run and stop; equipment beside them.
const FLEET: &str = "0.101 1.600 1.201 2.601 2.301 3.699 3.599 1.699 0.101 1.201 2.301 3.650 3.599 3.600 1.650 1.600";

/// Fleet, threshold and bound, and the key.
const KEYS: [(&str, usize, usize, &str); 7] = [
    (
        FLEET,
        2,
        4,
        "2 0.101\n2 0.101 1.201\n2 0.101 1.201 2.301\n2 0.101 1.201 2.301 3.599\n2 0.201\n2 0.201 1.301\n2 0.201 1.301 2.599\n2 0.301\n\
         2 0.301 1.599\n2 0.599\nend\n",
    ),
    // nothing but remarks below the roots, of one vehicle or of all
    ("0.101 1.600 1.600 0.101 1.201", 1, 16, "2 0.101\n1 0.101 1.201\n1 0.201\nend\n"),
    ("0.101 1.600 1.600 0.101 1.201", 2, 16, "2 0.101\nend\n"),
    ("0.101 1.600 0.101 1.600 1.600 0.102 1.600", 1, 16, "2 0.101\n1 0.102\nend\n"),
    ("0.101 1.600 0.101 1.600 1.600 0.102 1.600", 3, 16, "end\n"),
    ("0.101 1.699 1.650 1.600 1.601", 1, 2, "1 0.101\nend\n"),
    // a remark that all hold does not make up for a run that some hold
    ("0.101 1.600 1.201 0.101 1.600 1.202 0.101 1.600", 2, 3, "3 0.101\nend\n"),
];

fn keys(report: &mut Report) {
    let name = "remarks: keys by hand";
    for (fleet_text, threshold, bound, key) in KEYS {
        let (fleet, request) = (parse(fleet_text), Request::full(threshold, bound));
        report.equal(name, model::lines(&model_list(&fleet, request)).as_str(), key, fleet_text);
        let mined: List = mined(&fleet, request, 100).0.into_iter().collect();
        report.equal(name, model::lines(&mined).as_str(), key, fleet_text);
        for list in own_lists(report, &fleet, request, 100) {
            let lines = model::lines(&list.into_iter().collect());
            report.equal(name, lines.as_str(), key, fleet_text);
        }
        every_call(report, "remarks: every call", &fleet, request);
    }
}

/// Pattern and what a step gives from it in the fleet at 2 and 4.
const STEPS: [(&str, &str); 16] = [
    ("0.100 1.699", "0.101"),
    ("0.101 1.600", "0.201"),
    ("0.101 1.600 1.201", "0.201"),
    ("0.101 1.600 2.201", "0.201"),
    ("0.101 1.201 2.600", "0.201"),
    ("0.101 1.201 2.600 2.301", "0.201"),
    ("0.101 1.201 2.301 3.600", "0.201"),
    ("0.101 1.201 2.300 3.699", "0.101 1.201 2.301"),
    ("0.101 1.200 2.699 2.600", "0.101 1.201"),
    ("0.201 1.601 1.301", "0.301"),
    ("0.301 1.598", "0.301 1.599"),
    ("0.301 1.600", "0.599"),
    ("0.598 1.600", "0.599"),
    ("0.600", ""),
    ("0.699 1.101", ""),
    ("0.700", ""),
];

fn steps(report: &mut Report) {
    let name = "remarks: steps by hand";
    let (fleet, request) = (parse(FLEET), Request::full(2, 4));
    let list = model_list(&fleet, request);
    for (pattern_text, next) in STEPS {
        let (pattern, next) = (parse(pattern_text), parse(next));
        let found = if next.is_empty() { None } else { Some((next, 2)) };
        report.equal(name, model::next(&list, &pattern), found.clone(), pattern_text);
        for output in [4, 5] {
            Call { fleet: &fleet, request: &request.numbers(), pattern: Some(&pattern) }.compare(report, name, output, Ok(found.clone()));
        }
        let batch = Batch { fleet: &fleet, request: &request.numbers(), pattern: &pattern, output: 4, found: 1 };
        batch.compare(report, name, Ok(found.into_iter().collect()));
        Asked { fleet: &fleet, request: &request.numbers(), pattern: &pattern }.compare(report, name, &Register::of(&fleet), 4, 1);
    }
}

/// Pattern; the number that refuses a step from it at bound 4; the one that refuses support and place of it (0: it is answered).
const REFUSED: [(&str, u8, u8); 12] = [
    ("0.101 1.600", 0, 0),
    ("0.101 1.201 1.600", 15, 0),
    ("0.101 1.600 1.600 2.201", 15, 0),
    ("0.101 1.600 1.601", 15, 0),
    ("0.101 1.201 2.301 2.600", 15, 0),
    ("0.600 2.201", 14, 14),
    ("0.101 1.600 3.600", 14, 14),
    ("0.600 0.600", 14, 14),
    ("1.600", 14, 14),
    ("0.101 1.600 1.600 1.600 1.600", 13, 0),
    ("0.101 1.201 1.600 1.600 1.600", 13, 0),
    ("0.600 2.600 2.600 2.600 2.600", 13, 14),
];

/// A remark in a pattern refuses nothing, and hides nothing that is refused.
fn refusals(report: &mut Report) {
    let name = "remarks: refusals";
    let (fleet, request) = (parse(FLEET), Request::full(2, 4));
    let sixteen = [vec![600], vec![1600; 15]].concat();
    let others = [(sixteen.clone(), 13, 0), ([sixteen, vec![1600]].concat(), 13, 13), (vec![600; 16], 13, 14), (vec![600; 17], 13, 13)];
    let patterns = REFUSED.iter().map(|&(pattern, step, place)| (parse(pattern), step, place)).chain(others);
    for (pattern, step, place) in patterns {
        let about = model::text(&pattern);
        for output in [3, 4, 20] {
            let call = Call { fleet: &fleet, request: &request.numbers(), pattern: Some(&pattern) };
            let expected = listing::expected(&call, output, &model_list);
            let number = expected.as_ref().err().copied().unwrap_or(0);
            report.equal(name, number, if step == 0 && output < 4 { 17 } else { step }, &about);
            call.compare(report, name, output, expected);
            Batch { fleet: &fleet, request: &request.numbers(), pattern: &pattern, output, found: 3 }.compare_with(report, name, &model_list);
            Asked { fleet: &fleet, request: &request.numbers(), pattern: &pattern }.compare(report, name, &Register::of(&fleet), output, 3);
        }
        let support = support_of(report, name, &fleet, &pattern);
        report.equal(name, support, -(place as i64), &about);
        for output in [0, pattern.len()] {
            place_into(report, name, &fleet, 2, &pattern, output);
        }
    }
}

// ---------- what is no fleet ----------

/// Wrong in a remark alone, or for its remarks too large; without them each would be a fleet, or no pairs.
fn no_fleets(report: &mut Report) {
    let name = "remarks: no fleets";
    let wrong = ["0.600", "0.101 0.601", "0.101 1.600 2.600", "0.101 1.201 2.301 3.401 4.600", "0.101 1.201 2.301 3.599 4.699", "0.101 2.600"];
    let large = [late_runs(257, 1), [late_runs(256, 1).repeat(15), late_runs(255, 1), parse("0.101 1.600")].concat()];
    for pairs in wrong.map(parse).into_iter().chain(large) {
        let request = Request::full(1, 2).numbers();
        report.equal(name, model::is_fleet(&pairs), false, &model::text(&pairs));
        support_of(report, name, &pairs, &[101]);
        place_into(report, name, &pairs, 1, &[101], 1);
        sheet::vehicle_of(report, name, &pairs, 1);
        sheet::read_into(report, name, &bytes_of(&pairs), 4096);
        sheet::write_into(report, name, &pairs, 16388);
        for pattern in [None, Some([101].as_slice())] {
            Call { fleet: &pairs, request: &request, pattern }.compare(report, name, 2, Err(10));
        }
        Batch { fleet: &pairs, request: &request, pattern: &[], output: 4, found: 2 }.compare(report, name, Err(10));
        Pages { fleet: &pairs, request: &request, output: pages::BYTES }.compare(report, name, &Err(10));
        register::make(report, name, &pairs, 999, 999);
        programs::both(report, name, &programs::request(1, 2, &bytes_of(&pairs)));
    }
}

// ---------- every call ----------

/// The list by every call and both programs, the sheet, its text and the register.
fn every_call(report: &mut Report, name: &'static str, fleet: &[u16], request: Request) {
    let list = quick_list(fleet, request);
    let entries: Entries = list.clone().into_iter().collect();
    listing::session(report, name, fleet, request, &entries, true);
    batch::session(report, name, fleet, request, &entries, true);
    on_pages(report, name, fleet, request, &list, &[-1, 1]);
    let kept = Kept::new(&mut report.random, fleet, 10, 2);
    let same = listed(&mut report.random, &kept, request, entries.len()) == entries;
    report.check(name, same, || format!("with register, {:?} of {}", request.numbers(), model::text(fleet)));
    register::calls_from_anywhere(report, name, &kept, request);
    register::make(report, name, fleet, 1000, 999);
    let sheet = bytes_of(fleet);
    programs::both(report, name, &programs::request(request.threshold as u8, request.bound as u8, &sheet));
    sheet::read_into(report, name, &sheet, fleet.len());
    sheet::write_into(report, name, fleet, sheet.len() + 1);
    sheet::round_trip(report, fleet, &sheet);
    programs::sheet_to_text(report, name, &sheet);
    programs::text_to_sheet(report, name, model::fleet_text(fleet).as_bytes());
}

/// As many remarks as there may be, in every place, to the limits of fleets and calls.
fn edges(report: &mut Report) {
    let name = "remarks: edges";
    let everywhere = "0.101 1.600 1.601 1.201 2.600 2.301 3.602 3.401 4.401 3.600 3.599 3.699 2.605 2.605 2.301 2.606 1.607 1.607 1.201 1.699";
    let ends = "0.199 1.299 2.399 3.499 3.599 3.600 3.699 3.500 2.699 1.600";
    let deep: Vec<u16> = (3..16).map(|at| pair(at, 401)).collect();
    let deep = [parse("0.101 1.600 1.201 2.600 2.301 3.600"), deep, parse("3.699 2.699 1.699")].concat();
    let cases: [(Vec<u16>, usize, usize); 9] = [
        (parse(everywhere), 1, 5),
        ([parse(everywhere), random::shuffled(&mut report.random, &parse(everywhere)), parse(ends)].concat(), 2, 6),
        (parse(ends), 1, 16),
        (deep.repeat(64), 64, 16),
        (late_runs(64, 0).repeat(64), 64, 16),
        (late_runs(64, 1).repeat(64), 64, 16),
        (late_runs(256, 0).repeat(16), 16, 16),
        (late_runs(256, 15).repeat(16), 16, 16),
        ([late_runs(256, 3), vec![101; 63]].concat(), 1, 4),
    ];
    for (fleet, threshold, bound) in cases {
        every_call(report, name, &fleet, Request::full(threshold, bound));
    }
}

/// A fleet among remarks, and the same without any.
fn small_fleets(report: &mut Report) {
    let name = "remarks: every call";
    let bare = without_remarks(&random::small_fleet(&mut report.random));
    let fleet = among_remarks(&mut report.random, &bare);
    let bound = affordable_bound(report, &fleet, 300);
    let request = Request::full(report.random.between(1, 3), bound);
    report.check(name, quick_list(&fleet, request) == quick_list(&bare, request), || model::text(&fleet));
    every_call(report, name, &fleet, request);
    every_call(report, name, &bare, request);
}

// ---------- fleets that differ by remarks alone ----------

/// The library's own list, by starts and steps, by batches, by batches with a register, and from its pages; no longer than that.
fn own_lists(report: &mut Report, fleet: &[u16], request: Request, most: usize) -> [Entries; 4] {
    let random = &mut report.random;
    let batch: BatchCall = &|pattern, output, found| library::batch(fleet, request, pattern, output, found);
    let by_batches = walk(random, request.bound, most, batch);
    let kept = Kept::new(random, fleet, 0, 0);
    let with_register = listed(random, &kept, request, most);
    let mut output = vec![0; (most / 26 + 1) * pages::BYTES];
    let count = library::pages(fleet, request, &mut output).max(0) as usize;
    let joined = pages::joined(&output[..count * pages::BYTES]);
    let from_pages = joined.lines().filter_map(|line| line.split_once(' ')).map(|(support, form)| (parse(form), support.parse().unwrap_or(0)));
    [listing(fleet, request, most + 1), by_batches, with_register, from_pages.collect()]
}

/// A fleet without remarks, the same with some, and with others, its trees in another order of children: one list.
fn other_remarks(report: &mut Report) {
    let name = "remarks: fleets that differ by them alone";
    let bare = without_remarks(&random::small_fleet(&mut report.random));
    let some = among_remarks(&mut report.random, &bare);
    let shuffled: Vec<u16> = model::vehicles(&bare).iter().flat_map(|tree| random::shuffled(&mut report.random, tree)).collect();
    let others = among_remarks(&mut report.random, &shuffled);
    let bound = affordable_bound(report, &bare, 500);
    let threshold = report.random.between(1, model::vehicles(&bare).len());
    let request = Request::full(threshold, bound);
    let list: Entries = model_list(&bare, request).into_iter().collect();
    for fleet in [&bare, &some, &others] {
        let about = || format!("{:?} of {}", request.numbers(), model::text(fleet));
        report.check(name, library::vehicle(fleet, 1) > 0, about);
        for own in own_lists(report, fleet, request, list.len()) {
            report.check(name, own == list, about);
        }
        let plain: Entries = model_list(fleet, request).into_iter().collect();
        report.check(name, plain == list && mined(fleet, request, usize::MAX).0 == list, about);
    }
}

/// Two vehicles whose trees are the same without their remarks, up to the order of children, or are not: lists at threshold 1, at a bound no smaller
/// than either of these trees, are equal or are not.
fn single_vehicles(report: &mut Report) {
    let random = &mut report.random;
    let [one, other] = random::two_vehicles(random);
    let same = model::form(&one) == model::form(&other);
    let name = if same { "remarks: the same vehicle without them" } else { "remarks: other vehicles" };
    let request = Request::full(1, random.between(one.len().max(other.len()), 16));
    let (one, other) = (among_remarks(random, &one), among_remarks(random, &other));
    let lists = [&one, &other].map(|vehicle| own_lists(report, vehicle, request, 512));
    for (by_one, by_other) in lists[0].iter().zip(&lists[1]) {
        report.check(name, (by_one == by_other) == same, || format!("at {}: {} and {}", request.bound, model::text(&one), model::text(&other)));
    }
}

/// Every vehicle's tree for the same with other remarks, or none: the register follows, the list stays.
fn swaps(report: &mut Report) {
    let name = "remarks: swaps";
    let random = &mut report.random;
    let bare = without_remarks(&random::small_fleet(random));
    let fleet = among_remarks(random, &bare);
    let mut kept = Kept::new(random, &fleet, 600, 0);
    for (i, tree) in model::vehicles(&bare).iter().enumerate() {
        let random = &mut report.random;
        let tree = if random.one_in(3) { tree.clone() } else { among_remarks(random, tree) };
        kept.swap(report, name, i + 1, &tree);
    }
    let bound = affordable_bound(report, &bare, 300);
    let request = Request::full(report.random.between(1, 3), bound);
    let list: Entries = model_list(&bare, request).into_iter().collect();
    let same = listed(&mut report.random, &kept, request, list.len()) == list;
    report.check(name, same, || format!("{:?} of {}", request.numbers(), model::text(kept.fleet())));
}

/// A pattern in a fleet among remarks and in the same without any: the same support, and the same nodes placed, by their numbers among all. With a
/// remark in it, it occurs in neither.
fn placed_among_remarks(report: &mut Report) {
    let name = "remarks: placings";
    let bare = without_remarks(&random::small_fleet(&mut report.random));
    let fleet = among_remarks(&mut report.random, &bare);
    let nodes = report.random.between(1, 6);
    let mut pattern = some_pattern(report, &bare, nodes);
    let trees = model::vehicles(&fleet);
    let vehicle = report.random.between(1, trees.len());
    let numbers: Vec<u16> = (1..).zip(&trees[vehicle - 1]).filter(|(_, &x)| label(x) / 100 != 6).map(|(number, _)| number).collect();
    let placed = place_into(report, name, &fleet, vehicle, &pattern, pattern.len());
    let placed_in_bare = place_into(report, name, &bare, vehicle, &pattern, 16);
    let about = format!("{} in {}", model::text(&pattern), model::text(&fleet));
    report.equal(name, placed, placed_in_bare.iter().map(|&number| numbers[number as usize - 1]).collect(), &about);
    let supports = (support_of(report, name, &fleet, &pattern), support_of(report, name, &bare, &pattern));
    report.equal(name, supports.0, supports.1, &about);
    let random = &mut report.random;
    let remark = random.pick(&[600, 601, 650, 699]);
    match random.below(pattern.len() + 1) {
        node if node < pattern.len() => pattern[node] = pair(model::depth(pattern[node]), remark),
        _ => pattern.push(pair(1, remark)),
    }
    let none = (place_into(report, name, &fleet, vehicle, &pattern, 16), support_of(report, name, &fleet, &pattern));
    report.equal(name, none, (vec![], 0), &model::text(&pattern));
}

/// Large fleets, by the fast miner.
fn plausible_fleets(report: &mut Report) {
    let name = "remarks: plausible fleets";
    let bare = without_remarks(&random::plausible_fleet(&mut report.random, 19, 60));
    let fleet = among_remarks(&mut report.random, &bare);
    let request = Request::full(report.random.pick(&[9, 12]), report.random.pick(&[4, 6]));
    let (list, _) = mined(&bare, request, usize::MAX);
    let about = || format!("{:?} of {}", request.numbers(), model::text(&fleet));
    report.check(name, mined(&fleet, request, usize::MAX).0 == list, about);
    for own in own_lists(report, &fleet, request, list.len()) {
        report.check(name, own == list, about);
    }
}
