//! Slip 5 of document 02, "Closed and maximal lists": the model's ways of deciding against each other, cases by hand, every call and the list
//! program at each profile, and what holds between the profiles.

use super::batch::{self, walk, Batch, BatchCall, Entries};
use super::listing::{self, affordable_bound, listing, mined, model_list, quick_list, Call};
use super::pages::on_pages;
use super::programs;
use super::register::{self, listed, Asked, Kept};
use super::EXAMPLES;
use crate::report::Report;
use compare::library::{self, Request, CLOSED, FULL, MAXIMAL};
use compare::model::{self, bytes_of, label, pair, parse, List, Register};
use compare::random::{self, among_remarks, Taste};
use compare::{miner, profiles};
use std::collections::BTreeSet;

pub fn run(report: &mut Report) {
    by_hand(report);
    edges(report);
    steps(report);
    for _ in 0..report.rounds * 500 {
        all_ways(report);
    }
    for _ in 0..report.rounds * 600 {
        two_ways(report);
        single_vehicles(report);
    }
    for _ in 0..report.rounds * 300 {
        small_fleets(report);
    }
    for _ in 0..report.rounds * 100 {
        equal_siblings(report);
    }
    for _ in 0..report.rounds * 2 {
        plausible_fleets(report);
    }
    long_list(report);
}

const ALL: [usize; 3] = [FULL, CLOSED, MAXIMAL];

fn about(fleet: &[u16], request: Request) -> String {
    format!("{:?} of {}", request.numbers(), model::text(fleet))
}

// ---------- the model's ways ----------

/// All proper supertrees of any size; all of one more node, and of one or two; those of one more node that vehicles hold; the fast miner.
fn all_ways(report: &mut Report) {
    let name = "profiles: all ways";
    let random = &mut report.random;
    let taste = Taste { labels: random.between(1, 2), down: random.pick(&[1, 3, 5, 7, 9]), remarks: random.one_in(3) };
    let (vehicles, nodes) = (random.between(1, 4), random.between(1, 6));
    let fleet = random::fleet(random, vehicles, nodes, taste);
    let (threshold, bound) = (random.between(1, vehicles), random.between(1, 6));
    for profile in ALL {
        let request = Request { threshold, bound, profile };
        let list = profiles::list_by_all_supertrees(&fleet, request);
        let others = [
            ("by one more node", profiles::list_by_growing(&fleet, request, 1)),
            ("by two more nodes", profiles::list_by_growing(&fleet, request, 2)),
            ("by those held", model_list(&fleet, request)),
            ("mined", mined(&fleet, request, usize::MAX).0.into_iter().collect()),
        ];
        for (way, other) in others {
            report.check(name, other == list, || format!("{way}: {other:?}, not {list:?}, {}", about(&fleet, request)));
        }
    }
}

/// Larger fleets than those: supertrees that vehicles hold against the fast miner.
fn two_ways(report: &mut Report) {
    let fleet = random::small_fleet(&mut report.random);
    let bound = affordable_bound(report, &fleet, 1000);
    let threshold = report.random.between(1, model::vehicles(&fleet).len());
    for profile in ALL {
        let request = Request { threshold, bound, profile };
        let mined: List = mined(&fleet, request, usize::MAX).0.into_iter().collect();
        report.check("profiles: two ways", mined == model_list(&fleet, request), || about(&fleet, request));
    }
}

/// Whether the profile keeps a form, each supertree of one more node being looked for in every vehicle.
fn kept_by_placings(fleet: &[u16], request: Request, form: &[u16], support: usize) -> bool {
    let labels: BTreeSet<u16> = fleet.iter().map(|&x| label(x)).collect();
    let trees = model::vehicles(fleet);
    let enough = if request.profile == CLOSED { support } else { request.threshold };
    profiles::grown(form, &labels).iter().all(|larger| {
        let holding = trees.iter().filter(|tree| miner::heaviest_placing(larger, tree).is_some());
        holding.count() < enough
    })
}

// ---------- every call ----------

/// The list by every call and by the list program.
fn every_call(report: &mut Report, name: &'static str, fleet: &[u16], request: Request, list: &List) {
    let entries: Entries = list.clone().into_iter().collect();
    listing::session(report, name, fleet, request, &entries, true);
    listing::from_anywhere(report, name, fleet, request, list);
    batch::session(report, name, fleet, request, &entries, true);
    batch::from_anywhere(report, name, fleet, request, list);
    on_pages(report, name, fleet, request, list, &[-1, 1]);
    let kept = Kept::new(&mut report.random, fleet, 10, 2);
    let same = listed(&mut report.random, &kept, request, entries.len()) == entries;
    report.check(name, same, || format!("with register, {}", about(fleet, request)));
    register::calls_from_anywhere(report, name, &kept, request);
}

/// The library's own list by batches, to the end or past `most` forms.
fn own_list(report: &mut Report, fleet: &[u16], request: Request, most: usize) -> Entries {
    let batch: BatchCall = &|pattern, output, found| library::batch(fleet, request, pattern, output, found);
    walk(&mut report.random, request.bound, most, batch)
}

/// "Both profiles are parts of the full list in its order, and a maximal form is always closed."
fn parts(report: &mut Report, fleet: &[u16], request: Request, most: usize) {
    let [full, closed, maximal] = ALL.map(|profile| own_list(report, fleet, Request { profile, ..request }, most));
    for (part, whole) in [(&closed, &full), (&maximal, &closed)] {
        let mut rest = whole.iter();
        report.check("profiles: parts", part.iter().all(|entry| rest.any(|other| other == entry)), || about(fleet, request));
    }
}

// ---------- by hand ----------

/// What is to be seen, fleet, threshold and bound, the closed forms with their supports, the maximal ones.
type Case<'a> = (&'a str, &'a str, usize, usize, &'a [&'a str], &'a [&'a str]);

const CASES: [Case; 27] = [
    ("document 01", "0.101 1.201 2.301 1.202 0.101 1.202 1.201", 2, 3, &["2 0.101 1.202 1.201"], &["2 0.101 1.202 1.201"]),
    ("the equal supertree has a new root", "0.101 1.201 0.101 1.201", 2, 2, &["2 0.101 1.201"], &["2 0.101 1.201"]),
    ("it has a new root, and is over the bound", "0.101 1.201 0.101 1.201", 2, 1, &[], &[]),
    ("no new root is in both", "0.101 1.201 0.102 1.201", 2, 2, &["2 0.201"], &["2 0.201"]),
    (
        "each has a new root, and reaches the threshold",
        "0.101 1.201 0.102 1.201",
        1,
        2,
        &["1 0.101 1.201", "1 0.102 1.201", "2 0.201"],
        &["1 0.101 1.201", "1 0.102 1.201"],
    ),
    ("the new roots differ below equal vehicles", "0.101 1.201 2.301 0.101 1.202 2.301", 2, 3, &["2 0.101", "2 0.301"], &["2 0.101", "2 0.301"]),
    ("the equal supertree is over the bound", "0.101 1.201 2.301 0.101 1.201 2.301", 2, 2, &[], &[]),
    (
        "one form's is over the bound, the other has none",
        "0.101 1.201 2.301 0.101 1.201 2.301 0.101 1.201",
        2,
        2,
        &["3 0.101 1.201"],
        &[],
    ),
    ("a new leaf below an inner node", "0.101 1.201 2.301 2.302 0.101 1.201 2.301 2.302", 2, 3, &[], &[]),
    (
        "a new leaf below an inner node, in some",
        "0.101 1.201 2.301 2.302 0.101 1.201 2.301 2.302 0.101 1.201 2.301",
        2,
        4,
        &["3 0.101 1.201 2.301", "2 0.101 1.201 2.302 2.301"],
        &["2 0.101 1.201 2.302 2.301"],
    ),
    ("a new leaf off the rightmost branch", "0.101 1.202 2.301 1.201 0.101 1.201 1.202 2.301", 2, 3, &[], &[]),
    (
        "a new leaf off the rightmost branch, in some",
        "0.101 1.202 2.301 1.201 0.101 1.201 1.202 2.301 0.101 1.202 1.201",
        2,
        4,
        &["3 0.101 1.202 1.201", "2 0.101 1.202 2.301 1.201"],
        &["2 0.101 1.202 2.301 1.201"],
    ),
    (
        "beside an equal sibling with a child",
        "0.101 1.201 2.301 1.201 0.101 1.201 1.201 2.301 0.101 1.201 2.301",
        2,
        4,
        &["3 0.101 1.201 2.301", "2 0.101 1.201 2.301 1.201"],
        &["2 0.101 1.201 2.301 1.201"],
    ),
    (
        "two children below one sibling, or one below each of two",
        "0.101 1.201 2.302 2.301 0.101 1.201 2.301 1.201 2.302",
        2,
        16,
        &["2 0.101 1.201 2.301", "2 0.101 1.201 2.302"],
        &["2 0.101 1.201 2.301", "2 0.101 1.201 2.302"],
    ),
    (
        "equal siblings with children, in another order",
        "0.101 1.201 2.302 2.301 1.201 2.302 0.101 1.201 2.302 1.201 2.302 2.301",
        2,
        16,
        &["2 0.101 1.201 2.302 2.301 1.201 2.302"],
        &["2 0.101 1.201 2.302 2.301 1.201 2.302"],
    ),
    ("vehicles of one node", "0.101 0.101 0.102", 1, 16, &["2 0.101", "1 0.102"], &["2 0.101", "1 0.102"]),
    ("vehicles of one node, of which one is too rare", "0.101 0.101 0.102", 2, 1, &["2 0.101"], &["2 0.101"]),
    ("no form reaches the threshold", "0.101 1.201 0.102", 2, 16, &[], &[]),
    ("a remark is no supertree", "0.101 1.600 0.101 1.600", 2, 2, &["2 0.101"], &["2 0.101"]),
    (
        "remarks between, before and behind",
        "0.101 1.600 1.201 2.601 2.301 3.699 0.101 1.201 2.301 1.600 0.101 1.600 1.201",
        2,
        3,
        &["3 0.101 1.201", "2 0.101 1.201 2.301"],
        &["2 0.101 1.201 2.301"],
    ),
    ("one vehicle: its own tree", "0.101 1.201 2.301 1.202", 1, 4, &["1 0.101 1.202 1.201 2.301"], &["1 0.101 1.202 1.201 2.301"]),
    ("one vehicle over the bound", "0.101 1.201 2.301 1.202", 1, 3, &[], &[]),
    ("one vehicle with remarks", "0.101 1.600 1.201 2.699 1.202 1.600", 1, 3, &["1 0.101 1.202 1.201"], &["1 0.101 1.202 1.201"]),
    (
        "a leaf that every vehicle has, but not at every place",
        "0.101 1.201 2.301 1.201 2.302 0.102 1.201 2.302 1.201 2.301",
        2,
        16,
        &["2 0.201 1.301", "2 0.201 1.302"],
        &["2 0.201 1.301", "2 0.201 1.302"],
    ),
    (
        "a leaf at every place, with which a form goes on",
        "0.101 1.201 2.301 2.302 0.102 1.201 2.302 2.301",
        2,
        16,
        &["2 0.201 1.302 1.301"],
        &["2 0.201 1.302 1.301"],
    ),
    (
        "equal leaves at every place, one more than the form has",
        "0.101 1.201 2.301 2.301 0.102 1.201 2.301 2.301 2.301",
        2,
        16,
        &["2 0.201 1.301 1.301"],
        &["2 0.201 1.301 1.301"],
    ),
    (
        "a form that is not closed comes before those that are",
        "0.101 1.201 1.201 1.201 0.101 1.201 1.201 1.201 0.101 1.201",
        1,
        16,
        &["3 0.101 1.201", "2 0.101 1.201 1.201 1.201"],
        &["2 0.101 1.201 1.201 1.201"],
    ),
];

fn by_hand(report: &mut Report) {
    let name = "profiles: by hand";
    for (what, fleet, threshold, bound, closed, maximal) in CASES {
        for (profile, forms) in [(CLOSED, closed), (MAXIMAL, maximal)] {
            let (fleet, request) = (parse(fleet), Request { threshold, bound, profile });
            let key: String = forms.iter().chain(&["end"]).map(|line| format!("{line}\n")).collect();
            let lists = [model_list(&fleet, request), profiles::list_by_all_supertrees(&fleet, request), profiles::list_by_growing(&fleet, request, 2)];
            for list in &lists {
                report.equal(name, &model::lines(list), &key, what);
            }
            known_list(report, name, &fleet, request, &lists[0]);
        }
    }
}

/// A list that is known: by the fast miner, every call and the list program.
fn known_list(report: &mut Report, name: &'static str, fleet: &[u16], request: Request, list: &List) {
    let mined: List = mined(fleet, request, 1000).0.into_iter().collect();
    report.equal(name, &model::lines(&mined), &model::lines(list), &about(fleet, request));
    every_call(report, name, fleet, request, list);
    programs::list_program(report, name, &programs::list_input(request, &bytes_of(fleet)));
}

/// A vehicle 101 with so many runs 201.
fn runs(count: usize) -> Vec<u16> {
    [vec![101], vec![pair(1, 201); count]].concat()
}

/// Of depth 15, with this root.
fn chain(root: u16) -> Vec<u16> {
    (0..16).map(|at| pair(at, [root, 201, 301, 401][at.min(3) as usize])).collect()
}

/// The part of a chain from this depth down to that one, as a form.
fn link(from: u16, to: u16) -> Vec<u16> {
    chain(101)[from as usize..=to as usize].iter().map(|&x| x - pair(from, 0)).collect()
}

/// The limits of patterns and fleets: 16 nodes with supertrees of 17, depth 15, 64 vehicles, 256 nodes. The closed forms are the maximal ones, by hand.
fn edges(report: &mut Report) {
    let name = "profiles: edges";
    let remarked = [vec![101], vec![pair(1, 600); 240], vec![pair(1, 201); 15]].concat();
    let cases: [(Vec<u16>, usize, usize, Vec<Vec<u16>>); 17] = [
        (runs(16).repeat(2), 2, 16, vec![]),
        (runs(15).repeat(2), 2, 16, vec![runs(15)]),
        (runs(15).repeat(2), 2, 15, vec![]),
        ([runs(16), runs(15)].concat(), 2, 16, vec![runs(15)]),
        (runs(255).repeat(16), 16, 16, vec![]),
        (remarked.repeat(16), 16, 16, vec![runs(15)]),
        (runs(16), 1, 16, vec![]),
        (runs(15), 1, 16, vec![runs(15)]),
        (chain(101), 1, 16, vec![link(0, 15)]),
        (chain(101), 1, 15, vec![]),
        (chain(101).repeat(64), 64, 16, vec![link(0, 15)]),
        (chain(101).repeat(64), 64, 15, vec![]),
        // one new root for depth 14, and none, as the roots differ
        ([chain(101), chain(102)].concat(), 2, 16, vec![link(1, 15)]),
        ([chain(101), chain(101), chain(102)].concat(), 3, 16, vec![link(1, 15)]),
        ([chain(101), chain(102)].concat(), 2, 14, vec![]),
        ([chain(101), link(0, 14)].concat(), 2, 16, vec![link(0, 14)]),
        (vec![101; 64], 64, 16, vec![vec![101]]),
    ];
    for (fleet, threshold, bound, forms) in cases {
        for profile in [CLOSED, MAXIMAL] {
            let request = Request { threshold, bound, profile };
            let list = forms.iter().map(|form| (form.clone(), model::vehicles(&fleet).len())).collect();
            known_list(report, name, &fleet, request, &list);
        }
    }
}

/// Profile, pattern and what comes after it in the fleet below at 2 and 4: the patterns are closed, listed and not closed, not listed, held by
/// nobody, of a remark, and behind the last form.
const STEPS: [(usize, &str, &str); 14] = [
    (CLOSED, "0.001", "3 0.101 1.202 1.201"),
    (CLOSED, "0.101", "3 0.101 1.202 1.201"),
    (CLOSED, "0.101 1.201", "3 0.101 1.202 1.201"),
    (CLOSED, "0.101 1.202 1.201", "2 0.101 1.202 2.301 1.201"),
    (CLOSED, "0.101 1.202 2.301", "2 0.101 1.202 2.301 1.201"),
    (CLOSED, "0.101 1.202 2.301 1.201", ""),
    (CLOSED, "0.101 1.202 2.300 1.202", "2 0.101 1.202 2.301 1.201"),
    (CLOSED, "0.101 1.600", ""),
    (CLOSED, "0.201", ""),
    (MAXIMAL, "0.001", "2 0.101 1.202 2.301 1.201"),
    (MAXIMAL, "0.101 1.202 1.201", "2 0.101 1.202 2.301 1.201"),
    (MAXIMAL, "0.101 1.202 2.301 1.200", "2 0.101 1.202 2.301 1.201"),
    (MAXIMAL, "0.101 1.202 2.301 1.201", ""),
    (MAXIMAL, "0.699", ""),
];

fn steps(report: &mut Report) {
    let name = "profiles: steps by hand";
    let fleet = parse("0.101 1.202 2.301 1.201 0.101 1.201 1.202 2.301 0.101 1.202 1.201");
    for (profile, pattern_text, next) in STEPS {
        let (pattern, request) = (parse(pattern_text), Request { profile, ..Request::full(2, 4) });
        let found = next.split_once(' ').map(|(support, form)| (parse(form), support.parse().expect("a support")));
        report.equal(name, model::next(&model_list(&fleet, request), &pattern), found.clone(), pattern_text);
        Call { fleet: &fleet, request: &request.numbers(), pattern: Some(&pattern) }.compare(report, name, 4, Ok(found.clone()));
        let batch = Batch { fleet: &fleet, request: &request.numbers(), pattern: &pattern, output: 4, found: 1 };
        batch.compare(report, name, Ok(found.into_iter().collect()));
        Asked { fleet: &fleet, request: &request.numbers(), pattern: &pattern }.compare(report, name, &Register::of(&fleet), 4, 1);
    }
}

// ---------- random fleets ----------

fn small_fleets(report: &mut Report) {
    let name = "profiles: small fleets";
    let fleet = random::small_fleet(&mut report.random);
    let bound = affordable_bound(report, &fleet, 1000);
    let vehicles = model::vehicles(&fleet).len();
    let threshold = report.random.between(1, vehicles);
    for threshold in [threshold, 1, vehicles + 1] {
        for profile in [CLOSED, MAXIMAL] {
            let request = Request { threshold, bound, profile };
            every_call(report, name, &fleet, request, &model_list(&fleet, request));
        }
        parts(report, &fleet, Request::full(threshold, bound), 10_000);
    }
    let trees = model::vehicles(&fleet).into_iter().rev();
    let other: Vec<u16> = trees.flat_map(|tree| random::shuffled(&mut report.random, &tree)).collect();
    let other = among_remarks(&mut report.random, &other);
    for profile in [CLOSED, MAXIMAL] {
        let request = Request { threshold, bound, profile };
        let [list, same] = [&fleet, &other].map(|fleet| listing(fleet, request, 2000));
        report.check("profiles: order of children and vehicles, remarks", list == same, || about(&fleet, request));
    }
}

/// Many siblings of one label, so that most places are contested; by the fast miner.
fn equal_siblings(report: &mut Report) {
    let random = &mut report.random;
    let taste = Taste { labels: random.between(1, 2), down: random.between(2, 8), remarks: false };
    for fleet in [random::competing_children(random), random::fleet(random, 4, 25, taste)] {
        let random = &mut report.random;
        let request = Request { threshold: random.between(1, 4), bound: random.pick(&[4, 7, 9]), profile: random.pick(&[CLOSED, MAXIMAL]) };
        let (list, whole) = mined(&fleet, Request { profile: FULL, ..request }, 1500);
        if whole && !list.is_empty() {
            every_call(report, "profiles: equal siblings", &fleet, request, &quick_list(&fleet, request));
            some_forms(report, "profiles: equal siblings, by placings", &fleet, request, &list);
        }
    }
}

/// Of some forms of the full list, whether they are on the list at the profile, each supertree looked for by the occurrence test.
fn some_forms(report: &mut Report, name: &'static str, fleet: &[u16], request: Request, full: &[(Vec<u16>, usize)]) {
    let list = quick_list(fleet, request);
    for _ in 0..5 {
        let (form, support) = &full[report.random.below(full.len())];
        let kept = kept_by_placings(fleet, request, form, *support);
        report.equal(name, list.contains_key(form), kept, &format!("{} in {}", model::text(form), about(fleet, request)));
    }
    for (form, support) in list.iter().take(3) {
        report.check(name, kept_by_placings(fleet, request, form, *support), || format!("{} in {}", model::text(form), about(fleet, request)));
    }
}

/// Two vehicles whose trees are the same up to the order of children and remarks, or are not: at threshold 1, at a bound no smaller than either,
/// the lists of each profile are equal or are not.
fn single_vehicles(report: &mut Report) {
    let random = &mut report.random;
    let [one, other] = random::two_vehicles(random);
    let same = model::form(&one) == model::form(&other);
    let name = if same { "profiles: the same vehicle" } else { "profiles: other vehicles" };
    let bound = random.between(one.len().max(other.len()), 16);
    let form = model::form(&one);
    let (one, other) = (among_remarks(random, &one), among_remarks(random, &other));
    for profile in ALL {
        let request = Request { profile, ..Request::full(1, bound) };
        let [by_one, by_other] = [&one, &other].map(|vehicle| own_list(report, vehicle, request, 512));
        report.check(name, (by_one == by_other) == same, || format!("{} and {}", about(&one, request), model::text(&other)));
        if profile != FULL {
            report.equal("profiles: one vehicle's own tree", by_one, vec![(form.clone(), 1)], &about(&one, request));
        }
    }
}

/// Large fleets, by the fast miner.
fn plausible_fleets(report: &mut Report) {
    let name = "profiles: plausible fleets";
    for nodes in [50, 100, 200] {
        let fleet = random::plausible_fleet(&mut report.random, 19, nodes);
        let request = Request::full(report.random.pick(&[6, 9, 12]), report.random.pick(&[4, 6]));
        let (full, _) = mined(&fleet, request, usize::MAX);
        for profile in [CLOSED, MAXIMAL] {
            let request = Request { profile, ..request };
            every_call(report, name, &fleet, request, &quick_list(&fleet, request));
            some_forms(report, "profiles: plausible fleets, by placings", &fleet, request, &full);
            programs::list_program(report, name, &programs::list_input(request, &bytes_of(&fleet)));
        }
        parts(report, &fleet, request, 100_000);
    }
}

/// What the profiles leave of more than 20,000 forms.
fn long_list(report: &mut Report) {
    let name = "profiles: a long list";
    let fleet = model::read(EXAMPLES[1].1).unwrap();
    let full = Request::full(4, 10);
    for profile in [CLOSED, MAXIMAL] {
        let request = Request { profile, ..full };
        let (list, _) = mined(&fleet, request, usize::MAX);
        report.check(name, !list.is_empty() && list.len() < 2000, || format!("{} forms", list.len()));
        let own = own_list(report, &fleet, request, list.len());
        report.check(name, own == list, || about(&fleet, request));
        programs::list_program(report, name, &programs::list_input(request, EXAMPLES[1].1));
    }
}
