//! Vehicles, placings and supports against the model: every tuple on small trees, matching on large ones.

use super::model::PLACINGS;
use super::sheet::vehicle_of;
use crate::report::{number, Lent, Report};
use compare::model::{self, pair, parse};
use compare::random::{self, without_remarks, Taste};
use compare::{library, miner};

pub fn run(report: &mut Report) {
    for (pattern, tree, placing) in PLACINGS {
        let (pattern, tree) = (parse(pattern), parse(tree));
        let placed = place_into(report, "occurrence: document 01", &tree, 1, &pattern, pattern.len());
        report.equal("occurrence: document 01", placed, placing.to_vec(), &model::text(&pattern));
        let support = support_of(report, "occurrence: document 01", &tree, &pattern);
        report.equal("occurrence: document 01", support, !placing.is_empty() as i64, &model::text(&pattern));
    }
    refusals(report);
    for _ in 0..report.rounds * 30000 {
        small_fleets(report);
    }
    for _ in 0..report.rounds * 30000 {
        damaged_calls(report);
    }
    for _ in 0..report.rounds * 1000 {
        plausible_fleets(report);
        competing_children(report);
    }
}

/// Places the pattern into an output of that length, looks at every lent element, and gives the placing (empty for no, or where refused).
pub fn place_into(report: &mut Report, name: &'static str, fleet: &[u16], vehicle: usize, pattern: &[u16], output: usize) -> Vec<u16> {
    let random = &mut report.random;
    let (mut lent_fleet, mut lent_pattern, mut lent) = (Lent::input(random, fleet), Lent::input(random, pattern), Lent::output(random, output));
    let got = library::place(lent_fleet.slice(), vehicle, lent_pattern.slice(), lent.slice());
    report.met("place", got);
    let expected = model::place_call(fleet, vehicle, pattern, output);
    let result = expected.clone().unwrap_or_default();
    let wanted = number(&expected.map(|placing| placing.len() as i64));
    let untouched = lent.holds(&result) && lent_fleet.untouched() && lent_pattern.untouched();
    report.check(name, got == wanted && untouched, || {
        format!("got {got}, expected {wanted}, memory as expected: {untouched}, output of {output}, pattern {pattern:?}, vehicle {vehicle} of {fleet:?}")
    });
    lent.slice()[..got.max(0) as usize].to_vec()
}

pub fn support_of(report: &mut Report, name: &'static str, fleet: &[u16], pattern: &[u16]) -> i64 {
    let (mut lent_fleet, mut lent_pattern) = (Lent::input(&mut report.random, fleet), Lent::input(&mut report.random, pattern));
    let got = library::support(lent_fleet.slice(), lent_pattern.slice());
    report.met("support", got);
    let wanted = number(&model::support_call(fleet, pattern).map(|support| support as i64));
    let untouched = lent_fleet.untouched() && lent_pattern.untouched();
    report.check(name, got == wanted && untouched, || {
        format!("got {got}, expected {wanted}, memory as expected: {untouched}, pattern {pattern:?} of {fleet:?}")
    });
    got
}

/// All combinations of faults.
fn refusals(report: &mut Report) {
    let name = "occurrence: refusals";
    let fleet = parse("0.101 1.201 2.301 0.102 1.201");
    let fleets = [fleet.clone(), vec![], parse("0.201"), [fleet, vec![0]].concat()];
    let sixteen: Vec<u16> = (0..16).map(|i| pair(i.min(1), 201)).collect();
    let patterns = [
        parse("0.201"),
        parse("0.999 1.001"),
        vec![],
        sixteen.clone(),
        [sixteen.clone(), vec![1201]].concat(),
        [sixteen, vec![0]].concat(),
        parse("0.201 2.301"),
        parse("1.201"),
        vec![0],
        (0..16).map(|at| pair(at, 401)).collect(),
        vec![16001],
    ];
    for fleet in &fleets {
        for pattern in &patterns {
            support_of(report, name, fleet, pattern);
            for vehicle in [0, 1, 2, 3, usize::MAX] {
                for output in [0, pattern.len().saturating_sub(1), pattern.len(), 40] {
                    place_into(report, name, fleet, vehicle, pattern, output);
                }
            }
        }
        for vehicle in [0, 1, 2, 3, 64, 65, 256, 1 << 32, usize::MAX] {
            vehicle_of(report, name, fleet, vehicle);
        }
    }
    for vehicle in [0, 1, 63, 64, 65] {
        vehicle_of(report, name, &[101; 64], vehicle);
        vehicle_of(report, name, &[101; 65], vehicle);
        place_into(report, name, &[101; 64], vehicle, &[101], 1);
    }
    support_of(report, name, &[101; 64], &[101]);
}

/// A pattern to look for in the fleet: a piece of it, with the remarks that it has or without any, or a piece a little changed.
pub fn some_pattern(report: &mut Report, fleet: &[u16], nodes: usize) -> Vec<u16> {
    let random = &mut report.random;
    let fleet = if random.one_in(3) { fleet.to_vec() } else { without_remarks(fleet) };
    let trees = model::vehicles(&fleet);
    let tree = &trees[random.below(trees.len())];
    let mut pattern = random::piece(random, tree, nodes);
    if random.one_in(3) && pattern.len() < nodes {
        let like = random.below(pattern.len());
        let at = model::depth(pattern[pattern.len() - 1]) + 1;
        pattern.push(pair(random.between(1, at as usize) as u16, model::label(pattern[like])));
    }
    pattern
}

fn small_fleets(report: &mut Report) {
    let fleet = random::small_fleet(&mut report.random);
    let nodes = report.random.between(1, 7);
    let pattern = some_pattern(report, &fleet, nodes);
    let trees = model::vehicles(&fleet).len();
    let vehicle = report.random.between(1, trees);
    let output = report.random.pick(&[pattern.len(), pattern.len(), pattern.len() + 1, 30, pattern.len() - 1]);
    place_into(report, "occurrence: small fleets", &fleet, vehicle, &pattern, output);
    support_of(report, "occurrence: small fleets", &fleet, &pattern);
    vehicle_of(report, "occurrence: small fleets", &fleet, vehicle);
    let shuffled = random::shuffled(&mut report.random, &pattern);
    report.equal(
        "occurrence: order of children",
        library::support(&fleet, &shuffled),
        library::support(&fleet, &pattern),
        &model::text(&pattern),
    );
}

fn damaged_calls(report: &mut Report) {
    let mut fleet = random::small_fleet(&mut report.random);
    let mut pattern = some_pattern(report, &fleet, 6);
    let trees = model::vehicles(&fleet).len();
    if report.random.one_in(3) {
        fleet = random::damaged_pairs(&mut report.random, &fleet);
    }
    if report.random.one_in(2) {
        pattern = random::damaged_pairs(&mut report.random, &pattern);
    }
    let vehicle = report.random.below(trees + 2);
    let output = report.random.below(12);
    place_into(report, "occurrence: damaged calls", &fleet, vehicle, &pattern, output);
    support_of(report, "occurrence: damaged calls", &fleet, &pattern);
    vehicle_of(report, "occurrence: damaged calls", &fleet, vehicle);
}

/// The quick way of the second miner, where every tuple would take too long.
fn placed_quickly(report: &mut Report, name: &'static str, fleet: &[u16], pattern: &[u16]) {
    let trees = model::vehicles(fleet);
    let mut holding = 0;
    for (i, tree) in trees.iter().enumerate() {
        let expected = miner::heaviest_placing(pattern, tree).unwrap_or_default();
        let mut lent = Lent::output(&mut report.random, 20);
        let got = library::place(fleet, i + 1, pattern, lent.slice());
        holding += (!expected.is_empty()) as i64;
        report.check(name, got == expected.len() as i64 && lent.holds(&expected), || {
            format!("got {got}, expected {expected:?}, pattern {pattern:?}, vehicle {} of {fleet:?}", i + 1)
        });
    }
    report.equal(name, library::support(fleet, pattern), holding, &model::text(pattern));
}

fn plausible_fleets(report: &mut Report) {
    let random = &mut report.random;
    let (nodes, size) = (random.pick(&[30, 60, 120, 200]), random.between(2, 16));
    let fleet = random::plausible_fleet(random, 19, nodes);
    for _ in 0..3 {
        let pattern = some_pattern(report, &fleet, size);
        placed_quickly(report, "occurrence: plausible fleets", &fleet, &pattern);
    }
}

fn competing_children(report: &mut Report) {
    let random = &mut report.random;
    let fleet = random::competing_children(random);
    let size = random.between(6, 16);
    let pattern = some_pattern(report, &fleet, size);
    placed_quickly(report, "occurrence: competing children", &fleet, &pattern);
    let taste = Taste { labels: 1, down: report.random.between(2, 8), remarks: false };
    let fleet = random::fleet(&mut report.random, 3, 60, taste);
    let size = report.random.between(4, 16);
    let pattern = some_pattern(report, &fleet, size);
    placed_quickly(report, "occurrence: one label", &fleet, &pattern);
}
