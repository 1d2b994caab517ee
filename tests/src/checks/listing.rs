//! Whole listings against the model's list and the fast miner's, single steps from any pattern, and refusals anywhere.

use super::model::{EXAMPLE_KEY, EXAMPLE_SHEET, STEPS};
use crate::report::{number, unhex, Lent, Report};
use compare::library::{self, Request, CLOSED, FULL, MAXIMAL};
use compare::miner;
use compare::model::{self, pair, parse, Found, List};
pub use compare::profiles::list as model_list;
use compare::random::{self, without_remarks, Random, Taste};

pub fn run(report: &mut Report) {
    document(report);
    refusals(report);
    fewer_and_further_numbers(report);
    for _ in 0..report.rounds * 1500 {
        small_fleets(report);
    }
    for _ in 0..report.rounds * 10000 {
        damaged_calls(report);
        any_numbers(report);
    }
    for _ in 0..report.rounds * 6 {
        plausible_fleets(report);
        twelve_of_nineteen(report);
    }
    extremes(report);
}

/// The number of an answer: 100 × support + nodes, 0 at end.
fn answer(found: &Found) -> i64 {
    found.as_ref().map_or(0, |(form, support)| (100 * support + form.len()) as i64)
}

/// Compares an answered or refused call with what is expected of it, every lent element too.
pub struct Call<'a> {
    pub fleet: &'a [u16],
    /// A request as it crosses: any numbers.
    pub request: &'a [usize],
    pub pattern: Option<&'a [u16]>,
}

impl Call<'_> {
    pub fn compare(&self, report: &mut Report, name: &'static str, output: usize, expected: Result<Found, u8>) {
        let random = &mut report.random;
        let (mut fleet, mut request, mut lent) = (Lent::input(random, self.fleet), Lent::input(random, self.request), Lent::output(random, output));
        let mut pattern = Lent::input(random, self.pattern.unwrap_or(&[]));
        let got = match self.pattern {
            None => library::start_by_numbers(fleet.slice(), request.slice(), lent.slice()),
            Some(_) => library::step_by_numbers(fleet.slice(), request.slice(), pattern.slice(), lent.slice()),
        };
        report.met(if self.pattern.is_none() { "start" } else { "step" }, got);
        let result = expected.clone().ok().flatten().map_or(vec![], |(form, _)| form);
        let wanted = number(&expected.map(|found| answer(&found)));
        let untouched = lent.holds(&result) && fleet.untouched() && request.untouched() && pattern.untouched();
        report.check(name, got == wanted && untouched, || {
            format!(
                "got {got}, expected {wanted} {result:?}, memory as expected: {untouched}, output of {output}, pattern {:?}, request {:?}, fleet {:?}",
                self.pattern, self.request, self.fleet
            )
        });
    }
}

/// The request that numbers say, as include/hevolatsy.h has it: a missing one counts as 0, those past the last field are not looked at.
pub fn request_from(numbers: &[usize]) -> Request {
    let number = |i: usize| numbers.get(i).copied().unwrap_or(0);
    Request { threshold: number(0), bound: number(1), profile: number(2) }
}

/// The model's answer to a start or a step, from the list where no rule is broken.
pub fn expected(call: &Call, output: usize, list: &dyn Fn(&[u16], Request) -> List) -> Result<Found, u8> {
    let request = request_from(call.request);
    match call.pattern {
        None => model::start_rules(call.fleet, request, output).map(|_| model::first(&list(call.fleet, request))),
        Some(pattern) => model::step_rules(call.fleet, request, pattern, output).map(|_| model::next(&list(call.fleet, request), pattern)),
    }
}

fn document(report: &mut Report) {
    let name = "listing: document 01";
    let fleet = model::read(&unhex(EXAMPLE_SHEET)).unwrap();
    let request = Request::full(2, 3);
    let list = model_list(&fleet, request);
    session(report, name, &fleet, request, &list.into_iter().collect::<Vec<_>>(), true);
    let own: String = listing(&fleet, request, 100).iter().map(|(form, support)| model::line(form, *support)).collect();
    report.equal(name, own + "end\n", EXAMPLE_KEY.to_string(), "the example's list");
    for (pattern, next) in STEPS {
        let pattern = parse(pattern);
        let next = parse(next);
        let found = if next.is_empty() { None } else { Some((next, 2)) };
        Call { fleet: &fleet, request: &request.numbers(), pattern: Some(&pattern) }.compare(report, name, 3, Ok(found));
    }
}

/// A whole session: starts until a form is given, then steps from the last one, refused calls among them, and twice more after end.
/// Where the list is cut, the session stops there.
pub fn session(report: &mut Report, name: &'static str, fleet: &[u16], request: Request, list: &[(Vec<u16>, usize)], whole: bool) {
    let mut last: Option<Vec<u16>> = None;
    for (form, support) in list {
        disturb(report, fleet, request);
        let output = request.bound + report.random.below(3);
        let numbers = with_further(&mut report.random, request);
        let call = Call { fleet, request: &numbers, pattern: last.as_deref() };
        call.compare(report, name, output, Ok(Some((form.clone(), *support))));
        last = Some(form.clone());
    }
    if whole {
        for _ in 0..3 {
            let call = Call { fleet, request: &request.numbers(), pattern: last.as_deref() };
            call.compare(report, name, request.bound, Ok(None));
        }
    }
}

/// The numbers of a request, now and then with further ones behind them.
pub fn with_further(random: &mut Random, request: Request) -> Vec<usize> {
    let further = if random.one_in(4) { random.between(1, 3) } else { 0 };
    request.numbers().into_iter().chain((0..further).map(|_| edge_number(random))).collect()
}

/// Any number of a request, near the limits or far from them.
pub fn edge_number(random: &mut Random) -> usize {
    random.pick(&[0, 1, 2, 3, 16, 17, 64, 65, 256, 65536, usize::MAX])
}

/// Now and then a call that is refused, of any kind.
pub fn disturb(report: &mut Report, fleet: &[u16], request: Request) {
    if report.random.one_in(50) {
        let bad = report.random.pick(&[0, 65, 1000]);
        let numbers = request.numbers();
        let refused = [
            Call { fleet, request: &Request { threshold: bad, ..request }.numbers(), pattern: None },
            Call { fleet, request: &Request { bound: bad, ..request }.numbers(), pattern: Some(&[101]) },
            Call { fleet, request: &Request { profile: 3 + bad, ..request }.numbers(), pattern: None },
            Call { fleet, request: &[], pattern: None },
            Call { fleet: &[], request: &numbers, pattern: None },
            Call { fleet, request: &numbers, pattern: Some(&[1]) },
        ];
        for call in refused {
            let output = request.bound - 1;
            let expected = expected(&call, output, &|_, _| List::new());
            call.compare(report, "listing: refused in a session", output, expected);
        }
    }
}

/// The profiles, and numbers that are none.
pub const PROFILES: [usize; 6] = [FULL, CLOSED, MAXIMAL, 3, 256, usize::MAX];

/// Requests of these thresholds and bounds, at all of them.
pub fn requests(thresholds: &[usize], bounds: &[usize]) -> Vec<Request> {
    let at_profiles = |threshold, bound| PROFILES.map(|profile| Request { threshold, bound, profile });
    thresholds.iter().flat_map(|&threshold| bounds.iter().flat_map(move |&bound| at_profiles(threshold, bound))).collect()
}

/// All combinations of faults, so that each pair of neighbouring numbers is broken at once.
fn refusals(report: &mut Report) {
    let fleet = parse("0.101 1.201 2.301 1.202 0.101 1.202 1.201");
    let patterns: [Option<Vec<u16>>; 9] = [
        None,
        Some(parse("0.101")),
        Some(parse("0.101 1.201 1.202")),
        Some(parse("0.101 1.202 1.201")),
        Some(parse("0.999 1.001")),
        Some(vec![]),
        Some(vec![101; 17]),
        Some(parse("0.101 2.201")),
        Some((0..16).map(|at| pair(at, 401)).collect()),
    ];
    for fleet in [fleet.clone(), vec![], [fleet, vec![1000]].concat()] {
        for request in requests(&[0, 1, 2, 3, 64, 65, 256, 65536, usize::MAX], &[0, 1, 2, 3, 16, 17, 256, usize::MAX]) {
            for pattern in &patterns {
                for output in [0, 1, 2, 3, 15, 16, 20] {
                    let call = Call { fleet: &fleet, request: &request.numbers(), pattern: pattern.as_deref() };
                    let expected = expected(&call, output, &model_list);
                    call.compare(report, "listing: refusals", output, expected);
                }
            }
        }
    }
}

/// Requests at every profile, with four numbers more than there are fields.
pub fn longer_than_requests() -> Vec<Vec<usize>> {
    let with_further = |profile, further| [&Request { profile, ..Request::full(2, 3) }.numbers()[..], &[further; 4]].concat();
    PROFILES.iter().flat_map(|&profile| [0, 1, 2, 65, usize::MAX].map(|further| with_further(profile, further))).collect()
}

/// Requests of every length, up to four numbers more than there are fields.
fn fewer_and_further_numbers(report: &mut Report) {
    let fleet = parse("0.101 1.201 2.301 1.202 0.101 1.202 1.201");
    let patterns: [Option<Vec<u16>>; 4] = [None, Some(parse("0.101")), Some(parse("0.202")), Some(parse("0.101 1.201 1.202"))];
    for numbers in longer_than_requests() {
        for count in 0..=numbers.len() {
            for fleet in [fleet.as_slice(), &[]] {
                for pattern in &patterns {
                    for output in [0, 2, 3, 16] {
                        let call = Call { fleet, request: &numbers[..count], pattern: pattern.as_deref() };
                        let expected = expected(&call, output, &model_list);
                        call.compare(report, "listing: fewer and further numbers", output, expected);
                    }
                }
            }
        }
    }
}

/// A bound at which the model's list can be made quickly.
pub fn affordable_bound(report: &mut Report, fleet: &[u16], most_pieces: u64) -> usize {
    let mut bound = report.random.between(1, 16);
    while model::count_pieces(fleet, bound) > most_pieces {
        bound -= 1;
    }
    bound
}

fn small_fleets(report: &mut Report) {
    let fleet = random::small_fleet(&mut report.random);
    let bound = affordable_bound(report, &fleet, 4000);
    let holdings = model::holdings(&fleet, bound);
    let vehicles = model::vehicles(&fleet).len();
    let threshold = report.random.between(1, vehicles);
    for threshold in [threshold, 1, vehicles + 1] {
        let request = Request::full(threshold, bound);
        let list = model::list(&holdings, threshold);
        session(report, "listing: small fleets", &fleet, request, &list.clone().into_iter().collect::<Vec<_>>(), true);
        from_anywhere(report, "listing: steps from anywhere", &fleet, request, &list);
    }
    same_whatever_the_order(report, &fleet, Request::full(threshold, bound));
}

/// Ten steps from patterns in their form, listed or not.
pub fn from_anywhere(report: &mut Report, name: &'static str, fleet: &[u16], request: Request, list: &List) {
    for _ in 0..10 {
        let pattern = canonical_pattern(report, fleet, request.bound);
        let call = Call { fleet, request: &request.numbers(), pattern: Some(&pattern) };
        let expected = expected(&call, 16, &|_, _| list.clone());
        call.compare(report, name, 16, expected);
    }
}

/// A pattern in its form: of the fleet's labels or others, listed or not, with remarks or without.
pub fn canonical_pattern(report: &mut Report, fleet: &[u16], bound: usize) -> Vec<u16> {
    let random = &mut report.random;
    let nodes = random.between(1, bound);
    let mut labels: Vec<u16> = without_remarks(fleet).into_iter().map(model::label).collect();
    labels.extend([1, 150, 450, 599, 600, 699, 700, 999]);
    let down = random.between(1, 9);
    let any = random::tree(random, nodes, &labels, down);
    let fleet = if random.one_in(3) { fleet.to_vec() } else { without_remarks(fleet) };
    let trees = model::vehicles(&fleet);
    let tree = &trees[random.below(trees.len())];
    let piece = random::piece(random, tree, nodes);
    let mut pattern = if random.one_in(2) { any } else { piece };
    pattern = model::form(&pattern);
    if random.one_in(3) {
        let last = pattern.len() - 1;
        pattern[last] = pair(model::depth(pattern[last]), random.pick(&labels));
        pattern = model::form(&pattern);
    }
    pattern
}

/// The library's own listing, to the end or up to `most` forms.
pub fn listing(fleet: &[u16], request: Request, most: usize) -> Vec<(Vec<u16>, usize)> {
    let mut list: Vec<(Vec<u16>, usize)> = vec![];
    while list.len() < most {
        let mut output = vec![0; request.bound];
        let got = match list.last() {
            None => library::start(fleet, request, &mut output),
            Some((form, _)) => library::step(fleet, request, form, &mut output),
        };
        if got <= 0 {
            break;
        }
        output.truncate(got as usize % 100);
        list.push((output, got as usize / 100));
    }
    list
}

/// The order of runs under a vehicle means nothing, and neither does the order of vehicles.
fn same_whatever_the_order(report: &mut Report, fleet: &[u16], request: Request) {
    let mut trees = model::vehicles(fleet);
    let last = trees.pop().unwrap();
    trees.insert(0, last);
    let other: Vec<u16> = trees.iter().flat_map(|tree| random::shuffled(&mut report.random, tree)).collect();
    let (list, same) = (listing(fleet, request, 2000), listing(&other, request, 2000));
    report.check("listing: order of children and vehicles", list == same, || model::text(fleet));
}

fn damaged_calls(report: &mut Report) {
    let mut fleet = random::small_fleet(&mut report.random);
    let bound = affordable_bound(report, &fleet, 300).min(6);
    let mut pattern = canonical_pattern(report, &fleet, bound);
    let random = &mut report.random;
    if random.one_in(4) {
        fleet = random::damaged_pairs(random, &fleet);
    }
    match random.below(4) {
        0 => pattern = random::damaged_pairs(random, &pattern),
        1 => pattern = random::shuffled(random, &pattern),
        _ => {}
    }
    let threshold = if random.one_in(8) { random.pick(&[0, 65, usize::MAX]) } else { random.between(1, 4) };
    let bound = if random.one_in(8) { random.pick(&[0, 17, usize::MAX]) } else { bound };
    let output = random.pick(&[bound.min(40), bound.min(40), 16, 20, 2, 0]);
    let request = Request { threshold, bound, profile: random.pick(&PROFILES) };
    for pattern in [None, Some(pattern.as_slice())] {
        let call = Call { fleet: &fleet, request: &request.numbers(), pattern };
        let expected = expected(&call, output, &model_list);
        call.compare(report, "listing: damaged calls", output, expected);
    }
}

/// Requests of any length: fields that ask for a list or that are refused, and anything behind them.
fn any_numbers(report: &mut Report) {
    let fleet = random::small_fleet(&mut report.random);
    let bound = affordable_bound(report, &fleet, 300).min(6);
    let pattern = canonical_pattern(report, &fleet, bound);
    let random = &mut report.random;
    let mut numbers = Request { threshold: random.between(1, 4), bound, profile: random.between(FULL, MAXIMAL) }.numbers().to_vec();
    if random.one_in(4) {
        let field = random.below(Request::FIELDS);
        numbers[field] = random.pick(&[0, 65, usize::MAX]);
    }
    numbers.extend((0..4).map(|_| edge_number(random)));
    numbers.truncate(random.below(numbers.len() + 1));
    let output = random.pick(&[bound, 16, 2]);
    for pattern in [None, Some(pattern.as_slice())] {
        let call = Call { fleet: &fleet, request: &numbers, pattern };
        let expected = expected(&call, output, &model_list);
        call.compare(report, "listing: any numbers", output, expected);
    }
}

/// The fast miner's list, cut after so many forms.
pub fn mined(fleet: &[u16], request: Request, most: usize) -> (Vec<(Vec<u16>, usize)>, bool) {
    let mut list = vec![];
    let mut whole = true;
    miner::mine(fleet, request, &mut |form, support| {
        whole = list.len() < most;
        if whole {
            list.push((form.to_vec(), support));
        }
        whole
    });
    (list, whole)
}

/// The list by the model, or by the fast miner where the pieces are many.
pub fn quick_list(fleet: &[u16], request: Request) -> List {
    if model::count_pieces(fleet, request.bound) > 1000 {
        mined(fleet, request, usize::MAX).0.into_iter().collect()
    } else {
        model_list(fleet, request)
    }
}

fn plausible_fleets(report: &mut Report) {
    for nodes in [50, 100, 200] {
        let fleet = random::plausible_fleet(&mut report.random, 19, nodes);
        let request = Request::full(report.random.pick(&[6, 9, 12, 13, 19]), report.random.pick(&[4, 8, 16]));
        let (list, whole) = mined(&fleet, request, 1500);
        session(report, "listing: plausible fleets", &fleet, request, &list, whole);
    }
}

/// "A habit held by twelve is on the list at twelve and off it at thirteen."
fn twelve_of_nineteen(report: &mut Report) {
    let name = "listing: twelve of nineteen";
    let habit = parse("0.201 1.301 2.401 3.501 2.401 1.302");
    let form = model::form(&habit);
    let mut fleet = vec![];
    for vehicle in 0..19 {
        fleet.push(101);
        let holds = vehicle < 12;
        // the others have a beginning of it, without its last node
        let cut = report.random.between(2, habit.len() - 1);
        for (i, &node) in random::shuffled(&mut report.random, &habit).iter().enumerate() {
            if holds || i < cut {
                fleet.push(node + 1000);
            }
        }
        for _ in 0..report.random.below(4) {
            fleet.extend(parse("1.202 2.303"));
        }
    }
    if report.random.one_in(2) {
        fleet = random::among_remarks(&mut report.random, &fleet);
    }
    report.equal(name, library::support(&fleet, &habit), 12, &model::text(&fleet));
    for (threshold, listed) in [(11, true), (12, true), (13, false)] {
        let request = Request::full(threshold, 6);
        let list = listing(&fleet, request, 100_000);
        let found = list.iter().any(|(listed, support)| *listed == form && *support == 12);
        report.equal(name, found, listed, &format!("at {threshold}"));
        report.check(name, list == mined(&fleet, request, 100_000).0, || format!("at {threshold} {}", model::text(&fleet)));
    }
}

/// The limits of fleets and calls: 64 vehicles, 256 nodes, 4,096 nodes, depth 15, threshold 64, bound 16.
fn extremes(report: &mut Report) {
    let name = "listing: extremes";
    let deep: Vec<u16> = (0..16).map(|at| pair(at, [101, 201, 301, 401][at.min(3) as usize])).collect();
    let wide: Vec<u16> = (0..256).map(|i| if i == 0 { 101 } else { 1201 }).collect();
    let side = random::deep_vehicle(&mut report.random, 5);
    let taste = Taste { labels: 2, down: 6, remarks: true };
    let many = random::fleet(&mut report.random, 64, 40, taste);
    let cases: Vec<(Vec<u16>, usize, usize)> = vec![
        (vec![101; 64], 64, 16),
        (vec![101], 1, 1),
        (deep.repeat(64), 64, 16),
        (deep.clone(), 1, 15),
        (wide.repeat(16), 16, 16),
        (wide, 1, 16),
        ([side.clone(), side].concat(), 2, 16),
        (many.clone(), 64, 16),
        (many.clone(), 40, 16),
        (many, 10, 5),
    ];
    for (fleet, threshold, bound) in cases {
        let request = Request::full(threshold, bound);
        let (list, whole) = mined(&fleet, request, 700);
        session(report, name, &fleet, request, &list, whole);
    }
}
