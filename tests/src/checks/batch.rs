//! Batches against the model's list and the fast miner's: what surely fits and where the list ends, refusals anywhere, and sessions of
//! starts, steps and batches.

use super::listing::{affordable_bound, canonical_pattern, disturb, edge_number, longer_than_requests, mined, model_list};
use super::listing::{request_from, requests, with_further, Call};
use super::model::{EXAMPLE_SHEET, STEPS};
use super::EXAMPLES;
use crate::report::{number, unhex, Lent, Report};
use compare::library::{self, Request, FULL, MAXIMAL};
use compare::model::{self, pair, parse, List};
use compare::random::{self, Random, Taste};

pub fn run(report: &mut Report) {
    document(report);
    refusals(report);
    fewer_and_further_numbers(report);
    for _ in 0..report.rounds * 1000 {
        small_fleets(report);
    }
    for _ in 0..report.rounds * 10000 {
        damaged_calls(report);
    }
    for _ in 0..report.rounds * 4 {
        plausible_fleets(report);
    }
    for _ in 0..report.rounds * 200 {
        equal_siblings(report);
    }
    extremes(report);
    long_list(report);
}

pub type Entries = Vec<(Vec<u16>, usize)>;

/// A batch: what is lent to it, and the lengths of its two outputs.
pub struct Batch<'a> {
    pub fleet: &'a [u16],
    /// A request as it crosses: any numbers.
    pub request: &'a [usize],
    pub pattern: &'a [u16],
    pub output: usize,
    pub found: usize,
}

impl Batch<'_> {
    /// The model's answer, from the list where no rule is broken.
    fn expected(&self, list: &dyn Fn(&[u16], Request) -> List) -> Result<Entries, u8> {
        let request = request_from(self.request);
        model::batch_rules(self.fleet, request, self.pattern, self.output, self.found)?;
        Ok(model::batch(&list(self.fleet, request), request.bound, self.pattern, self.output, self.found))
    }

    /// Compares the answer, the forms end to end, what was found of each, and every other lent element.
    pub fn compare(&self, report: &mut Report, name: &'static str, expected: Result<Entries, u8>) {
        let random = &mut report.random;
        let (mut fleet, mut request, mut pattern) =
            (Lent::input(random, self.fleet), Lent::input(random, self.request), Lent::input(random, self.pattern));
        let (mut output, mut found) = (Lent::output(random, self.output), Lent::output(random, self.found));
        let got = library::batch_by_numbers(fleet.slice(), request.slice(), pattern.slice(), output.slice(), found.slice());
        report.met("batch", got);
        let forms = expected.clone().unwrap_or_default();
        let pairs: Vec<u16> = forms.iter().flat_map(|(form, _)| form.clone()).collect();
        let numbers: Vec<usize> = forms.iter().map(|(form, support)| 100 * support + form.len()).collect();
        let wanted = number(&expected.map(|forms| forms.len() as i64));
        let written = output.holds(&pairs) && found.holds(&numbers);
        let untouched = fleet.untouched() && request.untouched() && pattern.untouched();
        report.check(name, got == wanted && written && untouched, || {
            format!(
                "got {got}, expected {wanted}, outputs as expected: {written}, inputs untouched: {untouched}, output of {}, found of {}, \
                 pattern {:?}, request {:?}, fleet {:?}, forms {forms:?}",
                self.output, self.found, self.pattern, self.request, self.fleet
            )
        });
    }

    pub fn compare_with(&self, report: &mut Report, name: &'static str, list: &dyn Fn(&[u16], Request) -> List) {
        self.compare(report, name, self.expected(list));
    }
}

/// Every pair of lengths up to more than the whole list needs, behind every form of the example's list and the document's patterns.
fn document(report: &mut Report) {
    let fleet = model::read(&unhex(EXAMPLE_SHEET)).unwrap();
    let request = Request::full(2, 3);
    let list = model_list(&fleet, request);
    let listed = list.keys().cloned();
    let others = STEPS.iter().map(|(pattern, _)| parse(pattern));
    for pattern in listed.chain(others).chain([vec![]]) {
        for output in 0..20 {
            for found in 0..9 {
                let batch = Batch { fleet: &fleet, request: &request.numbers(), pattern: &pattern, output, found };
                batch.compare_with(report, "batch: document 01", &|_, _| list.clone());
            }
        }
    }
}

/// All combinations of faults, so that each pair of neighbouring numbers is broken at once; from the start there is no 13, 14 or 15.
fn refusals(report: &mut Report) {
    let fleet = parse("0.101 1.201 2.301 1.202 0.101 1.202 1.201");
    let patterns: [Vec<u16>; 8] = [
        vec![],
        parse("0.101"),
        parse("0.101 1.201 1.202"),
        parse("0.101 1.202 1.201"),
        parse("0.999 1.001"),
        vec![101; 17],
        parse("0.101 2.201"),
        (0..16).map(|at| pair(at, 401)).collect(),
    ];
    for fleet in [fleet.clone(), vec![], [fleet, vec![1000]].concat()] {
        for request in requests(&[0, 1, 2, 64, 65, usize::MAX], &[0, 1, 2, 3, 16, 17, usize::MAX]) {
            for pattern in &patterns {
                for output in [0, 1, 2, 3, 15, 16, 40] {
                    for found in [0, 1, 2, 20] {
                        let batch = Batch { fleet: &fleet, request: &request.numbers(), pattern, output, found };
                        batch.compare_with(report, "batch: refusals", &model_list);
                    }
                }
            }
        }
    }
}

/// Requests of every length, up to four numbers more than there are fields.
fn fewer_and_further_numbers(report: &mut Report) {
    let fleet = parse("0.101 1.201 2.301 1.202 0.101 1.202 1.201");
    for numbers in longer_than_requests() {
        for count in 0..=numbers.len() {
            for pattern in ["", "0.101", "0.202", "0.101 1.201 1.202"] {
                for (output, found) in [(0, 4), (2, 4), (3, 0), (3, 4), (16, 4)] {
                    let batch = Batch { fleet: &fleet, request: &numbers[..count], pattern: &parse(pattern), output, found };
                    batch.compare_with(report, "batch: fewer and further numbers", &model_list);
                }
            }
        }
    }
}

/// Lengths of the two outputs: of the least that is not refused, a little more, or many times as much.
pub fn lengths(random: &mut Random, bound: usize) -> (usize, usize) {
    let more = random.pick(&[0, 1, bound - 1, bound, bound + 1, 3 * bound, 20 * bound, 70 * bound]);
    (bound + more, random.pick(&[1, 2, 3, 4, 7, 16, 64, 1000]))
}

/// A length that the first few of these forms fill but for so many pairs as a further form needs, or for one fewer.
fn just_enough(random: &mut Random, bound: usize, forms: &[(Vec<u16>, usize)]) -> usize {
    let written: usize = forms[..random.below(forms.len().min(30) + 1)].iter().map(|(form, _)| form.len()).sum();
    written + bound - if written > 0 { random.below(2) } else { 0 }
}

/// A whole session: batches of any lengths, starts and steps and refused calls among them, each from the last form given; then twice more
/// at end. Where the list is cut, no batch asks for more than is known of it.
pub fn session(report: &mut Report, name: &'static str, fleet: &[u16], request: Request, list: &[(Vec<u16>, usize)], whole: bool) {
    let bound = request.bound;
    let mut given = 0;
    let mut last: Vec<u16> = vec![];
    let mut ends = 0;
    while if whole { ends < 3 } else { given < list.len() } {
        let rest = &list[given..];
        disturb(report, fleet, request);
        disturb_batch(report, fleet, request);
        let numbers = with_further(&mut report.random, request);
        let more = if report.random.one_in(5) {
            let call = Call { fleet, request: &numbers, pattern: (given > 0).then_some(&last) };
            call.compare(report, name, bound, Ok(rest.first().cloned()));
            rest.len().min(1)
        } else {
            let (mut output, mut found) = lengths(&mut report.random, bound);
            if report.random.one_in(3) {
                output = just_enough(&mut report.random, bound, rest);
            }
            if !whole {
                found = found.min(rest.len());
            }
            let rest: List = rest.iter().take(found).cloned().collect();
            let forms = model::batch(&rest, bound, &last, output, found);
            let batch = Batch { fleet, request: &numbers, pattern: &last, output, found };
            batch.compare(report, name, Ok(forms.clone()));
            forms.len()
        };
        given += more;
        if more == 0 {
            ends += 1;
        } else {
            last = list[given - 1].0.clone();
        }
    }
}

/// Now and then batches that are refused, of any kind.
fn disturb_batch(report: &mut Report, fleet: &[u16], request: Request) {
    if report.random.one_in(50) {
        let bad = report.random.pick(&[0, 65, 1000]);
        let bound = request.bound;
        let numbers = request.numbers();
        let refused = [
            Batch { fleet, request: &Request { threshold: bad, ..request }.numbers(), pattern: &[101], output: bound, found: 5 },
            Batch { fleet, request: &Request { bound: bad, ..request }.numbers(), pattern: &[], output: bound, found: 5 },
            Batch { fleet, request: &Request { profile: 3 + bad, ..request }.numbers(), pattern: &[], output: bound, found: 5 },
            Batch { fleet: &[], request: &numbers, pattern: &[], output: bound, found: 5 },
            Batch { fleet, request: &numbers, pattern: &[1; 17], output: bound, found: 0 },
            Batch { fleet, request: &numbers, pattern: &[0], output: bound - 1, found: 5 },
            Batch { fleet, request: &numbers, pattern: &[], output: bound - 1, found: 5 },
            Batch { fleet, request: &numbers, pattern: &[101], output: 5 * bound, found: 0 },
        ];
        for batch in refused {
            batch.compare_with(report, "batch: refused in a session", &|_, _| List::new());
        }
    }
}

/// Gives the forms behind a pattern, with its outputs.
pub type BatchCall<'a> = &'a dyn Fn(&[u16], &mut [u16], &mut [usize]) -> i64;

/// The library's own listing by batches of any lengths, as a caller makes it, to the end or past `most` forms: a batch that leaves room for
/// a form is the last.
pub fn walk(random: &mut Random, bound: usize, most: usize, batch: BatchCall) -> Entries {
    let mut list: Entries = vec![];
    while list.len() <= most {
        let (output, found) = lengths(random, bound);
        let (mut output, mut found) = (Lent::output(random, output), Lent::output(random, found));
        let (output, found) = (output.slice(), found.slice());
        let last = list.last().map_or(vec![], |(form, _)| form.clone());
        let count = batch(&last, output, found).clamp(0, found.len() as i64) as usize;
        let mut left = &output[..];
        for &answer in &found[..count] {
            let (form, rest) = left.split_at(left.len().min(answer % 100));
            list.push((form.to_vec(), answer / 100));
            left = rest;
        }
        if count < found.len() && left.len() >= bound {
            break;
        }
    }
    list
}

/// Ten batches from patterns in their form, listed or not.
pub fn from_anywhere(report: &mut Report, name: &'static str, fleet: &[u16], request: Request, list: &List) {
    for _ in 0..10 {
        let pattern = canonical_pattern(report, fleet, request.bound);
        let (output, found) = lengths(&mut report.random, request.bound);
        let batch = Batch { fleet, request: &request.numbers(), pattern: &pattern, output, found };
        batch.compare_with(report, name, &|_, _| list.clone());
    }
}

fn small_fleets(report: &mut Report) {
    let fleet = random::small_fleet(&mut report.random);
    let bound = affordable_bound(report, &fleet, 2000);
    let holdings = model::holdings(&fleet, bound);
    let vehicles = model::vehicles(&fleet).len();
    let threshold = report.random.between(1, vehicles);
    for threshold in [threshold, 1, vehicles + 1] {
        let request = Request::full(threshold, bound);
        let list = model::list(&holdings, threshold);
        let entries: Entries = list.clone().into_iter().collect();
        session(report, "batch: small fleets", &fleet, request, &entries, true);
        from_anywhere(report, "batch: from anywhere", &fleet, request, &list);
        let batch: BatchCall = &|pattern, output, found| library::batch(&fleet, request, pattern, output, found);
        let walked = walk(&mut report.random, bound, entries.len(), batch);
        report.check("batch: to the end", walked == entries, || format!("{} at {threshold} and {bound}", model::text(&fleet)));
    }
}

/// Calls of which anything may be wrong, or several things at once.
fn damaged_calls(report: &mut Report) {
    let mut fleet = random::small_fleet(&mut report.random);
    let bound = affordable_bound(report, &fleet, 300).min(6);
    let mut pattern = canonical_pattern(report, &fleet, bound);
    let random = &mut report.random;
    if random.one_in(5) {
        fleet = random::damaged_pairs(random, &fleet);
    }
    match random.below(6) {
        0 => pattern = random::damaged_pairs(random, &pattern),
        1 => pattern = random::shuffled(random, &pattern),
        2 => pattern = vec![],
        3 => pattern.extend(vec![1001; bound]),
        _ => {}
    }
    let mut numbers = Request { threshold: random.between(1, 4), bound, profile: random.between(FULL, MAXIMAL) }.numbers().to_vec();
    if random.one_in(5) {
        let field = random.below(Request::FIELDS);
        numbers[field] = random.pick(&[0, 17, 65, usize::MAX]);
    }
    numbers.extend((0..random.below(4)).map(|_| edge_number(random)));
    if random.one_in(8) {
        numbers.truncate(random.below(numbers.len() + 1));
    }
    let output = random.pick(&[bound, bound, bound - 1, 2 * bound, 40, 300, 0]);
    let found = random.pick(&[1, 2, 5, 40, 0]);
    let batch = Batch { fleet: &fleet, request: &numbers, pattern: &pattern, output, found };
    batch.compare_with(report, "batch: damaged calls", &model_list);
}

/// A session by the fast miner's list, cut after so many forms; where it is whole, batches from anywhere too.
fn by_miner(report: &mut Report, name: &'static str, fleet: &[u16], request: Request, most: usize) {
    let (list, whole) = mined(fleet, request, most);
    session(report, name, fleet, request, &list, whole);
    if whole {
        from_anywhere(report, "batch: from anywhere", fleet, request, &list.into_iter().collect());
    }
}

fn plausible_fleets(report: &mut Report) {
    for nodes in [50, 100, 200] {
        let fleet = random::plausible_fleet(&mut report.random, 19, nodes);
        let request = Request::full(report.random.pick(&[6, 9, 12, 13, 19]), report.random.pick(&[4, 8, 16]));
        by_miner(report, "batch: plausible fleets", &fleet, request, 1500);
    }
}

/// Many siblings of one label, so that most places are contested.
fn equal_siblings(report: &mut Report) {
    let random = &mut report.random;
    let taste = Taste { labels: random.between(1, 2), down: random.between(2, 8), remarks: false };
    for fleet in [random::competing_children(random), random::fleet(random, 4, 60, taste)] {
        let request = Request::full(report.random.between(1, 4), report.random.pick(&[4, 7, 10, 16]));
        by_miner(report, "batch: equal siblings", &fleet, request, 300);
    }
}

/// The limits of fleets and calls: 64 vehicles, 256 nodes, 4,096 nodes, depth 15, threshold 64, bound 16.
fn extremes(report: &mut Report) {
    let deep: Vec<u16> = (0..16).map(|at| pair(at, [101, 201, 301, 401][at.min(3) as usize])).collect();
    let wide: Vec<u16> = (0..256).map(|i| if i == 0 { 101 } else { 1201 }).collect();
    let cases: Vec<(Vec<u16>, usize, usize)> = vec![
        (vec![101; 64], 64, 16),
        (vec![101], 1, 1),
        (deep.repeat(64), 64, 16),
        (deep, 1, 15),
        (wide.repeat(16), 16, 16),
        (wide, 1, 16),
    ];
    for (fleet, threshold, bound) in cases {
        let request = Request::full(threshold, bound);
        by_miner(report, "batch: extremes", &fleet, request, 700);
    }
}

/// More than 20,000 forms, of more pairs than 16 bits count, in one batch: up to one form before the end, to the end, and with room to spare.
fn long_list(report: &mut Report) {
    let name = "batch: a long list";
    let fleet = model::read(EXAMPLES[1].1).unwrap();
    let request = Request::full(4, 10);
    let list: List = mined(&fleet, request, usize::MAX).0.into_iter().collect();
    let (forms, pairs) = (list.len(), list.keys().map(|form| form.len()).sum::<usize>());
    report.check(name, forms > 20_000 && pairs > 1 << 16, || "the list is short".into());
    let least = pairs - list.keys().last().unwrap().len() + request.bound;
    for (output, found) in [(least, forms), (least - 1, forms), (least, forms - 1), (least + 1000, forms + 1000)] {
        let batch = Batch { fleet: &fleet, request: &request.numbers(), pattern: &[], output, found };
        batch.compare_with(report, name, &|_, _| list.clone());
    }
}
