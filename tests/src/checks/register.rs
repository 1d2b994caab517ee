//! The label register: made from a fleet, kept by swaps, lent to lists; what is refused, in which order, and what then stays.

use super::batch::{lengths, walk, BatchCall, Entries};
use super::listing::{affordable_bound, canonical_pattern, mined, model_list, requests, with_further};
use crate::report::{number, Lent, Report};
use compare::library::{self, Request, FULL, LABELS, MAXIMAL};
use compare::model::{self, pair, parse, Register};
use compare::random::{self, without_remarks, Random, Taste};

pub fn run(report: &mut Report) {
    document(report);
    outputs(report);
    swap_refusals(report);
    most_nodes(report);
    most_vehicles(report);
    registers(report);
    every_entry(report);
    list_refusals(report);
    for _ in 0..report.rounds * 600 {
        random_fleets(report);
        many_swaps(report);
    }
    for _ in 0..report.rounds * 6 {
        plausible_fleets(report);
    }
}

const EXAMPLE: &str = "0.101 1.201 2.301 1.202 0.101 1.202 1.201";

/// The same fleet with remarks, which a register counts.
const REMARKED: &str = "0.101 1.600 1.201 2.600 2.301 3.699 1.202 0.101 1.202 1.601 1.201 2.600";

/// A vehicle with that many nodes.
fn wide_vehicle(nodes: usize) -> Vec<u16> {
    (0..nodes).map(|i| if i == 0 { 101 } else { pair(1, 201 + i as u16 % 3) }).collect()
}

// ---------- making ----------

/// Makes the register in outputs of these lengths, and looks at every lent element.
pub fn make(report: &mut Report, name: &'static str, fleet: &[u16], nodes: usize, holders: usize) {
    let random = &mut report.random;
    let mut lent_fleet = Lent::input(random, fleet);
    let (mut lent_nodes, mut lent_holders) = (Lent::output(random, nodes), Lent::output(random, holders));
    let got = library::register(lent_fleet.slice(), lent_nodes.slice(), lent_holders.slice());
    report.met("register", got);
    let expected = model::register_call(fleet, nodes, holders);
    let register = expected.clone().unwrap_or_default();
    let wanted = number(&expected.map(|_| 999));
    let held = lent_nodes.holds(&register.nodes) && lent_holders.holds(&register.holders) && lent_fleet.untouched();
    report.check(name, got == wanted && held, || {
        format!("got {got}, expected {wanted}, memory as expected: {held}, outputs of {nodes} and {holders}, fleet {fleet:?}")
    });
}

/// The library's register of a fleet.
fn made(fleet: &[u16]) -> Register {
    let mut register = Register { nodes: vec![0; LABELS], holders: vec![0; LABELS] };
    library::register(fleet, &mut register.nodes, &mut register.holders);
    register
}

/// The registers of document 01's example and of the same with remarks, by hand.
fn document(report: &mut Report) {
    let name = "register: document 01";
    let mut register = Register { nodes: vec![0; 999], holders: vec![0; 999] };
    let labels = [(101, 2, 0b11), (201, 2, 0b11), (202, 2, 0b11), (301, 1, 0b01)];
    let remarks = [(600, 3, 0b11), (601, 1, 0b10), (699, 1, 0b01)];
    for (fleet, entries) in [(EXAMPLE, labels.as_slice()), (REMARKED, &remarks)] {
        for &(label, nodes, holders) in entries {
            register.nodes[label - 1] = nodes;
            register.holders[label - 1] = holders;
        }
        report.equal(name, made(&parse(fleet)), register.clone(), fleet);
        report.equal(name, Register::of(&parse(fleet)), register.clone(), fleet);
    }
}

/// Outputs that are empty, one too short, exact, one longer, a few longer; 10 before 17.
fn outputs(report: &mut Report) {
    let fleet = parse(EXAMPLE);
    for fleet in [fleet.clone(), vec![], [fleet, vec![1000]].concat(), vec![101; 64], vec![101; 65], wide_vehicle(256).repeat(16)] {
        for nodes in [0, 998, 999, 1000, 1005] {
            for holders in [0, 998, 999, 1000, 1005] {
                make(report, "register: outputs", &fleet, nodes, holders);
            }
        }
    }
}

fn random_fleets(report: &mut Report) {
    let (fleet, _) = some_fleet(&mut report.random);
    let more = report.random.below(3);
    make(report, "register: random fleets", &fleet, 999 + more, 1001 - more);
    let damaged = random::damaged_pairs(&mut report.random, &fleet);
    make(report, "register: damaged fleets", &damaged, 999, 999);
}

/// A fleet, and the taste of its vehicles.
fn some_fleet(random: &mut Random) -> (Vec<u16>, Taste) {
    let taste = Taste { labels: random.pick(&[1, 2, 3, 10, 90]), down: random.between(1, 9), remarks: random.one_in(2) };
    let (vehicles, nodes) = (random.pick(&[1, 1, 2, 3, 5, 8]), random.between(1, 11));
    let fleet = random::fleet(random, vehicles, nodes, taste);
    (if random.one_in(4) { random::among_remarks(random, &fleet) } else { fleet }, taste)
}

// ---------- swapping ----------

/// A fleet at the front of a buffer, with its register, as swaps keep them.
#[derive(Clone)]
pub struct Kept {
    buffer: Vec<u16>,
    used: usize,
    register: Register,
}

impl Kept {
    /// With so much room behind the fleet, and so many further entries behind the register, of any content.
    pub fn new(random: &mut Random, fleet: &[u16], room: usize, further: usize) -> Kept {
        let Register { nodes, holders } = Register::of(fleet);
        let register = Register {
            nodes: [nodes, random.words(further)].concat(),
            holders: holders.into_iter().chain((0..further).map(|_| random.next())).collect(),
        };
        Kept { buffer: [fleet.to_vec(), random.words(room)].concat(), used: fleet.len(), register }
    }

    pub fn fleet(&self) -> &[u16] {
        &self.buffer[..self.used]
    }

    /// Compares the answer, the new fleet and register, and every other lent element; what is kept is then what the swap should leave.
    pub fn swap(&mut self, report: &mut Report, name: &'static str, vehicle: usize, tree: &[u16]) {
        let random = &mut report.random;
        let (mut buffer, mut lent_tree) = (Lent::input(random, &self.buffer), Lent::input(random, tree));
        let (mut nodes, mut holders) = (Lent::input(random, &self.register.nodes), Lent::input(random, &self.register.holders));
        let got = library::swap(buffer.slice(), self.used, vehicle, lent_tree.slice(), nodes.slice(), holders.slice());
        report.met("swap", got);
        let expected = model::swap_call(&self.buffer, self.used, vehicle, tree, &self.register);
        let wanted = number(&expected.clone().map(|(fleet, _)| fleet.len() as i64));
        let (fleet, register) = expected.unwrap_or_default();
        let held = buffer.holds(&fleet) && nodes.holds(&register.nodes) && holders.holds(&register.holders) && lent_tree.untouched();
        report.check(name, got == wanted && held, || {
            let Kept { buffer, used, .. } = self;
            format!("got {got}, expected {wanted}, memory as expected: {held}, vehicle {vehicle}, used {used} of {buffer:?}, tree {tree:?}")
        });
        if wanted > 0 {
            report.check("register: made afresh after a swap", made(&fleet) == register, || format!("{fleet:?} after vehicle {vehicle} became {tree:?}"));
            self.used = fleet.len();
            self.buffer[..self.used].copy_from_slice(&fleet);
            self.register.nodes[..LABELS].copy_from_slice(&register.nodes);
            self.register.holders[..LABELS].copy_from_slice(&register.holders);
        }
    }
}

/// Trees that a fleet could hold, and such as none could.
fn trees() -> Vec<Vec<u16>> {
    let texts = ["", "0.102", EXAMPLE, "0.101 0.101", "0.101 1.301", "0.201", "1.101", "0.101 2.201", "0.101 1.201 2.301 1.600", "0.101 1.200 2.300 3.999"];
    let deep = |deepest: u16| (0..=deepest).map(|at| pair(at, [101, 201, 301, 401][at.min(3) as usize])).collect();
    let edges = [vec![0], vec![101, 1000], vec![101, 1201, 65535], deep(15), deep(16), wide_vehicle(256), wide_vehicle(257)];
    texts.iter().map(|text| parse(text)).chain(edges).collect()
}

/// All combinations of faults, so that each pair of neighbouring numbers is broken at once: fleet, tree and register, vehicle, buffer.
fn swap_refusals(report: &mut Report) {
    let name = "register: refused swaps";
    let fleet = parse(EXAMPLE);
    for room in [0, 1, 252, 253, 300] {
        let right = Kept::new(&mut report.random, &fleet, room, 0);
        let (mut short, mut wrong) = (right.clone(), right.clone());
        short.register.holders.pop();
        wrong.register.nodes[600] = 1;
        let used = |used| Kept { used, ..right.clone() };
        let others = [used(0), used(fleet.len() - 1), used(fleet.len() + 1), used(fleet.len() + room + 1), used(usize::MAX)];
        for kept in [right.clone(), short, wrong].into_iter().chain(others) {
            for tree in trees() {
                for vehicle in [0, 1, 2, 3, 1 << 32, usize::MAX] {
                    kept.clone().swap(report, name, vehicle, &tree);
                }
            }
        }
    }
}

/// 4,095, 4,096 and 4,097 nodes after the swap, with a buffer for them and without, a vehicle number that is wrong, a register that is wrong.
fn most_nodes(report: &mut Report) {
    let name = "register: most nodes";
    for last in [254, 255] {
        let fleet = [wide_vehicle(256).repeat(15), wide_vehicle(last), vec![101]].concat();
        for room in [0, 1, 900] {
            let right = Kept::new(&mut report.random, &fleet, room, 2);
            let mut wrong = right.clone();
            wrong.register.nodes[100] -= 1;
            for (vehicle, nodes) in [(16, 254), (16, 255), (16, 256), (16, 257), (17, 2), (1, 1), (1, 256), (0, 256), (18, 256), (0, 257)] {
                right.clone().swap(report, name, vehicle, &wide_vehicle(nodes));
            }
            for vehicle in [0, 16] {
                wrong.clone().swap(report, name, vehicle, &wide_vehicle(256));
            }
        }
    }
}

/// 64 vehicles: each becomes another, the last holding a label alone.
fn most_vehicles(report: &mut Report) {
    let name = "register: most vehicles";
    let mut kept = Kept::new(&mut report.random, &[101; 64], 130, 0);
    for vehicle in [64, 1, 63, 33, 32, 64, 65, 0, 2] {
        kept.swap(report, name, vehicle, &parse("0.199 1.201 1.201"));
        kept.swap(report, name, vehicle, &parse("0.101 1.201"));
    }
    kept.swap(report, name, 64, &[199]);
    report.equal(name, kept.register.holders[199 - 1], 1 << 63, "vehicle 64 alone");
    for vehicle in 1..=64 {
        kept.swap(report, name, vehicle, &[100]);
    }
    report.equal(name, (kept.register.nodes[100 - 1], kept.register.holders[100 - 1]), (64, u64::MAX), "all vehicles");
}

/// The tree of a swap: the vehicle's own, another's, of one node, the vehicle's own with nodes fewer or more or other remarks, or any.
fn some_tree(random: &mut Random, trees: &[Vec<u16>], vehicle: usize, taste: Taste) -> Vec<u16> {
    let own = &trees[vehicle - 1];
    match random.below(9) {
        0 => own.clone(),
        1 => trees[random.below(trees.len())].clone(),
        2 => vec![own[0]],
        3 => own[..random.between(1, own.len())].to_vec(),
        4 => [own.clone(), vec![pair(1, 200 + random.below(taste.labels) as u16); 3]].concat(),
        5 => without_remarks(own),
        6 => random::among_remarks(random, own),
        _ => {
            let nodes = random.between(1, 14);
            random::vehicle(random, nodes, taste)
        }
    }
}

/// Many swaps in a row, refused ones among them, and lists of the fleets that they leave.
fn many_swaps(report: &mut Report) {
    let name = "register: many swaps";
    let random = &mut report.random;
    let (fleet, taste) = some_fleet(random);
    let (room, further) = (random.pick(&[0, 1, 10, 200]), random.pick(&[0, 0, 1, 6]));
    let mut kept = Kept::new(random, &fleet, room, further);
    for _ in 0..12 {
        let trees = model::vehicles(kept.fleet());
        let random = &mut report.random;
        let any = random.between(1, trees.len());
        let vehicle = random.pick(&[1, trees.len(), any]);
        let tree = some_tree(random, &trees, vehicle, taste);
        if random.one_in(3) {
            disturb(report, &kept, vehicle, &tree);
        }
        kept.swap(report, name, vehicle, &tree);
    }
    lists(report, &kept);
}

/// The swap with something wrong in it, or several things; most of them are refused.
fn disturb(report: &mut Report, kept: &Kept, vehicle: usize, tree: &[u16]) {
    let random = &mut report.random;
    let used = kept.used;
    let (mut kept, mut vehicle, mut tree) = (kept.clone(), vehicle, tree.to_vec());
    for _ in 0..random.between(1, 2) {
        match random.below(5) {
            0 => tree = random::damaged_pairs(random, &tree),
            1 => vehicle = random.pick(&[0, 2, 9, 64, 65, usize::MAX]),
            2 => kept.register.nodes[random.below(LABELS)] ^= 1 << random.below(16),
            3 => kept.register.holders[random.below(LABELS)] ^= 1 << random.below(64),
            _ => kept.used = random.pick(&[0, used - 1, used + 1, kept.buffer.len(), kept.buffer.len() + 1]),
        }
    }
    kept.swap(report, "register: disturbed swaps", vehicle, &tree);
}

// ---------- lists ----------

/// What a list call takes beside the register.
pub struct Asked<'a> {
    pub fleet: &'a [u16],
    /// A request as it crosses: any numbers.
    pub request: &'a [usize],
    pub pattern: &'a [u16],
}

type With = fn(&Asked, library::Register, &mut [u16], &mut [usize]) -> i64;
type Without = fn(&Asked, &mut [u16], &mut [usize]) -> i64;

const CALLS: [(&str, With, Without); 3] = [
    (
        "start with register",
        |asked, register, output, _| library::start_with_register_by_numbers(asked.fleet, register, asked.request, output),
        |asked, output, _| library::start_by_numbers(asked.fleet, asked.request, output),
    ),
    (
        "step with register",
        |asked, register, output, _| library::step_with_register_by_numbers(asked.fleet, register, asked.request, asked.pattern, output),
        |asked, output, _| library::step_by_numbers(asked.fleet, asked.request, asked.pattern, output),
    ),
    (
        "batch with register",
        |asked, register, output, found| {
            library::batch_with_register_by_numbers(asked.fleet, register, asked.request, asked.pattern, output, found)
        },
        |asked, output, found| library::batch_by_numbers(asked.fleet, asked.request, asked.pattern, output, found),
    ),
];

impl Asked<'_> {
    /// Start, step and batch with the register against those without, which other checks compare with the model: answer, outputs of these
    /// lengths, and every other lent element.
    pub fn compare(&self, report: &mut Report, name: &'static str, register: &Register, output: usize, found: usize) {
        let rules = model::register_rules(self.fleet, register);
        for (call, with, without) in CALLS {
            let random = &mut report.random;
            let (mut fleet, mut request, mut pattern) =
                (Lent::input(random, self.fleet), Lent::input(random, self.request), Lent::input(random, self.pattern));
            let (mut nodes, mut holders) = (Lent::input(random, &register.nodes), Lent::input(random, &register.holders));
            let (mut output, mut found) = (Lent::output(random, output), Lent::output(random, found));
            let (mut same_output, mut same_found) = (output.clone(), found.clone());
            let wanted = number(&rules.map(|()| without(self, same_output.slice(), same_found.slice())));
            let lent = Asked { fleet: fleet.slice(), request: request.slice(), pattern: pattern.slice() };
            let lent_register = library::Register { nodes: nodes.slice(), holders: holders.slice() };
            let got = with(&lent, lent_register, output.slice(), found.slice());
            report.met(call, got);
            let written = output == same_output && found == same_found;
            let untouched =
                fleet.untouched() && request.untouched() && pattern.untouched() && nodes.untouched() && holders.untouched();
            report.check(name, got == wanted && written && untouched, || {
                format!(
                    "{call}: got {got}, expected {wanted}, outputs as expected: {written}, inputs untouched: {untouched}, pattern {:?}, \
                     request {:?}, fleet {:?}",
                    self.pattern, self.request, self.fleet
                )
            });
        }
    }
}

/// The register with one thing changed, so that it is not the fleet's (labels 101 and 201 are the fleet's, 501 is not).
fn wrong_registers(register: &Register) -> Vec<Register> {
    let edits: [&dyn Fn(&mut Register); 20] = [
        &|r| r.nodes[0] += 1,
        &|r| r.nodes[998] += 1,
        &|r| r.nodes[100] += 1,
        &|r| r.nodes[100] -= 1,
        &|r| r.nodes[100] += 256,
        &|r| r.nodes[500] = 1,
        &|r| r.nodes.rotate_left(1),
        &|r| r.holders[0] |= 1,
        &|r| r.holders[998] |= 1,
        &|r| r.holders[100] ^= 1,
        &|r| r.holders[200] ^= 2,
        &|r| r.holders[100] ^= 1 << 63,
        &|r| r.holders[100] ^= 1 << 32,
        &|r| r.holders[500] |= 1,
        &|r| r.holders.rotate_right(1),
        &|r| r.nodes.truncate(998),
        &|r| r.nodes.clear(),
        &|r| r.holders.truncate(998),
        &|r| r.holders.clear(),
        &|r| *r = Register::default(),
    ];
    edits
        .iter()
        .map(|edit| {
            let mut register = register.clone();
            edit(&mut register);
            register
        })
        .collect()
}

/// Registers that are wrong, right, and right with something behind them; of a fleet with the vehicles the other way round too, and of the fleet
/// without its remarks.
fn registers(report: &mut Report) {
    let name = "register: right and wrong";
    let request = Request::full(1, 3).numbers();
    let backwards = [parse("0.101 1.202 1.201"), parse("0.101 1.201 2.301 1.202")].concat();
    let many = [vec![101; 62], parse(EXAMPLE)].concat();
    for fleet in [parse(EXAMPLE), parse(REMARKED), backwards.clone(), many] {
        for further in [0, 1, 6] {
            let kept = Kept::new(&mut report.random, &fleet, 10, further);
            let right = kept.register.clone();
            let Register { nodes, holders } = Register::of(&fleet);
            let one_longer = [Register { nodes, ..right.clone() }, Register { holders, ..right.clone() }];
            let of_others = [Register::of(&backwards), Register::of(&without_remarks(&fleet))];
            let others = wrong_registers(&right).into_iter().chain(one_longer).chain(of_others);
            for register in [right.clone()].into_iter().chain(others) {
                let asked = Asked { fleet: &fleet, request: &request, pattern: &[101] };
                asked.compare(report, name, &register, 40, 9);
                Kept { register, ..kept.clone() }.swap(report, name, 2, &parse("0.199 1.201 2.300"));
            }
        }
    }
}

/// Every entry wrong in one bit, of its node count and then of its set.
fn every_entry(report: &mut Report) {
    let name = "register: every entry";
    let request = Request::full(2, 2).numbers();
    let fleet = parse(EXAMPLE);
    let right = Kept::new(&mut report.random, &fleet, 0, 0);
    for entry in 0..LABELS {
        let (mut wrong_nodes, mut wrong_holders) = (right.clone(), right.clone());
        wrong_nodes.register.nodes[entry] ^= 1 << report.random.below(16);
        wrong_holders.register.holders[entry] ^= 1 << report.random.below(64);
        for mut kept in [wrong_nodes, wrong_holders] {
            Asked { fleet: &fleet, request: &request, pattern: &[101] }.compare(report, name, &kept.register, 8, 4);
            kept.swap(report, name, 1, &[101]);
        }
    }
}

/// All combinations of faults in a list with a register.
fn list_refusals(report: &mut Report) {
    let fleet = parse(EXAMPLE);
    let right = Register::of(&fleet);
    let mut wrong = right.clone();
    wrong.holders[300] = 2;
    let patterns = ["", "0.101", "0.101 1.201 1.202", "0.101 2.201", "0.101 1.202 1.201 1.201"].map(parse);
    for fleet in [fleet.clone(), vec![], [fleet, vec![1000]].concat()] {
        for register in [&right, &wrong, &Register::default()] {
            for request in requests(&[0, 1, 2, 65], &[0, 2, 3, 17]) {
                for pattern in &patterns {
                    for (output, found) in [(1, 9), (2, 0), (2, 2), (3, 0), (40, 9)] {
                        let asked = Asked { fleet: &fleet, request: &request.numbers(), pattern };
                        asked.compare(report, "register: refused lists", register, output, found);
                    }
                }
            }
        }
    }
}

/// The library's own list of the kept fleet, with its register, by batches, to the end or past `most` forms.
pub fn listed(random: &mut Random, kept: &Kept, request: Request, most: usize) -> Entries {
    let register = library::Register { nodes: &kept.register.nodes, holders: &kept.register.holders };
    let batch: BatchCall = &|pattern, output, found| library::batch_with_register(kept.fleet(), register, request, pattern, output, found);
    walk(random, request.bound, most, batch)
}

/// The list with the register that swaps have kept: whole against the model's, and calls from anywhere against those without it.
fn lists(report: &mut Report, kept: &Kept) {
    let bound = affordable_bound(report, kept.fleet(), 300);
    let request = Request { threshold: report.random.between(1, 4), bound, profile: report.random.between(FULL, MAXIMAL) };
    let list: Entries = model_list(kept.fleet(), request).into_iter().collect();
    let same = listed(&mut report.random, kept, request, list.len()) == list;
    report.check("register: whole lists", same, || format!("{:?} of {}", request.numbers(), model::text(kept.fleet())));
    calls_from_anywhere(report, "register: lists of small fleets", kept, request);
}

/// Start, step and batch from a form of the list, one that is not, and one with something changed; with requests of any length.
pub fn calls_from_anywhere(report: &mut Report, name: &'static str, kept: &Kept, request: Request) {
    for _ in 0..3 {
        let mut pattern = canonical_pattern(report, kept.fleet(), request.bound);
        let random = &mut report.random;
        if random.one_in(4) {
            pattern = random::damaged_pairs(random, &pattern);
        }
        let mut numbers = with_further(random, request);
        if random.one_in(8) {
            numbers.truncate(random.below(numbers.len()));
        }
        let (output, found) = lengths(random, request.bound);
        Asked { fleet: kept.fleet(), request: &numbers, pattern: &pattern }.compare(report, name, &kept.register, output, found);
    }
}

/// Large fleets: the list after each swap, by the fast miner.
fn plausible_fleets(report: &mut Report) {
    let name = "register: plausible fleets";
    let fleet = random::plausible_fleet(&mut report.random, 19, 100);
    let mut kept = Kept::new(&mut report.random, &fleet, 200, 0);
    for vehicle in [1, 19, 7, 7] {
        let nodes = report.random.between(40, 200);
        let tree = random::plausible_fleet(&mut report.random, 1, nodes);
        kept.swap(report, name, vehicle, &tree);
        let request = Request::full(report.random.pick(&[9, 12]), report.random.pick(&[4, 6]));
        let (list, _) = mined(kept.fleet(), request, usize::MAX);
        let same = listed(&mut report.random, &kept, request, list.len()) == list;
        report.check(name, same, || format!("{:?} of {}", request.numbers(), model::text(kept.fleet())));
        calls_from_anywhere(report, name, &kept, request);
    }
}
