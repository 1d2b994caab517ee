//! The label register: made, and kept by swaps, against plain Rust; lists with it against lists without; a round: a tree swapped, and the list.

use crate::lists::{head, in_batches, in_turn, row, BatchCall, Missed};
use crate::requests::{self, Request};
use crate::{clock, race};
use bench::plain;
use compare::library::{self, LABELS};
use compare::model;
use compare::random::{self, Random};
use std::hint::black_box;

/// Making and swapping take at most so many times plain Rust's time.
const KEEPING_RATIO: f64 = 2.0;

/// A list with the register takes at most this much of the time without.
const LIST_RATIO: f64 = 1.1;

/// Where a fleet has remarks its sets are not used, so a short list pays for their check.
const REMARKS_RATIO: f64 = 1.25;

/// A fleet at the front of a buffer, with its register.
#[derive(Clone, PartialEq)]
struct Kept {
    buffer: Vec<u16>,
    used: usize,
    nodes: Vec<u16>,
    holders: Vec<u64>,
}

impl Kept {
    fn new(fleet: &[u16]) -> Kept {
        let mut kept = Kept { buffer: fleet.to_vec(), used: fleet.len(), nodes: vec![0; LABELS], holders: vec![0; LABELS] };
        kept.buffer.resize(4096, 0);
        kept.make();
        kept
    }

    fn fleet(&self) -> &[u16] {
        &self.buffer[..self.used]
    }

    fn register(&self) -> library::Register<'_> {
        library::Register { nodes: &self.nodes, holders: &self.holders }
    }

    fn make(&mut self) {
        let made = library::register(&self.buffer[..self.used], &mut self.nodes, &mut self.holders);
        assert_eq!(made, LABELS as i64, "a register");
    }

    fn make_plainly(&mut self) {
        let made = plain::register(&self.buffer[..self.used], &mut self.nodes, &mut self.holders);
        assert_eq!(made, Ok(LABELS), "a register");
    }

    fn swap(&mut self, vehicle: usize, tree: &[u16]) {
        let used = library::swap(&mut self.buffer, self.used, vehicle, tree, &mut self.nodes, &mut self.holders);
        assert!(used > 0, "a swap");
        self.used = used as usize;
    }

    fn swap_plainly(&mut self, vehicle: usize, tree: &[u16]) {
        self.used = plain::swap(&mut self.buffer, self.used, vehicle, tree, &mut self.nodes, &mut self.holders).expect("a swap");
    }
}

// ---------- making and swapping ----------

fn fleets() -> [(&'static str, Vec<u16>); 5] {
    [
        ("nineteen vehicles of about 50 nodes", requests::nineteen(50, 12, 4).fleet),
        ("nineteen vehicles of about 200 nodes", requests::nineteen(200, 12, 4).fleet),
        ("16 stars of 255 equal runs", requests::star().repeat(16)),
        ("64 chains of depth 15", requests::chain().repeat(64)),
        ("64 plausible vehicles of 64 nodes", random::plausible_fleet(&mut Random::new(64), 64, 64)),
    ]
}

pub fn keeping(missed: &mut Missed) {
    for (name, fleet) in fleets() {
        let name = format!("register, {name}");
        let (mut proved, mut plain) = (Kept::new(&fleet), Kept::new(&fleet));
        plain.make_plainly();
        assert!(proved == plain, "{name}");
        let ratio = race(&name, || black_box(&mut proved).make(), || black_box(&mut plain).make_plainly());
        misses(missed, &name, ratio);
    }
    for (name, fleet) in fleets() {
        for vehicle in [1, model::vehicles(&fleet).len()] {
            swapping(missed, &format!("swap of vehicle {vehicle}, {name}"), &fleet, vehicle);
        }
    }
}

fn misses(missed: &mut Missed, name: &str, ratio: f64) {
    missed.extend((ratio > KEEPING_RATIO).then(|| format!("{name}: {ratio:.3}, target {KEEPING_RATIO}")));
}

/// Swaps a vehicle's tree for all of it but its last three nodes, and back.
fn swapping(missed: &mut Missed, name: &str, fleet: &[u16], vehicle: usize) {
    let whole = model::vehicles(fleet)[vehicle - 1].clone();
    let trees = [&whole[..whole.len() - 3], &whole[..]];
    let (mut proved, mut plain) = (Kept::new(fleet), Kept::new(fleet));
    for tree in trees {
        proved.swap(vehicle, tree);
        plain.swap_plainly(vehicle, tree);
        assert!(proved == plain && proved == Kept { buffer: plain.buffer.clone(), ..Kept::new(plain.fleet()) }, "{name}");
    }
    let (mut turn, mut plain_turn) = (0, 0);
    let ratio = race(
        name,
        || {
            black_box(&mut proved).swap(vehicle, trees[turn]);
            turn = 1 - turn;
        },
        || {
            black_box(&mut plain).swap_plainly(vehicle, trees[plain_turn]);
            plain_turn = 1 - plain_turn;
        },
    );
    misses(missed, name, ratio);
}

// ---------- lists ----------

/// Batches of the kept fleet, with its register.
fn batch_of<'a>(kept: &'a Kept, request: &'a Request) -> impl Fn(&[u16], &mut [u16], &mut [usize]) -> i64 + 'a {
    |last, output, found| library::batch_with_register(kept.fleet(), kept.register(), request.asked(), last, output, found)
}

/// The list in batches of 1,024 forms, with a register that is made first.
pub fn by_batches(request: &Request, found: &mut dyn FnMut(&[u16], usize) -> bool) {
    in_batches::<1024>(&batch_of(&Kept::new(&request.fleet), request), found);
}

/// In batches of 1,024 forms, milliseconds to the end.
fn time_of_list(batch: BatchCall) -> f64 {
    let begun = clock::thread();
    in_batches::<1024>(batch, &mut |form, support| {
        black_box((form, support));
        true
    });
    (clock::thread() - begun) / 1e3
}

fn list(batch: BatchCall) -> Vec<(Vec<u16>, usize)> {
    let mut list = vec![];
    in_batches::<1024>(batch, &mut |form, support| {
        list.push((form.to_vec(), support));
        true
    });
    list
}

pub fn lists(missed: &mut Missed) {
    println!("\nThe list with the register against the list without, in batches of 1,024 forms: fleet, threshold, bound, each list to its end.");
    println!("Target: ratio at most {LIST_RATIO}, with many remarks {REMARKS_RATIO}.");
    head(&[("forms", 7), ("with", 10), ("a form", 8), ("without", 10), ("a form", 8), ("ratio", 6)]);
    let plain = requests::exam().into_iter().chain([requests::longest()]).chain(requests::hard()).map(|request| (request, LIST_RATIO));
    let remarked = requests::with_remarks().into_iter().map(|request| (request, REMARKS_RATIO));
    for (request, most) in plain.chain(remarked) {
        let ratio = by_register(&request);
        missed.extend((ratio > most).then(|| format!("list with register, {}: {ratio:.3}, target {most}", request.name)));
    }
}

/// Prints a row; returns the ratio.
fn by_register(request: &Request) -> f64 {
    let kept = Kept::new(&request.fleet);
    let with: BatchCall = &batch_of(&kept, request);
    let without: BatchCall = &|last, output, found| library::batch(kept.fleet(), request.asked(), last, output, found);
    let forms = list(without);
    assert!(list(with) == forms, "the lists differ: {}", request.name);
    let [with, without] = in_turn([&mut || time_of_list(with), &mut || time_of_list(without)]);
    println!("{}", row(&request.name, forms.len(), with, without));
    with / without
}

// ---------- a round: a tree swapped, and the list ----------

pub fn rounds() {
    println!("\nA round, a tree swapped and the whole list with the register, against register and list made afresh of the same fleet:");
    println!("the last vehicle gets the first one's tree, then its own again; batches of 1,024 forms; fleet, threshold, bound.");
    head(&[("forms", 7), ("swapped", 10), ("a form", 8), ("afresh", 10), ("a form", 8), ("ratio", 6)]);
    for request in requests::exam().into_iter().filter(|request| request.threshold == 12) {
        round(&request);
    }
}

fn round(request: &Request) {
    let trees = model::vehicles(&request.fleet);
    let (vehicle, changes) = (trees.len(), [&trees[0], &trees[trees.len() - 1]]);
    let mut kept = Kept::new(&request.fleet);
    let mut afresh = changes.map(|tree| {
        kept.swap(vehicle, tree);
        kept.clone()
    });
    let forms: usize = afresh.iter().map(|kept| list(&batch_of(kept, request)).len()).sum();
    let mut by_swaps = || {
        let begun = clock::thread();
        for tree in changes {
            kept.swap(vehicle, tree);
            time_of_list(&batch_of(&kept, request));
        }
        (clock::thread() - begun) / 1e3
    };
    let mut by_making = || {
        let begun = clock::thread();
        for kept in &mut afresh {
            kept.make();
            time_of_list(&batch_of(kept, request));
        }
        (clock::thread() - begun) / 1e3
    };
    let [swapped, made] = in_turn([&mut by_swaps, &mut by_making]);
    println!("{}", row(&request.name, forms, swapped, made));
}
