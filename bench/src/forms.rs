//! The form against a plain sort, in every shape of 256 nodes; and the trees on which it is timed against an older build.

use crate::lists::Missed;
use crate::requests::{self, Request};
use crate::{times_in_turn, Timed, BATCH_MICROSECONDS};
use bench::{peers, plain};
use compare::library;
use compare::random::{self, Random};
use compare::shapes::{self, Shape};
use std::hint::black_box;

pub const NODES: usize = 256;

/// No form takes more than so many times plain Rust's time.
const FORM_RATIO: f64 = 2.0;

/// Fewer than in other tables, as the shapes are many.
const BATCHES: usize = 400;

pub fn run(missed: &mut Missed) {
    for Shape { name, tree } in shapes::all(NODES) {
        let [proved, plain] = times(&tree, BATCH_MICROSECONDS, BATCHES);
        crate::row(&format!("form, {name}"), proved, plain);
        let ratio = proved / plain;
        missed.extend((ratio > FORM_RATIO).then(|| format!("form, {name}: {ratio:.3}, target {FORM_RATIO}")));
    }
}

/// Microseconds of the tree's form, proved and plain, by so many batches of so long in turn. The answers are compared first.
pub fn times(tree: &[u16], microseconds: f64, batches: usize) -> [f64; 2] {
    let mut output = [0u16; NODES];
    assert_eq!(library::form(tree, &mut output), tree.len() as i64, "{tree:?}");
    assert_eq!(plain::form(tree), output[..tree.len()], "{tree:?}");
    let proved = Timed::by_batches_of(microseconds, || black_box(library::form(black_box(tree), &mut output)));
    let plain = Timed::by_batches_of(microseconds, || black_box(plain::form(black_box(tree))));
    times_in_turn(batches, proved, plain)
}

// ---------- groups ----------

/// Trees that are formed one after the other: small ones take too little time for one to be timed alone.
pub struct Group {
    pub name: String,
    pub trees: Vec<Vec<u16>>,
}

/// No larger than patterns.
const SMALL: [usize; 6] = [2, 3, 4, 8, 12, 16];

/// Different trees, too many for the processor to remember what follows; and copies of one tree.
const MANY: usize = 20_000;
const COPIES: usize = 64;

pub fn small_groups() -> impl Iterator<Item = Group> {
    let lists = [requests::nineteen(200, 6, 8), requests::longest(), requests::example()];
    SMALL.into_iter().flat_map(small_trees).chain(lists.into_iter().flat_map(listed))
}

pub fn large_groups() -> impl Iterator<Item = Group> {
    shapes::all(NODES).into_iter().map(|Shape { name, tree }| Group { name, trees: vec![tree] })
}

fn small_trees(nodes: usize) -> Vec<Group> {
    let random = &mut Random::new(nodes as u64);
    let group = |name: &str, trees| Group { name: format!("{nodes} nodes, {name}"), trees };
    let mut groups: Vec<Group> = shapes::leaves(nodes).into_iter().map(|shape| group(&shape.name, vec![shape.tree; COPIES])).collect();
    groups.push(group("chain", vec![requests::chain()[..nodes].to_vec(); COPIES]));
    let shaped: Vec<Vec<u16>> = shapes::all(nodes).into_iter().map(|shape| shape.tree).collect();
    groups.push(group("all shapes, shuffled", shaped.iter().cycle().take(MANY).map(|tree| random::shuffled(random, tree)).collect()));
    let any: Vec<Vec<u16>> = (0..MANY).map(|i| random::tree(random, nodes, &[1, 2, 3], 1 + i % 9)).collect();
    groups.push(group("random, in their forms", any.iter().map(|tree| plain::form(tree)).collect()));
    groups.push(group("random", any));
    groups
}

/// The first forms of the list, as they are, as a user might check them, and shuffled.
fn listed(request: Request) -> Vec<Group> {
    let mut forms = vec![];
    peers::mine(&request.fleet, request.asked(), &mut |form, _| {
        forms.push(form.to_vec());
        forms.len() < MANY
    });
    let random = &mut Random::new(1);
    let shuffled = forms.iter().map(|form| random::shuffled(random, form)).collect();
    let group = |order: &str, trees| Group { name: format!("forms of {}{order}", request.name), trees };
    vec![group(", shuffled", shuffled), group("", forms)]
}
