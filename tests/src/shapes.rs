//! Trees of so many nodes in shapes that are hard to order: leaves, blocks, spines and two levels of children, each in several orders; those
//! of `random::shaped_trees` (the full binary tree has 255 nodes at most), and random trees.

use crate::model::pair;
use crate::random::{self, Random};
use std::collections::HashSet;

/// The smallest trees, those about the size of the largest pattern, and up to the largest tree.
pub const SIZES: [usize; 8] = [1, 2, 3, 16, 17, 64, 255, 256];

pub struct Shape {
    pub name: String,
    pub tree: Vec<u16>,
}

impl Shape {
    /// The root has label 1; leaves of label 1 fill the tree up.
    fn new(name: String, nodes: usize, below: impl IntoIterator<Item = u16>) -> Shape {
        let tree: Vec<u16> = std::iter::once(1).chain(below).chain(std::iter::repeat(pair(1, 1))).take(nodes).collect();
        Shape { name, tree }
    }
}

/// All of them, no tree twice: at small sizes many shapes are the same.
pub fn all(nodes: usize) -> Vec<Shape> {
    let mut shapes = leaves(nodes);
    shapes.extend(MORE_ORDERS.map(|order| leaves_in(nodes, order)));
    shapes.extend([blocks(nodes), spines(nodes), two_levels(nodes), others(nodes)].into_iter().flatten());
    let mut met = HashSet::new();
    shapes.retain(|shape| met.insert(shape.tree.clone()));
    shapes
}

// ---------- orders ----------

/// The ranks of so many siblings, one after the other; 0 is the lightest.
type Order = fn(usize) -> Vec<usize>;

const ORDERS: [(&str, Order); 4] = [("rising", rising), ("falling", falling), ("equal", equal), ("random", any)];

/// The last two are hard on a merge: siblings of its two halves, or of the halves of every part, go in turn.
const MORE_ORDERS: [(&str, Order); 5] = [
    ("every second one", |siblings| (0..siblings).step_by(2).chain((1..siblings).step_by(2)).collect()),
    ("up and down", |siblings| (0..siblings).step_by(2).chain((1..siblings).step_by(2).rev()).collect()),
    ("halves in turn", |siblings| (0..siblings).map(|i| i / 2 + i % 2 * siblings.div_ceil(2)).collect()),
    ("every second one, falling", |siblings| (0..siblings).step_by(2).chain((1..siblings).step_by(2)).map(|i| siblings - 1 - i).collect()),
    ("bits reversed", bits_reversed),
];

fn rising(siblings: usize) -> Vec<usize> {
    (0..siblings).collect()
}

fn falling(siblings: usize) -> Vec<usize> {
    (0..siblings).rev().collect()
}

fn equal(siblings: usize) -> Vec<usize> {
    vec![0; siblings]
}

fn any(siblings: usize) -> Vec<usize> {
    let random = &mut Random::new(siblings as u64);
    let mut left = rising(siblings);
    (0..siblings).map(|_| left.swap_remove(random.below(left.len()))).collect()
}

fn bits_reversed(siblings: usize) -> Vec<usize> {
    let bits = siblings.next_power_of_two().trailing_zeros().max(1);
    (0..1 << bits).map(|i: usize| i.reverse_bits() >> (usize::BITS - bits)).filter(|&rank| rank < siblings).collect()
}

// ---------- shapes ----------

/// All children of the root, in the first orders.
pub fn leaves(nodes: usize) -> Vec<Shape> {
    ORDERS.into_iter().map(|order| leaves_in(nodes, order)).collect()
}

fn leaves_in(nodes: usize, (name, order): (&str, Order)) -> Shape {
    Shape::new(format!("leaves, {name}"), nodes, order(nodes - 1).into_iter().map(|rank| pair(1, 1 + rank as u16)))
}

/// Blocks are children of the root, of so many nodes: leaves below its first node, or a chain.
const BLOCKS: [(&str, usize, bool); 4] =
    [("blocks of 2", 2, false), ("blocks of 3", 3, false), ("blocks of 15", 15, false), ("chains of 15", 15, true)];

/// Labels of the first and the last node of a block, where only the one or only the other tells blocks apart.
const DIFFERING: [(&str, fn(u16) -> (u16, u16)); 2] = [("first", |label| (label, 1)), ("last", |label| (1, label))];

fn blocks(nodes: usize) -> Vec<Shape> {
    let mut shapes = vec![];
    for (block_name, size, is_chain) in BLOCKS {
        for (order_name, order) in ORDERS {
            let ranks = order((nodes - 1) / size);
            shapes.extend(DIFFERING.map(|(differing, ends)| {
                let blocks = ranks.iter().flat_map(|&rank| block(size, is_chain, ends(1 + rank as u16)));
                Shape::new(format!("{block_name}, {differing} pairs {order_name}"), nodes, blocks)
            }));
        }
    }
    shapes
}

/// In its form, whatever the labels of its ends.
fn block(size: usize, is_chain: bool, (first, last): (u16, u16)) -> Vec<u16> {
    let label = |i| match i {
        0 => first,
        _ if i + 1 == size => last,
        _ => 999,
    };
    let depth = |i: usize| if is_chain { 1 + i } else { 1 + i.min(1) };
    (0..size).map(|i| pair(depth(i) as u16, label(i))).collect()
}

/// How many leaves stand beside a spine's node, and of them before it.
const BESIDE: usize = 17;
const PLACES: [(&str, fn(usize) -> usize); 3] = [("before", |leaves| leaves), ("after", |_| 0), ("around", |leaves| leaves / 2)];

/// The leaves beside a spine's node, in their order, labels 2, 4, .. 34; and what it is among them, by its label.
const SPINES: [(&str, Order, &str, u16); 7] = [
    ("equal leaves", equal, "", 2),
    ("equal leaves", equal, ", lightest", 1),
    ("rising leaves", rising, ", heaviest", 999),
    ("rising leaves", rising, ", in the middle", 19),
    ("rising leaves", rising, ", lightest", 1),
    ("falling leaves", falling, ", heaviest", 999),
    ("falling leaves", falling, ", lightest", 1),
];

fn spines(nodes: usize) -> Vec<Shape> {
    let random = &mut Random::new(3);
    let mut shapes = vec![];
    for (leaves, order, among, label) in SPINES {
        let placed = PLACES.map(|(place, before)| {
            let name = format!("spine{among}, {leaves} {place} it");
            Shape::new(name, nodes, spine(nodes, before, order, label))
        });
        let shuffled = Shape { name: format!("spine{among}, {leaves}, shuffled"), tree: random::shuffled(random, &placed[0].tree) };
        shapes.extend(placed.into_iter().chain([shuffled]));
    }
    shapes
}

/// A level of 18 nodes below each other's spine node, from the deepest up; the deepest has what is left.
fn spine(nodes: usize, before: fn(usize) -> usize, order: Order, label: u16) -> Vec<u16> {
    let levels: Vec<usize> = (1..nodes).step_by(BESIDE + 1).map(|first| BESIDE.min(nodes - 1 - first)).collect();
    let mut below = vec![];
    for (depth, &beside) in (1..).zip(&levels).collect::<Vec<_>>().into_iter().rev() {
        let mut level: Vec<u16> = order(beside).into_iter().map(|rank| pair(depth, 2 + 2 * rank as u16)).collect();
        let at = before(beside);
        level.splice(at..at, [pair(depth, label)].into_iter().chain(below));
        below = level;
    }
    below
}

/// About as many children of the root as each has leaves.
fn two_levels(nodes: usize) -> Vec<Shape> {
    let children = (nodes - 1).isqrt();
    let leaves = (nodes - 1).checked_div(children).map_or(0, |size| size - 1);
    let mut shapes = vec![];
    for (upper_name, upper) in ORDERS {
        for (lower_name, lower) in ORDERS {
            let below: Vec<u16> = lower(leaves).into_iter().map(|rank| pair(2, 1 + rank as u16)).collect();
            let child = |rank| [vec![pair(1, 1 + rank as u16)], below.clone()].concat();
            let name = format!("{children} children, {upper_name}, of {leaves} leaves, {lower_name}");
            shapes.push(Shape::new(name, nodes, upper(children).into_iter().flat_map(child)));
        }
    }
    shapes
}

fn others(nodes: usize) -> Vec<Shape> {
    let random = &mut Random::new(2);
    let mut trees = random::shaped_trees(nodes);
    trees.push(("random, one label", random::tree(random, nodes, &[1], 5)));
    trees.push(("random, three labels", random::tree(random, nodes, &[1, 2, 3], 5)));
    trees.push(("random, flat", random::tree(random, nodes, &[1, 2, 3], 2)));
    let mut shapes = vec![];
    for (name, tree) in trees {
        let shuffled = Shape { name: format!("{name}, shuffled"), tree: random::shuffled(random, &tree) };
        shapes.extend([Shape { name: name.into(), tree }, shuffled]);
    }
    shapes
}
