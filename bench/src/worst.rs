//! A search for the tree whose form takes the most times a plain sort's time (`bench/run --worst-form [SECONDS]`): from every shape, by one
//! random change at a time, towards the larger ratio. The seeds are fixed, but which trees are gone on from is decided by times, so no two runs
//! are the same.

use crate::forms::{self, NODES};
use compare::model::{depth, label, pair};
use compare::random::Random;
use compare::shapes::{self, Shape};
use std::time::{Duration, Instant};

/// How long the climbs take together, if nothing else is said.
pub const SECONDS: usize = 60;

/// Besides all shapes of the largest trees, the worst shape of each of these sizes is a start.
const SIZES: [usize; 14] = [2, 3, 4, 5, 6, 8, 12, 16, 20, 24, 32, 40, 64, 128];

/// Half of the time is for all starts, the other half for so many that got furthest.
const FURTHEST: usize = 10;

const DEEPEST: u16 = 15;

// ---------- how bad a tree is ----------

/// Microseconds of a batch, and batches of each side.
type Look = (f64, usize);

/// At every tree, before one is taken over (twice), and for what is printed.
const FIRST: Look = (20.0, 8);
const SECOND: Look = (20.0, 40);
const LAST: Look = (200.0, 150);

fn ratio(tree: &[u16], (microseconds, batches): Look) -> f64 {
    let [proved, plain] = forms::times(tree, microseconds, batches);
    proved / plain
}

// ---------- the climb ----------

struct Climb {
    start: String,
    random: Random,
    tree: Vec<u16>,
    ratio: f64,
    tried: usize,
}

impl Climb {
    fn new(seed: usize, nodes: usize, Shape { name, tree }: Shape) -> Climb {
        let ratio = ratio(&tree, SECOND);
        Climb { start: format!("{nodes} nodes, {name}"), random: Random::new(seed as u64), tree, ratio, tried: 0 }
    }

    fn go_on(&mut self, time: Duration) {
        let begun = Instant::now();
        while begun.elapsed() < time {
            self.tried += 1;
            let tree = changed(&mut self.random, &self.tree);
            if ratio(&tree, FIRST) > self.ratio {
                self.look_again(tree);
            }
        }
    }

    /// Takes the tree over if it is worse in the better of two longer looks: many trees are tried, and some seem worse by chance.
    fn look_again(&mut self, tree: Vec<u16>) {
        let ratio = ratio(&tree, SECOND).min(ratio(&tree, SECOND));
        if ratio > self.ratio {
            (self.tree, self.ratio) = (tree, ratio);
        }
    }
}

fn worst_shape(nodes: usize) -> Shape {
    let by_ratio = |shape: Shape| (ratio(&shape.tree, SECOND), shape);
    let all = shapes::all(nodes).into_iter().map(by_ratio);
    all.max_by(|(one, _), (other, _)| one.total_cmp(other)).expect("a shape").1
}

fn starts() -> Vec<Climb> {
    let large = shapes::all(NODES).into_iter().map(|shape| (NODES, shape));
    let small = SIZES.into_iter().map(|nodes| (nodes, worst_shape(nodes)));
    large.chain(small).enumerate().map(|(seed, (nodes, shape))| Climb::new(seed, nodes, shape)).collect()
}

fn worst_first(climbs: &mut [Climb]) {
    climbs.sort_by(|one, other| other.ratio.total_cmp(&one.ratio));
}

pub fn run(seconds: usize) {
    let mut climbs = starts();
    let half = Duration::from_secs(seconds as u64) / 2;
    let share = half / climbs.len() as u32;
    climbs.iter_mut().for_each(|climb| climb.go_on(share));
    worst_first(&mut climbs);
    climbs[..FURTHEST].iter_mut().for_each(|climb| climb.go_on(half / FURTHEST as u32));
    climbs.iter_mut().for_each(|climb| climb.ratio = ratio(&climb.tree, LAST));
    worst_first(&mut climbs);
    print(&climbs);
}

/// A table, Markdown as in docs/BENCHMARKS.md, and the worst tree.
fn print(climbs: &[Climb]) {
    println!("The form, proved / plain: the worst tree that each climb found, and the shape from which it started\n");
    println!("| {:>6} | {:>5} | {:>6} | {:<59} |", "ratio", "nodes", "tried", "from");
    println!("|-------:|------:|-------:|{}|", "-".repeat(61));
    for Climb { start, tree, ratio, tried, .. } in climbs {
        println!("| {ratio:>6.2} | {:>5} | {tried:>6} | {start:<59} |", tree.len());
    }
    let tried: usize = climbs.iter().map(|climb| climb.tried).sum();
    println!("\n{tried} trees tried, all answers equal. The worst, {:.2}:\n{:?}", climbs[0].ratio, climbs[0].tree);
}

// ---------- one change ----------

fn changed(random: &mut Random, tree: &[u16]) -> Vec<u16> {
    match random.below(if tree.len() == 1 { 2 } else { 7 }) {
        0 => with_leaf(random, tree),
        1 => relabelled(random, tree),
        2 => without_leaf(random, tree),
        3 => {
            let fewer = without_leaf(random, tree);
            with_leaf(random, &fewer)
        }
        4 => moved(random, tree),
        _ => exchanged(random, tree),
    }
}

/// A label of the tree, one next to it, or any.
fn some_label(random: &mut Random, tree: &[u16]) -> u16 {
    let known = label(random.pick(tree));
    let any = random.between(1, 999) as u16;
    random.pick(&[known, known, known - 1, known + 1, any]).clamp(1, 999)
}

fn relabelled(random: &mut Random, tree: &[u16]) -> Vec<u16> {
    let mut tree = tree.to_vec();
    let i = random.below(tree.len());
    tree[i] = pair(depth(tree[i]), some_label(random, &tree));
    tree
}

fn with_leaf(random: &mut Random, tree: &[u16]) -> Vec<u16> {
    if tree.len() == NODES {
        return tree.to_vec();
    }
    let leaf = some_label(random, tree);
    put(random, tree, &[leaf])
}

fn without_leaf(random: &mut Random, tree: &[u16]) -> Vec<u16> {
    let leaves: Vec<usize> = (1..tree.len()).filter(|&i| end(tree, i) == i + 1).collect();
    let leaf = random.pick(&leaves);
    [&tree[..leaf], &tree[leaf + 1..]].concat()
}

/// A subtree moved below another node, or elsewhere below its own.
fn moved(random: &mut Random, tree: &[u16]) -> Vec<u16> {
    let begin = random.between(1, tree.len() - 1);
    let end = end(tree, begin);
    let part: Vec<u16> = tree[begin..end].iter().map(|&node| node - pair(depth(tree[begin]), 0)).collect();
    put(random, &[&tree[..begin], &tree[end..]].concat(), &part)
}

/// Two siblings exchanged.
fn exchanged(random: &mut Random, tree: &[u16]) -> Vec<u16> {
    let one = random.between(1, tree.len() - 1);
    let parent = (0..one).rev().find(|&i| depth(tree[i]) < depth(tree[one])).expect("a parent");
    let siblings: Vec<usize> = (parent + 1..end(tree, parent)).filter(|&i| depth(tree[i]) == depth(tree[one])).collect();
    let other = random.pick(&siblings);
    let (i, j) = (one.min(other), one.max(other));
    if i == j {
        return tree.to_vec();
    }
    let (behind_i, behind_j) = (end(tree, i), end(tree, j));
    [&tree[..i], &tree[j..behind_j], &tree[behind_i..j], &tree[i..behind_i], &tree[behind_j..]].concat()
}

/// The tree with another one, whose root is at depth 0, among the children of any node that leaves it room down to the deepest depth.
fn put(random: &mut Random, tree: &[u16], part: &[u16]) -> Vec<u16> {
    let height = part.iter().map(|&node| depth(node)).max().expect("a node");
    let parents: Vec<usize> = (0..tree.len()).filter(|&i| depth(tree[i]) + 1 + height <= DEEPEST).collect();
    let parent = random.pick(&parents);
    let down = depth(tree[parent]) + 1;
    let end = end(tree, parent);
    let places: Vec<usize> = (parent + 1..=end).filter(|&i| i == end || depth(tree[i]) == down).collect();
    let at = random.pick(&places);
    let lowered: Vec<u16> = part.iter().map(|&node| node + pair(down, 0)).collect();
    [&tree[..at], &lowered, &tree[at..]].concat()
}

/// Where the subtree of the node ends.
fn end(tree: &[u16], node: usize) -> usize {
    (node + 1..tree.len()).find(|&i| depth(tree[i]) <= depth(tree[node])).unwrap_or(tree.len())
}
