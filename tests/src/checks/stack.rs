//! The form takes the same little stack for every tree: it is made within the output, by no recursion and with no array. That it is the same
//! to the byte is also the compiler's doing, which makes one function of all: a build that differs by a few bytes is to be looked at, not wrong
//! by itself.

use crate::report::Report;
use compare::library;
use compare::random;
use compare::shapes::{self, Shape, SIZES};
use compare::stack::Stack;
use std::hint::black_box;

/// Far more than a call takes, so that one that takes more is seen and harms nothing.
const BYTES: usize = 1 << 18;

/// Half of what an array of a tree's pairs, 256 of two bytes, would take alone.
const MOST: usize = 256;

pub fn run(report: &mut Report) {
    let stack = &mut Stack::painted(BYTES);
    let with_array = stack.taken(|| {
        black_box(&mut [0u16; MOST / 2]);
    });
    report.check("stack: an array is seen", with_array > MOST, || format!("{with_array} bytes"));
    let one_node = taken_by_form(stack, &[1]);
    report.check("stack: form", one_node <= MOST, || format!("{one_node} bytes"));
    for nodes in SIZES {
        for tree in trees(report, nodes) {
            let taken = taken_by_form(stack, &tree);
            report.check("stack: form", taken == one_node, || format!("{taken} bytes, for one node {one_node}, tree {tree:?}"));
        }
    }
}

fn taken_by_form(stack: &mut Stack, tree: &[u16]) -> usize {
    let mut output = [0; 256];
    stack.taken(|| assert_eq!(library::form(tree, &mut output), tree.len() as i64))
}

/// Of every shape, and random ones of few labels and of many, flat and deep.
fn trees(report: &mut Report, nodes: usize) -> Vec<Vec<u16>> {
    let mut trees: Vec<Vec<u16>> = shapes::all(nodes).into_iter().map(|Shape { tree, .. }| tree).collect();
    for round in 0..report.rounds * 100 {
        let random = &mut report.random;
        let labels: Vec<u16> = (0..random.pick(&[1, 2, 5, 100])).map(|_| random.between(1, 999) as u16).collect();
        let tree = random::tree(random, nodes, &labels, 1 + round % 9);
        trees.push(random::shuffled(random, &tree));
        trees.push(tree);
    }
    trees
}
