//! Forms against the model: by all orders of children on small trees, by sorting on large ones.

use super::model::FORMS;
use crate::report::{number, Lent, Report};
use compare::model::{self, pair, parse};
use compare::shapes::{self, Shape};
use compare::{library, random};

pub fn run(report: &mut Report) {
    for (tree, form) in FORMS {
        let formed = form_into(report, "form: document 01", &parse(tree), 4);
        report.equal("form: document 01", formed, parse(form), tree);
    }
    shapes(report);
    refusals(report);
    for _ in 0..report.rounds * 30000 {
        small_trees(report);
    }
    for _ in 0..report.rounds * 6000 {
        large_trees(report);
    }
}

/// Forms the tree into an output of that length, looks at every lent element, and gives the form (empty where refused).
fn form_into(report: &mut Report, name: &'static str, tree: &[u16], output: usize) -> Vec<u16> {
    let (mut lent_tree, mut lent) = (Lent::input(&mut report.random, tree), Lent::output(&mut report.random, output));
    let got = library::form(lent_tree.slice(), lent.slice());
    report.met("form", got);
    let expected = model::form_call(tree, output);
    let result = expected.clone().unwrap_or_default();
    let wanted = number(&expected.map(|form| form.len() as i64));
    let untouched = lent.holds(&result) && lent_tree.untouched();
    report.check(name, got == wanted && untouched, || {
        format!("got {got}, expected {wanted}, memory as expected: {untouched}, output of {output}, tree {tree:?}")
    });
    lent.slice()[..got.max(0) as usize].to_vec()
}

fn shapes(report: &mut Report) {
    for nodes in shapes::SIZES {
        for Shape { tree, .. } in shapes::all(nodes) {
            form_into(report, "form: shapes", &tree, tree.len());
            for _ in 0..4 {
                let shuffled = random::shuffled(&mut report.random, &tree);
                form_into(report, "form: shapes", &shuffled, tree.len() + 3);
            }
        }
    }
}

/// 13, 14, 17 and their order.
fn refusals(report: &mut Report) {
    let name = "form: refusals";
    for nodes in [0, 1, 255, 256, 257, 1000, 5000] {
        for first in [101, 0, 1101] {
            let mut tree = vec![pair(1, 201); nodes];
            if nodes > 0 {
                tree[0] = first;
            }
            for output in [0, nodes.saturating_sub(1), nodes, nodes + 1] {
                form_into(report, name, &tree, output);
            }
        }
    }
    let deepest: Vec<u16> = (0..17).map(|at| pair(at, 401)).collect();
    for nodes in [15, 16, 17] {
        form_into(report, name, &deepest[..nodes], 20);
        form_into(report, name, &deepest[..nodes], 3);
    }
    for pairs in [vec![1000], vec![1], vec![999], vec![0], vec![101, 101], vec![101, 1000], vec![101, 2001], vec![101, 1001, 3001], vec![65535]] {
        form_into(report, name, &pairs, 4);
        form_into(report, name, &pairs, 0);
    }
}

/// Of any families; remarks stay in a form.
const LABELS: [u16; 5] = [1, 601, 301, 600, 999];

fn small_trees(report: &mut Report) {
    let random = &mut report.random;
    let (nodes, labels, down) = (random.between(1, 9), random.between(1, LABELS.len()), random.between(1, 9));
    let tree = random::tree(random, nodes, &LABELS[..labels], down);
    let output = random.pick(&[nodes, nodes, nodes + 1, nodes + 7, nodes - 1, 0]);
    form_into(report, "form: small trees", &tree, output);
    let damaged = random::damaged_pairs(&mut report.random, &tree);
    form_into(report, "form: damaged trees", &damaged, nodes + 2);
}

/// Large trees; another order of children has the same form, and a form is its own form.
fn large_trees(report: &mut Report) {
    let random = &mut report.random;
    let (nodes, labels, down) = (random.between(10, 256), random.between(1, LABELS.len()), random.between(1, 9));
    let tree = random::tree(random, nodes, &LABELS[..labels], down);
    let form = form_into(report, "form: large trees", &tree, nodes);
    let shuffled = random::shuffled(&mut report.random, &tree);
    let again = form_into(report, "form: large trees", &shuffled, nodes + 1);
    report.check("form: of another order", form == again, || model::text(&tree));
    let own = form_into(report, "form: large trees", &form, nodes);
    report.check("form: of a form", form == own, || model::text(&tree));
}
