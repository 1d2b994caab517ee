//! Closed and maximal lists: slip 5 of document 02 read word by word, over the model's lists. What decides is the support of supertrees, and
//! these are found in several ways, which the test program compares; the quickest looks only at supertrees of one more node.

use crate::library::{Request, CLOSED, FULL};
use crate::model::{self, label, List, Tree};
use std::collections::{BTreeMap, BTreeSet};

/// "closed lists a form if no proper supertree has the same support; maximal lists it if no proper supertree reaches the threshold."
fn keeps(request: Request, support: usize, of_supertrees: &[usize]) -> bool {
    match request.profile {
        FULL => true,
        CLOSED => !of_supertrees.contains(&support),
        _ => of_supertrees.iter().all(|&other| other < request.threshold),
    }
}

/// "Both profiles are parts of the full list in its order": what is kept of it, by the supports of a form's supertrees.
fn part(request: Request, full: List, of_supertrees: impl Fn(&[u16]) -> Vec<usize>) -> List {
    full.into_iter().filter(|(form, support)| keeps(request, *support, &of_supertrees(form))).collect()
}

fn full(fleet: &[u16], request: Request) -> List {
    model::list(&model::holdings(fleet, request.bound), request.threshold)
}

/// By all proper supertrees that some vehicle holds, of any size: no other has a support of 1 or more.
pub fn list_by_all_supertrees(fleet: &[u16], request: Request) -> List {
    let held = model::holdings(fleet, fleet.len());
    part(request, full(fleet, request), |form| {
        let supertrees = held.iter().filter(|(other, _)| other.len() > form.len() && model::heaviest_placing(form, other).is_some());
        supertrees.map(|(_, &support)| support).collect()
    })
}

/// By all supertrees of up to so many more nodes over the fleet's labels.
pub fn list_by_growing(fleet: &[u16], request: Request, more: usize) -> List {
    let labels: BTreeSet<u16> = fleet.iter().map(|&x| label(x)).collect();
    part(request, full(fleet, request), |form| {
        let (mut supports, mut trees) = (vec![], BTreeSet::from([form.to_vec()]));
        for _ in 0..more {
            trees = trees.iter().flat_map(|tree| grown(tree, &labels)).collect();
            supports.extend(trees.iter().map(|tree| model::support(fleet, tree)));
        }
        supports
    })
}

/// The forms of one more node in which the form occurs, over these labels: it has a new root above, or a new leaf below a node.
pub fn grown(form: &[u16], labels: &BTreeSet<u16>) -> BTreeSet<Vec<u16>> {
    let tree = Tree::of(form);
    let with = |&label: &u16| {
        let above = Tree { label, children: vec![tree.clone()] };
        with_leaf(&tree, label).into_iter().chain([above])
    };
    labels.iter().flat_map(with).map(|larger| larger.form()).collect()
}

/// The trees with a leaf more, below each node in turn.
fn with_leaf(tree: &Tree, label: u16) -> Vec<Tree> {
    let mut here = tree.clone();
    here.children.push(Tree { label, children: vec![] });
    let mut all = vec![here];
    for (i, child) in tree.children.iter().enumerate() {
        for larger in with_leaf(child, label) {
            let mut below = tree.clone();
            below.children[i] = larger;
            all.push(below);
        }
    }
    all
}

/// By the supertrees of one more node that vehicles hold: a form occurs in one if that becomes the form without one of its nodes.
pub fn list(fleet: &[u16], request: Request) -> List {
    if request.profile == FULL {
        return full(fleet, request);
    }
    let mut of_supertrees: BTreeMap<Vec<u16>, Vec<usize>> = BTreeMap::new();
    for (larger, support) in model::holdings(fleet, request.bound + 1) {
        for form in shrunk(&Tree::of(&larger)) {
            of_supertrees.entry(form).or_default().push(support);
        }
    }
    part(request, full(fleet, request), |form| of_supertrees.get(form).cloned().unwrap_or_default())
}

/// The forms of one node fewer: without a leaf, or without the root where it has one child.
fn shrunk(tree: &Tree) -> BTreeSet<Vec<u16>> {
    let mut smaller = without_leaf(tree);
    if let [only] = &tree.children[..] {
        smaller.push(only.clone());
    }
    smaller.iter().map(Tree::form).collect()
}

/// The trees with a leaf fewer, each leaf in turn; the root stays.
fn without_leaf(tree: &Tree) -> Vec<Tree> {
    let mut all = vec![];
    for (i, child) in tree.children.iter().enumerate() {
        let mut rest = tree.clone();
        rest.children.remove(i);
        if child.children.is_empty() {
            all.push(rest.clone());
        }
        for smaller in without_leaf(child) {
            let mut below = rest.clone();
            below.children.push(smaller);
            all.push(below);
        }
    }
    all
}
