//! Remarks, the nodes of family 6: they stand in sheets and keep their numbers, but take no part in occurrence, support or the list.

use compare::model::{depth, family, label, pair};
use compare::random::Random;

/// Their labels in the fleets of the benchmark are the first so many of the family.
const LABELS: usize = 4;

pub fn is_remark(pair: u16) -> bool {
    family(label(pair)) == 6
}

/// The fleet without its remarks. They have no children, so it is a fleet.
pub fn left_out(fleet: &[u16]) -> Vec<u16> {
    fleet.iter().copied().filter(|&pair| !is_remark(pair)).collect()
}

/// The vehicle's tree with so many remarks put in, at random places where the family table allows them.
pub fn put_in(random: &mut Random, tree: &[u16], remarks: usize) -> Vec<u16> {
    let mut tree = tree.to_vec();
    for _ in 0..remarks {
        let (at, depth) = random.pick(&gaps(&tree));
        tree.insert(at, pair(depth, 601 + random.below(LABELS) as u16));
    }
    tree
}

/// Where a remark may stand, and how deep: under families 1 to 3, which are those at depths 0 to 2, and not before a child of its own.
fn gaps(tree: &[u16]) -> Vec<(usize, u16)> {
    let mut gaps = vec![];
    for at in 1..=tree.len() {
        let before = tree[at - 1];
        let deepest = if is_remark(before) { depth(before) } else { (depth(before) + 1).min(3) };
        let highest = tree.get(at).map_or(1, |&after| depth(after));
        gaps.extend((highest..=deepest).map(|depth| (at, depth)));
    }
    gaps
}
