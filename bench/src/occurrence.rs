//! The hard cases of the occurrence layer, and a plain Rust matching of the same question.

use crate::remarks;
use compare::random::Random;

/// A tree as labels and lists of children.
struct Tree {
    labels: Vec<u16>,
    children: Vec<Vec<usize>>,
}

fn tree(pairs: &[u16]) -> Tree {
    let mut children = vec![vec![]; pairs.len()];
    let mut path: Vec<usize> = vec![];
    for (node, &x) in pairs.iter().enumerate() {
        path.truncate((x / 1000) as usize);
        if let Some(&parent) = path.last() {
            children[parent].push(node);
        }
        path.push(node);
    }
    Tree { labels: pairs.iter().map(|x| x % 1000).collect(), children }
}

/// Which pattern node fits at which data node: a table filled from below.
fn table(pattern: &Tree, data: &Tree) -> Vec<Vec<bool>> {
    let mut fits = vec![vec![false; data.labels.len()]; pattern.labels.len()];
    for node in (0..pattern.labels.len()).rev() {
        for place in 0..data.labels.len() {
            let left = &pattern.children[node];
            let right = &data.children[place];
            fits[node][place] = pattern.labels[node] == data.labels[place] && matched(left, right, &fits, &vec![None; right.len()]);
        }
    }
    fits
}

/// Whether the children on the left fit at different ones on the right, beside those that hold a place already.
fn matched(left: &[usize], right: &[usize], fits: &[Vec<bool>], held: &[Option<usize>]) -> bool {
    let mut owner = held.to_vec();
    left.iter().enumerate().all(|(k, _)| augment(k, left, right, fits, &mut owner, &mut vec![false; right.len()]))
}

const FIXED: usize = usize::MAX;

fn augment(k: usize, left: &[usize], right: &[usize], fits: &[Vec<bool>], owner: &mut [Option<usize>], seen: &mut [bool]) -> bool {
    for r in 0..right.len() {
        if owner[r] == Some(FIXED) || seen[r] || !fits[left[k]][right[r]] {
            continue;
        }
        seen[r] = true;
        if owner[r].is_none() || augment(owner[r].unwrap(), left, right, fits, owner, seen) {
            owner[r] = Some(k);
            return true;
        }
    }
    false
}

fn vehicles(fleet: &[u16]) -> Vec<&[u16]> {
    let starts: Vec<usize> = (0..fleet.len()).filter(|&i| fleet[i] < 1000).chain([fleet.len()]).collect();
    starts.windows(2).map(|w| &fleet[w[0]..w[1]]).collect()
}

/// Remarks are left out once; then one in the pattern fits nowhere.
pub fn support(fleet: &[u16], pattern: &[u16]) -> usize {
    let (fleet, pattern) = (remarks::left_out(fleet), tree(pattern));
    vehicles(&fleet).iter().filter(|t| table(&pattern, &tree(t))[0].iter().any(|&fit| fit)).count()
}

/// The heaviest placing in the first vehicle's tree: the largest root, then each child at the largest place that leaves places for the rest.
pub fn place(fleet: &[u16], pattern: &[u16]) -> Option<Vec<u16>> {
    let vehicle = vehicles(fleet)[0];
    let data = tree(&remarks::left_out(vehicle));
    let pattern = tree(pattern);
    let fits = table(&pattern, &data);
    let mut places = vec![0; pattern.labels.len()];
    places[0] = (0..data.labels.len()).rev().find(|&v| fits[0][v])?;
    for node in 0..pattern.labels.len() {
        let left = &pattern.children[node];
        let right = &data.children[places[node]];
        let mut held = vec![None; right.len()];
        for (k, &child) in left.iter().enumerate() {
            let r = (0..right.len()).rev().find(|&r| {
                let mut tried = held.clone();
                held[r].is_none() && fits[child][right[r]] && {
                    tried[r] = Some(FIXED);
                    matched(&left[k + 1..], right, &fits, &tried)
                }
            })?;
            held[r] = Some(FIXED);
            places[child] = right[r];
        }
    }
    let numbers: Vec<u16> = (1..).zip(vehicle).filter(|(_, &pair)| !remarks::is_remark(pair)).map(|(number, _)| number).collect();
    Some(places.iter().map(|&v| numbers[v]).collect())
}

pub struct Case {
    pub name: String,
    pub fleet: Vec<u16>,
    pub pattern: Vec<u16>,
}

fn star(children: usize) -> Vec<u16> {
    [vec![101], vec![1201; children]].concat()
}

/// The pattern's child k has one child, of label k; the data's child k holds the labels k and k + 1, so the lowest first and the highest
/// first both go wrong, and every place but the last is wanted twice. The rest of the tree's nodes are children with other labels.
fn overlapping(children: u16, nodes: usize) -> (Vec<u16>, Vec<u16>) {
    let mut pattern = vec![101];
    let mut data = vec![101];
    for k in 1..=children {
        pattern.extend([1201, 2300 + k]);
        data.extend([1201, 2300 + k]);
        if k < children {
            data.push(2301 + k);
        }
    }
    while data.len() + 3 <= nodes {
        data.extend([1201, 2350, 2351]);
    }
    data.resize(nodes, 2351);
    (data, pattern)
}

fn chain(nodes: u16) -> Vec<u16> {
    (0..nodes).map(|d| 1000 * d + [101, 201, 301][d.min(2) as usize] + if d > 2 { 100 } else { 0 }).collect()
}

pub fn cases() -> Vec<Case> {
    let mut cases = vec![];
    let mut add = |name: String, fleet: Vec<u16>, pattern: Vec<u16>| cases.push(Case { name, fleet, pattern });
    for n in [5, 10, 15] {
        add(format!("{n} equal children against {}", n - 1), star(n - 1), star(n));
        add(format!("{n} equal children against 255"), star(255), star(n));
    }
    let long = chain(16);
    add("a chain of 16 in 17 such chains".into(), [vec![101], (0..17).flat_map(|_| long[1..].to_vec()).collect()].concat(), long.clone());
    for n in [3, 5, 7] {
        let (data, pattern) = overlapping(n, 256);
        add(format!("{n} overlapping children in 256 nodes"), data.clone(), pattern.clone());
        add(format!("{n} overlapping children in a fleet of 16 such trees"), data.repeat(16), pattern);
    }
    cases.extend(remarked_cases());
    cases
}

/// Trees of 256 nodes, a third or two thirds of them remarks; and a pattern with a remark, which occurs nowhere.
fn remarked_cases() -> Vec<Case> {
    let random = &mut Random::new(6);
    let mut cases = vec![];
    let mut add = |name: String, fleet: Vec<u16>, pattern: Vec<u16>| cases.push(Case { name, fleet, pattern });
    for remarks in [85, 170] {
        let fleet = remarks::put_in(random, &star(255 - remarks), remarks);
        add(format!("15 equal children against {}, {remarks} remarks", 255 - remarks), fleet, star(15));
        let (data, pattern) = overlapping(7, 256 - remarks);
        let fleet = remarks::put_in(random, &data, remarks);
        add(format!("7 overlapping children, {remarks} remarks in 256 nodes"), fleet.clone(), pattern.clone());
        add(format!("7 overlapping children, {remarks} remarks, 16 such trees"), fleet.repeat(16), pattern);
    }
    let all = remarks::put_in(random, &[101], 255);
    add("a remark in the pattern, 255 in the tree".into(), all, vec![101, 1601]);
    cases
}
