//! A fast miner in plain Rust: what a programmer would write without proofs. It keeps, for each pattern node, the set of data
//! nodes where its subtree fits, and a new node changes only the sets along the branch above it. A closed or maximal list is the full one
//! without the patterns of which a supertree of one more node is held too often. The benchmark compares with it; the test program uses it
//! where the plain model would take too long, and compares the two on small fleets.

use crate::library::{Request, CLOSED, FULL};
use crate::model::{depth, label, pair};

const WORDS: usize = 64;

/// A set of data nodes.
#[derive(Clone)]
struct Nodes {
    list: Vec<u16>,
    bits: [u64; WORDS],
}

impl Nodes {
    fn none() -> Nodes {
        Nodes { list: vec![], bits: [0; WORDS] }
    }

    fn insert(&mut self, node: u16) {
        self.list.push(node);
        self.bits[node as usize / 64] |= 1 << (node % 64);
    }

    fn has(&self, node: u16) -> bool {
        self.bits[node as usize / 64] >> (node % 64) & 1 == 1
    }
}

/// A pattern has depths up to 15, its supertrees of one more node up to 16.
const LEVELS: usize = 17;

/// The parent of each node; none of a root.
fn parents(pairs: &[u16]) -> Vec<Option<u16>> {
    let mut branch = [0u16; LEVELS];
    let parent = |(i, &x): (usize, &u16)| {
        let at = depth(x) as usize;
        branch[at] = i as u16;
        (at > 0).then(|| branch[at - 1])
    };
    pairs.iter().enumerate().map(parent).collect()
}

/// The children of each node, as far as they are wanted.
fn children(pairs: &[u16], wanted: impl Fn(u16) -> bool) -> Vec<Vec<u16>> {
    let mut children = vec![vec![]; pairs.len()];
    for (i, parent) in parents(pairs).into_iter().enumerate() {
        if let Some(parent) = parent.filter(|_| wanted(pairs[i])) {
            children[parent as usize].push(i as u16);
        }
    }
    children
}

/// The fleet's nodes with their vehicles. Remarks (document 02) keep their numbers, but are neither among the places nor among the children.
struct Data {
    label: Vec<u16>,
    vehicle: Vec<u8>,
    places: Vec<u16>,
    parent: Vec<Option<u16>>,
    children: Vec<Vec<u16>>,
}

impl Data {
    fn new(fleet: &[u16]) -> Data {
        let counts = |x: u16| !(600..=699).contains(&label(x));
        let mut data = Data { label: vec![], vehicle: vec![], places: vec![], parent: parents(fleet), children: children(fleet, counts) };
        let mut vehicle = 0;
        for (i, &x) in fleet.iter().enumerate() {
            vehicle += (depth(x) == 0) as u8;
            data.label.push(label(x));
            data.vehicle.push(vehicle - 1);
            if counts(x) {
                data.places.push(i as u16);
            }
        }
        data
    }

    fn vehicles_of(&self, nodes: &Nodes) -> u64 {
        nodes.list.iter().fold(0, |set, &d| set | 1 << self.vehicle[d as usize])
    }
}

/// Finds a different place among `places` for each of the pattern nodes, by augmenting paths.
fn all_seated(wanting: &[usize], places: &[u16], fits: &[Nodes]) -> bool {
    let mut holder = [usize::MAX; 256];
    (0..wanting.len()).all(|w| seat(w, wanting, places, fits, &mut holder, &mut [false; 256]))
}

fn seat(w: usize, wanting: &[usize], places: &[u16], fits: &[Nodes], holder: &mut [usize; 256], seen: &mut [bool; 256]) -> bool {
    for (i, &place) in places.iter().enumerate() {
        if !seen[i] && fits[wanting[w]].has(place) {
            seen[i] = true;
            if holder[i] == usize::MAX || seat(holder[i], wanting, places, fits, holder, seen) {
                holder[i] = w;
                return true;
            }
        }
    }
    false
}

/// Calls `found` with every listed form and its support, lightest first, until it says false.
pub fn mine(fleet: &[u16], request: Request, found: &mut dyn FnMut(&[u16], usize) -> bool) {
    let data = Data::new(fleet);
    let mut of_label: Vec<Vec<u16>> = vec![vec![]; LABELS];
    for &d in &data.places {
        of_label[data.label[d as usize] as usize].push(d);
    }
    for (first, list) in of_label.iter().enumerate().filter(|(_, list)| list.len() >= request.threshold) {
        let mut nodes = Nodes::none();
        list.iter().for_each(|&d| nodes.insert(d));
        let pattern = vec![first as u16];
        let mut search = Search { data: &data, request, pattern, fits: vec![nodes], parent: vec![None], children: vec![vec![]], found };
        if !search.report() {
            return;
        }
    }
}

/// One more than the greatest label.
const LABELS: usize = 1000;

struct Search<'a> {
    data: &'a Data,
    request: Request,
    pattern: Vec<u16>,
    fits: Vec<Nodes>,
    parent: Vec<Option<usize>>,
    children: Vec<Vec<usize>>,
    found: &'a mut dyn FnMut(&[u16], usize) -> bool,
}

impl Search<'_> {
    /// Reports the pattern, if it is listed, then all its extensions. False: stop.
    fn report(&mut self) -> bool {
        let support = self.held().count_ones() as usize;
        if support < self.request.threshold {
            return true;
        }
        if self.kept(support) && !(self.found)(&self.pattern, support) {
            return false;
        }
        if self.pattern.len() == self.request.bound {
            return true;
        }
        let branch = self.rightmost_branch();
        branch.iter().enumerate().all(|(at, &node)| self.extend_below(node, at))
    }

    /// The vehicles that hold the pattern.
    fn held(&self) -> u64 {
        self.data.vehicles_of(&self.fits[0])
    }

    fn rightmost_branch(&self) -> Vec<usize> {
        let mut branch = vec![0];
        while let Some(&last) = self.children[branch[branch.len() - 1]].last() {
            branch.push(last);
        }
        branch
    }

    /// All extensions by a child of the rightmost branch's node at this depth, by rising label.
    fn extend_below(&mut self, node: usize, at: usize) -> bool {
        if at == 15 {
            return true;
        }
        let held = self.held();
        let mut vehicles = vec![0u64; LABELS];
        for &d in &self.fits[node].list {
            for &e in &self.data.children[d as usize] {
                vehicles[self.data.label[e as usize] as usize] |= 1 << self.data.vehicle[d as usize] & held;
            }
        }
        for new in 1..LABELS as u16 {
            if vehicles[new as usize].count_ones() as usize >= self.request.threshold && !self.extend_by(node, pair(at as u16 + 1, new)) {
                return false;
            }
        }
        true
    }

    /// The extension by this last node, if it is in its form.
    fn extend_by(&mut self, node: usize, leaf: u16) -> bool {
        self.pattern.push(leaf);
        let in_form = left_heavy(&self.pattern);
        self.pattern.pop();
        !in_form || self.with_leaf(node, leaf, |search| search.report())
    }

    /// With a new leaf below the node, all sets along the branch above it recomputed, does what is asked; then takes the leaf out again.
    fn with_leaf<T>(&mut self, node: usize, leaf: u16, then: impl FnOnce(&mut Self) -> T) -> T {
        let index = self.pattern.len();
        let mut nodes = Nodes::none();
        for &d in &self.fits[node].list {
            self.data.children[d as usize].iter().filter(|&&e| self.data.label[e as usize] == label(leaf)).for_each(|&e| nodes.insert(e));
        }
        self.pattern.push(leaf);
        self.fits.push(nodes);
        self.parent.push(Some(node));
        self.children.push(vec![]);
        self.children[node].push(index);
        let mut saved = vec![];
        let mut changed = index;
        while let Some(above) = self.parent[changed] {
            let still = self.still_fitting(above, changed);
            saved.push((above, std::mem::replace(&mut self.fits[above], still)));
            changed = above;
        }
        let result = then(self);
        for (above, old) in saved {
            self.fits[above] = old;
        }
        self.children[node].pop();
        self.children.pop();
        self.parent.pop();
        self.fits.pop();
        self.pattern.pop();
        result
    }

    /// Where the pattern node still fits now that this child fits in fewer places. Children of other labels do not compete.
    fn still_fitting(&self, node: usize, changed: usize) -> Nodes {
        let same: Vec<usize> = self.children[node].iter().copied().filter(|&c| label(self.pattern[c]) == label(self.pattern[changed])).collect();
        let mut still = Nodes::none();
        for &d in &self.fits[node].list {
            let places = &self.data.children[d as usize];
            let fits = match same.len() {
                1 => places.iter().any(|&e| self.fits[changed].has(e)),
                _ => all_seated(&same, places, &self.fits),
            };
            if fits {
                still.insert(d);
            }
        }
        still
    }

    /// Whether the profile keeps the pattern: no supertree of one more node has its support, or reaches the threshold. None has more.
    fn kept(&mut self, support: usize) -> bool {
        let enough = match self.request.profile {
            FULL => return true,
            CLOSED => support,
            _ => self.request.threshold,
        };
        !self.held_below_a_root(enough) && !(0..self.pattern.len()).any(|node| self.held_with_leaf(node, enough))
    }

    /// Whether so many vehicles hold the pattern with a new root above.
    fn held_below_a_root(&self, enough: usize) -> bool {
        let mut holders = [0u64; LABELS];
        for &d in &self.fits[0].list {
            if let Some(above) = self.data.parent[d as usize] {
                holders[self.data.label[above as usize] as usize] |= 1 << self.data.vehicle[d as usize];
            }
        }
        holders.iter().any(|set| set.count_ones() as usize >= enough)
    }

    /// The labels that a new leaf below the node may have so that as many vehicles as that might hold the pattern: in these a place of the node
    /// has more children of the label than the node has.
    fn labels_below(&self, node: usize, vehicles: usize) -> Vec<u16> {
        let held = self.held();
        let (mut holders, mut left) = ([0u64; LABELS], [0u8; LABELS]);
        let mut met: Vec<u16> = vec![];
        for &d in &self.fits[node].list {
            for &child in &self.children[node] {
                left[label(self.pattern[child]) as usize] = 0;
            }
            for &child in &self.children[node] {
                left[label(self.pattern[child]) as usize] += 1;
            }
            for &e in &self.data.children[d as usize] {
                let label = self.data.label[e as usize] as usize;
                if left[label] > 0 {
                    left[label] -= 1;
                    continue;
                }
                if holders[label] == 0 {
                    met.push(label as u16);
                }
                holders[label] |= 1 << self.data.vehicle[d as usize];
            }
        }
        met.retain(|&label| (holders[label as usize] & held).count_ones() as usize >= vehicles);
        met
    }

    /// Whether so many vehicles hold the pattern with a new leaf below the node.
    fn held_with_leaf(&mut self, node: usize, enough: usize) -> bool {
        self.labels_below(node, enough).iter().any(|&new| self.with_leaf(node, new, |search| search.held().count_ones() as usize >= enough))
    }
}

/// Each subtree is no lighter than its right neighbour's.
pub fn left_heavy(pattern: &[u16]) -> bool {
    let end = |i: usize| (i + 1..pattern.len()).find(|&j| depth(pattern[j]) <= depth(pattern[i])).unwrap_or(pattern.len());
    (1..pattern.len()).all(|i| {
        let j = end(i);
        j == pattern.len() || depth(pattern[j]) < depth(pattern[i]) || pattern[i..j] >= pattern[j..end(j)]
    })
}

/// The heaviest placing by matching: node by node the largest place that leaves the rest placeable.
pub fn heaviest_placing(pattern: &[u16], tree: &[u16]) -> Option<Vec<u16>> {
    let data = Data::new(tree);
    let below = children(pattern, |_| true);
    let mut fits: Vec<Nodes> = vec![Nodes::none(); pattern.len()];
    for p in (0..pattern.len()).rev() {
        let wanting: Vec<usize> = below[p].iter().map(|&c| c as usize).collect();
        for &d in &data.places {
            if label(pattern[p]) == data.label[d as usize] && all_seated(&wanting, &data.children[d as usize], &fits) {
                fits[p].insert(d);
            }
        }
    }
    let root = *fits[0].list.last()?;
    let mut placed = vec![0; pattern.len()];
    placed[0] = root;
    for p in 0..pattern.len() {
        let wanting: Vec<usize> = below[p].iter().map(|&c| c as usize).collect();
        let mut places = data.children[placed[p] as usize].clone();
        for (i, &child) in wanting.iter().enumerate() {
            let chosen = (0..places.len()).rev().find(|&k| {
                let mut others = places.clone();
                others.remove(k);
                fits[child].has(places[k]) && all_seated(&wanting[i + 1..], &others, &fits)
            })?;
            placed[child] = places.remove(chosen);
        }
    }
    Some(placed.iter().map(|&d| d + 1).collect())
}
