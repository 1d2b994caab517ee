//! Random fleets, patterns and sheets from a seed.

use crate::model::{bytes_of, depth, family, label, may_stand, pair, vehicles};

/// SplitMix64.
pub struct Random(u64);

impl Random {
    pub fn new(seed: u64) -> Random {
        Random(seed)
    }

    pub fn next(&mut self) -> u64 {
        self.0 = self.0.wrapping_add(0x9e37_79b9_7f4a_7c15);
        let x = (self.0 ^ (self.0 >> 30)).wrapping_mul(0xbf58_476d_1ce4_e5b9);
        let x = (x ^ (x >> 27)).wrapping_mul(0x94d0_49bb_1331_11eb);
        x ^ (x >> 31)
    }

    pub fn below(&mut self, n: usize) -> usize {
        (self.next() % n as u64) as usize
    }

    pub fn between(&mut self, low: usize, high: usize) -> usize {
        low + self.below(high - low + 1)
    }

    pub fn one_in(&mut self, n: usize) -> bool {
        self.below(n) == 0
    }

    pub fn pick<T: Copy>(&mut self, from: &[T]) -> T {
        from[self.below(from.len())]
    }

    pub fn bytes(&mut self, n: usize) -> Vec<u8> {
        (0..n).map(|_| self.next() as u8).collect()
    }

    pub fn words(&mut self, n: usize) -> Vec<u16> {
        (0..n).map(|_| self.next() as u16).collect()
    }
}

// ---------- fleets ----------

/// What a random vehicle is drawn from: how many labels each family has, and how much the tree goes down rather than sideways.
#[derive(Clone, Copy)]
pub struct Taste {
    pub labels: usize,
    pub down: usize,
    pub remarks: bool,
}

/// One of so many labels of the family. Those of equipment and remarks are from both its ends, so that 599, 600 and 699 are among them.
fn label_of(random: &mut Random, family: u16, labels: usize) -> u16 {
    let any = random.below(labels) as u16;
    let place = match (family, any % 2) {
        (5 | 6, 0) => any / 2,
        (5 | 6, _) => 99 - any / 2,
        _ => any,
    };
    100 * family + place
}

/// A vehicle's tree of about that many nodes: each node goes below the last, or beside one of its ancestors.
pub fn vehicle(random: &mut Random, nodes: usize, taste: Taste) -> Vec<u16> {
    let mut tree = vec![pair(0, 100 + random.below(taste.labels) as u16)];
    while tree.len() < nodes {
        let last = depth(tree[tree.len() - 1]) as usize;
        let at = if last < 15 && (last == 0 || random.below(10) < taste.down) { last + 1 } else { random.between(1, last.max(1)) };
        let above = *tree.iter().rev().find(|&&x| depth(x) as usize + 1 == at).unwrap();
        let fitting: Vec<u16> = (2..=if taste.remarks { 6 } else { 5 }).filter(|&f| may_stand(f, Some(family(label(above))))).collect();
        if fitting.is_empty() {
            // nothing may stand here: go on beside the root's children
            let beside = if taste.remarks && random.one_in(2) { 6 } else { 2 };
            tree.push(pair(1, label_of(random, beside, taste.labels)));
        } else {
            let below = random.pick(&fitting);
            tree.push(pair(at as u16, label_of(random, below, taste.labels)));
        }
    }
    tree
}

pub fn fleet(random: &mut Random, vehicles: usize, nodes: usize, taste: Taste) -> Vec<u16> {
    (0..vehicles)
        .flat_map(|_| {
            let nodes = random.between(nodes.div_ceil(2), nodes);
            vehicle(random, nodes, taste)
        })
        .collect()
}

/// Small fleets that are hard on a miner: few labels, so many equal siblings; deep handling; remarks, few or many; one vehicle or many.
pub fn small_fleet(random: &mut Random) -> Vec<u16> {
    let taste = Taste { labels: random.between(1, 3), down: random.pick(&[1, 3, 5, 7, 9]), remarks: random.one_in(3) };
    let vehicles = random.pick(&[1, 1, 2, 3, 4, 5, 8]);
    let nodes = random.between(1, 11);
    let fleet = fleet(random, vehicles, nodes, taste);
    if random.one_in(4) {
        among_remarks(random, &fleet)
    } else {
        fleet
    }
}

/// The fleet with remarks among the children of its vehicles, runs and stops, as far as its limits leave room: to a tree half as many as it has
/// nodes, up to nine times as many, or none.
pub fn among_remarks(random: &mut Random, fleet: &[u16]) -> Vec<u16> {
    let trees = vehicles(fleet);
    let most = 256.min(4096 / trees.len());
    let mut result = vec![];
    for mut tree in trees {
        let remarks = tree.len() * random.pick(&[0, 1, 2, 4, 9, 18]) / 2;
        for _ in 0..remarks.min(most.saturating_sub(tree.len())) {
            put_remark(random, &mut tree);
        }
        result.extend(tree);
    }
    result
}

/// Puts a remark before, between or behind the children of a node that may have one.
fn put_remark(random: &mut Random, tree: &mut Vec<u16>) {
    let above: Vec<usize> = (0..tree.len()).filter(|&i| may_stand(6, Some(family(label(tree[i]))))).collect();
    let parent = random.pick(&above);
    let at = depth(tree[parent]) + 1;
    let end = (parent + 1..tree.len()).find(|&i| depth(tree[i]) < at).unwrap_or(tree.len());
    let places: Vec<usize> = (parent + 1..=end).filter(|&i| i == end || depth(tree[i]) == at).collect();
    tree.insert(random.pick(&places), pair(at, random.pick(&[600, 601, 650, 699])));
}

/// The pairs with the remarks taken out.
pub fn without_remarks(pairs: &[u16]) -> Vec<u16> {
    pairs.iter().copied().filter(|&x| !(600..=699).contains(&label(x))).collect()
}

/// One run of handling under handling, down to depth 15, with a few side branches.
pub fn deep_vehicle(random: &mut Random, side: usize) -> Vec<u16> {
    let mut tree = vec![pair(0, 101), pair(1, 201), pair(2, 301)];
    for at in 3..16u16 {
        let equal = 401;
        if random.below(10) < side {
            tree.push(pair(at, random.pick(&[equal, 402, 501])));
        }
        tree.push(pair(at, equal));
    }
    tree
}

/// One to four vehicles, each with many children of one label whose own children overlap, so that most seats are contested.
pub fn competing_children(random: &mut Random) -> Vec<u16> {
    let mut fleet = vec![];
    for _ in 0..random.between(1, 4) {
        fleet.extend([101, 1201, 2301]);
        for _ in 0..random.between(3, 9) {
            fleet.push(pair(3, 401));
            for label in 401..=random.between(402, 405) as u16 {
                if random.one_in(2) {
                    fleet.push(pair(4, label));
                }
            }
        }
    }
    fleet
}

/// A plausible fleet: every vehicle's runs are drawn from the same few kinds of run, and each is changed a little.
pub fn plausible_fleet(random: &mut Random, vehicles: usize, nodes: usize) -> Vec<u16> {
    let kinds: Vec<Vec<u16>> = (0..8).map(|_| plausible_run(random)).collect();
    let mut fleet = vec![];
    for _ in 0..vehicles {
        let size = random.between(nodes * 3 / 4, nodes * 5 / 4).min(250).min(4096 / vehicles);
        let mut tree = vec![pair(0, 101 + random.below(3) as u16)];
        while tree.len() < size {
            let favourite = random.below(8).min(random.below(8));
            for &node in &kinds[favourite] {
                change_or_keep(random, node, &mut tree);
            }
            if random.one_in(5) {
                tree.push(pair(1, 601 + random.below(4) as u16));
            }
        }
        tree.truncate(size);
        fleet.extend(tree);
    }
    fleet
}

/// One run with its stops: arrival, handling steps with what belongs to them, equipment, now and then a remark.
fn plausible_run(random: &mut Random) -> Vec<u16> {
    let mut run = vec![pair(1, 201 + random.below(6) as u16)];
    for _ in 0..random.between(2, 3) {
        run.push(pair(2, 301 + random.below(8) as u16));
        for _ in 0..random.between(1, 3) {
            run.push(pair(3, 401 + random.below(10) as u16));
            for _ in 0..random.below(3) {
                run.push(pair(4, random.pick(&[401, 402, 403, 404, 501, 502, 503])));
            }
        }
        if random.one_in(2) {
            run.push(pair(3, 501 + random.below(8) as u16));
        }
        if random.one_in(4) {
            run.push(pair(3, 601 + random.below(4) as u16));
        }
    }
    run
}

/// Adds the node as it is (mostly), with another label of its family, or not at all where nothing below it follows.
fn change_or_keep(random: &mut Random, node: u16, tree: &mut Vec<u16>) {
    match random.below(12) {
        0 => {
            let other = 100 * family(label(node)) + 1 + random.below(6) as u16;
            tree.push(pair(depth(node), other));
        }
        1 if depth(node) >= 4 => {}
        _ => tree.push(node),
    }
}

// ---------- patterns and trees of any families ----------

/// A tree of exactly that many nodes over the labels, of any families.
pub fn tree(random: &mut Random, nodes: usize, labels: &[u16], down: usize) -> Vec<u16> {
    let mut tree = vec![pair(0, random.pick(labels))];
    while tree.len() < nodes {
        let last = depth(tree[tree.len() - 1]) as usize;
        let at = if last < 15 && (last == 0 || random.below(10) < down) { last + 1 } else { random.between(1, last) };
        tree.push(pair(at as u16, random.pick(labels)));
    }
    tree
}

/// A connected piece of the tree with its top at a random node, children in random order.
pub fn piece(random: &mut Random, tree: &[u16], nodes: usize) -> Vec<u16> {
    let top = random.below(tree.len());
    let end = (top + 1..tree.len()).find(|&i| depth(tree[i]) <= depth(tree[top])).unwrap_or(tree.len());
    let mut chosen = vec![top];
    for _ in 0..4 * nodes {
        let node = random.between(top, end - 1);
        let parent = (0..node).rev().find(|&i| depth(tree[i]) + 1 == depth(tree[node]));
        if chosen.len() < nodes && !chosen.contains(&node) && parent.is_some_and(|p| chosen.contains(&p)) {
            chosen.push(node);
        }
    }
    chosen.sort();
    let piece: Vec<u16> = chosen.iter().map(|&i| tree[i] - pair(depth(tree[top]), 0)).collect();
    shuffled(random, &piece)
}

/// The tree with its children in random order.
pub fn shuffled(random: &mut Random, tree: &[u16]) -> Vec<u16> {
    let mut subtrees: Vec<Vec<u16>> = vec![];
    for &node in &tree[1..] {
        if depth(node) == depth(tree[0]) + 1 {
            subtrees.push(vec![]);
        }
        subtrees.last_mut().unwrap().push(node);
    }
    let mut result = vec![tree[0]];
    while !subtrees.is_empty() {
        let next = subtrees.swap_remove(random.below(subtrees.len()));
        result.extend(shuffled(random, &next));
    }
    result
}

/// Two small vehicles without remarks: often the same up to the order of children, or one without the other's last node.
pub fn two_vehicles(random: &mut Random) -> [Vec<u16>; 2] {
    let taste = Taste { labels: random.between(1, 2), down: random.between(1, 9), remarks: false };
    let nodes = random.between(1, 9);
    let one = vehicle(random, nodes, taste);
    let other = match random.below(4) {
        0 | 1 => shuffled(random, &one),
        2 => one[..one.len().max(2) - 1].to_vec(),
        _ => vehicle(random, nodes, taste),
    };
    [one, other]
}

/// 256 nodes of one label, and others, in shapes that are hard to order.
pub fn shaped_trees(nodes: usize) -> Vec<(&'static str, Vec<u16>)> {
    let repeat = |part: &[u16]| -> Vec<u16> { std::iter::once(1).chain(part.iter().copied().cycle()).take(nodes).collect() };
    let chain: Vec<u16> = (1..16).map(|at| pair(at, 1)).collect();
    let growing: Vec<u16> = (1..16u16).flat_map(|height| (1..=height).map(|at| pair(at, 1))).collect();
    let comb: Vec<u16> = (1..16u16).flat_map(|at| vec![pair(at, 1), pair(at, 1)]).collect();
    let spine: Vec<u16> = (1..16u16).flat_map(|at| vec![pair(at, 1); 18]).collect();
    let binary = binary(7);
    vec![
        ("star", repeat(&[pair(1, 1)])),
        ("chains", repeat(&chain)),
        ("growing chains", repeat(&growing)),
        ("comb", repeat(&comb)),
        ("pairs", repeat(&[pair(1, 1), pair(2, 1)])),
        ("leaves first", repeat(&[pair(1, 1), pair(1, 1), pair(2, 1), pair(1, 1), pair(2, 1), pair(3, 1)])),
        ("spine, 17 leaves first", repeat(&spine)),
        ("binary", binary.into_iter().take(nodes).collect()),
        ("rising labels", (0..nodes).map(|i| if i == 0 { 1 } else { pair(1, i as u16) }).collect()),
    ]
}

/// A full binary tree of one label, of that height.
fn binary(height: u16) -> Vec<u16> {
    fn put(at: u16, height: u16, tree: &mut Vec<u16>) {
        tree.push(pair(at, 1));
        if at < height {
            put(at + 1, height, tree);
            put(at + 1, height, tree);
        }
    }
    let mut tree = vec![];
    put(0, height, &mut tree);
    tree
}

/// The pairs with one or two of them changed, put in or taken out.
pub fn damaged_pairs(random: &mut Random, pairs: &[u16]) -> Vec<u16> {
    let mut pairs = pairs.to_vec();
    for _ in 0..random.between(1, 2) {
        let i = random.below(pairs.len() + 1);
        let edge = random.pick(&[0, 1, 100, 999, 1000, 1001, 1101, 2301, 15401, 15999, 16000, 16001, 16401, 65535]);
        let any = if random.one_in(2) { edge } else { random.next() as u16 };
        match random.below(4) {
            0 => pairs.insert(i, any),
            1 if i < pairs.len() => drop(pairs.remove(i)),
            2 if i < pairs.len() => pairs[i] = pairs[i].wrapping_add(random.pick(&[1, 100, 1000, 64536, 65535, 65436])),
            _ if i < pairs.len() => pairs[i] = any,
            _ => {}
        }
    }
    pairs
}

// ---------- sheets ----------

/// One record of any bits and fields, chosen near the rules' edges.
pub fn any_record(random: &mut Random, previous: Option<u16>) -> Vec<u8> {
    let (last_depth, last_label) = previous.map_or((0, 0), |p| (depth(p), label(p)));
    let bits = match random.below(12) {
        0 => random.next() as u8,
        1 => 4 + random.below(4) as u8,
        n => n as u8 % 4,
    };
    let depths = [0, 1, 2, last_depth, last_depth + 1, last_depth + 2, last_depth.saturating_sub(1), 14, 15, 16, 255];
    let labels = [0, 1, 99, 100, 101, 199, 200, 201, 301, 401, 501, 599, 600, 601, 699, 700, 801, 999, 1000, 1101, 65535, last_label, last_label + 1];
    let any_depth = random.pick(&depths) as u8;
    let any_label = random.pick(&labels);
    let mut record = vec![bits];
    if bits & 1 != 0 {
        record.push(any_depth);
    }
    if bits & 2 != 0 {
        record.extend(any_label.to_le_bytes());
    }
    if random.one_in(20) {
        record.truncate(random.between(1, record.len()));
    }
    record
}

/// A sheet whose beginning is that of an accepted one, followed by records near the rules' edges.
pub fn nearly_a_sheet(random: &mut Random, fleet: &[u16]) -> Vec<u8> {
    let kept = random.between(0, fleet.len());
    let mut sheet = bytes_of(&fleet[..kept]);
    let mut previous = fleet[..kept].last().copied();
    for _ in 0..random.between(1, 3) {
        sheet.extend(any_record(random, previous));
        previous = None;
    }
    if random.one_in(2) {
        sheet.extend(bytes_of(&fleet[kept..]));
    }
    sheet
}

/// A sheet one of whose records has both fields, needed or not.
pub fn sheet_with_all_fields(random: &mut Random, fleet: &[u16]) -> Vec<u8> {
    let full = random.below(fleet.len());
    let mut sheet = bytes_of(&fleet[..full]);
    let whole = bytes_of(&fleet[..full + 1]);
    sheet.extend([3, depth(fleet[full]) as u8]);
    sheet.extend(label(fleet[full]).to_le_bytes());
    sheet.extend(&bytes_of(fleet)[whole.len()..]);
    sheet
}

/// The sheet with one or two bytes changed, put in, taken out, or cut off.
pub fn damaged_sheet(random: &mut Random, sheet: &[u8]) -> Vec<u8> {
    let mut sheet = sheet.to_vec();
    for _ in 0..random.between(1, 2) {
        let i = random.below(sheet.len() + 1);
        let any = if random.one_in(2) { random.below(8) as u8 } else { random.next() as u8 };
        match random.below(5) {
            0 => sheet.insert(i, any),
            1 if i < sheet.len() => drop(sheet.remove(i)),
            2 => sheet.truncate(i),
            3 if i < sheet.len() => sheet[i] ^= 1 << random.below(8),
            _ if i < sheet.len() => sheet[i] = any,
            _ => {}
        }
    }
    sheet
}
