//! What a programmer would write in Rust without proofs, for the sheet, the form and the label register. (The plain miner is
//! `peers::mine`.)

const MARKS: [[u8; 10]; 10] = {
    let mut marks = [[0; 10]; 10];
    marks[2][1] = 1;
    marks[3][2] = 1;
    marks[4][3] = 1;
    marks[4][4] = 1;
    marks[5][3] = 1;
    marks[5][4] = 1;
    marks[6][1] = 1;
    marks[6][2] = 1;
    marks[6][3] = 1;
    marks
};

/// Reads the sheet into the output, in one pass with a family for each depth.
pub fn read(sheet: &[u8], output: &mut [u16]) -> Result<usize, u8> {
    let mut families = [0u8; 17];
    let (mut depth, mut label) = (0usize, 0usize);
    let (mut nodes, mut trees, mut in_tree) = (0, 0, 0);
    let mut bytes = sheet.iter();
    if sheet.is_empty() {
        return Err(1);
    }
    while let Some(&bits) = bytes.next() {
        if bits > 3 {
            return Err(2);
        }
        if nodes == 0 && bits != 3 {
            return Err(3);
        }
        let (last_depth, last_label) = (depth, label);
        depth = if bits & 1 == 1 { *bytes.next().ok_or(4)? as usize } else { depth + 1 };
        if bits & 2 == 2 {
            label = *bytes.next().ok_or(4)? as usize;
            label += 256 * *bytes.next().ok_or(4)? as usize;
        }
        if depth > 15 || (nodes == 0 && depth != 0) || (nodes > 0 && depth > last_depth + 1) {
            return Err(5);
        }
        if label == 0 || label > 999 {
            return Err(6);
        }
        let family = label / 100;
        if depth == 0 && family != 1 || depth > 0 && MARKS[family][families[depth - 1] as usize] == 0 {
            return Err(7);
        }
        if nodes > 0 && (bits & 1 == 1 && depth == last_depth + 1 || bits & 2 == 2 && label == last_label) {
            return Err(8);
        }
        if depth == 0 {
            trees += 1;
            in_tree = 0;
        }
        in_tree += 1;
        if trees > 64 || in_tree > 256 || nodes >= 4096 {
            return Err(9);
        }
        families[depth] = family as u8;
        *output.get_mut(nodes).ok_or(17)? = (1000 * depth + label) as u16;
        nodes += 1;
    }
    Ok(nodes)
}

/// Looks at the nodes of a fleet one after the other.
struct Check {
    families: [u8; 16],
    last_depth: usize,
    trees: usize,
    in_tree: usize,
}

impl Check {
    fn new() -> Check {
        Check { families: [0; 16], last_depth: usize::MAX - 1, trees: 0, in_tree: 0 }
    }

    /// Whether the node may stand behind those before it.
    #[inline(always)]
    fn takes(&mut self, depth: usize, label: usize) -> bool {
        let family = label / 100;
        if depth == 0 {
            self.trees += 1;
            self.in_tree = 0;
        }
        self.in_tree += 1;
        let allowed = if depth == 0 {
            family == 1
        } else {
            depth <= 15 && depth <= self.last_depth + 1 && MARKS[family][self.families[depth - 1] as usize] == 1
        };
        if !allowed || label == 0 || self.trees > 64 || self.in_tree > 256 {
            return false;
        }
        self.families[depth] = family as u8;
        self.last_depth = depth;
        true
    }
}

/// Whether a fleet may have so many pairs and begin like these.
fn begins_well(fleet: &[u16]) -> bool {
    !fleet.is_empty() && fleet.len() <= 4096 && fleet[0] < 1000
}

/// Checks the fleet and writes its sheet into the output.
pub fn write(fleet: &[u16], output: &mut [u8]) -> Result<usize, u8> {
    let mut check = Check::new();
    let (mut last_label, mut at) = (0, 0);
    if !begins_well(fleet) {
        return Err(10);
    }
    for &pair in fleet {
        let (depth, label) = (pair as usize / 1000, pair as usize % 1000);
        let last_depth = check.last_depth;
        if !check.takes(depth, label) {
            return Err(10);
        }
        let bits = (depth != last_depth + 1) as u8 + 2 * (label != last_label) as u8;
        let record = [bits, depth as u8, label as u8, (label / 256) as u8];
        let fields: &[u8] = match bits {
            0 => &record[..1],
            1 => &record[..2],
            2 => &[bits, record[2], record[3]],
            _ => &record,
        };
        output.get_mut(at..at + fields.len()).ok_or(17)?.copy_from_slice(fields);
        at += fields.len();
        last_label = label;
    }
    Ok(at)
}

/// How many trees the pairs are, if they are a fleet.
fn trees(pairs: &[u16]) -> Option<usize> {
    let mut check = Check::new();
    let taken = begins_well(pairs) && pairs.iter().all(|&pair| check.takes(pair as usize / 1000, pair as usize % 1000));
    taken.then_some(check.trees)
}

const LABELS: usize = 999;

fn entry(pair: u16) -> usize {
    pair as usize % 1000 - 1
}

/// Checks the fleet and makes its register.
pub fn register(fleet: &[u16], nodes: &mut [u16], holders: &mut [u64]) -> Result<usize, u8> {
    trees(fleet).ok_or(10)?;
    let (nodes, holders) = (nodes.get_mut(..LABELS).ok_or(17)?, holders.get_mut(..LABELS).ok_or(17)?);
    nodes.fill(0);
    holders.fill(0);
    count(fleet, nodes, holders);
    Ok(LABELS)
}

fn count(fleet: &[u16], nodes: &mut [u16], holders: &mut [u64]) {
    let mut vehicle = 0;
    for &pair in fleet {
        vehicle += (pair < 1000) as u32;
        nodes[entry(pair)] += 1;
        holders[entry(pair)] |= 1 << (vehicle - 1);
    }
}

fn is_register(fleet: &[u16], nodes: &[u16], holders: &[u64]) -> bool {
    let (mut own_nodes, mut own_holders) = ([0; LABELS], [0; LABELS]);
    count(fleet, &mut own_nodes, &mut own_holders);
    nodes.starts_with(&own_nodes) && holders.starts_with(&own_holders)
}

/// Checks fleet, tree and register, puts the tree in the place of the vehicle's, and brings the register up to date.
pub fn swap(buffer: &mut [u16], used: usize, vehicle: usize, tree: &[u16], nodes: &mut [u16], holders: &mut [u64]) -> Result<usize, u8> {
    let fleet = buffer.get(..used).ok_or(10)?;
    let vehicles = trees(fleet).ok_or(10)?;
    if trees(tree) != Some(1) || !is_register(fleet, nodes, holders) {
        return Err(10);
    }
    if vehicle == 0 || vehicle > vehicles {
        return Err(16);
    }
    let mut roots = (0..used).filter(|&i| fleet[i] < 1000);
    let begin = roots.nth(vehicle - 1).unwrap();
    let end = roots.next().unwrap_or(used);
    let now = used - (end - begin) + tree.len();
    if now > 4096 {
        return Err(10);
    }
    if now > buffer.len() {
        return Err(17);
    }
    let bit = 1 << (vehicle - 1);
    for &pair in &buffer[begin..end] {
        nodes[entry(pair)] -= 1;
        holders[entry(pair)] &= !bit;
    }
    for &pair in tree {
        nodes[entry(pair)] += 1;
        holders[entry(pair)] |= bit;
    }
    buffer.copy_within(end..used, begin + tree.len());
    buffer[begin..begin + tree.len()].copy_from_slice(tree);
    Ok(now)
}

struct Node {
    pair: u16,
    children: Vec<Node>,
}

/// The form: children as vectors, sorted from below, flattened.
pub fn form(tree: &[u16]) -> Vec<u16> {
    let mut at = 0;
    let mut root = node(tree, &mut at);
    sort(&mut root);
    let mut result = Vec::with_capacity(tree.len());
    flatten(&root, &mut result);
    result
}

fn node(tree: &[u16], at: &mut usize) -> Node {
    let pair = tree[*at];
    *at += 1;
    let mut children = vec![];
    while *at < tree.len() && tree[*at] / 1000 > pair / 1000 {
        children.push(node(tree, at));
    }
    Node { pair, children }
}

fn sort(node: &mut Node) {
    for child in &mut node.children {
        sort(child);
    }
    node.children.sort_by(|a, b| compare(b, a));
}

/// The order of two subtrees' sequences.
fn compare(a: &Node, b: &Node) -> std::cmp::Ordering {
    a.pair.cmp(&b.pair).then_with(|| {
        for (x, y) in a.children.iter().zip(&b.children) {
            let order = compare(x, y);
            if order.is_ne() {
                return order;
            }
        }
        a.children.len().cmp(&b.children.len())
    })
}

fn flatten(node: &Node, result: &mut Vec<u16>) {
    result.push(node.pair);
    for child in &node.children {
        flatten(child, result);
    }
}
