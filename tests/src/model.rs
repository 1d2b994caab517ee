//! The plain second implementation: document 01 read word by word, slow and simple, with document 02's label register and its ruling on remarks.
//! It shares no code with the proved crates and was written from these documents alone.

use crate::library::{Request, CLOSED, FULL, MAXIMAL};
use std::collections::{BTreeMap, BTreeSet};

/// A number of the table "When the desk says no".
pub type Refusal = u8;

pub fn pair(depth: u16, label: u16) -> u16 {
    1000 * depth + label
}

pub fn depth(pair: u16) -> u16 {
    pair / 1000
}

pub fn label(pair: u16) -> u16 {
    pair % 1000
}

/// "A label's family is its hundreds digit."
pub fn family(label: u16) -> u16 {
    label / 100
}

/// Whether a node of a vehicle's tree may be the place of a pattern's node. "Nodes of family 6 stay in sheets and keep their node numbers, but they
/// take no part in occurrence, support or the list." (document 02)
pub fn takes_part(label: u16) -> bool {
    family(label) != 6
}

/// Which family may stand under which; with nothing above, as a root.
pub fn may_stand(below: u16, above: Option<u16>) -> bool {
    match above {
        None => below == 1,
        Some(1) => below == 2 || below == 6,
        Some(2) => below == 3 || below == 6,
        Some(3) => below == 4 || below == 5 || below == 6,
        Some(4) => below == 4 || below == 5,
        Some(_) => false,
    }
}

/// The index of a node's parent: the nearest node before it that is one less deep. None for a root.
fn parent(pairs: &[u16], node: usize) -> Option<usize> {
    (0..node).rev().find(|&other| depth(pairs[other]) + 1 == depth(pairs[node])).filter(|_| depth(pairs[node]) > 0)
}

pub fn parents(pairs: &[u16]) -> Vec<Option<usize>> {
    (0..pairs.len()).map(|node| parent(pairs, node)).collect()
}

/// "A tree is its pairs in preorder: the first has depth 0; each later one has depth 1 to one more than the pair before it."
pub fn is_tree(pairs: &[u16]) -> bool {
    let each_is_a_pair = pairs.iter().all(|&x| depth(x) <= 15 && label(x) >= 1);
    let later = (1..pairs.len()).all(|i| depth(pairs[i]) >= 1 && depth(pairs[i]) <= depth(pairs[i - 1]) + 1);
    !pairs.is_empty() && depth(pairs[0]) == 0 && each_is_a_pair && later
}

/// The trees of pairs that lie end to end: each depth 0 begins one.
pub fn vehicles(pairs: &[u16]) -> Vec<Vec<u16>> {
    let mut trees: Vec<Vec<u16>> = vec![];
    for &x in pairs {
        if depth(x) == 0 || trees.is_empty() {
            trees.push(vec![]);
        }
        trees.last_mut().unwrap().push(x);
    }
    trees
}

pub fn is_fleet(pairs: &[u16]) -> bool {
    let trees = vehicles(pairs);
    if pairs.len() > 4096 || trees.is_empty() || trees.len() > 64 {
        return false;
    }
    trees.iter().all(|tree| {
        is_tree(tree)
            && tree.len() <= 256
            && parents(tree).iter().enumerate().all(|(i, parent)| {
                may_stand(family(label(tree[i])), parent.map(|p| family(label(tree[p]))))
            })
    })
}

// ---------- the sheet ----------

/// The pairs of a sheet, or the number of the first wrong record.
pub fn read(sheet: &[u8]) -> Result<Vec<u16>, Refusal> {
    if sheet.is_empty() {
        return Err(1);
    }
    let mut pairs: Vec<u16> = vec![];
    let mut rest = sheet;
    while !rest.is_empty() {
        let (pair, length) = record(&pairs, rest)?;
        pairs.push(pair);
        rest = &rest[length..];
    }
    Ok(pairs)
}

/// The pair of the record that the bytes begin with, and the record's length. The checks stand in the order of their numbers.
pub fn record(before: &[u16], bytes: &[u8]) -> Result<(u16, usize), Refusal> {
    let bits = bytes[0];
    if bits > 3 {
        return Err(2);
    }
    let has_depth = bits == 1 || bits == 3;
    let has_label = bits == 2 || bits == 3;
    let previous = before.last().copied();
    if previous.is_none() && !(has_depth && has_label) {
        return Err(3);
    }
    let length = 1 + if has_depth { 1 } else { 0 } + if has_label { 2 } else { 0 };
    if bytes.len() < length {
        return Err(4);
    }
    let depth_field = has_depth.then(|| bytes[1] as u32);
    let label_field = has_label.then(|| bytes[length - 2] as u32 + 256 * bytes[length - 1] as u32);
    let absent_depth = previous.map(|p| depth(p) as u32 + 1);
    let absent_label = previous.map(|p| label(p) as u32);
    let this_depth = depth_field.or(absent_depth).unwrap();
    let this_label = label_field.or(absent_label).unwrap();
    match absent_depth {
        None if this_depth != 0 => return Err(5),
        Some(deepest) if this_depth > deepest => return Err(5),
        _ if this_depth > 15 => return Err(5),
        _ => {}
    }
    if this_label < 1 || this_label > 999 {
        return Err(6);
    }
    let this = pair(this_depth as u16, this_label as u16);
    let mut with_this = before.to_vec();
    with_this.push(this);
    let above = parent(&with_this, before.len()).map(|p| family(label(with_this[p])));
    if !may_stand(family(this_label as u16), above) {
        return Err(7);
    }
    if previous.is_some() && (depth_field == absent_depth || label_field == absent_label) {
        return Err(8);
    }
    let trees = with_this.iter().filter(|&&x| depth(x) == 0).count();
    let in_tree = with_this.iter().rev().take_while(|&&x| depth(x) > 0).count() + 1;
    if trees > 64 || in_tree > 256 || with_this.len() > 4096 {
        return Err(9);
    }
    Ok((this, length))
}

/// The sheet of pairs: a field is absent where its absence means the same.
pub fn bytes_of(pairs: &[u16]) -> Vec<u8> {
    let mut sheet = vec![];
    for (i, &x) in pairs.iter().enumerate() {
        let depth_absent = i > 0 && depth(x) == depth(pairs[i - 1]) + 1;
        let label_absent = i > 0 && label(x) == label(pairs[i - 1]);
        sheet.push(if depth_absent { 0 } else { 1 } + if label_absent { 0 } else { 2 });
        if !depth_absent {
            sheet.push(depth(x) as u8);
        }
        if !label_absent {
            sheet.extend_from_slice(&label(x).to_le_bytes());
        }
    }
    sheet
}

// ---------- trees and forms ----------

#[derive(Clone)]
pub struct Tree {
    pub label: u16,
    pub children: Vec<Tree>,
}

impl Tree {
    pub fn of(pairs: &[u16]) -> Tree {
        let mut children = vec![];
        for i in 1..pairs.len() {
            if depth(pairs[i]) == depth(pairs[0]) + 1 {
                let end = (i + 1..pairs.len()).find(|&j| depth(pairs[j]) <= depth(pairs[i])).unwrap_or(pairs.len());
                children.push(Tree::of(&pairs[i..end]));
            }
        }
        Tree { label: label(pairs[0]), children }
    }

    pub fn pairs(&self) -> Vec<u16> {
        let mut result = vec![];
        self.put(0, &mut result);
        result
    }

    fn put(&self, at: u16, result: &mut Vec<u16>) {
        result.push(pair(at, self.label));
        for child in &self.children {
            child.put(at + 1, result);
        }
    }

    pub fn size(&self) -> usize {
        1 + self.children.iter().map(Tree::size).sum::<usize>()
    }

    /// The number of orders of children, a large one if it is too large.
    fn orders(&self) -> usize {
        let here = (1..=self.children.len()).fold(1usize, |product, n| product.saturating_mul(n));
        self.children.iter().fold(here, |product, child| product.saturating_mul(child.orders()))
    }

    /// The tree with its children, and theirs, in every order.
    fn reordered(&self) -> Vec<Tree> {
        let mut choices: Vec<Vec<Tree>> = vec![vec![]];
        for child in &self.children {
            let mut more = vec![];
            for chosen in &choices {
                for this in child.reordered() {
                    for place in 0..=chosen.len() {
                        let mut next = chosen.clone();
                        next.insert(place, this.clone());
                        more.push(next);
                    }
                }
            }
            choices = more;
        }
        choices.into_iter().map(|children| Tree { label: self.label, children }).collect()
    }

    /// "The form of a tree is the heaviest sequence among all orders of children." (Rust compares vectors at the first
    /// difference, and takes a proper extension for greater.)
    pub fn form_by_orders(&self) -> Vec<u16> {
        self.reordered().iter().map(Tree::pairs).max().unwrap()
    }

    /// "Equivalently, each child's subtree is no lighter than its right neighbour's."
    pub fn form_by_sorting(&self) -> Vec<u16> {
        self.sorted().pairs()
    }

    fn sorted(&self) -> Tree {
        let mut children: Vec<Tree> = self.children.iter().map(Tree::sorted).collect();
        children.sort_by_key(|child| std::cmp::Reverse(child.pairs()));
        Tree { label: self.label, children }
    }

    /// By all orders where they are few.
    pub fn form(&self) -> Vec<u16> {
        if self.orders() <= 200 {
            self.form_by_orders()
        } else {
            self.form_by_sorting()
        }
    }
}

pub fn form(pairs: &[u16]) -> Vec<u16> {
    Tree::of(pairs).form()
}

pub fn in_form(pairs: &[u16]) -> bool {
    form(pairs) == pairs
}

// ---------- occurrence ----------

/// The heaviest placing of the pattern's nodes, numbers from 1, which count remarks: every tuple is tried, the heaviest first, and given up at
/// the first node that is no place, or breaks a condition with one before it.
pub fn heaviest_placing(pattern: &[u16], tree: &[u16]) -> Option<Vec<u16>> {
    let mut placed = vec![];
    place_rest(pattern, &parents(pattern), tree, &parents(tree), &mut placed).then(|| placed.iter().map(|&d| d as u16 + 1).collect())
}

fn place_rest(
    pattern: &[u16],
    pattern_parents: &[Option<usize>],
    tree: &[u16],
    tree_parents: &[Option<usize>],
    placed: &mut Vec<usize>,
) -> bool {
    let this = placed.len();
    if this == pattern.len() {
        return true;
    }
    for node in (0..tree.len()).rev() {
        let fits = takes_part(label(tree[node]))
            && label(pattern[this]) == label(tree[node])
            && !placed.contains(&node)
            && (0..this).all(|other| {
                (pattern_parents[this] == Some(other)) == (tree_parents[node] == Some(placed[other]))
                    && (pattern_parents[other] == Some(this)) == (tree_parents[placed[other]] == Some(node))
            });
        if fits {
            placed.push(node);
            if place_rest(pattern, pattern_parents, tree, tree_parents, placed) {
                return true;
            }
            placed.pop();
        }
    }
    false
}

/// "The support of a pattern is the number of vehicles' trees where it occurs."
pub fn support(fleet: &[u16], pattern: &[u16]) -> usize {
    vehicles(fleet).iter().filter(|tree| heaviest_placing(pattern, tree).is_some()).count()
}

// ---------- the list ----------

/// The number of connected pieces of up to `bound` nodes with their top at the tree's root, by size; none has a remark.
fn count_at_root(tree: &Tree, bound: usize, total: &mut u64) -> Vec<u64> {
    let mut counts = vec![0u64; bound + 1];
    counts[1] = takes_part(tree.label) as u64;
    for child in &tree.children {
        let below = count_at_root(child, bound, total);
        let mut more = counts.clone();
        for size in 1..=bound {
            for part in 1..=bound - size {
                more[size + part] = more[size + part].saturating_add(counts[size].saturating_mul(below[part]));
            }
        }
        counts = more;
    }
    *total = total.saturating_add(counts.iter().fold(0, |sum, &x| sum.saturating_add(x)));
    counts
}

/// How many connected pieces the list of this fleet is made from.
pub fn count_pieces(fleet: &[u16], bound: usize) -> u64 {
    let mut total = 0;
    for tree in vehicles(fleet) {
        count_at_root(&Tree::of(&tree), bound, &mut total);
    }
    total
}

/// The connected pieces of up to `bound` nodes, none of them a remark, whose top is the tree's root; those with their top further down go to `all`.
fn pieces(tree: &Tree, bound: usize, all: &mut Vec<Tree>) -> Vec<Tree> {
    let mut at_root = if takes_part(tree.label) { vec![Tree { label: tree.label, children: vec![] }] } else { vec![] };
    for child in &tree.children {
        let below = pieces(child, bound, all);
        let mut more = at_root.clone();
        for piece in &at_root {
            for part in &below {
                if piece.size() + part.size() <= bound {
                    let mut larger = piece.clone();
                    larger.children.push(part.clone());
                    more.push(larger);
                }
            }
        }
        at_root = more;
    }
    all.extend(at_root.iter().cloned());
    at_root
}

/// Every unordered tree of up to `bound` nodes that some vehicle holds, in its form, with its support, lightest first.
pub fn holdings(fleet: &[u16], bound: usize) -> BTreeMap<Vec<u16>, usize> {
    let mut supports = BTreeMap::new();
    for tree in vehicles(fleet) {
        let mut all = vec![];
        pieces(&Tree::of(&tree), bound, &mut all);
        let forms: BTreeSet<Vec<u16>> = all.iter().map(Tree::form).collect();
        for form in forms {
            *supports.entry(form).or_insert(0) += 1;
        }
    }
    supports
}

pub type List = BTreeMap<Vec<u16>, usize>;

/// The list: what reaches the threshold.
pub fn list(holdings: &List, threshold: usize) -> List {
    holdings.iter().filter(|(_, &support)| support >= threshold).map(|(form, &support)| (form.clone(), support)).collect()
}

// ---------- the calls ----------

/// The number of the first broken rule.
fn refuse(rules: &[(bool, Refusal)]) -> Result<(), Refusal> {
    match rules.iter().find(|(kept, _)| !kept) {
        Some(&(_, number)) => Err(number),
        None => Ok(()),
    }
}

fn within(low: usize, x: usize, high: usize) -> bool {
    low <= x && x <= high
}

pub fn read_call(sheet: &[u8], output: usize) -> Result<Vec<u16>, Refusal> {
    let pairs = read(sheet)?;
    refuse(&[(pairs.len() <= output, 17)])?;
    Ok(pairs)
}

pub fn write_call(pairs: &[u16], output: usize) -> Result<Vec<u8>, Refusal> {
    refuse(&[(is_fleet(pairs), 10)])?;
    let sheet = bytes_of(pairs);
    refuse(&[(sheet.len() <= output, 17)])?;
    Ok(sheet)
}

pub fn vehicle_call(fleet: &[u16], vehicle: usize) -> Result<Vec<u16>, Refusal> {
    refuse(&[(is_fleet(fleet), 10)])?;
    let trees = vehicles(fleet);
    refuse(&[(within(1, vehicle, trees.len()), 16)])?;
    Ok(trees[vehicle - 1].clone())
}

pub fn form_call(tree: &[u16], output: usize) -> Result<Vec<u16>, Refusal> {
    refuse(&[(within(1, tree.len(), 256), 13), (is_tree(tree), 14), (tree.len() <= output, 17)])?;
    Ok(form(tree))
}

pub fn support_call(fleet: &[u16], pattern: &[u16]) -> Result<usize, Refusal> {
    refuse(&[(is_fleet(fleet), 10), (within(1, pattern.len(), 16), 13), (is_tree(pattern), 14)])?;
    Ok(support(fleet, pattern))
}

/// The heaviest placing, or an empty one for no.
pub fn place_call(fleet: &[u16], vehicle: usize, pattern: &[u16], output: usize) -> Result<Vec<u16>, Refusal> {
    let trees = vehicles(fleet);
    refuse(&[
        (is_fleet(fleet), 10),
        (within(1, pattern.len(), 16), 13),
        (is_tree(pattern), 14),
        (within(1, vehicle, trees.len()), 16),
        (pattern.len() <= output, 17),
    ])?;
    Ok(heaviest_placing(pattern, &trees[vehicle - 1]).unwrap_or_default())
}

/// A form with its support, or none at end.
pub type Found = Option<(Vec<u16>, usize)>;

/// What every call of a list checks first. "Turned away: profile other than 0 full, 1 closed, 2 maximal, 19, right after 12." (document 02)
pub fn request_rules(fleet: &[u16], request: Request) -> Result<(), Refusal> {
    refuse(&[
        (is_fleet(fleet), 10),
        (within(1, request.threshold, 64), 11),
        (within(1, request.bound, 16), 12),
        ([FULL, CLOSED, MAXIMAL].contains(&request.profile), 19),
    ])
}

pub fn start_rules(fleet: &[u16], request: Request, output: usize) -> Result<(), Refusal> {
    request_rules(fleet, request)?;
    refuse(&[(request.bound <= output, 17)])
}

pub fn step_rules(fleet: &[u16], request: Request, pattern: &[u16], output: usize) -> Result<(), Refusal> {
    request_rules(fleet, request)?;
    refuse(&[
        (within(1, pattern.len(), request.bound), 13),
        (is_tree(pattern), 14),
        (is_tree(pattern) && in_form(pattern), 15),
        (request.bound <= output, 17),
    ])
}

/// The lightest listed form.
pub fn first(list: &List) -> Found {
    list.iter().next().map(|(form, &support)| (form.clone(), support))
}

/// The lightest listed form heavier than the pattern.
pub fn next(list: &List, pattern: &[u16]) -> Found {
    list.iter().find(|(form, _)| form.as_slice() > pattern).map(|(form, &support)| (form.clone(), support))
}

// ---------- batches (not in document 01: from include/hevolatsy.h) ----------

/// A step's rules, but that a pattern of no pairs is from the start, and that what is found needs an entry too.
pub fn batch_rules(fleet: &[u16], request: Request, pattern: &[u16], output: usize, found: usize) -> Result<(), Refusal> {
    let from_start = pattern.is_empty();
    request_rules(fleet, request)?;
    refuse(&[
        (from_start || pattern.len() <= request.bound, 13),
        (from_start || is_tree(pattern), 14),
        (from_start || is_tree(pattern) && in_form(pattern), 15),
        (request.bound <= output && found >= 1, 17),
    ])
}

/// The listed forms heavier than the pattern, lightest first, each while `bound` pairs of the output and an entry for it are left.
pub fn batch(list: &List, bound: usize, pattern: &[u16], output: usize, found: usize) -> Vec<(Vec<u16>, usize)> {
    let mut forms = vec![];
    let mut pairs_left = output;
    for (form, &support) in list.iter().filter(|(form, _)| form.as_slice() > pattern) {
        if pairs_left < bound || forms.len() == found {
            break;
        }
        pairs_left -= form.len();
        forms.push((form.clone(), support));
    }
    forms
}

// ---------- the label register (document 02) ----------

/// "for each label 1 to 999, the number of its nodes in the fleet and the set of vehicles that hold it"; it "counts [remarks] as before".
#[derive(Clone, Debug, Default, PartialEq)]
pub struct Register {
    pub nodes: Vec<u16>,
    pub holders: Vec<u64>,
}

impl Register {
    pub fn of(fleet: &[u16]) -> Register {
        let trees = vehicles(fleet);
        let number = |wanted| fleet.iter().filter(|&&x| label(x) == wanted).count() as u16;
        let set = |wanted| (0..trees.len()).filter(|&i| trees[i].iter().any(|&x| label(x) == wanted)).map(|i| 1 << i).sum();
        Register { nodes: (1..=999).map(number).collect(), holders: (1..=999).map(set).collect() }
    }

    /// One of fewer than 999 entries is no fleet's; of a longer one the first 999 are looked at.
    pub fn is_of(&self, fleet: &[u16]) -> bool {
        let own = Register::of(fleet);
        self.nodes.starts_with(&own.nodes) && self.holders.starts_with(&own.holders)
    }
}

pub fn register_call(fleet: &[u16], nodes: usize, holders: usize) -> Result<Register, Refusal> {
    refuse(&[(is_fleet(fleet), 10), (nodes >= 999 && holders >= 999, 17)])?;
    Ok(Register::of(fleet))
}

/// The new fleet and its register. "A new tree that no fleet could hold, or a register that is not this fleet's, gets 10, then a wrong
/// vehicle number 16, a swap past 4,096 nodes 10, a buffer too short for the new fleet 17". No fleet is more pairs than the buffer has.
pub fn swap_call(buffer: &[u16], used: usize, vehicle: usize, tree: &[u16], register: &Register) -> Result<(Vec<u16>, Register), Refusal> {
    let fleet = buffer.get(..used).unwrap_or_default();
    let mut trees = vehicles(fleet);
    refuse(&[
        (is_fleet(fleet) && register.is_of(fleet), 10),
        (is_fleet(tree) && vehicles(tree).len() == 1, 10),
        (within(1, vehicle, trees.len()), 16),
    ])?;
    trees[vehicle - 1] = tree.to_vec();
    let swapped = trees.concat();
    refuse(&[(swapped.len() <= 4096, 10), (swapped.len() <= buffer.len(), 17)])?;
    let register = Register::of(&swapped);
    Ok((swapped, register))
}

/// "The list made with the register is the list made without it", but for its first rule.
pub fn register_rules(fleet: &[u16], register: &Register) -> Result<(), Refusal> {
    refuse(&[(is_fleet(fleet) && register.is_of(fleet), 10)])
}

// ---------- text ----------

/// "printed as depth, full stop, three label digits"
pub fn text(pairs: &[u16]) -> String {
    pairs.iter().map(|&x| format!("{}.{:03}", depth(x), label(x))).collect::<Vec<_>>().join(" ")
}

/// Pairs from their text.
pub fn parse(text: &str) -> Vec<u16> {
    text.split_whitespace()
        .map(|word| {
            let (depth, label) = word.split_once('.').expect("depth.label");
            pair(depth.parse().expect("a depth"), label.parse().expect("a label"))
        })
        .collect()
}

/// A fleet from its text: one vehicle a line, `#` begins a comment.
pub fn parse_fleet(text: &str) -> Vec<u16> {
    text.lines().flat_map(|line| parse(line.split('#').next().unwrap())).collect()
}

/// Request and fleet of the key program's input: threshold, size bound, sheet. "A missing byte counts as 0."
pub fn key_request(input: &[u8]) -> Result<(Request, Vec<u16>), Refusal> {
    let byte = |i: usize| input.get(i).copied().unwrap_or(0) as usize;
    with_sheet(Request::full(byte(0), byte(1)), input.get(2..))
}

/// The same of the list program (not in the documents: as `./list` asks it): two bytes of threshold, low byte first, size bound, profile, sheet.
pub fn list_request(input: &[u8]) -> Result<(Request, Vec<u16>), Refusal> {
    let byte = |i: usize| input.get(i).copied().unwrap_or(0) as usize;
    with_sheet(Request { threshold: byte(0) + 256 * byte(1), bound: byte(2), profile: byte(3) }, input.get(4..))
}

/// "It keeps the sheet's first 16,388 bytes"; what is wrong in the sheet comes before what is wrong in the request.
fn with_sheet(request: Request, sheet: Option<&[u8]>) -> Result<(Request, Vec<u16>), Refusal> {
    let sheet = sheet.unwrap_or(&[]);
    let fleet = read(&sheet[..sheet.len().min(16388)])?;
    request_rules(&fleet, request)?;
    Ok((request, fleet))
}

/// "one line a form: support, blank, pairs parted by blanks"
pub fn line(form: &[u16], support: usize) -> String {
    format!("{} {}\n", support, text(form))
}

/// "the word refused, a blank, the number and a line end"
pub fn refused(number: Refusal) -> String {
    format!("refused {number}\n")
}

/// "It writes one line a form [..]; then the line `end`."
pub fn lines(list: &List) -> String {
    list.iter().map(|(form, &support)| line(form, support)).collect::<String>() + "end\n"
}

/// What the key program writes.
pub fn key(input: &[u8]) -> String {
    match key_request(input) {
        Err(number) => refused(number),
        Ok((request, fleet)) => lines(&list(&holdings(&fleet, request.bound), request.threshold)),
    }
}

// ---------- a fleet as text (not in document 01) ----------

/// The fleet as text: a line for each vehicle's tree.
pub fn fleet_text(fleet: &[u16]) -> String {
    vehicles(fleet).iter().map(|tree| text(tree) + "\n").collect()
}

/// The fleet of any bytes taken as text; or the number of the first wrong line and the cause, as `text_to_sheet` says them.
pub fn fleet_of_text(text: &[u8]) -> Result<Vec<u16>, String> {
    if text.len() > 65536 {
        return Err("line 1: text too long\n".into());
    }
    let mut pairs = vec![];
    let mut number = 0;
    for line in text.split(|&b| b == b'\n') {
        number += 1;
        let before_comment = line.split(|&b| b == b'#').next().unwrap();
        let words = before_comment.split(|&b| b == b' ' || b == b'\t' || b == b'\r').filter(|word| !word.is_empty());
        for (place, word) in words.enumerate() {
            let (depth, label) = depth_and_label(word).ok_or(format!("line {number}: no pair\n"))?;
            let pair = node_of_line(&pairs, place, depth, label).map_err(|refusal| format!("line {number}: refused {refusal}\n"))?;
            pairs.push(pair);
        }
    }
    if pairs.is_empty() {
        return Err(format!("line {number}: refused 1\n"));
    }
    Ok(pairs)
}

/// A depth of one digit or two, a full stop, three label digits.
fn depth_and_label(word: &[u8]) -> Option<(u16, u16)> {
    let (depth, label) = std::str::from_utf8(word).ok()?.split_once('.')?;
    let digits = |part: &str| part.bytes().all(|b| b.is_ascii_digit());
    let fits = digits(depth) && digits(label) && (1..=2).contains(&depth.len()) && label.len() == 3;
    fits.then(|| (depth.parse().unwrap(), label.parse().unwrap()))
}

/// The node's pair, or the refusal of the record that the sheet would have here. A line is one tree: its first pair, and no other, is a root.
fn node_of_line(before: &[u16], place: usize, depth: u16, label: u16) -> Result<u16, Refusal> {
    if (place == 0) != (depth == 0) || depth > 15 {
        return Err(5);
    }
    let this = pair(depth, label);
    let sheet = bytes_of(&[before, &[this]].concat());
    record(before, &sheet[bytes_of(before).len()..]).map(|_| this)
}
