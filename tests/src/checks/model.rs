//! The model against document 01's own cases, and its ways of reckoning against each other.

use crate::report::{unhex, Report};
use compare::library::Request;
use compare::miner;
use compare::model::{self, parse, Tree};
use compare::random::{self, without_remarks};

/// Document 01's sheet of two vehicles.
pub const EXAMPLE_SHEET: &str = "03 00 65 00 02 C9 00 02 2D 01 03 01 CA 00 03 00 65 00 02 CA 00 03 01 C9 00";

/// Tree and form.
pub const FORMS: [(&str, &str); 2] = [
    ("0.101 1.201 2.301 1.202", "0.101 1.202 1.201 2.301"),
    ("0.101 1.201 1.201 2.301", "0.101 1.201 2.301 1.201"),
];

/// Pattern, tree, heaviest placing (none: it does not occur).
pub const PLACINGS: [(&str, &str, &[u16]); 6] = [
    ("0.101 1.201 2.302 1.201 2.301", "0.101 1.201 2.302 2.301 1.201 2.302", &[1, 5, 6, 2, 4]),
    ("0.101 1.201 2.302 1.201 2.301", "0.101 1.201 2.302 1.201 2.302 2.301", &[1, 2, 3, 4, 6]),
    ("0.101 1.201 1.201", "0.101 1.201", &[]),
    ("0.101 1.301", "0.101 1.201 2.301", &[]),
    ("0.201 1.301", "0.101 1.201 2.301", &[2, 3]),
    ("0.201", "0.101 1.201 1.201 1.201", &[4]),
];

/// Pattern and what a step gives from it in the example's fleet at 2 and 3.
pub const STEPS: [(&str, &str); 3] = [("0.101 1.202 1.201", "0.201"), ("0.150", "0.201"), ("0.202", "")];

/// Sheet and refusal.
pub const SHEETS: [(&str, u8); 8] = [
    ("", 1),
    ("04", 2),
    ("02 65 00", 3),
    ("03 00 65", 4),
    ("03 01 65 00", 5),
    ("03 00 00 00", 6),
    ("03 00 C9 00", 7),
    ("03 00 65 00 03 01 C9 00", 8),
];

pub const EXAMPLE_KEY: &str = "2 0.101\n2 0.101 1.201\n2 0.101 1.202\n2 0.101 1.202 1.201\n2 0.201\n2 0.202\nend\n";

pub fn run(report: &mut Report) {
    document(report);
    for _ in 0..report.rounds * 300 {
        forms_two_ways(report);
        placings_two_ways(report);
        remarks_taken_out(report);
    }
    for _ in 0..report.rounds * 60 {
        lists_two_ways(report);
    }
}

fn document(report: &mut Report) {
    let name = "model: document 01";
    for (tree, form) in FORMS {
        report.equal(name, model::form(&parse(tree)), parse(form), tree);
    }
    for (pattern, tree, placing) in PLACINGS {
        report.equal(name, model::heaviest_placing(&parse(pattern), &parse(tree)).unwrap_or_default(), placing.to_vec(), pattern);
        report.equal(name, miner::heaviest_placing(&parse(pattern), &parse(tree)).unwrap_or_default(), placing.to_vec(), pattern);
    }
    let fleet = model::read(&unhex(EXAMPLE_SHEET)).unwrap();
    report.equal(name, model::text(&fleet), "0.101 1.201 2.301 1.202 0.101 1.202 1.201".to_string(), EXAMPLE_SHEET);
    let list = model::list(&model::holdings(&fleet, 3), 2);
    for (pattern, next) in STEPS {
        let given = model::next(&list, &parse(pattern)).map_or(vec![], |(form, _)| form);
        report.equal(name, given, parse(next), pattern);
    }
    for (sheet, refusal) in SHEETS {
        report.equal(name, model::read(&unhex(sheet)), Err(refusal), sheet);
    }
    let input = [unhex("02 03"), unhex(EXAMPLE_SHEET)].concat();
    report.equal(name, model::key(&input), EXAMPLE_KEY.to_string(), "the key of the example");
    report.equal(name, model::key(&[]), "refused 1\n".to_string(), "the key of no bytes");
    report.equal(name, model::key(&[65, 17, 4]), "refused 2\n".to_string(), "the key of a wrong sheet at a wrong threshold");
}

/// All orders of children against sorting, and both against the left-heavy test.
fn forms_two_ways(report: &mut Report) {
    let random = &mut report.random;
    let (nodes, labels, down) = (random.between(1, 8), random.between(1, 3), random.between(1, 8));
    let tree = random::tree(random, nodes, &[101, 301, 999][..labels], down);
    let (by_orders, by_sorting) = (Tree::of(&tree).form_by_orders(), Tree::of(&tree).form_by_sorting());
    report.check("model: forms two ways", by_orders == by_sorting && miner::left_heavy(&by_orders), || model::text(&tree));
    let left_heavy = miner::left_heavy(&tree);
    report.equal("model: forms two ways", left_heavy, by_orders == tree, &model::text(&tree));
}

/// Every tuple against matching, in trees of any families.
fn placings_two_ways(report: &mut Report) {
    let random = &mut report.random;
    let labels = random.pick(&[[101, 201, 301], [101, 201, 601], [600, 101, 699]]);
    let (nodes, count, down) = (random.between(1, 12), random.between(1, 3), random.between(1, 8));
    let tree = random::tree(random, nodes, &labels[..count], down);
    let size = random.between(1, 6);
    let pattern = if random.one_in(2) { random::piece(random, &tree, size) } else { random::tree(random, size, &labels[..count], down) };
    let plain = model::heaviest_placing(&pattern, &tree);
    let quick = miner::heaviest_placing(&pattern, &tree);
    let name = if plain.is_some() { "model: placings two ways" } else { "model: no placing two ways" };
    report.equal(name, quick, plain, &format!("{} in {}", model::text(&pattern), model::text(&tree)));
}

/// Pieces of the trees against the fast miner; supports by pieces against supports by placings.
fn lists_two_ways(report: &mut Report) {
    let random = &mut report.random;
    let fleet = random::small_fleet(random);
    let bound = random.between(1, 7);
    let holdings = model::holdings(&fleet, bound);
    for threshold in 1..=model::vehicles(&fleet).len() + 1 {
        let plain: Vec<(Vec<u16>, usize)> = model::list(&holdings, threshold).into_iter().collect();
        let mut quick = vec![];
        miner::mine(&fleet, Request::full(threshold, bound), &mut |form, support| {
            quick.push((form.to_vec(), support));
            true
        });
        report.equal("model: lists two ways", quick, plain, &format!("{} at {threshold} and {bound}", model::text(&fleet)));
    }
    for (form, &support) in holdings.iter().step_by(7) {
        report.equal("model: supports two ways", model::support(&fleet, form), support, &model::text(form));
    }
}

/// A fleet among remarks against the same without any: equal lists, and the same nodes placed, by their numbers among all.
fn remarks_taken_out(report: &mut Report) {
    let random = &mut report.random;
    let bare = without_remarks(&random::small_fleet(random));
    let fleet = random::among_remarks(random, &bare);
    let name = "model: remarks taken out";
    report.check(name, model::is_fleet(&fleet) && model::is_fleet(&bare), || model::text(&fleet));
    let same = model::holdings(&fleet, 4) == model::holdings(&bare, 4) && model::count_pieces(&fleet, 4) == model::count_pieces(&bare, 4);
    report.check(name, same, || model::text(&fleet));
    for (tree, bare) in model::vehicles(&fleet).iter().zip(model::vehicles(&bare)) {
        let pattern = random::piece(&mut report.random, &bare, 4);
        let number_among_all: Vec<u16> = (1..).zip(tree).filter(|(_, &x)| !without_remarks(&[x]).is_empty()).map(|(number, _)| number).collect();
        let placed = model::heaviest_placing(&pattern, &bare).unwrap();
        let expected: Vec<u16> = placed.iter().map(|&number| number_among_all[number as usize - 1]).collect();
        report.equal(name, model::heaviest_placing(&pattern, tree), Some(expected), &format!("{} in {}", model::text(&pattern), model::text(tree)));
    }
}
