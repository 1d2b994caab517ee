//! Reading and writing: every edge of the sheet, then random sheets and fleets.

use super::model::{EXAMPLE_SHEET, SHEETS};
use crate::report::{hex, number, unhex, Lent, Report};
use compare::model::{self, bytes_of, pair, parse};
use compare::random::{self, Taste};
use compare::library;

pub fn run(report: &mut Report) {
    document(report);
    examples(report);
    limits(report);
    marks(report);
    two_faults(report);
    first_bytes_decide(report);
    outputs(report);
    vehicles(report);
    for _ in 0..report.rounds * 15000 {
        random_sheets(report);
    }
    for _ in 0..report.rounds * 200 {
        long_sheets(report);
    }
    for _ in 0..report.rounds * 5000 {
        beyond_limits(report);
    }
    for _ in 0..report.rounds * 15000 {
        random_pairs(report);
    }
}

/// Reads the sheet into an output of that length, and looks at the number and at every lent element.
pub fn read_into(report: &mut Report, name: &'static str, sheet: &[u8], output: usize) -> i64 {
    let (mut lent_sheet, mut lent) = (Lent::input(&mut report.random, sheet), Lent::output(&mut report.random, output));
    let got = library::read(lent_sheet.slice(), lent.slice());
    report.met("read", got);
    let expected = model::read_call(sheet, output);
    let result = expected.clone().unwrap_or_default();
    let wanted = number(&expected.map(|pairs| pairs.len() as i64));
    let untouched = lent.holds(&result) && lent_sheet.untouched();
    report.check(name, got == wanted && untouched, || {
        format!("got {got}, expected {wanted}, memory as expected: {untouched}, output of {output}, sheet {}", hex(sheet))
    });
    got
}

pub fn write_into(report: &mut Report, name: &'static str, pairs: &[u16], output: usize) -> i64 {
    let (mut lent_pairs, mut lent) = (Lent::input(&mut report.random, pairs), Lent::output(&mut report.random, output));
    let got = library::write(lent_pairs.slice(), lent.slice());
    report.met("write", got);
    let expected = model::write_call(pairs, output);
    let result = expected.clone().unwrap_or_default();
    let wanted = number(&expected.map(|sheet| sheet.len() as i64));
    let untouched = lent.holds(&result) && lent_pairs.untouched();
    report.check(name, got == wanted && untouched, || {
        format!("got {got}, expected {wanted}, memory as expected: {untouched}, output of {output}, pairs {pairs:?}")
    });
    got
}

pub fn vehicle_of(report: &mut Report, name: &'static str, fleet: &[u16], vehicle: usize) {
    let mut lent_fleet = Lent::input(&mut report.random, fleet);
    let got = library::vehicle(lent_fleet.slice(), vehicle);
    report.met("vehicle", got);
    let wanted = number(&model::vehicle_call(fleet, vehicle).map(|tree| tree.len() as i64));
    let untouched = lent_fleet.untouched();
    report.check(name, got == wanted && untouched, || {
        format!("got {got}, expected {wanted}, memory as expected: {untouched}, vehicle {vehicle} of {fleet:?}")
    });
}

/// The answer that document 01 names, and the model's, and the library's.
fn reads_as(report: &mut Report, name: &'static str, sheet: &[u8], expected: i64) {
    let got = read_into(report, name, sheet, 4096);
    report.equal(name, got, expected, &hex(&sheet[..sheet.len().min(200)]));
}

fn writes_as(report: &mut Report, name: &'static str, pairs: &[u16], expected: i64) {
    let got = write_into(report, name, pairs, 16388);
    report.equal(name, got, expected, &model::text(&pairs[..pairs.len().min(40)]));
}

fn document(report: &mut Report) {
    let name = "sheet: document 01";
    for (sheet, refusal) in SHEETS {
        reads_as(report, name, &unhex(sheet), -(refusal as i64));
    }
    reads_as(report, name, &unhex(EXAMPLE_SHEET), 7);
    writes_as(report, name, &parse("0.101 1.201 2.301 1.202 0.101 1.202 1.201"), 25);
    // A label may be absent across a tree's border; where it is given all the same, 8.
    reads_as(report, name, &unhex("03 00 65 00 01 00"), 2);
    reads_as(report, name, &unhex("03 00 65 00 03 00 65 00"), -8);
    reads_as(report, name, &unhex("03 00 65 00 02 C9 00 02 C9 00"), -7);
    reads_as(report, name, &unhex("03 00 65 00 02 C9 00 03 01 C9 00"), -8);
    reads_as(report, name, &unhex("03 00 65 00 02 C9 00 01 01"), 3);
    reads_as(report, name, &unhex("03 00 65 00 02 C9 00 01 02"), -7);
    reads_as(report, name, &unhex("03 00 65 00 02 C9 00 01 03"), -5);
    reads_as(report, name, &unhex("03 00 65 00 02 E7 03"), -7);
    reads_as(report, name, &unhex("03 00 65 00 02 E8 03"), -6);
    reads_as(report, name, &unhex("03 00 65 00 02 FF FF"), -6);
    reads_as(report, name, &unhex("03 00 65 00 02 C9"), -4);
    reads_as(report, name, &unhex("03 00 65 00 02"), -4);
    reads_as(report, name, &unhex("03 00 65 00 01"), -4);
    reads_as(report, name, &unhex("03 00 65 00 00"), -7);
    reads_as(report, name, &unhex("00"), -3);
    reads_as(report, name, &unhex("01 00"), -3);
    reads_as(report, name, &unhex("03"), -4);
    reads_as(report, name, &unhex("FF"), -2);
}

/// The fleets of `examples/`: the sheet is the writing of the text.
fn examples(report: &mut Report) {
    let name = "sheet: examples";
    report.equal(name, super::EXAMPLES[0].1.to_vec(), unhex(EXAMPLE_SHEET), "examples/document-01.sheet");
    for (text, sheet) in super::EXAMPLES {
        let fleet = model::parse_fleet(text);
        report.equal(name, bytes_of(&fleet), sheet.to_vec(), text);
        reads_as(report, name, sheet, fleet.len() as i64);
        writes_as(report, name, &fleet, sheet.len() as i64);
    }
}

/// A vehicle with that many nodes, alternating two runs so that each record has both fields.
fn wide_vehicle(nodes: usize) -> Vec<u16> {
    (0..nodes).map(|i| if i == 0 { 101 } else { pair(1, 201 + i as u16 % 2) }).collect()
}

/// A vehicle with that many nodes, all but its root and its last one remarks.
fn remarked_vehicle(nodes: usize) -> Vec<u16> {
    let remarks = (0..nodes - 2).map(|i| pair(1, [600, 699][i % 2]));
    [101].into_iter().chain(remarks).chain([1201]).collect()
}

/// A vehicle that goes down to the depth.
fn deep_vehicle(deepest: u16) -> Vec<u16> {
    (0..=deepest).map(|at| pair(at, [101, 201, 301, 401][at.min(3) as usize])).collect()
}

/// 64 and 65 trees, 256 and 257 nodes, 4,096 and 4,097 nodes, depth 15 and 16: read from a sheet and lent as pairs.
fn limits(report: &mut Report) {
    let name = "sheet: limits";
    let both = |report: &mut Report, pairs: &[u16], accepted: bool, number: i64| {
        let sheet = bytes_of(pairs);
        reads_as(report, name, &sheet, if accepted { pairs.len() as i64 } else { -number });
        writes_as(report, name, pairs, if accepted { sheet.len() as i64 } else { -10 });
    };
    both(report, &[101u16; 64], true, 0);
    both(report, &[101u16; 65], false, 9);
    both(report, &wide_vehicle(256), true, 0);
    both(report, &wide_vehicle(257), false, 9);
    both(report, &[vec![101], wide_vehicle(257)].concat(), false, 9);
    both(report, &wide_vehicle(256).repeat(16), true, 0);
    both(report, &[wide_vehicle(256).repeat(16), vec![101]].concat(), false, 9);
    let in_the_middle = [wide_vehicle(256).repeat(15), wide_vehicle(100), wide_vehicle(156)].concat();
    both(report, &in_the_middle, true, 0);
    both(report, &[in_the_middle, vec![1203]].concat(), false, 9);
    // remarks are nodes like others
    both(report, &remarked_vehicle(256).repeat(16), true, 0);
    both(report, &remarked_vehicle(257), false, 9);
    both(report, &[remarked_vehicle(256).repeat(15), remarked_vehicle(255), vec![101, 1600]].concat(), false, 9);
    both(report, &deep_vehicle(15), true, 0);
    both(report, &deep_vehicle(16), false, 5);
    both(report, &deep_vehicle(15).repeat(64), true, 0);
    both(report, &wide_vehicle(64).repeat(64), true, 0);
    // Depth 16 by an absent depth field and by a given one; depth 255.
    let deepest = bytes_of(&deep_vehicle(15));
    for more in ["00", "01 10", "02 92 01", "01 FF", "03 10 92 01"] {
        reads_as(report, name, &[deepest.clone(), unhex(more)].concat(), -5);
    }
    writes_as(report, name, &[], -10);
}

/// Every mark of the ten rows of ten: a family below another, wherever it can be brought there; and every family as a root.
fn marks(report: &mut Report) {
    let chains = ["0.101", "0.101 1.201", "0.101 1.201 2.301", "0.101 1.201 2.301 3.401", "0.101 1.201 2.301 3.501", "0.101 1.601"];
    for below in 0..10u16 {
        for any in [1, 50, 99] {
            let label = 100 * below + any;
            for chain in chains {
                let above = parse(chain);
                let at = model::depth(above[above.len() - 1]) + 1;
                let pairs = [above, vec![pair(at, label)]].concat();
                read_into(report, "sheet: marks", &bytes_of(&pairs), 10);
                write_into(report, "sheet: marks", &pairs, 40);
            }
            read_into(report, "sheet: marks", &bytes_of(&[label]), 1);
            write_into(report, "sheet: marks", &[label], 4);
        }
    }
}

/// One record that breaks two rules gives the lower number; the first wrong record decides, also against a later lower number.
fn two_faults(report: &mut Report) {
    let name = "sheet: two faults";
    let start = bytes_of(&parse("0.101 1.201 2.301"));
    let full = bytes_of(&wide_vehicle(256));
    let first: [(&str, i64); 9] = [
        ("04", 2),          // 2 and 3
        ("07 01", 2),       // 2, 4 and 5
        ("02", 3),          // 3 and 4
        ("01 05", 3),       // 3 and 5
        ("00", 3),          // 3
        ("03 01 65", 4),    // 4 and 5
        ("03 01 00 00", 5), // 5 and 6
        ("03 00 00 00", 6), // 6 and 7
        ("03 00 E8 03", 6), // 6 and 7
    ];
    for (sheet, expected) in first {
        reads_as(report, name, &unhex(sheet), -expected);
    }
    let later: [(&str, i64); 9] = [
        ("06", 2),          // 2 and 4
        ("07 04 00 00", 2), // 2, 5, 6
        ("03 04 00", 4),    // 4, 5
        ("03 04 00 00", 5), // 5, 6
        ("03 04 2D 01", 5), // 5, 8 (the label)
        ("03 03 00 00", 6), // 6, 8 (the depth)
        ("03 03 E8 03", 6), // 6, 8
        ("03 03 2D 01", 7), // 7, 8 (both fields)
        ("03 03 65 00", 7), // 7, 8 (the depth)
    ];
    for (record, expected) in later {
        let sheet = [start.clone(), unhex(record)].concat();
        reads_as(report, name, &sheet, -expected);
        // the record decides, whatever comes after it (unless it was only cut short)
        if expected != 4 {
            reads_as(report, name, &[sheet, unhex("04")].concat(), -expected);
        }
    }
    let at_the_limit: [(&str, i64); 8] = [
        ("04", 2),
        ("03 01", 4),
        ("03 03 C9 00", 5),
        ("03 01 00 00", 6),
        ("03 01 2D 01", 7),
        ("03 01 CA 00", 8), // 8 and 9: the label of node 256 is 202
        ("03 01 C9 00", 9),
        ("01 01", 9),
    ];
    for (record, expected) in at_the_limit {
        reads_as(report, name, &[full.clone(), unhex(record)].concat(), -expected);
    }
    // tree 65 and node 4,097, with a needless field and without
    let trees = bytes_of(&[101u16; 64]);
    reads_as(report, name, &[trees.clone(), unhex("03 00 65 00")].concat(), -8);
    reads_as(report, name, &[trees.clone(), unhex("03 00 66 00")].concat(), -9);
    reads_as(report, name, &[trees, unhex("03 00 C9 00")].concat(), -7);
    let nodes = bytes_of(&wide_vehicle(256).repeat(16));
    reads_as(report, name, &[nodes.clone(), unhex("03 00 65 00")].concat(), -9);
    reads_as(report, name, &[nodes, unhex("03 02 CA 00")].concat(), -7);
    // a short output is seen after the whole sheet
    for output in [0, 1, 2] {
        read_into(report, name, &[start.clone(), unhex("04")].concat(), output);
        read_into(report, name, &start, output);
    }
}

/// "The sheet's first 16,388 bytes, enough to decide any sheet"
fn first_bytes_decide(report: &mut Report) {
    let name = "sheet: first 16,388 bytes";
    let mut sheet = bytes_of(&wide_vehicle(256).repeat(16));
    for more in [0, 1, 4, 100, 1000, 60000] {
        let extra = report.random.bytes(more);
        sheet.extend(extra);
        let whole = read_into(report, name, &sheet, 4096);
        let cut = read_into(report, name, &sheet[..sheet.len().min(16388)], 4096);
        report.equal(name, whole, cut, &format!("{} bytes", sheet.len()));
    }
    for filler in [0u8, 1, 2, 3, 101, 255] {
        let sheet = vec![filler; 40000];
        let whole = read_into(report, name, &sheet, 4096);
        let cut = read_into(report, name, &sheet[..16388], 4096);
        report.equal(name, whole, cut, &format!("40,000 times {filler}"));
    }
}

/// Outputs that are empty, one too short, exact, one longer, far longer.
fn outputs(report: &mut Report) {
    let name = "sheet: outputs";
    for fleet in [parse("0.101"), parse("0.101 1.201 2.301 1.202 0.101 1.202 1.201"), wide_vehicle(256).repeat(16)] {
        let sheet = bytes_of(&fleet);
        for output in [0, 1, fleet.len() - 1, fleet.len(), fleet.len() + 1, fleet.len() + 1000] {
            read_into(report, name, &sheet, output);
        }
        for output in [0, 1, sheet.len() - 1, sheet.len(), sheet.len() + 1, sheet.len() + 1000] {
            write_into(report, name, &fleet, output);
        }
        // 10 and a short output, a wrong sheet and a short output: the lower number
        let no_fleet = [fleet.clone(), vec![0]].concat();
        write_into(report, name, &no_fleet, 0);
        read_into(report, name, &[sheet.clone(), vec![255]].concat(), 0);
    }
}

/// Numbers from 0 past the last vehicle; 10 before 16.
fn vehicles(report: &mut Report) {
    let two = parse("0.101 1.201 2.301 0.102 1.201");
    for fleet in [two.clone(), vec![], parse("0.201"), [two, vec![0]].concat(), vec![101; 64], vec![101; 65], wide_vehicle(256).repeat(16)] {
        for vehicle in [0, 1, 2, 3, 16, 17, 63, 64, 65, 256, 1 << 32, usize::MAX] {
            vehicle_of(report, "sheet: vehicles", &fleet, vehicle);
        }
    }
}

/// A random taste and a fleet of it, small enough for many rounds.
fn some_fleet(report: &mut Report) -> Vec<u16> {
    let random = &mut report.random;
    let taste = Taste { labels: random.between(1, 90), down: random.between(1, 9), remarks: random.one_in(2) };
    let vehicles = random.pick(&[1, 2, 3, 5, 19]);
    let nodes = random.between(1, 30);
    random::fleet(random, vehicles, nodes, taste)
}

fn random_sheets(report: &mut Report) {
    let fleet = some_fleet(report);
    let sheet = bytes_of(&fleet);
    round_trip(report, &fleet, &sheet);
    let output = report.random.pick(&[fleet.len(), fleet.len() - 1, fleet.len() + 1, 0]);
    read_into(report, "sheet: valid", &sheet, output);
    let damaged = random::damaged_sheet(&mut report.random, &sheet);
    read_into(report, "sheet: damaged", &damaged, fleet.len() + 1);
    accepted_is_written(report, &damaged);
    for _ in 0..3 {
        let near = random::nearly_a_sheet(&mut report.random, &fleet);
        let output = report.random.pick(&[fleet.len() + 4, fleet.len(), 3]);
        read_into(report, "sheet: nearly valid", &near, output);
        accepted_is_written(report, &near);
    }
    let full = random::sheet_with_all_fields(&mut report.random, &fleet);
    read_into(report, "sheet: needless fields", &full, fleet.len());
    let length = report.random.below(40);
    let noise = report.random.bytes(length);
    read_into(report, "sheet: random bytes", &noise, 40);
    let small: Vec<u8> = noise.iter().map(|b| b % 4).collect();
    read_into(report, "sheet: random bytes", &[vec![3, 0, 101, 0], small].concat(), 40);
}

/// A written sheet reads back as its fleet.
pub fn round_trip(report: &mut Report, fleet: &[u16], sheet: &[u8]) {
    let mut bytes = vec![0; sheet.len() + 5];
    let written = library::write(fleet, &mut bytes);
    let mut pairs = vec![0; fleet.len()];
    let read = if written > 0 { library::read(&bytes[..written as usize], &mut pairs) } else { 0 };
    report.check("sheet: written and read", read == fleet.len() as i64 && pairs == fleet && bytes[..written as usize] == *sheet, || model::text(fleet));
}

/// An accepted sheet's fleet is written as the same bytes.
fn accepted_is_written(report: &mut Report, sheet: &[u8]) {
    let mut pairs = vec![0; 4096];
    let read = library::read(sheet, &mut pairs);
    if read > 0 {
        let mut bytes = vec![0; sheet.len()];
        let written = library::write(&pairs[..read as usize], &mut bytes);
        report.check("sheet: read and written", written == sheet.len() as i64 && bytes == sheet, || hex(sheet));
    }
}

/// A fault in the middle of a long sheet.
fn long_sheets(report: &mut Report) {
    let random = &mut report.random;
    let taste = Taste { labels: random.between(1, 90), down: random.between(1, 9), remarks: true };
    let vehicles = random.between(10, 19);
    let fleet = random::fleet(random, vehicles, 200, taste);
    let sheet = bytes_of(&fleet);
    let near = random::nearly_a_sheet(random, &fleet);
    let damaged = random::damaged_sheet(random, &sheet);
    read_into(report, "sheet: long", &sheet, fleet.len());
    read_into(report, "sheet: long, faulty", &near, 4096);
    read_into(report, "sheet: long, faulty", &damaged, 4096);
    round_trip(report, &fleet, &sheet);
}

/// Any record where the fleet has reached a limit.
fn beyond_limits(report: &mut Report) {
    let full = match report.random.below(40) {
        0 => wide_vehicle(256).repeat(16),
        1..=20 => wide_vehicle(256),
        _ => vec![101; 64],
    };
    let record = random::any_record(&mut report.random, full.last().copied());
    let trees = model::vehicles(&full).len();
    let pairs = [full, vec![pair(report.random.below(3) as u16, report.random.pick(&[101, 102, 201, 203, 301, 601]))]].concat();
    read_into(report, "sheet: beyond a limit", &[bytes_of(&pairs[..pairs.len() - 1]), record].concat(), pairs.len());
    read_into(report, "sheet: beyond a limit", &bytes_of(&pairs), pairs.len());
    if trees < 16 {
        write_into(report, "sheet: beyond a limit", &pairs, 2000);
    }
}

fn random_pairs(report: &mut Report) {
    let fleet = some_fleet(report);
    let size = bytes_of(&fleet).len();
    let output = report.random.pick(&[size, size - 1, size + 1, 0]);
    write_into(report, "sheet: pairs", &fleet, output);
    let damaged = random::damaged_pairs(&mut report.random, &fleet);
    write_into(report, "sheet: damaged pairs", &damaged, size + 8);
    let vehicle = report.random.below(22);
    vehicle_of(report, "sheet: vehicles", &fleet, vehicle);
    vehicle_of(report, "sheet: vehicles", &damaged, vehicle);
    let length = report.random.below(6);
    let noise = report.random.words(length);
    write_into(report, "sheet: random pairs", &noise, 40);
}
