//! The programs themselves, byte for byte: what they write to both outputs and how they end, on any bytes at all.

use super::listing::{quick_list, PROFILES};
use super::model::{EXAMPLE_KEY, EXAMPLE_SHEET, SHEETS};
use super::pages::{all_feet_met, edges, feet, EXAMPLE_PAGES};
use super::EXAMPLES;
use crate::report::{hex, unhex, Report};
use compare::library::Request;
use compare::model::{self, bytes_of, pair};
use compare::{pages, random};
use std::ffi::{c_char, CStr};
use std::fs::File;
use std::io::{Read, Write};
use std::os::fd::AsRawFd;
use std::process::{Command, Stdio};

const PROGRAMS: &str = concat!(env!("CARGO_MANIFEST_DIR"), "/../target/bin/");

/// A program that has not ended by then is stopped, with status 124.
const MOST_SECONDS: &str = "60";

pub fn run(report: &mut Report) {
    document(report);
    lengths(report);
    limits(report);
    list_limits(report);
    past_the_cut(report);
    bytes_taken(report);
    page_edges(report);
    long_list(report);
    closed_output(report);
    failing_input(report);
    full_output(report);
    for _ in 0..report.rounds * 600 {
        small_inputs(report);
    }
    for _ in 0..report.rounds * 4 {
        plausible_inputs(report);
    }
    examples_as_text(report);
    known_texts(report);
    large_texts(report);
    for _ in 0..report.rounds * 400 {
        texts(report);
        sheets(report);
    }
}

#[derive(PartialEq, Debug)]
struct Ran {
    status: Option<i32>,
    output: Vec<u8>,
    errors: Vec<u8>,
}

/// Runs the program on the input, which comes through a pipe in pieces of any size. So much of its output is read at most, as a wrong list may be
/// one that nobody could wait for.
fn ran(report: &mut Report, program: &str, input: &[u8], most_output: usize) -> Ran {
    let mut child = Command::new("timeout")
        .arg(MOST_SECONDS)
        .arg(format!("{PROGRAMS}{program}"))
        .stdin(Stdio::piped())
        .stdout(Stdio::piped())
        .stderr(Stdio::piped())
        .spawn()
        .expect("a program to run: tests/run builds them");
    let mut pipe = child.stdin.take().unwrap();
    let most = report.random.pick(&[1 << 20, 1 << 20, 5000, input.len() / 7 + 1]);
    let pieces: Vec<Vec<u8>> = input.chunks(most).map(|piece| piece.to_vec()).collect();
    // A program that has read enough may end before the pipe is empty.
    let feeder = std::thread::spawn(move || pieces.iter().all(|piece| pipe.write_all(piece).is_ok()));
    let mut output = vec![];
    child.stdout.take().unwrap().take(most_output as u64).read_to_end(&mut output).expect("an output");
    let ended = child.wait_with_output().expect("an end");
    feeder.join().expect("a feeder");
    Ran { status: ended.status.code(), output, errors: ended.stderr }
}

/// A refusal with a minus sign, 0 for another cause, 1 for a list, a sheet or a text.
fn answer(ran: &Ran) -> i64 {
    let said = String::from_utf8_lossy(if ran.errors.is_empty() { &ran.output } else { &ran.errors });
    match said.trim_end().rsplit_once("refused ") {
        Some((_, number)) => number.parse().map_or(0, |number: i64| -number),
        None => ran.errors.is_empty() as i64,
    }
}

/// Compares what the program writes, which is handed back.
fn compare(report: &mut Report, name: &'static str, program: &'static str, input: &[u8], output: Vec<u8>, errors: Vec<u8>) -> Vec<u8> {
    let got = ran(report, program, input, output.len() + 1);
    report.met(program, answer(&got));
    let expected = Ran { status: Some(0), output, errors };
    report.check(name, got == expected, || {
        let shown = |ran: &Ran| format!("status {:?}, {:?} {:?}", ran.status, String::from_utf8_lossy(&ran.output), String::from_utf8_lossy(&ran.errors));
        let mut said = (shown(&got), shown(&expected), hex(input));
        for part in [&mut said.0, &mut said.1, &mut said.2] {
            *part = part.chars().take(400).collect();
        }
        format!("{program} on {} bytes: got {}, expected {}, input {}", input.len(), said.0, said.1, said.2)
    });
    got.output
}

// ---------- key_main and pages_main ----------

/// What both programs write of an input: the list, and its pages; or the same refusal.
struct Written {
    key: String,
    pages: Vec<u8>,
}

impl Written {
    fn of(input: &[u8]) -> Written {
        match model::key_request(input) {
            Err(number) => Written { key: model::refused(number), pages: model::refused(number).into_bytes() },
            Ok((request, fleet)) => {
                let list = quick_list(&fleet, request);
                Written { key: model::lines(&list), pages: pages::laid_out(&list) }
            }
        }
    }
}

/// Compares both programs, and the one's pages with the other's lines.
pub fn both(report: &mut Report, name: &'static str, input: &[u8]) {
    let Written { key, pages } = Written::of(input);
    let lines = compare(report, name, "key_main", input, key.into_bytes(), vec![]);
    let own = compare(report, name, "pages_main", input, pages, vec![]);
    report.check("pages_main: joined", pages::joined(&own).as_bytes() == lines, || hex(input));
}

pub fn request(threshold: u8, bound: u8, sheet: &[u8]) -> Vec<u8> {
    [&[threshold, bound], sheet].concat()
}

// ---------- list_main ----------

/// The list program's input, the request's low bytes: two of the threshold, one of each other number.
pub fn list_input(request: Request, sheet: &[u8]) -> Vec<u8> {
    let Request { threshold, bound, profile } = request;
    [&(threshold as u16).to_le_bytes()[..], &[bound as u8, profile as u8], sheet].concat()
}

/// Compares the list program.
pub fn list_program(report: &mut Report, name: &'static str, input: &[u8]) {
    let lines = match model::list_request(input) {
        Err(number) => model::refused(number),
        Ok((request, fleet)) => model::lines(&quick_list(&fleet, request)),
    };
    compare(report, name, "list_main", input, lines.into_bytes(), vec![]);
}

/// Every threshold, bound and profile at the edge, on a valid sheet, a wrong one and none; and inputs that end before the sheet.
fn list_limits(report: &mut Report) {
    let name = "list: thresholds, bounds and profiles";
    let sheet = unhex(EXAMPLE_SHEET);
    let wrong = [sheet.clone(), vec![4]].concat();
    for threshold in [0, 1, 2, 64, 65, 256, 258, 512, 65535] {
        for bound in [0, 1, 3, 16, 17, 255] {
            for profile in [0, 1, 2, 3, 4, 128, 255] {
                for sheet in [&sheet[..], &wrong, &[]] {
                    list_program(report, name, &list_input(Request { threshold, bound, profile }, sheet));
                }
            }
        }
    }
    for length in 0..8 {
        for byte in [0, 1, 2, 3] {
            list_program(report, "list: short inputs", &vec![byte; length]);
        }
    }
}

// ---------- all three ----------

fn document(report: &mut Report) {
    let name = "key and pages: document 01";
    let input = request(2, 3, &unhex(EXAMPLE_SHEET));
    compare(report, name, "key_main", &input, EXAMPLE_KEY.as_bytes().to_vec(), vec![]);
    compare(report, name, "pages_main", &input, EXAMPLE_PAGES.to_vec(), vec![]);
    for (sheet, refusal) in SHEETS {
        let (sheet, refused) = (unhex(sheet), format!("refused {refusal}\n").into_bytes());
        for program in ["key_main", "pages_main"] {
            compare(report, name, program, &request(2, 3, &sheet), refused.clone(), vec![]);
        }
        compare(report, "text: document 01", "sheet_to_text", &sheet, vec![], refused);
    }
}

/// Nothing, one byte, two bytes, and random bytes of every order of length up to 100,000.
fn lengths(report: &mut Report) {
    let name = "key and pages: any bytes";
    let of_list = "list: any bytes";
    both(report, name, &[]);
    for byte in 0..=255 {
        both(report, name, &[byte]);
        both(report, name, &[1, byte]);
    }
    for length in [3, 4, 5, 6, 7, 100, 1000, 4095, 4096, 4097, 16387, 16388, 16389, 16390, 16391, 20000, 65535, 65536, 65537, 100_000] {
        let noise = report.random.bytes(length);
        let few: Vec<u8> = noise.iter().map(|byte| byte % 4).collect();
        both(report, name, &noise);
        both(report, name, &few);
        both(report, name, &[request(2, 3, &unhex(EXAMPLE_SHEET)), noise.clone()].concat());
        list_program(report, of_list, &noise);
        list_program(report, of_list, &few);
        list_program(report, of_list, &[list_input(Request::full(2, 3), &unhex(EXAMPLE_SHEET)), noise].concat());
    }
}

/// Every threshold and bound at the edge, on a valid sheet, a wrong one, a cut one and none.
fn limits(report: &mut Report) {
    let sheet = unhex(EXAMPLE_SHEET);
    let wrong = [sheet.clone(), vec![4]].concat();
    for threshold in [0, 1, 2, 3, 63, 64, 65, 128, 255] {
        for bound in [0, 1, 2, 3, 15, 16, 17, 128, 255] {
            for sheet in [&sheet[..], &wrong, &sheet[..sheet.len() - 1], &[]] {
                both(report, "key and pages: thresholds and bounds", &request(threshold, bound, sheet));
            }
        }
    }
}

/// Of 4,096 nodes and four bytes a record, but for the first child of each root, whose depth is absent.
fn longest_sheet() -> Vec<u8> {
    let wide: Vec<u16> = (0..256).map(|i| if i == 0 { 101 } else { pair(1, 201 + i % 2) }).collect();
    bytes_of(&wide.repeat(16))
}

/// Full sheets with something after them: the record that decides, whole or cut, and bytes past those that are read.
fn past_the_cut(report: &mut Report) {
    let name = "key and pages: long sheets";
    let full = longest_sheet();
    report.equal(name, full.len(), 4 * 4096 - 16, "the longest sheet");
    let records = ["", "01 01", "00", "03 00 65 00", "03 01 CA", "03 01 CA 00", "02 CA 00", "04", "03 00 C9 00"];
    for record in records {
        for past in [0, 1, 2, 3, 4, 100, 4096, 83_610] {
            let mut sheet = [full.clone(), unhex(record)].concat();
            sheet.resize(sheet.len() + past, report.random.pick(&[0, 1, 3, 4, 255]));
            both(report, name, &request(16, 2, &sheet));
            let profile = report.random.pick(&PROFILES);
            list_program(report, "list: long sheets", &list_input(Request { profile, ..Request::full(16, 2) }, &sheet));
        }
    }
    // trees without a second field a record: more nodes than fit stand far before the cut
    let chain = unhex("03 00 65 00 02 C9 00 02 2D 01 02 91 01 00 00 00 00 00 00 00 00 00 00 00");
    for trees in [1, 64, 65, 400, 5000] {
        both(report, name, &request(64, 16, &chain.repeat(trees)));
    }
    let other = unhex("03 00 66 00");
    both(report, name, &request(1, 1, &[chain.repeat(64), other.repeat(30_000)].concat()));
}

/// All take the bytes of the request and 16,388 of the sheet from their input and no more.
fn bytes_taken(report: &mut Report) {
    let path = std::env::temp_dir().join(format!("hevolatsy-input-{}", std::process::id()));
    for (program, most) in [("key_main", 16_390), ("pages_main", 16_390), ("list_main", 16_392)] {
        for length in [0, 1, most - 1, most, most + 1, 100_000] {
            std::fs::write(&path, vec![0; length]).expect("an input");
            let input = std::fs::File::open(&path).expect("an input");
            let shell = format!("timeout {MOST_SECONDS} {PROGRAMS}{program} >/dev/null; wc -c");
            let ended = Command::new("sh").args(["-c", &shell]).stdin(input).output().expect("sh");
            let left: usize = String::from_utf8_lossy(&ended.stdout).trim().parse().unwrap_or(usize::MAX);
            report.equal("programs: bytes left unread", left, length.saturating_sub(most), &format!("{program} of {length}"));
        }
    }
    std::fs::remove_file(path).expect("removed");
}

/// Forms of two lines, and `end`, at and around the foot of a page.
fn page_edges(report: &mut Report) {
    let name = "key and pages: the foot of a page";
    let mut met = vec![];
    for (fleet, bound) in edges() {
        let input = request(1, bound as u8, &bytes_of(&fleet));
        met.extend(feet(&Written::of(&input).pages));
        both(report, name, &input);
    }
    all_feet_met(report, name, &met);
}

/// A list of more than 20,000 lines, to its end.
fn long_list(report: &mut Report) {
    let name = "key and pages: a long list";
    let input = request(4, 10, EXAMPLES[1].1);
    report.check(name, Written::of(&input).key.lines().count() > 20_000, || "the list is short".into());
    both(report, name, &input);
    list_program(report, "list: a long list", &list_input(Request::full(4, 10), EXAMPLES[1].1));
}

/// The reader of a long list goes away after a few bytes: the program ends all the same.
fn closed_output(report: &mut Report) {
    let name = "programs: output closed early";
    let input = request(6, 8, EXAMPLES[1].1);
    let list = list_input(Request::full(6, 8), EXAMPLES[1].1);
    let Written { key, pages } = Written::of(&input);
    let lines = key.into_bytes();
    for (program, input, written) in [("key_main", &input, &lines), ("pages_main", &input, &pages), ("list_main", &list, &lines)] {
        let shell = format!("timeout {MOST_SECONDS} {PROGRAMS}{program} | head -c 10; exit ${{PIPESTATUS[0]}}");
        let mut child = Command::new("bash").args(["-c", &shell]).stdin(Stdio::piped()).stdout(Stdio::piped()).spawn().expect("bash");
        child.stdin.take().unwrap().write_all(input).expect("the input is taken");
        let ended = child.wait_with_output().expect("an end");
        report.equal(name, ended.stdout, written[..10].to_vec(), "ten bytes");
        report.check(name, ended.status.code() != Some(124), || format!("{program} went on"));
    }
}

// ---------- inputs that cannot be read, outputs that cannot be written ----------

/// What each program is tried on, and a beginning of it, with no line end, that is a whole input itself: of a shorter fleet.
fn inputs() -> [(&'static str, Vec<u8>, usize); 5] {
    let (text, sheet) = EXAMPLES[0];
    let first_tree = text.find("0.101").expect("a tree");
    let text = text.as_bytes()[first_tree..].to_vec();
    let key = request(2, 3, sheet);
    let list = list_input(Request::full(1, 3), sheet);
    [
        ("key_main", key.clone(), 2 + 14),
        ("pages_main", key, 2 + 14),
        ("list_main", list, 4 + 14),
        ("text_to_sheet", text, 11),
        ("sheet_to_text", sheet.to_vec(), 14),
    ]
}

extern "C" {
    fn unlockpt(fd: i32) -> i32;
    fn ptsname(fd: i32) -> *const c_char;
}

/// An input that breaks off: these bytes, and then a read fails. It is the end of a terminal whose other end has been closed.
fn broken_off(bytes: &[u8]) -> File {
    let open = |path: &str| File::options().read(true).write(true).open(path);
    let end = open("/dev/ptmx").expect("a terminal");
    let other = unsafe {
        assert_eq!(unlockpt(end.as_raw_fd()), 0);
        CStr::from_ptr(ptsname(end.as_raw_fd())).to_str().expect("a name")
    };
    open(other).and_then(|mut other| other.write_all(bytes)).expect("bytes on the way");
    end
}

/// A read that fails is not the end of the input: nothing is written but that.
fn failing_input(report: &mut Report) {
    let name = "programs: input not read";
    for (program, input, beginning) in inputs() {
        let directory = File::open("/").expect("a directory");
        let for_writing = File::options().write(true).open("/dev/null").expect("for writing only");
        let at_once = broken_off(&[]);
        let on_the_way = broken_off(&input[..beginning]);
        for (kind, stdin) in [("a directory", directory), ("for writing only", for_writing), ("at once", at_once), ("on the way", on_the_way)] {
            let ended = Command::new("timeout").arg(MOST_SECONDS).arg(format!("{PROGRAMS}{program}")).stdin(stdin).output().expect("an end");
            let got = Ran { status: ended.status.code(), output: ended.stdout, errors: ended.stderr };
            report.equal(name, got, Ran { status: Some(0), output: vec![], errors: b"input not read\n".to_vec() }, &format!("{program}, {kind}"));
        }
        // the beginning alone is a whole input
        let whole = ran(report, program, &input[..beginning], 1 << 20);
        report.check(name, whole.errors.is_empty() && !whole.output.is_empty(), || format!("{program}: {whole:?}"));
    }
}

/// A write that fails is told.
fn full_output(report: &mut Report) {
    for (program, input, _) in inputs() {
        let full = File::options().write(true).open("/dev/full").expect("a full device");
        let mut command = Command::new("timeout");
        command.arg(MOST_SECONDS).arg(format!("{PROGRAMS}{program}")).stdin(Stdio::piped()).stdout(full).stderr(Stdio::piped());
        let mut child = command.spawn().expect("a program");
        child.stdin.take().unwrap().write_all(&input).expect("the input is taken");
        let errors = child.wait_with_output().expect("an end").stderr;
        report.equal("programs: output not written", String::from_utf8_lossy(&errors).as_ref(), "output not written\n", program);
    }
}

/// A small fleet's sheet: valid, damaged, cut, with needless fields, or no sheet at all.
fn any_sheet(report: &mut Report) -> Vec<u8> {
    let random = &mut report.random;
    let fleet = random::small_fleet(random);
    let sheet = bytes_of(&fleet);
    match random.below(8) {
        0 => random::damaged_sheet(random, &sheet),
        1 => random::nearly_a_sheet(random, &fleet),
        2 => random::sheet_with_all_fields(random, &fleet),
        3 => sheet[..random.below(sheet.len())].to_vec(),
        4 => {
            let length = random.below(60);
            random.bytes(length)
        }
        _ => sheet,
    }
}

fn small_inputs(report: &mut Report) {
    let sheet = any_sheet(report);
    for kind in ["key and pages: small fleets", "key and pages: any limits"] {
        let random = &mut report.random;
        let (threshold, bound) = match kind {
            "key and pages: small fleets" => (random.between(1, 4) as u8, random.between(1, 16) as u8),
            _ => (random.pick(&[0, 1, 2, 64, 65, 255]), random.pick(&[0, 1, 16, 17, 255])),
        };
        both(report, kind, &request(threshold, bound, &sheet));
    }
    let random = &mut report.random;
    let threshold = if random.one_in(4) { random.pick(&[0, 64, 65, 257, 511]) } else { random.between(1, 4) };
    let bound = if random.one_in(4) { random.pick(&[0, 16, 17, 255]) } else { random.between(1, 9) };
    let request = Request { threshold, bound, profile: random.pick(&[0, 1, 1, 1, 2, 2, 3, 255]) };
    list_program(report, "list: small fleets", &list_input(request, &sheet));
}

fn plausible_inputs(report: &mut Report) {
    for nodes in [50, 100, 200] {
        let fleet = random::plausible_fleet(&mut report.random, 19, nodes);
        let sheet = bytes_of(&fleet);
        let threshold = report.random.between(9, 19) as u8;
        let bound = report.random.between(3, 6) as u8;
        both(report, "key and pages: plausible fleets", &request(threshold, bound, &sheet));
        let damaged = random::damaged_sheet(&mut report.random, &sheet);
        both(report, "key and pages: plausible fleets, damaged", &request(threshold, bound, &damaged));
    }
}

// ---------- text_to_sheet and sheet_to_text ----------

pub fn text_to_sheet(report: &mut Report, name: &'static str, text: &[u8]) {
    let (sheet, errors) = match model::fleet_of_text(text) {
        Ok(fleet) => (bytes_of(&fleet), String::new()),
        Err(errors) => (vec![], errors),
    };
    compare(report, name, "text_to_sheet", text, sheet, errors.into_bytes());
}

pub fn sheet_to_text(report: &mut Report, name: &'static str, sheet: &[u8]) {
    let (text, errors) = match model::read(&sheet[..sheet.len().min(16388)]) {
        Ok(fleet) => (model::fleet_text(&fleet), String::new()),
        Err(number) => (String::new(), format!("refused {number}\n")),
    };
    compare(report, name, "sheet_to_text", sheet, text.into_bytes(), errors.into_bytes());
}

fn examples_as_text(report: &mut Report) {
    for (text, sheet) in EXAMPLES {
        compare(report, "text: examples", "text_to_sheet", text.as_bytes(), sheet.to_vec(), vec![]);
        sheet_to_text(report, "text: examples", sheet);
    }
}

/// Texts of which the answer is known: the fleet's own text, or the line and the cause.
const TEXTS: [(&str, Result<&str, &str>); 49] = [
    // a depth has one digit or two
    ("0.101 01.201 2.301", Ok("0.101 1.201 2.301\n")),
    ("00.101\n00.102 01.201", Ok("0.101\n0.102 1.201\n")),
    ("0.101 001.201", Err("line 1: no pair\n")),
    ("000.101", Err("line 1: no pair\n")),
    ("0.101 100.201", Err("line 1: no pair\n")),
    ("0.101 .201", Err("line 1: no pair\n")),
    ("0.101\n0.101 \u{661}.201", Err("line 2: no pair\n")),
    ("0.101 -1.201", Err("line 1: no pair\n")),
    ("0.101 +1.201", Err("line 1: no pair\n")),
    // above 15, and above what 16 bits hold with a label
    ("0.101 15.201", Err("line 1: refused 5\n")),
    ("0.101 16.201", Err("line 1: refused 5\n")),
    ("0.101 59.201", Err("line 1: refused 5\n")),
    ("0.101 60.201", Err("line 1: refused 5\n")),
    ("0.101 65.535", Err("line 1: refused 5\n")),
    ("0.101 65.536", Err("line 1: refused 5\n")),
    ("0.101 65.637", Err("line 1: refused 5\n")),
    ("0.101 66.737", Err("line 1: refused 5\n")),
    ("0.101 99.999", Err("line 1: refused 5\n")),
    ("65.637", Err("line 1: refused 5\n")),
    ("99.999", Err("line 1: refused 5\n")),
    ("0.101\n\n60.000", Err("line 3: refused 5\n")),
    ("0.101 99.2011", Err("line 1: no pair\n")),
    // three label digits
    ("0.101 1.20", Err("line 1: no pair\n")),
    ("0.101 1.2010", Err("line 1: no pair\n")),
    ("0.101 1.", Err("line 1: no pair\n")),
    ("0.101 1", Err("line 1: no pair\n")),
    ("0.101 1 .201", Err("line 1: no pair\n")),
    ("0.101 1.20 1", Err("line 1: no pair\n")),
    ("0.101 1.20#1", Err("line 1: no pair\n")),
    ("0.101 1.000", Err("line 1: refused 6\n")),
    // a pair is followed by a blank, a comment, a line end or the end
    ("0.101\t1.201\r\n#\n 0.102#1.20", Ok("0.101 1.201\n0.102\n")),
    ("0.101,1.201", Err("line 1: no pair\n")),
    ("0.1011.201", Err("line 1: no pair\n")),
    ("0.101 1.201.", Err("line 1: no pair\n")),
    ("0.101\u{b}1.201", Err("line 1: no pair\n")),
    ("0.101\0", Err("line 1: no pair\n")),
    ("\u{feff}0.101", Err("line 1: no pair\n")),
    // a line is one tree
    ("0.101 0.102", Err("line 1: refused 5\n")),
    ("0.101 00.102", Err("line 1: refused 5\n")),
    ("0.101\n1.201", Err("line 2: refused 5\n")),
    ("0.101\n01.201", Err("line 2: refused 5\n")),
    ("0.101 2.301", Err("line 1: refused 5\n")),
    ("0.101\n# none\n0.101 1.301", Err("line 3: refused 7\n")),
    // the first wrong pair decides
    ("0.101 1.301\n0.1", Err("line 1: refused 7\n")),
    ("0.101 x 1.301", Err("line 1: no pair\n")),
    // no pair at all: the last line
    ("", Err("line 1: refused 1\n")),
    ("\n", Err("line 2: refused 1\n")),
    ("# 0.101", Err("line 1: refused 1\n")),
    (" \t\r\n\n#", Err("line 3: refused 1\n")),
];

fn known_texts(report: &mut Report) {
    for (text, answer) in TEXTS {
        known_text(report, text, answer);
    }
    let deepest: String = (0..16).map(|at| format!("{at:02}.{} ", [101, 201, 301, 401][at.min(3)])).collect();
    known_text(report, &deepest, Ok(&deepest));
    for (more, cause) in [("16.401", "refused 5"), ("99.401", "refused 5"), ("015.401", "no pair"), ("15.301", "refused 7")] {
        known_text(report, &(deepest.clone() + more), Err(&format!("line 1: {cause}\n")));
    }
}

fn known_text(report: &mut Report, text: &str, answer: Result<&str, &str>) {
    let expected = answer.map(model::parse_fleet).map_err(str::to_string);
    report.equal("text: model", model::fleet_of_text(text.as_bytes()), expected, text);
    text_to_sheet(report, "text: known", text.as_bytes());
}

/// The limits of a fleet, one more than each, and the most bytes of a text.
fn large_texts(report: &mut Report) {
    let wide = |nodes: usize| "0.101".to_string() + &" 1.201 1.202".repeat(130)[..6 * (nodes - 1)] + "\n";
    let mut texts = vec![wide(256).repeat(16), wide(256).repeat(16) + "0.101\n", wide(257), "0.101\n".repeat(64), "0.101\n".repeat(65)];
    for length in [65_535, 65_536, 65_537, 100_000] {
        for filler in ["\n", " ", "#", "9", "\n0.101", "\0"] {
            let mut text = "0.101\n".to_string() + &filler.repeat(length);
            text.truncate(length);
            texts.push(text);
        }
    }
    for text in texts {
        text_to_sheet(report, "text: large", text.as_bytes());
    }
    for trees in [64, 65] {
        sheet_to_text(report, "text: large", &bytes_of(&vec![101; trees]));
    }
    sheet_to_text(report, "text: large", &longest_sheet());
    // nearly all of its pairs are of seven bytes, with what parts them: no fleet's text is longer
    let deep: Vec<u16> = (0..256).map(|i: u16| pair(i.min(15), [101, 201, 301, 401][i.min(3) as usize] + i / 15 % 2)).collect();
    let text = model::fleet_text(&deep.repeat(16));
    report.equal("text: large", text.len(), 16 * (10 * 6 + 246 * 7), "the longest text");
    sheet_to_text(report, "text: large", &bytes_of(&deep.repeat(16)));
    text_to_sheet(report, "text: large", text.as_bytes());
    for length in [0, 1, 16_388, 16_389, 100_000] {
        let noise = report.random.bytes(length);
        text_to_sheet(report, "text: large", &noise);
        sheet_to_text(report, "text: any bytes as a sheet", &noise);
    }
}

/// A fleet as people write it: blanks, empty lines, comments, other line ends, depths of two digits.
fn written_by_hand(report: &mut Report, fleet: &[u16]) -> Vec<u8> {
    let random = &mut report.random;
    let plain = model::fleet_text(fleet);
    let two_digits = |word: &str| if word.find('.') == Some(1) && random.one_in(5) { format!("0{word}") } else { word.to_string() };
    let words: String = plain.split_inclusive([' ', '\n']).map(two_digits).collect();
    let mut text = vec![];
    for byte in words.bytes() {
        match byte {
            b' ' => text.extend(random.pick(&[" ", " ", "  ", "\t", " \r "]).bytes()),
            b'\n' => text.extend(random.pick(&["\n", "\n", "\r\n", " # 1.201\n", "#\n", "\n\n", "\n  # none\n"]).bytes()),
            _ => text.push(byte),
        }
    }
    if random.one_in(3) {
        while text.last() == Some(&b'\n') {
            text.pop();
        }
    }
    text
}

/// The text with a byte or two of those that mean something changed, put in or taken out.
fn damaged_text(report: &mut Report, text: &[u8]) -> Vec<u8> {
    let random = &mut report.random;
    let mut text = text.to_vec();
    for _ in 0..random.between(1, 2) {
        let i = random.below(text.len() + 1);
        let any = if random.one_in(8) { random.next() as u8 } else { random.pick(b"0123456789.. \n#\t\r-") };
        match random.below(3) {
            0 => text.insert(i, any),
            1 if i < text.len() => drop(text.remove(i)),
            _ if i < text.len() => text[i] = any,
            _ => {}
        }
    }
    text
}

fn texts(report: &mut Report) {
    let fleet = random::small_fleet(&mut report.random);
    let text = written_by_hand(report, &fleet);
    report.equal("text: model", model::fleet_of_text(&text), Ok(fleet.clone()), "its own text");
    text_to_sheet(report, "text: fleets", &text);
    let damaged = damaged_text(report, &text);
    text_to_sheet(report, "text: damaged", &damaged);
    let wrong_pairs = random::damaged_pairs(&mut report.random, &fleet);
    text_to_sheet(report, "text: wrong pairs", model::fleet_text(&wrong_pairs).as_bytes());
    let length = report.random.below(30);
    let noise: Vec<u8> = (0..length).map(|_| report.random.pick(b"0011299.. \n#")).collect();
    text_to_sheet(report, "text: random", &noise);
}

fn sheets(report: &mut Report) {
    let sheet = any_sheet(report);
    sheet_to_text(report, "text: sheets", &sheet);
}
