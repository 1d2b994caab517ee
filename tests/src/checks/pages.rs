//! The list on pages against the model's pages and the slip's own sentences: every length of output that matters, every edge of a page, what is
//! refused and in which order.

use super::listing::{affordable_bound, edge_number, longer_than_requests, mined, model_list, request_from, requests, with_further};
use super::model::{EXAMPLE_KEY, EXAMPLE_SHEET};
use super::EXAMPLES;
use crate::report::{number, unhex, Lent, Report};
use compare::library::{self, Request, FULL, MAXIMAL};
use compare::model::{self, pair, parse, List};
use compare::pages::{self, BYTES};
use compare::random::{self, Taste};

/// The page of document 01's example, written by hand.
pub const EXAMPLE_PAGES: &[u8] = include_bytes!("../../../examples/document-01.pages");

pub fn run(report: &mut Report) {
    document(report);
    refusals(report);
    fewer_and_further_numbers(report);
    short_forms(report);
    long_forms(report);
    known_rows(report);
    extremes(report);
    for _ in 0..report.rounds * 1000 {
        small_fleets(report);
    }
    for _ in 0..report.rounds * 5000 {
        damaged_calls(report);
    }
    for _ in 0..report.rounds * 4 {
        plausible_fleets(report);
    }
    long_list(report);
    no_end_in_sight(report);
}

// ---------- one call ----------

pub struct Pages<'a> {
    pub fleet: &'a [u16],
    /// A request as it crosses: any numbers.
    pub request: &'a [usize],
    pub output: usize,
}

impl Pages<'_> {
    /// Compares the answer, the pages, and every other lent element; what stands in the output then is handed back.
    pub fn compare(&self, report: &mut Report, name: &'static str, expected: &Result<Vec<u8>, u8>) -> Vec<u8> {
        let random = &mut report.random;
        let (mut fleet, mut request) = (Lent::input(random, self.fleet), Lent::input(random, self.request));
        let mut output = Lent::output(random, self.output);
        let got = library::pages_by_numbers(fleet.slice(), request.slice(), output.slice());
        report.met("pages", got);
        let pages = expected.as_deref().unwrap_or_default();
        let wanted = number(&expected.as_ref().map(|pages| pages::count(pages)).map_err(|&refusal| refusal));
        let (written, untouched) = (output.holds(pages), fleet.untouched() && request.untouched());
        report.check(name, got == wanted && written && untouched, || {
            let differing = pages.iter().zip(output.slice()).position(|(expected, got)| expected != got);
            let place = differing.map(|at| (at / BYTES + 1, at % BYTES / 73 + 1, at % 73 + 1));
            format!(
                "got {got}, expected {wanted}, output as expected: {written}, inputs untouched: {untouched}, output of {}, first difference at \
                 page, line and column {place:?}, request {:?}, fleet {:?}",
                self.output, self.request, self.fleet
            )
        });
        output.slice().to_vec()
    }

    /// The same where the list is not known yet.
    fn compare_with(&self, report: &mut Report, name: &'static str, list: &dyn Fn(&[u16], Request) -> List) {
        let request = request_from(self.request);
        let expected = pages::pages_call(self.fleet, request, self.output, || list(self.fleet, request));
        self.compare(report, name, &expected);
    }
}

/// The pages of a list in outputs of these lengths, each exact or more or less by so many bytes; and in an exact one, what the slip says of them.
pub fn on_pages(report: &mut Report, name: &'static str, fleet: &[u16], request: Request, list: &List, off: &[isize]) {
    let expected = pages::laid_out(list);
    for &off in off {
        let output = expected.len().saturating_add_signed(off);
        let numbers = with_further(&mut report.random, request);
        let answer = if output < expected.len() { Err(18) } else { Ok(expected.clone()) };
        Pages { fleet, request: &numbers, output }.compare(report, name, &answer);
    }
    let exact = Pages { fleet, request: &request.numbers(), output: expected.len() };
    let own = exact.compare(report, name, &Ok(expected));
    let about = || format!("{:?} of {}", request.numbers(), model::text(fleet));
    report.check("pages: joined", pages::joined(&own) == model::lines(list), about);
    let broken = broken_sentence(&own);
    report.check("pages: sentence by sentence", broken.is_none(), || format!("not so: {broken:?}; {}", about()));
}

/// Exact is tried always; here one byte or one page less or more, much more, none.
const LENGTHS: [isize; 7] = [-1, 1, -(BYTES as isize), BYTES as isize - 1, 5 * BYTES as isize + 17, -73, isize::MIN];

// ---------- the slip's sentences, each by itself ----------

/// The first sentence of the slip that pages break; those about single columns, lines and pages, not which forms there are.
fn broken_sentence(pages: &[u8]) -> Option<&'static str> {
    let rows: Vec<&[u8]> = pages.chunks(73).collect();
    if rows.iter().any(|row| row.len() != 73 || row[72] != b'\n' || row[..72].contains(&b'\n')) {
        return Some("every line has exactly 72 columns and then a line end");
    }
    if rows.len() % 54 != 0 || rows.is_empty() {
        return Some("every page 54 lines");
    }
    let Some(end) = rows.iter().position(|row| row.starts_with(b"end ")) else {
        return Some("the line `end` comes after the forms, from column 1");
    };
    if rows[end][3..72].iter().chain(rows[end + 1..].iter().flat_map(|row| &row[..72])).any(|&b| b != b' ') || rows.len() > (end / 54 + 1) * 54 {
        return Some("blank lines fill its page");
    }
    rows[..end].iter().find_map(|row| broken_columns(row)).or(broken_pages(&rows[..=end]))
}

fn blank(row: &[u8]) -> bool {
    row[..72].iter().all(|&b| b == b' ')
}

/// A line that goes on from the one before.
fn second(row: &[u8]) -> bool {
    !blank(row) && row.starts_with(b"   ")
}

fn broken_columns(row: &[u8]) -> Option<&'static str> {
    if blank(row) {
        return None;
    }
    let one_digit = row[0] == b' ' && row[1].is_ascii_digit() && row[1] != b'0';
    let two_digits = row[0].is_ascii_digit() && row[0] != b'0' && row[1].is_ascii_digit();
    if !second(row) && !one_digit && !two_digits {
        return Some("columns 1 to 2 hold the support, right-aligned");
    }
    if row[2] != b' ' || row[67..72] != *b"     " {
        return Some("column 3 is blank; columns 68 to 72 are blank");
    }
    let fields: Vec<String> = row[3..67].chunks(8).map(|field| String::from_utf8_lossy(field).into()).collect();
    let filled = fields.iter().take_while(|field| !field.starts_with(' ')).count();
    let right = |field: &String| {
        let pair = field.trim_end();
        !pair.contains(' ') && pair.split_once('.').is_some_and(|(depth, label)| (1..=2).contains(&depth.len()) && label.len() == 3)
    };
    if filled == 0 || !fields[..filled].iter().all(right) || fields[filled..].iter().any(|field| !field.trim().is_empty()) {
        return Some("pairs follow in fields of eight columns, left-aligned, eight to a line");
    }
    None
}

/// The rows up to `end`.
fn broken_pages(rows: &[&[u8]]) -> Option<&'static str> {
    for (i, row) in rows.iter().enumerate() {
        if second(row) && (i % 54 == 0 || second(rows[i - 1]) || blank(rows[i - 1])) {
            return Some("a form is never split over two pages");
        }
        if second(row) && rows[i - 1][59] == b' ' {
            return Some("a form of more than eight pairs goes on to a second line");
        }
        // blank lines from here to the foot, and what stands on the next page first
        let foot = 54 - i % 54;
        let next = rows.get(i + foot).map_or(0, |_| if rows.get(i + foot + 1).is_some_and(|row| second(row)) { 2 } else { 1 });
        if blank(row) && (rows[i..rows.len().min(i + foot)].iter().any(|row| !blank(row)) || next <= foot) {
            return Some("a page is left only when the next form or `end` does not fit");
        }
    }
    None
}

// ---------- document 01's example; refusals ----------

fn document(report: &mut Report) {
    let name = "pages: document 01";
    let fleet = model::read(&unhex(EXAMPLE_SHEET)).unwrap();
    let request = Request::full(2, 3);
    let list = model_list(&fleet, request);
    report.equal(name, (library::PAGE, BYTES), (3942, 3942), "the bytes of a page");
    report.check(name, pages::laid_out(&list) == EXAMPLE_PAGES, || "the model's page".into());
    report.equal(name, pages::joined(EXAMPLE_PAGES), EXAMPLE_KEY.to_string(), "the page joined");
    report.equal(name, broken_sentence(EXAMPLE_PAGES), None, "the page");
    for output in (0..=2 * BYTES).step_by(73).chain(BYTES - 3..BYTES + 3) {
        let answer = if output < 3942 { Err(18) } else { Ok(EXAMPLE_PAGES.to_vec()) };
        Pages { fleet: &fleet, request: &[2, 3], output }.compare(report, name, &answer);
    }
}

/// All combinations of faults, so that each pair of neighbouring numbers is broken at once; lists of no form, of one page and of two.
fn refusals(report: &mut Report) {
    let fleet = [parse("0.101 1.201 2.301 1.202 0.101 1.202 1.201"), (102..160).collect()].concat();
    for fleet in [fleet.clone(), vec![], [fleet, vec![1000]].concat(), vec![101; 64], vec![101; 65]] {
        for request in requests(&[0, 1, 2, 64, 65, 256, 65536, usize::MAX], &[0, 1, 2, 16, 17, 256, usize::MAX]) {
            for output in [0, 1, BYTES - 1, BYTES, 2 * BYTES - 1, 2 * BYTES, 2 * BYTES + 1] {
                Pages { fleet: &fleet, request: &request.numbers(), output }.compare_with(report, "pages: refusals", &model_list);
            }
        }
    }
}

/// Requests of every length, up to four numbers more than there are fields.
fn fewer_and_further_numbers(report: &mut Report) {
    let fleet = parse("0.101 1.201 2.301 1.202 0.101 1.202 1.201");
    for numbers in longer_than_requests() {
        for count in 0..=numbers.len() {
            for fleet in [fleet.as_slice(), &[]] {
                for output in [0, BYTES - 1, BYTES, 2 * BYTES] {
                    let pages = Pages { fleet, request: &numbers[..count], output };
                    pages.compare_with(report, "pages: fewer and further numbers", &model_list);
                }
            }
        }
    }
}

// ---------- the edges of a page ----------

/// A vehicle whose list at bound 1 has so many forms: its runs, and the stops of the last one.
fn star(forms: u16) -> Vec<u16> {
    let (runs, stops) = ((200..300).map(|label| pair(1, label)), (300..400).map(|label| pair(2, label)));
    [101].into_iter().chain(runs).chain(stops).take(forms as usize).collect()
}

/// Lists of one-line forms alone: empty, of one form, with `end` on a page's last line, and with `end` alone on the page behind a full one.
fn short_forms(report: &mut Report) {
    let name = "pages: forms of one line";
    for vehicles in [1, 9, 10, 19, 64] {
        let request = Request::full(vehicles, 1);
        for forms in [1, 2, 52, 53, 54, 55, 64, 106, 107, 108, 109, 161, 162, 163].into_iter().filter(|forms| vehicles * forms <= 4096) {
            let fleet = star(forms as u16).repeat(vehicles);
            let list = model_list(&fleet, request);
            report.equal(name, list.len(), forms, "the forms of a star");
            report.equal(name, pages::laid_out(&list).len() / BYTES, forms / 54 + 1, "the pages of a star");
            on_pages(report, name, &fleet, request, &list, &LENGTHS);
        }
    }
    let empty = Request::full(64, 16);
    for vehicles in [1, 2, 63] {
        on_pages(report, name, &vec![101; vehicles], empty, &List::new(), &LENGTHS);
    }
}

/// The list of this fleet at threshold 1 has so many forms of one pair; then, from each of some kinds of vehicle with fifteen equal runs, forms of 1
/// pair up to the bound, each held by so many equal vehicles; then the run alone.
struct Stairs {
    lighter: u16,
    flights: u16,
    equal: usize,
    bound: usize,
}

impl Stairs {
    fn roots(&self) -> std::ops::Range<u16> {
        200 - self.flights..200
    }

    fn fleet(&self) -> Vec<u16> {
        let flights = self.roots().flat_map(|root| [vec![root], vec![pair(1, 201); 15]].concat().repeat(self.equal));
        (100..100 + self.lighter).chain(flights).collect()
    }

    fn list(&self) -> List {
        let lighter = (100..100 + self.lighter).map(|label| (vec![label], 1));
        let flights = self.roots().flat_map(|root| (0..self.bound).map(move |runs| ([vec![root], vec![pair(1, 201); runs]].concat(), self.equal)));
        lighter.chain(flights).chain([(vec![201], self.equal * self.flights as usize)]).collect()
    }
}

/// What each page has on its last line; the last page only where that is `end`.
pub fn feet(pages: &[u8]) -> Vec<(usize, &'static str)> {
    let rows: Vec<&[u8]> = pages.chunks(73).collect();
    let foot = |page: usize| match (rows[54 * page - 1], rows.get(54 * page)) {
        (foot, None) => foot.starts_with(b"end ").then_some((page, "end")),
        (foot, Some(_)) if second(foot) => Some((page, "a second line")),
        (foot, Some(_)) if blank(foot) => Some((page, "a blank line")),
        (_, Some(next)) if next.starts_with(b"end ") => Some((page, "a line, and end is next")),
        _ => Some((page, "a line")),
    };
    (1..=rows.len() / 54).filter_map(foot).collect()
}

/// Everything that can stand at the foot of the first two pages stood there, so that no comparison before is empty.
pub fn all_feet_met(report: &mut Report, name: &'static str, met: &[(usize, &'static str)]) {
    for foot in ["end", "a second line", "a blank line", "a line, and end is next", "a line"] {
        for page in [1, 2] {
            report.check(name, met.contains(&(page, foot)), || format!("page {page} has never {foot} at its foot"));
        }
    }
}

/// Fleets and bounds whose lists, at threshold 1, do all this.
pub fn edges() -> Vec<(Vec<u16>, usize)> {
    let mut fleets: Vec<(Vec<u16>, usize)> = [1, 53, 54, 55, 107, 108, 109].map(|forms| (star(forms), 1)).into();
    for (flights, equal) in [(1, 10), (4, 1)] {
        for lighter in [0, 27, 28, 43, 44, 45, 46] {
            for bound in [8, 9, 14, 16] {
                fleets.push((Stairs { lighter, flights, equal, bound }.fleet(), bound));
            }
        }
    }
    fleets
}

/// Forms of up to 8, 9 and 16 pairs: the first of two lines begins on every line of a page, and each thing that can happen at a foot happens.
fn long_forms(report: &mut Report) {
    let name = "pages: forms of two lines";
    let (mut first_long, mut met) = (vec![], vec![]);
    for (flights, equal) in [(1, 1), (1, 9), (1, 10), (4, 1), (4, 3), (6, 9)] {
        for lighter in 0..=64 - flights * equal as u16 {
            for bound in [8, 9, 14, 16] {
                let stairs = Stairs { lighter, flights, equal, bound };
                let (fleet, list, request) = (stairs.fleet(), stairs.list(), Request::full(1, bound));
                report.check(name, mined(&fleet, request, 1000).0 == list.clone().into_iter().collect::<Vec<_>>(), || "stairs".into());
                first_long.extend(list.keys().position(|form| form.len() == 9).map(|before| before + 1));
                met.extend(feet(&pages::laid_out(&list)));
                on_pages(report, name, &fleet, request, &list, &[-1, 1]);
            }
        }
    }
    for line in 9..9 + 54 {
        report.check(name, first_long.contains(&line), || format!("no form of nine pairs comes to line {line}"));
    }
    all_feet_met(report, name, &met);
}

/// Lines known by hand: fleet, request, and what stands on a page's line.
fn known_rows(report: &mut Report) {
    let name = "pages: known lines";
    let eight = "10 0.199   1.201   1.201   1.201   1.201   1.201   1.201   1.201";
    let stairs = |lighter, bound| Stairs { lighter, flights: 1, equal: 10, bound }.fleet();
    let deep: Vec<u16> = (0..16).map(|at| pair(at, [101, 201, 301, 401][at.min(3) as usize])).collect();
    let first_eight = "64 0.101   1.201   2.301   3.401   4.401   5.401   6.401   7.401";
    let last_eight = "   8.401   9.401   10.401  11.401  12.401  13.401  14.401  15.401";
    type Rows<'a> = &'a [(usize, usize, &'a str)];
    let cases: [(Vec<u16>, usize, usize, Rows); 7] = [
        (stairs(44, 9), 1, 9, &[(1, 44, " 1 0.143"), (1, 53, eight), (1, 54, "   1.201"), (2, 1, "10 0.201"), (2, 2, "end"), (2, 3, "")]),
        (stairs(45, 9), 1, 9, &[(1, 53, eight), (1, 54, ""), (2, 1, eight), (2, 2, "   1.201"), (2, 3, "10 0.201"), (2, 4, "end")]),
        (stairs(44, 8), 1, 8, &[(1, 52, eight), (1, 53, "10 0.201"), (1, 54, "end")]),
        (stairs(45, 8), 1, 8, &[(1, 53, eight), (1, 54, "10 0.201"), (2, 1, "end"), (2, 2, ""), (2, 54, "")]),
        (deep.repeat(64), 64, 16, &[(1, 8, first_eight), (1, 9, first_eight), (1, 10, "   8.401"), (1, 23, first_eight), (1, 24, last_eight)]),
        (vec![101; 9], 1, 16, &[(1, 1, " 9 0.101"), (1, 2, "end"), (1, 3, ""), (1, 54, "")]),
        (vec![101; 9], 10, 16, &[(1, 1, "end"), (1, 2, "")]),
    ];
    for (fleet, threshold, bound, rows) in cases {
        let mut output = vec![b'?'; 4 * BYTES];
        let count = library::pages(&fleet, Request::full(threshold, bound), &mut output);
        for (page, line, text) in rows {
            let begin = (page - 1) * BYTES + (line - 1) * 73;
            let row = String::from_utf8_lossy(&output[begin..begin + 73]).into_owned();
            report.equal(name, row, format!("{text:<72}\n"), &format!("page {page}, line {line}, of {count} pages"));
        }
    }
}

// ---------- other lists ----------

/// The list by the fast miner, if it has no more forms than that.
fn mined_list(fleet: &[u16], request: Request, most: usize) -> Option<List> {
    let (list, whole) = mined(fleet, request, most);
    whole.then(|| list.into_iter().collect())
}

/// The limits of fleets and calls: 64 vehicles, 256 nodes, 4,096 nodes, depth 15, threshold 64, bound 16.
fn extremes(report: &mut Report) {
    let name = "pages: extremes";
    let deep: Vec<u16> = (0..16).map(|at| pair(at, [101, 201, 301, 401][at.min(3) as usize])).collect();
    let wide: Vec<u16> = (0..256).map(|i| if i == 0 { 101 } else { 1201 }).collect();
    let taste = Taste { labels: 2, down: 6, remarks: true };
    let many = random::fleet(&mut report.random, 64, 40, taste);
    let cases: Vec<(Vec<u16>, usize, usize)> = vec![
        (vec![101; 64], 64, 16),
        (vec![101], 1, 1),
        (deep.repeat(64), 64, 16),
        (deep.clone(), 1, 15),
        (wide.repeat(16), 16, 16),
        (wide, 1, 16),
        (many.clone(), 10, 3),
        (many, 64, 16),
    ];
    for (fleet, threshold, bound) in cases {
        let request = Request::full(threshold, bound);
        if let Some(list) = mined_list(&fleet, request, 10_000) {
            on_pages(report, name, &fleet, request, &list, &LENGTHS);
        }
    }
}

fn small_fleets(report: &mut Report) {
    let fleet = random::small_fleet(&mut report.random);
    let bound = affordable_bound(report, &fleet, 2000);
    let holdings = model::holdings(&fleet, bound);
    let vehicles = model::vehicles(&fleet).len();
    let threshold = report.random.between(1, vehicles);
    for threshold in [threshold, 1, vehicles + 1] {
        let off = report.random.pick(&LENGTHS);
        on_pages(report, "pages: small fleets", &fleet, Request::full(threshold, bound), &model::list(&holdings, threshold), &[off]);
    }
}

/// Calls of which anything may be wrong, or several things at once.
fn damaged_calls(report: &mut Report) {
    let mut fleet = random::small_fleet(&mut report.random);
    let bound = affordable_bound(report, &fleet, 300);
    let random = &mut report.random;
    if random.one_in(5) {
        fleet = random::damaged_pairs(random, &fleet);
    }
    let mut numbers = Request { threshold: random.between(1, 4), bound, profile: random.between(FULL, MAXIMAL) }.numbers().to_vec();
    if random.one_in(5) {
        let field = random.below(Request::FIELDS);
        numbers[field] = random.pick(&[0, 17, 65, usize::MAX]);
    }
    numbers.extend((0..random.below(4)).map(|_| edge_number(random)));
    if random.one_in(8) {
        numbers.truncate(random.below(numbers.len() + 1));
    }
    let any = random.below(3 * BYTES);
    let output = random.pick(&[0, any, BYTES - 1, BYTES, 2 * BYTES, 3 * BYTES]);
    Pages { fleet: &fleet, request: &numbers, output }.compare_with(report, "pages: damaged calls", &model_list);
}

/// The threshold rises until the list is short enough.
fn plausible_fleets(report: &mut Report) {
    for nodes in [50, 100, 200] {
        let fleet = random::plausible_fleet(&mut report.random, 19, nodes);
        let bound = report.random.pick(&[4, 9, 12, 16]);
        let lowest = report.random.between(4, 16);
        let found = (lowest..=19).find_map(|threshold| Some((threshold, mined_list(&fleet, Request::full(threshold, bound), 5000)?)));
        if let Some((threshold, list)) = found {
            on_pages(report, "pages: plausible fleets", &fleet, Request::full(threshold, bound), &list, &LENGTHS);
        }
    }
}

/// More than 20,000 forms, on hundreds of pages, some of them left with a blank line.
fn long_list(report: &mut Report) {
    let name = "pages: a long list";
    let fleet = model::read(EXAMPLES[1].1).unwrap();
    let request = Request::full(4, 10);
    let list = mined_list(&fleet, request, usize::MAX).unwrap();
    let left = feet(&pages::laid_out(&list)).iter().filter(|(_, foot)| *foot == "a blank line").count();
    report.check(name, list.len() > 20_000 && left > 20, || format!("{} forms, {left} pages left", list.len()));
    on_pages(report, name, &fleet, request, &list, &[-1]);
}

/// A list that nobody could wait for: that it does not fit is known early.
fn no_end_in_sight(report: &mut Report) {
    let name = "pages: no end in sight";
    let fleet = random::plausible_fleet(&mut report.random, 19, 200);
    let request = Request::full(2, 16);
    report.check(name, mined_list(&fleet, request, 100_000).is_none(), || "the list is short".into());
    for output in [0, BYTES - 1, BYTES, 5 * BYTES] {
        Pages { fleet: &fleet, request: &request.numbers(), output }.compare(report, name, &Err(18));
    }
}
