mod batch;
mod form;
mod listing;
mod model;
mod occurrence;
mod pages;
mod profiles;
mod programs;
mod register;
mod remarks;
mod sheet;
mod stack;

use crate::report::Report;
use std::io::IsTerminal;

/// Text and sheet of each fleet in `examples/`.
pub const EXAMPLES: [(&str, &[u8]); 2] = [
    (include_str!("../../../examples/document-01.txt"), include_bytes!("../../../examples/document-01.sheet")),
    (include_str!("../../../examples/nineteen.txt"), include_bytes!("../../../examples/nineteen.sheet")),
];

/// The refusals of each call, as in docs/REFUSALS.md.
const REFUSALS: [(&str, &[i64]); 20] = [
    ("key_main", &[1, 2, 3, 4, 5, 6, 7, 8, 9, 11, 12]),
    ("pages_main", &[1, 2, 3, 4, 5, 6, 7, 8, 9, 11, 12]),
    ("list_main", &[1, 2, 3, 4, 5, 6, 7, 8, 9, 11, 12, 19]),
    ("sheet_to_text", &[1, 2, 3, 4, 5, 6, 7, 8, 9]),
    ("text_to_sheet", &[1, 5, 6, 7, 9]),
    ("read", &[1, 2, 3, 4, 5, 6, 7, 8, 9, 17]),
    ("write", &[10, 17]),
    ("vehicle", &[10, 16]),
    ("form", &[13, 14, 17]),
    ("support", &[10, 13, 14]),
    ("place", &[10, 13, 14, 16, 17]),
    ("start", &[10, 11, 12, 17, 19]),
    ("step", &[10, 11, 12, 13, 14, 15, 17, 19]),
    ("batch", &[10, 11, 12, 13, 14, 15, 17, 19]),
    ("pages", &[10, 11, 12, 18, 19]),
    ("register", &[10, 17]),
    ("swap", &[10, 16, 17]),
    ("start with register", &[10, 11, 12, 17, 19]),
    ("step with register", &[10, 11, 12, 13, 14, 15, 17, 19]),
    ("batch with register", &[10, 11, 12, 13, 14, 15, 17, 19]),
];

pub fn run(report: &mut Report) {
    timed("model", report, model::run);
    timed("sheet", report, sheet::run);
    timed("form", report, form::run);
    timed("stack", report, stack::run);
    timed("occurrence", report, occurrence::run);
    timed("listing", report, listing::run);
    timed("batch", report, batch::run);
    timed("register", report, register::run);
    timed("pages", report, pages::run);
    timed("programs", report, programs::run);
    timed("remarks", report, remarks::run);
    timed("profiles", report, profiles::run);
    // each was met, so that no comparison above is empty; and no other
    for (call, numbers) in REFUSALS {
        let met = report.refusals(call);
        report.equal("refusals met", met, numbers.to_vec(), call);
    }
}

fn timed(name: &str, report: &mut Report, section: fn(&mut Report)) {
    let begun = std::time::Instant::now();
    if std::io::stderr().is_terminal() {
        eprint!("{name} ..\r");
    }
    section(report);
    println!("{name}: {:.1} s", begun.elapsed().as_secs_f64());
}
