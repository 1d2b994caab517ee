//! The pages program in plain Rust, of the same shape as the proved one: the same bytes in, the pages written one by one.

use bench::peers::{self, Pages};
use compare::library::PAGE;
use std::io::{BufWriter, Write};

fn main() -> std::io::Result<()> {
    let mut pages = Pages::new(BufWriter::with_capacity(PAGE, std::io::stdout().lock()));
    match peers::by_key(&mut |form, support| pages.form(form, support).is_ok())? {
        None => pages.end()?,
        Some(refusal) => writeln!(pages.output, "refused {refusal}")?,
    }
    pages.output.flush()
}
