//! Compares the proved library with the plain model on document 01's cases and on many random inputs.
//! `compare [--long] [--seed N]`: the status is 0 if nothing differs.

mod checks;
mod report;

use report::Report;

fn main() {
    let (mut long, mut seed) = (false, None);
    let mut words = std::env::args().skip(1);
    while let Some(word) = words.next() {
        match word.as_str() {
            "--long" => long = true,
            "--seed" => seed = Some(words.next().and_then(|number| number.parse().ok()).unwrap_or_else(|| usage())),
            _ => usage(),
        }
    }
    let seeds: Vec<u64> = match seed {
        Some(seed) => vec![seed],
        None => (1..=if long { 12 } else { 1 }).collect(),
    };
    let (mut compared, mut differing) = (0, 0);
    for seed in seeds {
        println!("seed {seed}");
        let mut report = Report::new(seed, if long { 3 } else { 1 });
        checks::run(&mut report);
        report.print();
        let (these, wrong) = report.total();
        compared += these;
        differing += wrong;
    }
    if differing > 0 {
        println!("{differing} of {compared} comparisons differ");
        std::process::exit(1);
    }
    println!("all {compared} comparisons agree");
}

fn usage() -> ! {
    eprintln!("usage: tests/run [--long] [--seed N]");
    std::process::exit(2);
}
