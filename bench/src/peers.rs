//! What the plain programs are made of: the key and list programs' inputs, and the list that they ask for, in lines or on pages.

use crate::{plain, remarks};
use compare::library::{Request, MAXIMAL};
use compare::miner;
use std::io::{BufWriter, Read, Result, Write};

/// Gives each form of the list that standard input asks for, until `found` says false; or the number of a refusal.
pub type Lister = fn(found: &mut dyn FnMut(&[u16], usize) -> bool) -> Result<Option<u8>>;

/// As the key program is asked: a byte of threshold, one of size bound.
pub fn by_key(found: &mut dyn FnMut(&[u16], usize) -> bool) -> Result<Option<u8>> {
    by_input(|[threshold, bound]| Request::full(threshold.into(), bound.into()), found)
}

/// As the list program is: two bytes of threshold, low byte first, one of size bound, one of profile.
pub fn by_list(found: &mut dyn FnMut(&[u16], usize) -> bool) -> Result<Option<u8>> {
    let request = |[low, high, bound, profile]: [u8; 4]| Request {
        threshold: u16::from_le_bytes([low, high]).into(),
        bound: bound.into(),
        profile: profile.into(),
    };
    by_input(request, found)
}

/// So many bytes say what is asked, and the sheet comes behind them.
fn by_input<const BYTES: usize>(
    request: impl Fn([u8; BYTES]) -> Request,
    found: &mut dyn FnMut(&[u16], usize) -> bool,
) -> Result<Option<u8>> {
    let mut input = vec![];
    std::io::stdin().take(BYTES as u64 + 16388).read_to_end(&mut input)?;
    let request = request(std::array::from_fn(|i| *input.get(i).unwrap_or(&0)));
    let mut pairs = [0; 4096];
    Ok(match plain::read(input.get(BYTES..).unwrap_or(&[]), &mut pairs) {
        Err(number) => Some(number),
        Ok(_) if !(1..=64).contains(&request.threshold) => Some(11),
        Ok(_) if !(1..=16).contains(&request.bound) => Some(12),
        Ok(_) if request.profile > MAXIMAL => Some(19),
        Ok(nodes) => {
            mine(&pairs[..nodes], request, found);
            None
        }
    })
}

/// Gives each form of the fleet's list, lightest first, until `found` says false. Node numbers do not matter to a list, so remarks are
/// left out once, before the search.
pub fn mine(fleet: &[u16], request: Request, found: &mut dyn FnMut(&[u16], usize) -> bool) {
    miner::mine(&remarks::left_out(fleet), request, found);
}

/// The bytes of `run::PART`.
const PART: usize = 8192;

/// Writes the list to standard output, a line a form, through a buffer of the proved programs' size.
pub fn write_lines(lister: Lister) -> Result<()> {
    let mut output = BufWriter::with_capacity(PART, std::io::stdout().lock());
    match lister(&mut |form, support| write_line(&mut output, form, support).is_ok())? {
        None => output.write_all(b"end\n")?,
        Some(refusal) => writeln!(output, "refused {refusal}")?,
    }
    output.flush()
}

fn write_line(output: &mut impl Write, form: &[u16], support: usize) -> Result<()> {
    let mut line = Vec::with_capacity(115);
    put_number(&mut line, support);
    for &pair in form {
        line.push(b' ');
        put_pair(&mut line, pair);
    }
    line.push(b'\n');
    output.write_all(&line)
}

fn put_number(line: &mut Vec<u8>, number: usize) {
    if number > 9 {
        line.push(b'0' + (number / 10) as u8);
    }
    line.push(b'0' + (number % 10) as u8);
}

fn put_pair(line: &mut Vec<u8>, pair: u16) {
    put_number(line, pair as usize / 1000);
    line.push(b'.');
    line.extend([100, 10, 1].map(|unit| b'0' + (pair % 1000 / unit % 10) as u8));
}

const COLUMNS: usize = 72;
const LINES: usize = 54;

/// The columns before the first field, those of a field, and the fields of a line.
const INDENT: usize = 3;
const FIELD: usize = 8;
const FIELDS: usize = 8;

/// Lays a list on pages, a line at a time.
pub struct Pages<W> {
    pub output: W,
    /// The lines of the page so far.
    used: usize,
}

impl<W: Write> Pages<W> {
    pub fn new(output: W) -> Pages<W> {
        Pages { output, used: 0 }
    }

    pub fn form(&mut self, form: &[u16], support: usize) -> Result<()> {
        self.make_room(form.len().div_ceil(FIELDS))?;
        let mut line = Vec::with_capacity(COLUMNS + 1);
        line.resize(if support > 9 { 0 } else { 1 }, b' ');
        put_number(&mut line, support);
        for pairs in form.chunks(FIELDS) {
            line.resize(INDENT, b' ');
            for (i, &pair) in pairs.iter().enumerate() {
                put_pair(&mut line, pair);
                line.resize(INDENT + (i + 1) * FIELD, b' ');
            }
            self.finish(&mut line)?;
        }
        Ok(())
    }

    pub fn end(&mut self) -> Result<()> {
        self.make_room(1)?;
        self.finish(&mut b"end".to_vec())?;
        self.leave()
    }

    /// Leaves the page if so many lines do not fit.
    fn make_room(&mut self, lines: usize) -> Result<()> {
        if self.used + lines > LINES {
            self.leave()?;
        }
        Ok(())
    }

    /// Fills the page; the next one begins.
    fn leave(&mut self) -> Result<()> {
        while self.used < LINES {
            self.finish(&mut vec![])?;
        }
        self.used = 0;
        Ok(())
    }

    /// Writes the line with blanks up to its end, and empties it.
    fn finish(&mut self, line: &mut Vec<u8>) -> Result<()> {
        line.resize(COLUMNS, b' ');
        line.push(b'\n');
        self.output.write_all(line)?;
        line.clear();
        self.used += 1;
        Ok(())
    }
}
