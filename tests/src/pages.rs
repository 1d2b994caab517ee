//! The key on a page: slip 2 of document 02 read sentence by sentence, over the model's lists. Columns and lines are counted from 1, as there.

use crate::library::Request;
use crate::model::{self, List, Refusal};

/// "pages of 72 columns and 54 lines"
pub const COLUMNS: usize = 72;
pub const LINES: usize = 54;

/// "Every line has exactly 72 columns and then a line end, every page 54 lines"
pub const BYTES: usize = LINES * (COLUMNS + 1);

type Line = [char; COLUMNS];

const BLANK: Line = [' '; COLUMNS];

fn put(line: &mut Line, column: usize, text: &str) {
    for (i, letter) in text.chars().enumerate() {
        line[column - 1 + i] = letter;
    }
}

/// The one or two lines of a form: "Columns 1 to 2 hold the support, right-aligned; column 3 is blank; pairs follow in fields of eight columns,
/// left-aligned, eight to a line", "a second line whose first three columns are blank".
fn lines_of(form: &[u16], support: usize) -> Vec<Line> {
    let mut lines = vec![];
    for pairs in form.chunks(8) {
        let mut line = BLANK;
        for (field, &pair) in pairs.iter().enumerate() {
            put(&mut line, 4 + 8 * field, &model::text(&[pair]));
        }
        lines.push(line);
    }
    put(&mut lines[0], 1, &format!("{support:>2}"));
    lines
}

/// "The line `end` comes after the forms, from column 1"
fn end() -> Line {
    let mut line = BLANK;
    put(&mut line, 1, "end");
    line
}

/// "a page is left [..] only when the next form or `end` does not fit", and a form "is never split over two pages"; "blank lines fill".
pub fn laid_out(list: &List) -> Vec<u8> {
    let forms = list.iter().map(|(form, &support)| lines_of(form, support));
    let mut pages: Vec<Vec<Line>> = vec![vec![]];
    for next in forms.chain([vec![end()]]) {
        if pages[pages.len() - 1].len() + next.len() > LINES {
            pages.push(vec![]);
        }
        pages.last_mut().unwrap().extend(next);
    }
    for page in &mut pages {
        page.resize(LINES, BLANK);
    }
    pages.concat().iter().flat_map(|line| line.iter().chain(&['\n'])).map(|&letter| letter as u8).collect()
}

/// The pages' lines "With second lines joined on and spare blanks and blank lines gone".
pub fn joined(pages: &[u8]) -> String {
    let mut lines: Vec<Vec<&str>> = vec![];
    let text = std::str::from_utf8(pages).unwrap_or("no text");
    for line in text.split('\n') {
        let words = line.split(' ').filter(|word| !word.is_empty());
        match lines.last_mut() {
            Some(first) if line.starts_with("   ") => first.extend(words),
            _ => lines.push(words.collect()),
        }
    }
    lines.iter().filter(|words| !words.is_empty()).map(|words| words.join(" ") + "\n").collect()
}

/// "The answer is the number of pages. Turned away: page output shorter than the pages needed, 18 in place of 17." The list is asked for where
/// no rule before that is broken.
pub fn pages_call(fleet: &[u16], request: Request, output: usize, list: impl FnOnce() -> List) -> Result<Vec<u8>, Refusal> {
    model::request_rules(fleet, request)?;
    let pages = laid_out(&list());
    if output < pages.len() {
        return Err(18);
    }
    Ok(pages)
}

/// The number of pages.
pub fn count(pages: &[u8]) -> i64 {
    (pages.len() / BYTES) as i64
}
