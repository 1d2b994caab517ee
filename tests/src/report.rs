//! Counts comparisons, prints those that differ, and lends outputs whose every element is looked at afterwards.

use compare::model::Refusal;
use compare::random::Random;
use std::collections::BTreeMap;

const SHOWN: usize = 8;

pub struct Report {
    pub random: Random,
    pub rounds: usize,
    seed: u64,
    counts: BTreeMap<&'static str, usize>,
    differing: BTreeMap<&'static str, usize>,
    answers: BTreeMap<(&'static str, i64), usize>,
}

impl Report {
    pub fn new(seed: u64, rounds: usize) -> Report {
        Report { random: Random::new(seed), rounds, seed, counts: BTreeMap::new(), differing: BTreeMap::new(), answers: BTreeMap::new() }
    }

    /// One comparison under this name; `what` says what was compared, where it differs.
    pub fn check(&mut self, name: &'static str, agrees: bool, what: impl FnOnce() -> String) {
        *self.counts.entry(name).or_insert(0) += 1;
        if !agrees {
            *self.differing.entry(name).or_insert(0) += 1;
            if self.total().1 <= SHOWN {
                let mut text = what();
                text.truncate(1500);
                println!("DIFFERS {name} (seed {}): {text}", self.seed);
            }
        }
    }

    pub fn equal<T: PartialEq + std::fmt::Debug>(&mut self, name: &'static str, got: T, expected: T, on: &str) {
        let agrees = got == expected;
        self.check(name, agrees, || format!("{on}: got {got:?}, expected {expected:?}"));
    }

    /// Notes the answer of a call, so that the end shows how often each refusal was met.
    pub fn met(&mut self, call: &'static str, answer: i64) {
        *self.answers.entry((call, answer.min(1))).or_insert(0) += 1;
    }

    /// The numbers that this call was refused by.
    pub fn refusals(&self, call: &str) -> Vec<i64> {
        self.answers.keys().rev().filter(|(name, answer)| *name == call && *answer < 0).map(|(_, answer)| -answer).collect()
    }

    pub fn print(&self) {
        for (name, count) in &self.counts {
            let differing = self.differing.get(name).map_or(String::new(), |wrong| format!(", {wrong} DIFFER"));
            println!("  {count:>9}  {name}{differing}");
        }
        for ((call, answer), count) in self.answers.iter().rev() {
            match answer {
                1 => println!("  {call}: {count} answered"),
                0 => println!("  {call}: {count} no or end"),
                _ => println!("  {call}: {count} refused by {}", -answer),
            }
        }
    }

    /// How many comparisons were made, and how many of them differed.
    pub fn total(&self) -> (usize, usize) {
        (self.counts.values().sum(), self.differing.values().sum())
    }
}

/// The number that a call of the library gives.
pub fn number(answer: &Result<i64, Refusal>) -> i64 {
    match answer {
        Ok(value) => *value,
        Err(refusal) => -(*refusal as i64),
    }
}

/// What lent memory and its guards are filled with.
pub trait Element: Copy + PartialEq {
    fn any(random: &mut Random) -> Self;
}

impl Element for u8 {
    fn any(random: &mut Random) -> u8 {
        random.next() as u8
    }
}

impl Element for u16 {
    fn any(random: &mut Random) -> u16 {
        random.next() as u16
    }
}

impl Element for u64 {
    fn any(random: &mut Random) -> u64 {
        random.next()
    }
}

/// Numbers that a request may have, so that one read past the end of a lent request would be answered, not refused.
impl Element for usize {
    fn any(random: &mut Random) -> usize {
        random.between(1, 16)
    }
}

const GUARD: usize = 40;

/// Lent memory, with guards on both sides.
#[derive(Clone, PartialEq)]
pub struct Lent<T> {
    memory: Vec<T>,
    before: Vec<T>,
}

impl<T: Element> Lent<T> {
    /// An output of random content.
    pub fn output(random: &mut Random, length: usize) -> Lent<T> {
        let memory: Vec<T> = (0..length + 2 * GUARD).map(|_| T::any(random)).collect();
        Lent { before: memory.clone(), memory }
    }

    pub fn input(random: &mut Random, content: &[T]) -> Lent<T> {
        let mut lent = Lent::output(random, content.len());
        lent.slice().copy_from_slice(content);
        Lent { before: lent.memory.clone(), memory: lent.memory }
    }

    pub fn slice(&mut self) -> &mut [T] {
        let end = self.memory.len() - GUARD;
        &mut self.memory[GUARD..end]
    }

    /// All memory holds what it held, but for the result in front of the lent part.
    pub fn holds(&self, result: &[T]) -> bool {
        let mut expected = self.before.clone();
        expected[GUARD..GUARD + result.len()].copy_from_slice(result);
        expected == self.memory
    }

    pub fn untouched(&self) -> bool {
        self.before == self.memory
    }
}

pub fn hex(bytes: &[u8]) -> String {
    bytes.iter().map(|b| format!("{b:02X}")).collect::<Vec<_>>().join(" ")
}

pub fn unhex(text: &str) -> Vec<u8> {
    text.split_whitespace().map(|b| u8::from_str_radix(b, 16).expect("two hexadecimal digits")).collect()
}
