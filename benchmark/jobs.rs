//! The recipes and jobs that are timed, the same in every run.

use crate::library::{self, ASKS_BOOK};
use crate::recipe::fields;
use crate::yardstick::is_right;

pub const SEED: u64 = 0x2545_F491_4F6C_DD1D;

/// Marsaglia's 64-bit xorshift.
struct Random(u64);

impl Random {
    fn next(&mut self) -> u64 {
        self.0 ^= self.0 << 13;
        self.0 ^= self.0 >> 7;
        self.0 ^= self.0 << 17;
        self.0
    }
}

/// So many valid rules: words of kind 5 with random fields, of which those are kept that the library's judge does not refuse.
pub fn valid_rules(count: usize) -> Vec<u32> {
    let mut random = Random(SEED);
    let mut rules = Vec::with_capacity(count);
    while rules.len() < count {
        let word = 0x5000_0000 | (random.next() >> 36) as u32;
        if matches!(library::judge(word, 1), 0 | 10) {
            rules.push(word);
        }
    }
    rules
}

/// A function from itself, its inputs as they are.
fn itself(function: u32) -> u32 {
    let outputs = match function {
        1..=5 => 0x160,
        6..=21 => 0x100,
        _ => 1,
    };
    0x5001_4800 | function << 23 | function << 18 | outputs
}

/// A job of all functions as sources and targets.
fn job_of(width: u32, rules: impl Iterator<Item = u32>) -> Vec<u32> {
    let mut words = vec![0x1000_0000 | width, 0x2001_0103];
    words.extend((1..28).map(|function| 0x3000_0000 | function));
    words.extend((1..28).map(|function| 0x4000_0000 | function));
    words.extend(rules);
    words
}

/// The same without rules.
pub fn bare_job(width: u32) -> Vec<u32> {
    job_of(width, std::iter::empty())
}

/// The book's words, as print_book prints them.
pub fn book() -> Vec<u32> {
    let word = |line: &str| line.split_whitespace().nth(2).and_then(|digits| u32::from_str_radix(digits, 16).ok());
    include_str!("../crates/print_book/stdout").lines().map(|line| word(line).expect("a line of print_book")).collect()
}

/// The same job, asking for the book.
pub fn with_book(mut job: Vec<u32>) -> Vec<u32> {
    job[0] |= ASKS_BOOK;
    job
}

/// So many rules that are right at the width, the sources in turn, each with its own in turn.
pub fn usable_job(width: u32, count: usize, rules: &[u32]) -> Vec<u32> {
    let right: Vec<u32> = rules.iter().copied().filter(|&rule| is_right(rule, width)).collect();
    let of_source = |function: u32| -> Vec<u32> {
        let own = right.iter().copied().filter(|&rule| fields(rule).source == function);
        own.chain([itself(function)]).collect()
    };
    let by_source: Vec<Vec<u32>> = (1..28).map(of_source).collect();
    let rule = |i: usize| {
        let own = &by_source[i % 27];
        own[i / 27 % own.len()]
    };
    job_of(width, (0..count).map(rule))
}

/// So many wrong rules, all of the first source, so that the mapper judges each of them before it gives up.
pub fn wrong_job(width: u32, count: usize, rules: &[u32]) -> Vec<u32> {
    let of_add = rules.iter().copied().filter(|&rule| fields(rule).source == 1);
    let wrong: Vec<u32> = of_add.filter(|&rule| !is_right(rule, width)).collect();
    job_of(width, wrong.into_iter().cycle().take(count))
}
