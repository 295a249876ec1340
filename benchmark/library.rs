//! The proved library, as the benchmark asks it: document 01's number alone.

#[path = "../interface/deqhulov.rs"]
mod deqhulov;

pub use deqhulov::ASKS_BOOK;

/// Document 01's number of a rule and a width, its target plain: 0 right, 10 wrong, else a refusal.
pub fn judge(word: u32, width: u32) -> u32 {
    deqhulov::judge(word, width, 0).map_or_else(|refusal| refusal.number, |()| 0)
}

/// Document 01's number of a job, 0 where it is mapped into the lent words.
pub fn map(job: &[u32], lent: &mut [u32]) -> u32 {
    deqhulov::map(job, lent).map_or_else(|refusal| refusal.number, |_| 0)
}
