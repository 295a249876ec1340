//! Safe functions over the C interface: a slice carries its length and is never null, so all that the interface asks of its caller holds.
#![allow(dead_code)] // a program may call some of them only

mod c {
    extern "C" {
        pub fn deqhulov_evaluate(function: u32, width: u32, left: u64, right: u64, carry: u32, place: *mut u64, out: *mut u64, out_length: usize) -> u32;
        pub fn deqhulov_judge(word: u32, width: u32, mark: u32, place: *mut u64, out: *mut u64, out_length: usize) -> u32;
        pub fn deqhulov_map(job: *const u32, job_length: usize, lent: *mut u32, lent_length: usize, place: *mut u64, out: *mut u64, out_length: usize) -> u32;
        pub fn deqhulov_price(job: *const u32, job_length: usize, mapping: *const u32, mapping_length: usize, place: *mut u64, out: *mut u64, out_length: usize) -> u32;
        pub fn deqhulov_check(job: *const u32, job_length: usize, mapping: *const u32, mapping_length: usize, place: *mut u64, out: *mut u64, out_length: usize) -> u32;
    }
}

/// The most words of a job and of a mapping.
pub const JOB_WORDS: usize = 568;
pub const MAPPING_WORDS: usize = 29;

/// Bit 7 of a job's header: the rules of the built-in book stand behind the job's own.
pub const ASKS_BOOK: u32 = 0x80;

/// The most values that come with an answer.
const VALUES: usize = 4;

/// The ports, as refusal 10 numbers them.
pub const O0: u64 = 0;
pub const OCOUT: u64 = 1;
pub const OVF: u64 = 2;
pub const O1: u64 = 3;

/// The number of a wrong recipe.
pub const WRONG_RECIPE: u32 = 10;

/// A refusal: document 01's number, its place, and the values that come with it, with zeros past them.
#[derive(Clone, Copy, Debug, PartialEq, Eq)]
pub struct Refusal {
    pub number: u32,
    pub place: u64,
    pub values: [u64; VALUES],
}

/// What a function shows. A port that is not driven shows 0.
#[derive(Clone, Copy, Debug, PartialEq, Eq)]
pub struct Ports {
    pub o0: u64,
    pub ocout: bool,
    pub ovf: bool,
    pub o1: bool,
}

/// Makes a call, and takes its answer: the values, or the refusal.
fn told(call: impl FnOnce(&mut u64, &mut [u64; VALUES]) -> u32) -> Result<[u64; VALUES], Refusal> {
    let (mut place, mut values) = (0, [0; VALUES]);
    match call(&mut place, &mut values) {
        0 => Ok(values),
        number => Err(Refusal { number, place, values }),
    }
}

/// Evaluates a function at a width, two operands and a carry.
pub fn evaluate(function: u32, width: u32, left: u64, right: u64, carry: u32) -> Result<Ports, Refusal> {
    told(|place, values| unsafe { c::deqhulov_evaluate(function, width, left, right, carry, place, values.as_mut_ptr(), VALUES) })
        .map(|[o0, ocout, ovf, o1]| Ports { o0, ocout: ocout == 1, ovf: ovf == 1, o1: o1 == 1 })
}

/// Judges a recipe word at a width, its target plain (mark 0) or negated (mark 1): right, or refused; 10 with the port, left, right and carry
/// at which it differs.
pub fn judge(word: u32, width: u32, mark: u32) -> Result<(), Refusal> {
    told(|place, values| unsafe { c::deqhulov_judge(word, width, mark, place, values.as_mut_ptr(), VALUES) }).map(|_| ())
}

/// Maps a job into lent words, and answers how many were written.
pub fn map(job: &[u32], lent: &mut [u32]) -> Result<usize, Refusal> {
    told(|place, values| unsafe {
        c::deqhulov_map(job.as_ptr(), job.len(), lent.as_mut_ptr(), lent.len(), place, values.as_mut_ptr(), VALUES)
    })
    .map(|values| values[0] as usize)
}

/// Prices a mapping under its job.
pub fn price(job: &[u32], mapping: &[u32]) -> Result<u64, Refusal> {
    told(|place, values| unsafe {
        c::deqhulov_price(job.as_ptr(), job.len(), mapping.as_ptr(), mapping.len(), place, values.as_mut_ptr(), VALUES)
    })
    .map(|values| values[0])
}

/// Checks a mapping against its job.
pub fn check(job: &[u32], mapping: &[u32]) -> Result<(), Refusal> {
    told(|place, values| unsafe {
        c::deqhulov_check(job.as_ptr(), job.len(), mapping.as_ptr(), mapping.len(), place, values.as_mut_ptr(), VALUES)
    })
    .map(|_| ())
}
