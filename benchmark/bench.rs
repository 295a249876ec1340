//! The bench at work: what a command of work_bench takes at width 64 with all 27 sources bound, its line read and its answer printed.

use std::fs::{self, File};
use std::process::Command;

use crate::recipe::fields;
use crate::{jobs, seconds};

const JOB: &str = "target/benchmark.job";
const COMMANDS: &str = "target/benchmark.commands";
const ROUNDS: usize = 2_000;

/// What work_bench prints for lines of commands on the job.
fn answers(commands: &str) -> String {
    fs::write(COMMANDS, commands).expect("the file of the commands");
    let input = File::open(COMMANDS).expect("the file of the commands");
    let output = Command::new("target/bin/work_bench").arg(JOB).stdin(input).output().expect("work_bench");
    String::from_utf8(output.stdout).expect("text")
}

/// Microseconds of one line out of so many rounds of some lines behind others; each of them must be answered as expected.
fn microseconds(before: &str, lines: &str, expected: &str) -> f64 {
    let all = before.to_owned() + &lines.repeat(ROUNDS);
    assert!(answers(&all) == answers(before) + &expected.repeat(ROUNDS), "the answers to {lines:?}");
    let started = seconds(|| drop(answers(before)));
    let whole = seconds(|| drop(answers(&all)));
    (whole - started) * 1e6 / ROUNDS as f64
}

/// Each source is bound by its first rule in the book.
pub fn report() {
    let book = jobs::book();
    let rule_of = |function: u32| *book.iter().find(|&&rule| fields(rule).source == function).expect("a rule of each function");
    let binds: String = (1..28).map(|function| format!("bind {:08X}\n", rule_of(function))).collect();
    let job: Vec<u8> = jobs::bare_job(64).iter().flat_map(|word| word.to_le_bytes()).collect();
    fs::write(JOB, job).expect("the file of the job");
    assert_eq!(answers(&binds), "OPENED\n".to_owned() + &"BOUND\n".repeat(27));
    let price = answers(&(binds.clone() + "price\n")).lines().last().expect("a price").to_owned() + "\n";
    let passed = microseconds(&binds, "# nothing\n", "");
    let priced = microseconds(&binds, "price\n", &price);
    let again = format!("release 1\nbind {:08X}\n", rule_of(1));
    let bound = microseconds(&binds, &again, "RELEASED\nBOUND\n");
    println!("\nMicroseconds of a line of work_bench at width 64, all 27 sources bound ({})", price.trim());
    println!("passed over {passed:.1}, price {priced:.1}, release and bind {bound:.1}; so a bind at most {:.1}", bound - priced);
}
