//! Times the proved library beside the same algorithm in plain Rust, the yardstick, and beside z3 where it is installed. Both are
//! asked the same questions, and the run ends with an error where they answer differently. Of the bench, work_bench is timed by itself.

mod bench;
mod jobs;
mod library;
mod mapper;
mod recipe;
mod smt;
mod yardstick;

use std::hint::black_box;
use std::time::Instant;

use recipe::{evaluate, fields, shows};
use yardstick::{lowest_port, Verdict};

const WIDTHS: [u32; 4] = [1, 8, 32, 64];
const SAMPLE: usize = 20_000;
/// Valid rules out of which jobs are made; the sample is the first of them.
const POOL: usize = 100_000;
const MOST_RULES: usize = 512;
/// What a lent word holds before.
const LENT: u32 = 0xEEEE_EEEE;

/// Seconds that something takes: the least of several times, half a second's worth or three of them.
fn seconds(mut work: impl FnMut()) -> f64 {
    let begun = Instant::now();
    let mut least = f64::INFINITY;
    let mut runs = 0;
    while runs < 3 || (begun.elapsed().as_secs_f64() < 0.5 && runs < 1000) {
        let start = Instant::now();
        work();
        least = least.min(start.elapsed().as_secs_f64());
        runs += 1;
    }
    least
}

fn library_judges(rules: &[u32], width: u32) -> f64 {
    seconds(|| {
        for &rule in rules {
            black_box(library::judge(black_box(rule), width));
        }
    })
}

fn yardstick_judges(rules: &[u32], width: u32) -> f64 {
    seconds(|| {
        for &rule in rules {
            black_box(yardstick::verdict(black_box(rule), width));
        }
    })
}

/// The right rules of some; the library and the yardstick must agree on each, and the yardstick's operands must bear it out.
fn right_of(rules: &[u32], width: u32) -> Vec<u32> {
    let is_right = |&rule: &u32| {
        let verdict = yardstick::verdict(rule, width);
        if let Verdict::Wrong { port, left, right, carry } = verdict {
            let shown = shows(fields(rule), width, left, right, carry);
            let asked = evaluate(fields(rule).source, width, left, right, carry);
            assert!(port < 4 && port == lowest_port(shown, asked), "{rule:08X} at width {width}: the yardstick's operands");
        }
        let right = matches!(verdict, Verdict::Right);
        assert_eq!(library::judge(rule, width), if right { 0 } else { 10 }, "{rule:08X} at width {width}");
        right
    };
    rules.iter().copied().filter(is_right).collect()
}

/// Verdicts a second over some rules: the library's, the yardstick's, and how many times faster the yardstick is.
fn rates(rules: &[u32], width: u32) -> String {
    let count = rules.len() as f64;
    let (ours, plain) = (library_judges(rules, width), yardstick_judges(rules, width));
    format!("{:>11.0} {:>11.0} {:>6.2}", count / ours, count / plain, ours / plain)
}

fn report_verdicts(sample: &[u32]) {
    println!("\nVerdicts a second, over {} valid rules and over the right ones of them", sample.len());
    println!("{:>5}  {:>30}  {:>6} {:>30}", "", "all", "", "right");
    println!("width {:>11} {:>11} {:>6}   rules {:>11} {:>11} {:>6}", "library", "yardstick", "times", "library", "yardstick", "times");
    for width in WIDTHS {
        let right = right_of(sample, width);
        println!("{width:>5} {}  {:>6} {}", rates(sample, width), right.len(), rates(&right, width));
    }
}

/// Maps a job into lent words, which must then hold what the yardstick's mapping has.
fn compare_mapping(job: &[u32], book: &[u32], unmappable: bool) {
    let mut lent = [LENT; 29];
    let number = library::map(job, &mut lent);
    match mapper::map(job, book) {
        Some(words) => assert!(!unmappable && number == 0 && lent[..] == words[..], "the mappings differ"),
        None => assert!(unmappable && number == 12 && lent == [LENT; 29], "the refusals differ"),
    }
}

/// Seconds to map a job: the library's and the yardstick's.
fn mapping_times(job: &[u32], book: &[u32], unmappable: bool) -> (f64, f64) {
    compare_mapping(job, book, unmappable);
    let ours = seconds(|| {
        let mut lent = [LENT; 29];
        black_box(library::map(black_box(job), &mut lent));
    });
    let plain = seconds(|| {
        black_box(mapper::map(black_box(job), book));
    });
    (ours, plain)
}

fn milliseconds((ours, plain): (f64, f64)) -> String {
    format!("{:>10.3} {:>10.3} {:>6.2}", ours * 1e3, plain * 1e3, ours / plain)
}

/// A usable rule is judged only if it would make less glue than the best before it, a wrong one always.
fn report_mappings(pool: &[u32]) {
    println!("\nMilliseconds to map a job of 27 sources, 27 targets and {MOST_RULES} rules: all usable, or all wrong and of the first source");
    println!("{:>5} {:>28} {:>29}", "", "usable", "wrong");
    println!("width {:>10} {:>10} {:>6}  {:>10} {:>10} {:>6}", "library", "yardstick", "times", "library", "yardstick", "times");
    for width in WIDTHS {
        let usable = mapping_times(&jobs::usable_job(width, MOST_RULES, pool), &[], false);
        let wrong = mapping_times(&jobs::wrong_job(width, MOST_RULES, pool), &[], true);
        println!("{width:>5} {}  {}", milliseconds(usable), milliseconds(wrong));
    }
}

/// A job of all sources and targets that asks for the book: without rules of its own, and with as many as there may be, all usable.
fn report_book(pool: &[u32]) {
    let book = jobs::book();
    println!("\nMilliseconds to map a job of 27 sources and 27 targets at width 64 with the book of {} rules", book.len());
    println!("rules {:>10} {:>10} {:>6}", "library", "yardstick", "times");
    for count in [0, MOST_RULES] {
        let job = jobs::with_book(jobs::usable_job(64, count, pool));
        println!("{count:>5} {}", milliseconds(mapping_times(&job, &book, false)));
    }
}

/// A time beside the first of its column.
fn against(time: f64, first: f64) -> String {
    format!("{:>10.3} {:>6.2}", time * 1e3, time / first)
}

fn report_rules(pool: &[u32]) {
    println!("\nThe same at width 64 against the number of rules, with the ratio to the first");
    println!("rules {:>17} {:>17} {:>17} {:>17}", "library, usable", "yardstick", "library, wrong", "yardstick");
    let mut first = None;
    for count in [32, 64, 128, 256, MOST_RULES] {
        let (usable, plain) = mapping_times(&jobs::usable_job(64, count, pool), &[], false);
        let (wrong, plain_wrong) = mapping_times(&jobs::wrong_job(64, count, pool), &[], true);
        let times = [usable, plain, wrong, plain_wrong];
        let base = *first.get_or_insert(times);
        let columns: Vec<String> = times.iter().zip(base).map(|(&time, first)| against(time, first)).collect();
        println!("{count:>5} {}", columns.join(" "));
    }
}

fn report_widths(sample: &[u32]) {
    println!("\nMilliseconds for the verdicts on {} rules against the width, with the ratio to the first", sample.len());
    println!("width {:>17} {:>17}", "library", "yardstick");
    let mut first = None;
    for width in [1, 2, 4, 8, 16, 32, 64] {
        let times = [library_judges(sample, width), yardstick_judges(sample, width)];
        let base = *first.get_or_insert(times);
        println!("{width:>5} {} {}", against(times[0], base[0]), against(times[1], base[1]));
    }
}

/// Half of the questions are right recipes and half wrong ones.
fn report_solver(sample: &[u32]) {
    let Some(mut solver) = smt::Solver::start(20_000) else {
        println!("\nz3 is not installed: not compared");
        return;
    };
    let right = right_of(sample, 64);
    let wrong = sample.iter().copied().filter(|rule| !right.contains(rule));
    let asked: Vec<u32> = right.iter().copied().take(25).chain(wrong.take(25)).collect();
    let (mut given_up, mut solving) = (0, 0.0);
    for &rule in &asked {
        let question = smt::question(rule);
        let start = Instant::now();
        let answer = solver.is_right(&question);
        solving += start.elapsed().as_secs_f64();
        match answer {
            Some(is_right) => assert_eq!(is_right, right.contains(&rule), "z3 on {rule:08X}"),
            None => given_up += 1,
        }
    }
    solver.stop();
    let ours = library_judges(&asked, 64);
    println!("\nz3 at width 64 on {} of these recipes: the same answers but for {given_up} given up after 20 s", asked.len());
    println!("z3 {:.3} ms a recipe, library {:.4} ms, ratio {:.0}", solving * 1e3 / asked.len() as f64, ours * 1e3 / asked.len() as f64, solving / ours);
}

fn main() {
    let pool = jobs::valid_rules(POOL);
    let sample = &pool[..SAMPLE];
    println!("Seed {:016X}. \"times\": the library's time as a multiple of the yardstick's.", jobs::SEED);
    report_verdicts(sample);
    report_mappings(&pool);
    report_book(&pool);
    report_rules(&pool);
    report_widths(&sample[..2_000]);
    bench::report();
    report_solver(sample);
}
