//! The mapper in plain Rust, unproved: document 01's choice over codes in use, a rule being judged last and only if it makes less glue.

use crate::library::ASKS_BOOK;
use crate::recipe::fields;
use crate::yardstick::is_right;

/// The codes in use at each port, a bit for each, the union of the vectors and what some vector lacks. LO is code 3 of the main output.
#[derive(Clone, Copy, Default)]
struct Usage {
    left: u32,
    right: u32,
    carry: u32,
    main: u32,
    cout: u32,
    code: u32,
    vectors: u32,
    lacking: u32,
}

fn usage(word: u32) -> Usage {
    let recipe = fields(word);
    if recipe.target == 0 {
        return Usage { main: 1 << 3, vectors: recipe.code, lacking: 15 - recipe.code, ..Usage::default() };
    }
    // an output's code 0 is not in use
    let used = |code: u32| 1 << code & !1;
    Usage {
        left: 1 << recipe.left,
        right: 1 << recipe.right,
        carry: 1 << recipe.carry,
        main: used(recipe.main),
        cout: used(recipe.cout),
        code: used(recipe.code),
        ..Usage::default()
    }
}

fn joined(p: Usage, q: Usage) -> Usage {
    Usage {
        left: p.left | q.left,
        right: p.right | q.right,
        carry: p.carry | q.carry,
        main: p.main | q.main,
        cout: p.cout | q.cout,
        code: p.code | q.code,
        vectors: p.vectors | q.vectors,
        lacking: p.lacking | q.lacking,
    }
}

/// The width and the prices of an inverter, a gate and a multiplexer.
struct Costs {
    n: u32,
    a: u32,
    b: u32,
    m: u32,
}

fn code_cost(code: u32, c: &Costs) -> u32 {
    match code {
        2 | 8 => c.a,
        3 | 5 => (c.n - 1) * c.b,
        4 | 6 => (c.n - 1) * c.b + c.a,
        9 | 10 => c.n * c.b + c.a,
        11 => c.n * c.b + 2 * c.a,
        12 => c.b,
        13 => c.b + c.a,
        14 => (c.n + 1) * c.b + c.a,
        15 => (c.n + 1) * c.b + 2 * c.a,
        _ => 0,
    }
}

fn glue(used: Usage, c: &Costs) -> u32 {
    let steps = |codes: u32| codes.count_ones().saturating_sub(1);
    let if_used = |codes: u32, mask: u32, cost: u32| if codes & mask != 0 { cost } else { 0 };
    let wirings = used.left | used.right;
    let words = (steps(used.left) + steps(used.right) + steps(used.main)) * c.m
        + if_used(wirings, 1 << 3, c.a)
        + if_used(wirings, 1 << 5, c.a)
        + if_used(used.main, 1 << 2, c.a);
    let bits = (steps(used.carry) + steps(used.cout) + steps(used.code)) * c.m
        + if_used(used.carry, 1 << 3, c.a)
        + if_used(used.cout, 1 << 2, c.a);
    let codes: u32 = (1..16).map(|code| if_used(used.code, 1 << code, code_cost(code, c))).sum();
    let minterms = used.vectors.count_ones();
    let common = (used.vectors & !used.lacking).count_ones();
    let gates = (3 * minterms).saturating_sub(1 + common) * c.b;
    let scratch = gates + if_used(used.vectors, 0b1100, c.a) + if_used(used.vectors, 0b1010, c.a);
    c.n * (words + scratch) + bits + codes
}

/// The words of a well-formed job's mapping, or none where a source has no usable rule. The book's rules stand behind the job's own, if it
/// asks for them.
pub fn map(job: &[u32], book: &[u32]) -> Option<Vec<u32>> {
    let of_kind = |kind: u32| job.iter().copied().filter(move |word| word >> 28 == kind);
    let functions = |kind: u32| of_kind(kind).fold(0u32, |set, word| set | 1 << (word & 31));
    let c = Costs { n: job[0] & 127, a: job[1] >> 16 & 255, b: job[1] >> 8 & 255, m: job[1] & 255 };
    let targets = functions(4) | 1;
    let own = &job[2 + of_kind(3).count() + of_kind(4).count()..];
    let book = if job[0] & ASKS_BOOK != 0 { book } else { &[] };
    let mut used = Usage::default();
    let mut words = vec![job[0] & !ASKS_BOOK];
    for source in of_kind(3) {
        let mut best: Option<(u32, u32)> = None;
        for &rule in own.iter().chain(book) {
            let recipe = fields(rule);
            if recipe.source != source & 31 || targets >> recipe.target & 1 == 0 {
                continue;
            }
            let total = glue(joined(used, usage(rule)), &c);
            if best.map_or(true, |(least, _)| total < least) && is_right(rule, c.n) {
                best = Some((total, rule));
            }
        }
        let (_, rule) = best?;
        used = joined(used, usage(rule));
        words.push(rule & 0x0FFF_FFFF | 0x6000_0000);
    }
    words.push(0x7000_0000 | glue(used, &c));
    Some(words)
}
