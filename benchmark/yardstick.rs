//! The verdict in plain Rust, unproved: the procedure of the library. What both sides show at a place is asked once a recipe. From that
//! follow the states from which it fails, from the top place down, and from a start state among them a walk up to operands.

use crate::recipe::{evaluate, fields, shows, wired_carry, Ports, Recipe, VECTORS};

pub enum Verdict {
    Right,
    Wrong { port: u32, left: u64, right: u64, carry: bool },
}

/// What a function does at a place: what it remembers afterwards, its bit of O0, and the other ports if the place is the top one.
#[derive(Default)]
struct Cell {
    memory: usize,
    bit: bool,
    ocout: bool,
    ovf: bool,
    o1: bool,
}

/// The bits of a wiring code say whether the right bit is taken, whether the left one is, and whether it is complemented.
fn wire(code: u32, x: bool, y: bool) -> bool {
    ((code & 4 != 0) & y) ^ ((code & 2 != 0) & x) ^ (code & 1 != 0)
}

/// A sum remembers the carry.
fn add(carry: bool, p: bool, q: bool) -> Cell {
    let ocout = if p { q | carry } else { q & carry };
    Cell { memory: ocout as usize, bit: p ^ q ^ carry, ocout, ovf: carry ^ ocout, o1: false }
}

fn minterm(vector: u32, x: bool, y: bool) -> bool {
    vector >> (3 - 2 * x as u32 - y as u32) & 1 == 1
}

/// The order of x and y, or where they are equal that of the bits below: 0 equal, 1 less, 2 greater.
fn order(below: usize, x: bool, y: bool) -> usize {
    if x == y { below } else { 1 + x as usize }
}

/// What shows at a place. The bit of the side's own O0 stands beside it, since O1 hangs on whether any and whether all of those bits are
/// 1, the lower ones too: it has a bit for each of the four, at any + 2 * all.
#[derive(Clone, Copy, Default)]
struct Shown {
    memory: u8,
    bit: bool,
    main: bool,
    cout: bool,
    ovf: bool,
    orders: u8,
}

/// For each comparison code, at 4 * (TO1 + 2 S + 4 TOVF), the four bits that it shows.
const ORDERS: [u32; 16] = [
    0x0000_0000, 0xF0F0_F0F0, 0x0F0F_0F0F, 0xAAAA_AAAA, 0x5555_5555, 0xCCCC_CCCC, 0x3333_3333, 0xFF00_FF00,
    0x00FF_00FF, 0xFF55_FF55, 0x00AA_00AA, 0x0055_0055, 0x00FF_FF00, 0xFF00_00FF, 0x55FF_FF55, 0xAA00_00AA,
];

/// Nothing, a bit or its complement.
fn output(code: u32, own: bool) -> bool {
    (code != 0) & (own ^ (code == 2))
}

fn shown(outputs: &Recipe, cell: Cell) -> Shown {
    let at = 4 * (cell.o1 as u32 + 2 * cell.bit as u32 + 4 * cell.ovf as u32);
    Shown {
        memory: cell.memory as u8,
        bit: cell.bit,
        main: output(outputs.main, cell.bit),
        cout: output(outputs.cout, cell.ocout),
        ovf: output(outputs.ovf, cell.ovf),
        orders: (ORDERS[outputs.code as usize] >> at & 15) as u8,
    }
}

/// What shows of a function behind the wirings and output codes of a recipe, at each memory that its kind has and each pair of bits.
struct Side {
    memories: usize,
    /// The memory before the lowest place, by the carry in.
    start: [usize; 2],
    shown: [[Shown; 4]; 3],
}

impl Side {
    fn filled(recipe: &Recipe, memories: usize, start: [usize; 2], cell: impl Fn(usize, bool, bool) -> Cell) -> Side {
        let mut side = Side { memories, start, shown: Default::default() };
        for (memory, pairs) in side.shown.iter_mut().enumerate().take(memories) {
            for (pair, slot) in pairs.iter_mut().enumerate() {
                let (x, y) = (pair & 2 != 0, pair & 1 != 0);
                *slot = shown(recipe, cell(memory, wire(recipe.left, x, y), wire(recipe.right, x, y)));
            }
        }
        side
    }

    /// Adds what two wirings and a carry code choose of the inputs.
    fn adds(recipe: &Recipe, left: u32, right: u32, code: u32) -> Side {
        let start = [false, true].map(|carry| wired_carry(code, wired_carry(recipe.carry, carry)) as usize);
        Side::filled(recipe, 2, start, |memory, x, y| add(memory == 1, wire(left, x, y), wire(right, x, y)))
    }

    fn logic(recipe: &Recipe, vector: u32) -> Side {
        Side::filled(recipe, 1, [0; 2], |_, x, y| Cell { bit: minterm(vector, x, y), ..Cell::default() })
    }

    /// By what a comparison shows of equal operands, a lesser left one and a greater. It remembers the order so far.
    fn compares(recipe: &Recipe, holds: [bool; 3]) -> Side {
        // the top bit counts negative: there the two change places
        let cell = |memory, x, y| Cell { memory: order(memory, x, y), o1: holds[order(memory, y, x)], ..Cell::default() };
        Side::filled(recipe, 3, [0; 2], cell)
    }

    fn of(function: u32, recipe: &Recipe) -> Side {
        match function {
            1 => Side::adds(recipe, 2, 4, 2),
            2 => Side::adds(recipe, 2, 5, 2),
            3 => Side::adds(recipe, 3, 4, 2),
            4 => Side::adds(recipe, 2, 0, 1),
            5 => Side::adds(recipe, 2, 1, 0),
            6..=21 => Side::logic(recipe, VECTORS[function as usize - 6]),
            22 => Side::compares(recipe, [true, false, false]),
            23 => Side::compares(recipe, [false, true, true]),
            24 => Side::compares(recipe, [false, false, true]),
            25 => Side::compares(recipe, [false, true, false]),
            26 => Side::compares(recipe, [true, false, true]),
            _ => Side::compares(recipe, [true, true, false]),
        }
    }
}

/// Both sides. A state is 16 * source's memory + 4 * target's memory + any + 2 * all. A set has a bit for each, so the four states that
/// differ in any and all alone lie side by side, a group.
struct Machine {
    source: Side,
    target: Side,
}

/// Of the states of a group those that a bit of TO0 leads into a group.
fn pulled(bit: bool, group: u64) -> u64 {
    // a 1 leads to those with any, a 0 to those without all
    if bit { group & 0b1010 | (group & 0b1010) >> 1 } else { group & 0b0011 | (group & 0b0011) << 2 }
}

/// Of the states of a group those that fail by what both sides show, at the top place or from the set of the place above.
fn fail_by(above: Option<u64>, u: Shown, v: Shown) -> u64 {
    let (differ, group) = match above {
        Some(set) => (u.main != v.main, set >> (16 * u.memory + 4 * v.memory) & 15),
        None => ((u.main != v.main) | (u.cout != v.cout) | (u.ovf != v.ovf), (u.orders ^ v.orders) as u64),
    };
    pulled(v.bit, group) | if differ { 15 } else { 0 }
}

impl Machine {
    fn new(recipe: &Recipe) -> Machine {
        // a source shows all as it is, a vector its word
        let whole = Recipe { left: 2, right: 4, carry: 2, main: 1, cout: 1, ovf: 1, code: 1, ..*recipe };
        let target = match recipe.target {
            0 => Side::logic(&Recipe { cout: 0, ovf: 0, code: 0, ..whole }, recipe.code),
            function => Side::of(function, recipe),
        };
        Machine { source: Side::of(recipe.source, &whole), target }
    }

    fn start(&self, carry: bool) -> usize {
        16 * self.source.start[carry as usize] + 4 * self.target.start[carry as usize] + 2
    }

    fn shown(&self, state: usize, pair: usize) -> (Shown, Shown) {
        (self.source.shown[state / 16][pair], self.target.shown[state / 4 % 4][pair])
    }

    /// The failing ones of the states in which the source remembers something.
    fn row(&self, above: Option<u64>, source: &[Shown; 4]) -> u64 {
        (0..self.target.memories).fold(0, |row, q| {
            let pairs = source.iter().zip(&self.target.shown[q]);
            row | pairs.fold(0, |group, (&u, &v)| group | fail_by(above, u, v)) << (4 * q)
        })
    }

    fn round(&self, above: Option<u64>) -> u64 {
        (0..self.source.memories).fold(0, |set, p| set | self.row(above, &self.source.shown[p]) << (16 * p))
    }

    /// The sets with 1, 2, .. places to go, up to the last that is kept: a set follows from the one before it alone, so one that repeats
    /// stays.
    fn rounds(&self, n: u32, sets: &mut [u64; 64]) -> usize {
        sets[0] = self.round(None);
        for last in 0..n as usize - 1 {
            let set = self.round(Some(sets[last]));
            if set == sets[last] {
                return last;
            }
            sets[last + 1] = set;
        }
        n as usize - 1
    }

    /// Where a state leads by a pair of bits, unless the main outputs differ.
    fn leads(&self, state: usize, pair: usize) -> Option<usize> {
        let (u, v) = self.shown(state, pair);
        let joined = if v.bit { state & 2 | 1 } else { state & 1 };
        (u.main == v.main).then(|| 16 * u.memory as usize + 4 * v.memory as usize + joined)
    }

    /// Operands that fail from a start state: at each place the first pair of bits by which the state fails.
    fn walk(&self, sets: &[u64; 64], last: usize, n: u32, start: usize) -> (u64, u64) {
        let (mut left, mut right, mut state, mut place) = (0, 0, start, 0);
        loop {
            let rest = n as usize - 1 - place;
            let above = (rest > 0).then(|| sets[last.min(rest - 1)]);
            let fails = |&pair: &usize| {
                let (u, v) = self.shown(state, pair);
                fail_by(above, u, v) >> (state % 4) & 1 == 1
            };
            let pair = (0..3).find(fails).unwrap_or(3);
            let next = above.and_then(|_| self.leads(state, pair));
            // a state that leads to itself does so down to the last set that is kept
            let places = if next == Some(state) && rest > last { rest - last } else { 1 };
            let run = ((1 << places) - 1) << place;
            left |= (pair as u64 >> 1) * run;
            right |= (pair as u64 & 1) * run;
            let Some(next) = next else { return (left, right) };
            state = next;
            place += places;
        }
    }
}

/// The lowest port at which two differ, or 4.
pub fn lowest_port(p: Ports, q: Ports) -> u32 {
    let differ = [p.o0 != q.o0, p.ocout != q.ocout, p.ovf != q.ovf, p.o1 != q.o1];
    differ.iter().position(|&d| d).unwrap_or(4) as u32
}

/// The verdict on a valid recipe word.
pub fn verdict(word: u32, n: u32) -> Verdict {
    let recipe = fields(word);
    let machine = Machine::new(&recipe);
    let mut sets = [0; 64];
    let last = machine.rounds(n, &mut sets);
    for carry in [false, true] {
        let start = machine.start(carry);
        if sets[last] >> start & 1 == 1 {
            let (left, right) = machine.walk(&sets, last, n, start);
            let shown = shows(recipe, n, left, right, carry);
            let asked = evaluate(recipe.source, n, left, right, carry);
            return Verdict::Wrong { port: lowest_port(shown, asked), left, right, carry };
        }
    }
    Verdict::Right
}

pub fn is_right(word: u32, n: u32) -> bool {
    matches!(verdict(word, n), Verdict::Right)
}
