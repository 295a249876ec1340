//! Recipe words and what functions and recipes show, straight from document 01.

/// The fields of a recipe word.
#[derive(Clone, Copy)]
pub struct Recipe {
    pub source: u32,
    pub target: u32,
    pub left: u32,
    pub right: u32,
    pub carry: u32,
    pub main: u32,
    pub cout: u32,
    pub ovf: u32,
    pub code: u32,
}

pub fn fields(word: u32) -> Recipe {
    let field = |at: u32, width: u32| word >> at & ((1 << width) - 1);
    Recipe {
        source: field(23, 5),
        target: field(18, 5),
        left: field(15, 3),
        right: field(12, 3),
        carry: field(10, 2),
        main: field(8, 2),
        cout: field(6, 2),
        ovf: field(5, 1),
        code: field(0, 4),
    }
}

/// The logic vectors of functions 6 to 21; Table 2 decides LIMPL and RIMPL.
pub const VECTORS: [u32; 16] = [
    0b0000, 0b1111, 0b0001, 0b1110, 0b0111, 0b1000, 0b0110, 0b1001, 0b0011, 0b0101, 0b1100, 0b1010,
    0b0100, 0b0010, 0b1101, 0b1011,
];

#[derive(Clone, Copy, PartialEq, Default)]
pub struct Ports {
    pub o0: u64,
    pub ocout: bool,
    pub ovf: bool,
    pub o1: bool,
}

fn ones(n: u32) -> u64 {
    u64::MAX >> (64 - n)
}

/// The two's complement value of a word of n bits.
fn signed(n: u32, word: u64) -> i128 {
    let value = word as i128;
    if word >> (n - 1) & 1 == 1 {
        value - (1 << n)
    } else {
        value
    }
}

/// A sum of two words and a carry; of INC the right operand's value is plus one, of DEC's ones minus one.
fn add(n: u32, p: u64, q: u64, q_value: i128, carry: bool) -> Ports {
    let sum = p as u128 + q as u128 + carry as u128;
    let exact = signed(n, p) + q_value + carry as i128;
    let half = 1i128 << (n - 1);
    Ports {
        o0: sum as u64 & ones(n),
        ocout: sum >> n != 0,
        ovf: exact < -half || exact >= half,
        o1: false,
    }
}

fn vector_word(n: u32, vector: u32, left: u64, right: u64) -> u64 {
    let minterms = [left & right, left & !right, !left & right, !left & !right];
    let chosen = (0..4).filter(|bit| vector >> bit & 1 == 1);
    chosen.fold(0, |word, bit| word | minterms[bit]) & ones(n)
}

fn compare(function: u32, left: i128, right: i128) -> bool {
    match function {
        22 => left == right,
        23 => left != right,
        24 => left > right,
        25 => left < right,
        26 => left >= right,
        _ => left <= right,
    }
}

/// What a function shows at operands and a carry in range.
pub fn evaluate(function: u32, n: u32, left: u64, right: u64, carry: bool) -> Ports {
    let not_left = !left & ones(n);
    let not_right = !right & ones(n);
    match function {
        1 => add(n, left, right, signed(n, right), carry),
        2 => add(n, left, not_right, signed(n, not_right), carry),
        3 => add(n, not_left, right, signed(n, right), carry),
        4 => add(n, left, 1, 1, false),
        5 => add(n, left, ones(n), -1, false),
        6..=21 => Ports {
            o0: vector_word(n, VECTORS[function as usize - 6], left, right),
            ..Ports::default()
        },
        _ => Ports {
            o1: compare(function, signed(n, left), signed(n, right)),
            ..Ports::default()
        },
    }
}

fn wired(code: u32, n: u32, left: u64, right: u64) -> u64 {
    let word = match code / 2 {
        0 => 0,
        1 => left,
        _ => right,
    };
    (if code % 2 == 1 { !word } else { word }) & ones(n)
}

/// A carry in: 0, 1, SICIN or NOT SICIN.
pub fn wired_carry(code: u32, carry: bool) -> bool {
    (code / 2 == 1 && carry) != (code % 2 == 1)
}

/// A comparison code, from S, GOR and GAND of TO0, TOVF and TO1.
pub fn comparison(code: u32, s: bool, gor: bool, gand: bool, ovf: bool, to1: bool) -> bool {
    match code {
        0 => false,
        1 => to1,
        2 => !to1,
        3 => gor,
        4 => !gor,
        5 => gand,
        6 => !gand,
        7 => s,
        8 => !s,
        9 => s || !gor,
        10 => !s && gor,
        11 => !s && !gor,
        12 => s != ovf,
        13 => s == ovf,
        14 => (s != ovf) || !gor,
        _ => !((s != ovf) || !gor),
    }
}

/// What a recipe shows at operands and a carry in range.
pub fn shows(recipe: Recipe, n: u32, left: u64, right: u64, carry: bool) -> Ports {
    if recipe.target == 0 {
        return Ports {
            o0: vector_word(n, recipe.code, left, right),
            ..Ports::default()
        };
    }
    let l = wired(recipe.left, n, left, right);
    let r = wired(recipe.right, n, left, right);
    let to = evaluate(recipe.target, n, l, r, wired_carry(recipe.carry, carry));
    let s = to.o0 >> (n - 1) & 1 == 1;
    let gand = to.o0 == ones(n);
    Ports {
        o0: match recipe.main {
            0 => 0,
            1 => to.o0,
            _ => !to.o0 & ones(n),
        },
        ocout: match recipe.cout {
            0 => false,
            1 => to.ocout,
            _ => !to.ocout,
        },
        ovf: recipe.ovf == 1 && to.ovf,
        o1: comparison(recipe.code, s, to.o0 != 0, gand, to.ovf, to.o1),
    }
}
