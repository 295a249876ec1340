//! The same questions for an SMT solver: are there operands and a carry at which some port differs? Written from document 01 over
//! bit-vectors of 64 bits.

use std::fmt::Write as _;
use std::io::{BufRead, BufReader, Write as _};
use std::process::{Child, ChildStdin, ChildStdout, Command, Stdio};

use crate::recipe::{fields, Recipe, VECTORS};

const ZEROS: &str = "#x0000000000000000";
const ONES: &str = "#xffffffffffffffff";

fn wired(code: u32) -> String {
    let word = [ZEROS, "left", "right"][code as usize / 2];
    if code % 2 == 1 { format!("(bvnot {word})") } else { word.into() }
}

fn wired_carry(code: u32) -> &'static str {
    ["#b0", "#b1", "carry", "(bvnot carry)"][code as usize]
}

/// Defines the ports of a side, their names beginning with a letter. A port that is not driven shows 0.
fn define(side: char, o0: &str, ocout: &str, ovf: &str, o1: &str) -> String {
    let mut text = format!("(define-fun {side}o0 () (_ BitVec 64) {o0})\n");
    for (port, term) in [("ocout", ocout), ("ovf", ovf), ("o1", o1)] {
        writeln!(text, "(define-fun {side}{port} () (_ BitVec 1) {term})").unwrap();
    }
    text
}

/// A sum with its carry out from 65 bits, and its overflow from the exact sum in 66.
fn sum(side: char, p: &str, q: &str, carry: &str) -> String {
    let add = |extend: &str, by: u32| {
        format!("(bvadd (bvadd ((_ {extend} {by}) {p}) ((_ {extend} {by}) {q})) ((_ zero_extend {}) {carry}))", 63 + by)
    };
    let wide = add("zero_extend", 1);
    let exact = add("sign_extend", 2);
    let o0 = format!("((_ extract 63 0) {wide})");
    let ovf = format!("(ite (= {exact} ((_ sign_extend 2) {o0})) #b0 #b1)");
    define(side, &o0, &format!("((_ extract 64 64) {wide})"), &ovf, "#b0")
}

fn logic(side: char, vector: u32, l: &str, r: &str) -> String {
    let minterms = [
        format!("(bvand {l} {r})"),
        format!("(bvand {l} (bvnot {r}))"),
        format!("(bvand (bvnot {l}) {r})"),
        format!("(bvand (bvnot {l}) (bvnot {r}))"),
    ];
    let chosen = (0..4).filter(|bit| vector >> bit & 1 == 1);
    let o0 = chosen.fold(String::from(ZEROS), |word, bit| format!("(bvor {word} {})", minterms[bit]));
    define(side, &o0, "#b0", "#b0", "#b0")
}

fn function(side: char, function: u32, l: &str, r: &str, carry: &str) -> String {
    let compared = |relation: &str| define(side, ZEROS, "#b0", "#b0", &format!("(ite {relation} #b1 #b0)"));
    match function {
        1 => sum(side, l, r, carry),
        2 => sum(side, l, &format!("(bvnot {r})"), carry),
        3 => sum(side, &format!("(bvnot {l})"), r, carry),
        4 => sum(side, l, "#x0000000000000001", "#b0"),
        5 => sum(side, l, ONES, "#b0"),
        6..=21 => logic(side, VECTORS[function as usize - 6], l, r),
        22 => compared(&format!("(= {l} {r})")),
        23 => compared(&format!("(not (= {l} {r}))")),
        24 => compared(&format!("(bvsgt {l} {r})")),
        25 => compared(&format!("(bvslt {l} {r})")),
        26 => compared(&format!("(bvsge {l} {r})")),
        _ => compared(&format!("(bvsle {l} {r})")),
    }
}

/// A comparison code over the target's ports.
fn comparison(code: u32) -> String {
    let s = "((_ extract 63 63) to0)";
    let gor = format!("(ite (= to0 {ZEROS}) #b0 #b1)");
    let gand = format!("(ite (= to0 {ONES}) #b1 #b0)");
    let less = format!("(bvxor {s} tovf)");
    let not = |term: &str| format!("(bvnot {term})");
    match code {
        0 => "#b0".into(),
        1 => "to1".into(),
        2 => not("to1"),
        3 => gor,
        4 => not(&gor),
        5 => gand,
        6 => not(&gand),
        7 => s.into(),
        8 => not(s),
        9 => format!("(bvor {s} {})", not(&gor)),
        10 => format!("(bvand {} {gor})", not(s)),
        11 => format!("(bvand {} {})", not(s), not(&gor)),
        12 => less,
        13 => not(&less),
        14 => format!("(bvor {less} {})", not(&gor)),
        _ => not(&format!("(bvor {less} {})", not(&gor))),
    }
}

/// The recipe's four ports, over the target's.
fn outputs(recipe: Recipe) -> [String; 4] {
    let output = |code: u32, zero: &str, port: &str| match code {
        0 => zero.to_string(),
        1 => port.to_string(),
        _ => format!("(bvnot {port})"),
    };
    if recipe.target == 0 {
        return ["to0".into(), "#b0".into(), "#b0".into(), "#b0".into()];
    }
    [
        output(recipe.main, ZEROS, "to0"),
        output(recipe.cout, "#b0", "tocout"),
        output(recipe.ovf, "#b0", "tovf"),
        comparison(recipe.code),
    ]
}

pub fn question(word: u32) -> String {
    let recipe = fields(word);
    let mut text = String::from("(declare-const left (_ BitVec 64))\n(declare-const right (_ BitVec 64))\n(declare-const carry (_ BitVec 1))\n");
    text += &function('s', recipe.source, "left", "right", "carry");
    text += &match recipe.target {
        0 => logic('t', recipe.code, "left", "right"),
        target => function('t', target, &wired(recipe.left), &wired(recipe.right), wired_carry(recipe.carry)),
    };
    let [o0, ocout, ovf, o1] = outputs(recipe);
    writeln!(text, "(assert (not (and (= so0 {o0}) (= socout {ocout}) (= sovf {ovf}) (= so1 {o1}))))").unwrap();
    text + "(check-sat)\n(reset)\n"
}

/// A running z3 that answers one question after another.
pub struct Solver {
    process: Child,
    questions: ChildStdin,
    answers: BufReader<ChildStdout>,
}

impl Solver {
    /// None where z3 is not installed. A question is given up after so many milliseconds.
    pub fn start(limit: u32) -> Option<Solver> {
        let mut command = Command::new("z3");
        command.args(["-in", "-smt2", &format!("-t:{limit}")]);
        let mut process = command.stdin(Stdio::piped()).stdout(Stdio::piped()).spawn().ok()?;
        let questions = process.stdin.take()?;
        let answers = BufReader::new(process.stdout.take()?);
        Some(Solver { process, questions, answers })
    }

    /// Whether the recipe is right, or none where the solver gave up.
    pub fn is_right(&mut self, question: &str) -> Option<bool> {
        self.questions.write_all(question.as_bytes()).expect("z3 reads");
        self.questions.flush().expect("z3 reads");
        let mut answer = String::new();
        self.answers.read_line(&mut answer).expect("z3 answers");
        match answer.trim() {
            "unsat" => Some(true),
            "sat" => Some(false),
            "unknown" | "timeout" => None,
            other => panic!("z3 said {other}"),
        }
    }

    pub fn stop(self) {
        let Solver { mut process, questions, .. } = self;
        drop(questions);
        process.wait().expect("z3 ends");
    }
}
