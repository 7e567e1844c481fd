//! Certificates made, read and checked as a plain Rust program: the yardstick of bench/certificates.
//!
//! The words are `make MATRIX ORDER`, with a matrix in 4ti2 text and `lex` or `grevlex`, which prints a certificate;
//! `read FILE`, which prints its numbers of rules, moves and joins; `check FILE`, which also checks it; and `beside FILE
//! MOVES TIMES`, which checks it, puts the moves of a 4ti2 text beside it so many times and prints the paths. Monomials
//! are dense, `[u16; 128]`, each rule has the set of its left side's symbols, and every trace has a vector of its own.
use completion::{Monomial, Problem, Rule, peak, rewrite};
use std::io::Write;

mod certificate_check;
mod certificate_text;
mod completion;
mod given_moves;

/// Looks that a completion may take.
const LOOKS: u32 = 1_000_000;

/// The steps of a start: from the column's margins, and from the cell.
#[derive(Clone)]
pub struct Start {
    pub margin_steps: Vec<u32>,
    pub cell_steps: Vec<u32>,
}

/// A pair of rules with the steps from what each makes of their peak.
#[derive(Clone)]
pub struct Join {
    pub low: u32,
    pub high: u32,
    pub low_steps: Vec<u32>,
    pub high_steps: Vec<u32>,
}

/// A rule with the signed moves from its left side to its right side.
#[derive(Clone)]
pub struct Path {
    pub rule: u32,
    pub steps: Vec<i64>,
}

pub struct Certificate {
    pub problem: Problem,
    /// The entries of all moves, one after the other.
    pub moves: Vec<i32>,
    pub rules: Vec<Rule>,
    pub starts: Vec<Start>,
    pub joins: Vec<Join>,
    pub paths: Vec<Path>,
}

/// The numbers of the rules that lead a monomial to its normal form.
fn trace(problem: &Problem, rules: &[Rule], mut m: Monomial) -> Vec<u32> {
    let mut steps = Vec::new();
    problem.reduce(&mut m, rules, |k| steps.push(k as u32));
    steps
}

/// The cells' exponents of the left side less those of the right side.
fn difference<'a>(problem: &'a Problem, rule: &'a Rule) -> impl Iterator<Item = i32> + 'a {
    let cells = problem.rows..problem.rows + problem.cols;
    rule.left[cells.clone()].iter().zip(&rule.right[cells]).map(|(x, y)| i32::from(*x) - i32::from(*y))
}

fn join(problem: &Problem, rules: &[Rule], low: usize, high: usize) -> Join {
    let top = peak(&rules[low], &rules[high]);
    let (mut p, mut q) = (top, top);
    rewrite(&mut p, &rules[low]);
    rewrite(&mut q, &rules[high]);
    Join {
        low: low as u32,
        high: high as u32,
        low_steps: trace(problem, rules, p),
        high_steps: trace(problem, rules, q),
    }
}

/// The certificate of a completed list of rules.
fn make(problem: Problem, rules: Vec<Rule>) -> Certificate {
    let free: Vec<usize> = (0..rules.len()).filter(|k| problem.is_margin_free(&rules[*k])).collect();
    let mut joins = Vec::new();
    for high in 0..rules.len() {
        for low in (0..high).filter(|low| rules[*low].set & rules[high].set != 0) {
            joins.push(join(&problem, &rules, low, high));
        }
    }
    let start = |j| Start {
        margin_steps: trace(&problem, &rules, problem.of_column(j)),
        cell_steps: trace(&problem, &rules, problem.of_cell(j)),
    };
    Certificate {
        moves: free.iter().flat_map(|k| difference(&problem, &rules[*k])).collect(),
        starts: (0..problem.cols).map(start).collect(),
        joins,
        paths: (1..).zip(&free).map(|(k, rule)| Path { rule: *rule as u32, steps: vec![-k] }).collect(),
        rules,
        problem,
    }
}

/// The matrix of a 4ti2 text, with an order.
fn problem_of(text: &str, order: &str) -> Problem {
    let numbers: Vec<u64> = text.split_ascii_whitespace().map(|word| word.parse().unwrap()).collect();
    let (rows, cols) = (numbers[0] as usize, numbers[1] as usize);
    Problem { sets: true, lex: order == "lex", rows, cols, entries: numbers[2..].to_vec() }
}

fn made(text: &str, order: &str) -> Vec<u8> {
    let problem = problem_of(text, order);
    match problem.complete(LOOKS) {
        Ok((rules, _)) => certificate_text::write(&make(problem, rules)),
        Err(refusal) => refusal.into_bytes(),
    }
}

fn counts(certificate: &Certificate) -> (usize, usize, usize) {
    (certificate.rules.len(), certificate.moves.len() / certificate.problem.cols, certificate.joins.len())
}

fn answer(text: &[u8], checked: bool) -> String {
    let certificate = match certificate_text::read(text) {
        Ok(certificate) => certificate,
        Err(fault) => return format!("refused Text line {}\n", fault.line),
    };
    let (rules, moves, joins) = counts(&certificate);
    if !checked {
        return format!("rules {rules} moves {moves} joins {joins}\n");
    }
    match certificate_check::check(&certificate) {
        Ok(()) => format!("joins rules {rules} moves {moves} pairs {joins}\n"),
        Err(fault) => format!("refused Certificate line {} reason {:?}\n", fault.line, fault.reason),
    }
}

/// The answer to moves beside a certificate, which is right.
fn beside(text: &[u8], moves: &str, times: u32) -> String {
    match certificate_text::read(text) {
        Ok(certificate) if certificate_check::check(&certificate).is_ok() => {
            given_moves::answer(&certificate, &given_moves::Moves::of(moves), times)
        }
        _ => "refused\n".to_string(),
    }
}

fn main() {
    let words: Vec<String> = std::env::args().collect();
    let text = std::fs::read(&words[2]).unwrap();
    let printed = match words[1].as_str() {
        "make" => made(std::str::from_utf8(&text).unwrap(), &words[3]),
        "read" => answer(&text, false).into_bytes(),
        "check" => answer(&text, true).into_bytes(),
        "beside" => {
            let moves = std::fs::read_to_string(&words[3]).unwrap();
            beside(&text, &moves, words[4].parse().unwrap()).into_bytes()
        }
        word => panic!("no such word: {word}"),
    };
    std::io::stdout().write_all(&printed).unwrap();
}
