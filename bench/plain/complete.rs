//! The completion of the rules of a matrix as a plain Rust program: the yardstick of bench/complete.
//!
//! With `SETS=1` in the environment each rule has the set of its left side's symbols beside it.
//! The words are the order (0 for grevlex, 1 for lex), the number of looks, those of rows and cells, and the
//! entries row by row.
use completion::{Monomial, Problem};
use std::fmt::Write;

mod completion;

fn put(text: &mut String, problem: &Problem, m: &Monomial) {
    for exponent in &m[..problem.rows + problem.cols] {
        write!(text, "{exponent} ").unwrap();
    }
}

fn main() {
    let words: Vec<u64> = std::env::args().skip(1).map(|word| word.parse().unwrap()).collect();
    let (rows, cols) = (words[2] as usize, words[3] as usize);
    let sets = std::env::var("SETS").is_ok();
    let problem = Problem { sets, lex: words[0] == 1, rows, cols, entries: words[4..].to_vec() };
    match problem.complete(words[1] as u32) {
        Err(refusal) => print!("{refusal}"),
        Ok((rules, looks)) => {
            let mut text = String::new();
            for rule in &rules {
                put(&mut text, &problem, &rule.left);
                text.push_str("> ");
                put(&mut text, &problem, &rule.right);
                text.push('\n');
            }
            let free = rules.iter().filter(|rule| problem.is_margin_free(rule)).count();
            writeln!(text, "looks {looks} rules {} free {free}", rules.len()).unwrap();
            print!("{text}");
        }
    }
}
