//! Moves beside a certificate: the least path between the two tables of each margin-free rule, by a breadth-first search
//! over sparse moves with a hash set of whole tables, and a copy of the certificate with these moves and paths.
use crate::{Certificate, Path};
use std::collections::HashSet;
use std::fmt::Write;

/// Tables that may be seen between two.
const LIMIT: usize = 1_000;

type Table = Vec<u32>;

/// Moves of so many cells: all entries, one move after the other.
pub struct Moves {
    cols: usize,
    entries: Vec<i32>,
}

impl Moves {
    /// The moves of a 4ti2 text.
    pub fn of(text: &str) -> Moves {
        let mut numbers = text.split_ascii_whitespace().map(|word| word.parse::<i32>().unwrap());
        let (_, cols) = (numbers.next(), numbers.next().unwrap());
        Moves { cols: cols as usize, entries: numbers.collect() }
    }
}

/// Why moves are refused.
enum Fault {
    Width,
    NotAMove { row: usize },
    NotBasis { rule: usize, left: Table, right: Table },
    TooLarge { rule: usize, seen: usize },
}

/// A move: its cells that aren't 0, with their entries.
type Step = Vec<(usize, i32)>;

fn steps_of(moves: &Moves) -> Vec<Step> {
    let sparse = |z: &[i32]| z.iter().copied().enumerate().filter(|(_, entry)| *entry != 0).collect();
    moves.entries.chunks(moves.cols).map(sparse).collect()
}

/// Adds a move once or subtracts it once, unless a count would pass below 0.
fn apply(table: &mut [u32], step: &Step, sign: i32) -> bool {
    if step.iter().any(|(cell, entry)| i64::from(table[*cell]) + i64::from(sign * entry) < 0) {
        return false;
    }
    for (cell, entry) in step {
        table[*cell] = table[*cell].wrapping_add_signed(sign * entry);
    }
    true
}

fn take_back(table: &mut [u32], step: &Step, sign: i32) {
    for (cell, entry) in step {
        table[*cell] = table[*cell].wrapping_add_signed(-sign * entry);
    }
}

/// A table met, the place of the one that it was met from, and the signed number of the move.
struct Node {
    table: Table,
    parent: usize,
    step: i64,
}

/// The tables in the order in which they are met, and the same as a set.
struct Search<'a> {
    steps: &'a [Step],
    met: Vec<Node>,
    seen: HashSet<Table>,
}

impl Search<'_> {
    /// Meets what the moves make of the table at a place; false where there are too many.
    fn expand(&mut self, parent: usize) -> bool {
        let mut table = self.met[parent].table.clone();
        for (number, step) in (1..).zip(self.steps) {
            for sign in [1, -1] {
                if !apply(&mut table, step, sign) {
                    continue;
                }
                if !self.seen.contains(&table) {
                    if self.seen.len() == LIMIT {
                        return false;
                    }
                    self.seen.insert(table.clone());
                    self.met.push(Node { table: table.clone(), parent, step: i64::from(sign) * number });
                }
                take_back(&mut table, step, sign);
            }
        }
        true
    }

    /// The signed numbers that lead to the table at a place.
    fn path(&self, mut place: usize) -> Vec<i64> {
        let mut path = Vec::new();
        while place != 0 {
            path.push(self.met[place].step);
            place = self.met[place].parent;
        }
        path.reverse();
        path
    }
}

/// What a search for a table says.
enum Found {
    Path(Vec<i64>),
    Apart,
    TooMany,
}

/// The least path from a table to another, level by level.
fn between(steps: &[Step], left: &Table, right: &Table) -> Found {
    let root = Node { table: left.clone(), parent: 0, step: 0 };
    let mut search = Search { steps, met: vec![root], seen: HashSet::from([left.clone()]) };
    let mut first = 0;
    while first < search.met.len() && !search.seen.contains(right) {
        let end = search.met.len();
        if !(first..end).all(|place| search.expand(place)) {
            return Found::TooMany;
        }
        first = end;
    }
    match search.met.iter().position(|node| node.table == *right) {
        Some(place) => Found::Path(search.path(place)),
        None => Found::Apart,
    }
}

/// The path of a margin-free rule.
fn path_of(certificate: &Certificate, steps: &[Step], rule: usize) -> Result<Path, Fault> {
    let rows = certificate.problem.rows;
    let cells = rows..rows + certificate.problem.cols;
    let table = |m: &[u16]| -> Table { m[cells.clone()].iter().map(|e| u32::from(*e)).collect() };
    let (left, right) = (table(&certificate.rules[rule].left), table(&certificate.rules[rule].right));
    match between(steps, &left, &right) {
        Found::Path(steps) => Ok(Path { rule: rule as u32, steps }),
        Found::Apart => Err(Fault::NotBasis { rule, left, right }),
        Found::TooMany => Err(Fault::TooLarge { rule, seen: LIMIT + 1 }),
    }
}

/// The certificate with these moves and their paths.
fn beside(certificate: &Certificate, moves: &Moves) -> Result<Certificate, Fault> {
    let problem = &certificate.problem;
    if moves.cols != problem.cols {
        return Err(Fault::Width);
    }
    let steps = steps_of(moves);
    let margin = |row: &[u64], step: &Step| step.iter().map(|(cell, e)| row[*cell] as i64 * i64::from(*e)).sum::<i64>();
    let is_move = |step: &Step| problem.entries.chunks(problem.cols).all(|row| margin(row, step) == 0);
    if let Some(place) = steps.iter().position(|step| !is_move(step)) {
        return Err(Fault::NotAMove { row: place + 1 });
    }
    let free = (0..certificate.rules.len()).filter(|k| problem.is_margin_free(&certificate.rules[*k]));
    let paths = free.map(|rule| path_of(certificate, &steps, rule)).collect::<Result<Vec<Path>, Fault>>()?;
    Ok(Certificate {
        problem: problem.clone(),
        moves: moves.entries.clone(),
        rules: certificate.rules.clone(),
        starts: certificate.starts.clone(),
        joins: certificate.joins.clone(),
        paths,
    })
}

fn paths_in(certificate: &Certificate) -> String {
    let mut text = format!("paths {}\n", certificate.paths.len());
    for path in &certificate.paths {
        write!(text, "{}", path.rule).unwrap();
        for step in &path.steps {
            write!(text, " {step}").unwrap();
        }
        text.push('\n');
    }
    text
}

fn refusal(fault: Fault) -> String {
    let counts = |table: Table| table.iter().map(|count| format!(" {count}")).collect::<String>();
    match fault {
        Fault::Width => "width\n".to_string(),
        Fault::NotAMove { row } => format!("row {row}\n"),
        Fault::NotBasis { rule, left, right } => format!("rule {rule}{} >{}\n", counts(left), counts(right)),
        Fault::TooLarge { rule, seen } => format!("rule {rule} seen {seen}\n"),
    }
}

/// The paths of the certificate with these moves, made so many times, or what refuses them.
pub fn answer(certificate: &Certificate, moves: &Moves, times: u32) -> String {
    if times == 0 {
        return "nothing\n".to_string();
    }
    for _ in 1..times {
        drop(beside(certificate, moves));
    }
    match beside(certificate, moves) {
        Ok(new) => paths_in(&new),
        Err(fault) => refusal(fault),
    }
}
