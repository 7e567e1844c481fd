//! The check of certificates, line by line; each trace is replayed in place.
use crate::Certificate;
use crate::completion::{Monomial, Rule, peak, rewrite};
use std::cmp::Ordering;

#[derive(Debug)]
pub enum Reason {
    MoveMargins,
    WeightDiffers,
    NotDown,
    StartNotJoined,
    PairMissing,
    PeakTooHeavy,
    StepNotApplicable,
    PairNotJoined,
    PathMissing,
    PathBelowZero,
    PathEnd,
}

/// The first wrong line, from 1, and why it is wrong.
pub struct Fault {
    pub line: u64,
    pub reason: Reason,
}

/// Nothing, or why a line is wrong.
type Judged = Result<(), Reason>;

/// Nothing, or a reason where a test fails.
fn wants(passes: bool, reason: Reason) -> Judged {
    if passes { Ok(()) } else { Err(reason) }
}

/// Whether a rule's left side divides. A listed step mostly fits, so nothing is gained by an early exit.
fn fits(rule: &Rule, m: &Monomial) -> bool {
    rule.left.iter().zip(m).fold(true, |all, (x, y)| all & (x <= y))
}

fn replay(rules: &[Rule], steps: &[u32], m: &mut Monomial) -> Judged {
    for k in steps {
        match rules.get(*k as usize) {
            Some(rule) if fits(rule, m) => rewrite(m, rule),
            _ => return Err(Reason::StepNotApplicable),
        }
    }
    Ok(())
}

/// Both traces are to go through, and to end at one monomial.
fn meet(rules: &[Rule], first: &[u32], mut p: Monomial, second: &[u32], mut q: Monomial, differ: Reason) -> Judged {
    replay(rules, first, &mut p)?;
    replay(rules, second, &mut q)?;
    wants(p == q, differ)
}

impl Certificate {
    fn move_line(&self, z: &[i32]) -> Judged {
        let margin = |row: &[u64]| row.iter().zip(z).map(|(a, e)| *a as i64 * i64::from(*e)).sum::<i64>();
        wants(self.problem.entries.chunks(z.len()).all(|row| margin(row) == 0), Reason::MoveMargins)
    }

    fn rule_line(&self, rule: &Rule) -> Judged {
        let problem = &self.problem;
        let weighs_same = |i| problem.weight(&rule.left, i) == problem.weight(&rule.right, i);
        wants((0..problem.rows).all(weighs_same), Reason::WeightDiffers)?;
        wants(problem.compare(&rule.left, &rule.right) == Ordering::Greater, Reason::NotDown)
    }

    fn start_line(&self, j: usize) -> Judged {
        let (start, problem) = (&self.starts[j], &self.problem);
        let (p, q) = (problem.of_column(j), problem.of_cell(j));
        meet(&self.rules, &start.margin_steps, p, &start.cell_steps, q, Reason::StartNotJoined)
    }

    /// The line of the join of this number, where this is the next pair.
    fn join_line(&self, k: usize, low: usize, high: usize) -> Judged {
        let join = match self.joins.get(k) {
            Some(join) if (join.low as usize, join.high as usize) == (low, high) => join,
            _ => return Err(Reason::PairMissing),
        };
        let top = peak(&self.rules[low], &self.rules[high]);
        wants(self.problem.is_light(&top), Reason::PeakTooHeavy)?;
        let (mut p, mut q) = (top, top);
        rewrite(&mut p, &self.rules[low]);
        rewrite(&mut q, &self.rules[high]);
        meet(&self.rules, &join.low_steps, p, &join.high_steps, q, Reason::PairNotJoined)
    }

    /// The line of the path of this number, where this is the next margin-free rule.
    fn path_line(&self, k: usize, rule: usize) -> Judged {
        let path = match self.paths.get(k) {
            Some(path) if path.rule as usize == rule => path,
            _ => return Err(Reason::PathMissing),
        };
        let cols = self.problem.cols;
        let names_move = |step: &i64| step.unsigned_abs() as usize <= self.moves.len() / cols;
        wants(path.steps.iter().all(names_move), Reason::StepNotApplicable)?;
        let cells = self.problem.rows..self.problem.rows + cols;
        let mut table: Vec<i64> = self.rules[rule].left[cells.clone()].iter().map(|e| i64::from(*e)).collect();
        for step in &path.steps {
            let first = (step.unsigned_abs() as usize - 1) * cols;
            for (count, entry) in table.iter_mut().zip(&self.moves[first..]) {
                *count += step.signum() * i64::from(*entry);
            }
            wants(table.iter().all(|count| *count >= 0), Reason::PathBelowZero)?;
        }
        let ends = table.iter().zip(&self.rules[rule].right[cells]).all(|(x, y)| *x == i64::from(*y));
        wants(ends, Reason::PathEnd)
    }
}

/// Judges the lines from one on and counts them.
fn lines(line: &mut u64, judged: impl Iterator<Item = Judged>) -> Result<(), Fault> {
    for one in judged {
        one.map_err(|reason| Fault { line: *line, reason })?;
        *line += 1;
    }
    Ok(())
}

pub fn check(certificate: &Certificate) -> Result<(), Fault> {
    let Certificate { problem, moves, rules, starts, joins, paths } = certificate;
    let mut line = problem.rows as u64 + 5;
    lines(&mut line, moves.chunks(problem.cols).map(|z| certificate.move_line(z)))?;
    line += 1;
    lines(&mut line, rules.iter().map(|rule| certificate.rule_line(rule)))?;
    line += 1;
    lines(&mut line, (0..starts.len()).map(|j| certificate.start_line(j)))?;
    line += 1;
    let pairs = (0..rules.len())
        .flat_map(|j| (0..j).map(move |i| (i, j)))
        .filter(|(i, j)| rules[*i].set & rules[*j].set != 0);
    let first = line;
    lines(&mut line, pairs.enumerate().map(|(k, (i, j))| certificate.join_line(k, i, j)))?;
    wants(line - first == joins.len() as u64, Reason::PairMissing).map_err(|reason| Fault { line, reason })?;
    line += 1;
    let free = (0..rules.len()).filter(|k| problem.is_margin_free(&rules[*k]));
    let first = line;
    lines(&mut line, free.enumerate().map(|(k, rule)| certificate.path_line(k, rule)))?;
    wants(line - first == paths.len() as u64, Reason::PathMissing).map_err(|reason| Fault { line, reason })
}
