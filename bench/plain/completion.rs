//! The completion of the rules of a matrix by its definition, which the plain programs share: the run over critical
//! pairs and the reduction, with dense monomials `[u16; 128]`, a linear search for the first rule whose left side
//! divides, and one scratch monomial for each side of a pair.
use std::cmp::Ordering;

/// The exponents of the margins' symbols and then those of the cells.
pub type Monomial = [u16; 128];

/// A matrix with an order, and whether rules have sets of symbols.
#[derive(Clone)]
pub struct Problem {
    pub sets: bool,
    pub lex: bool,
    pub rows: usize,
    pub cols: usize,
    pub entries: Vec<u64>,
}

/// A rule with the set of its left side's symbols, which is tested first, or an empty one that every set has.
#[derive(Clone)]
pub struct Rule {
    pub left: Monomial,
    pub right: Monomial,
    pub set: u128,
}

fn graded(a: &[u16], b: &[u16]) -> Ordering {
    let degree = |m: &[u16]| m.iter().map(|e| u32::from(*e)).sum::<u32>();
    degree(a).cmp(&degree(b)).then_with(|| b.iter().rev().cmp(a.iter().rev()))
}

fn divides(a: &Monomial, b: &Monomial) -> bool {
    a.iter().zip(b).all(|(x, y)| x <= y)
}

fn shares(a: &Monomial, b: &Monomial) -> bool {
    a.iter().zip(b).any(|(x, y)| *x > 0 && *y > 0)
}

pub fn rewrite(m: &mut Monomial, rule: &Rule) {
    for k in 0..128 {
        m[k] = m[k] - rule.left[k] + rule.right[k];
    }
}

fn set_of(m: &Monomial) -> u128 {
    m.iter().enumerate().map(|(k, e)| u128::from(*e > 0) << k).sum()
}

/// The least common multiple of two left sides.
pub fn peak(low: &Rule, high: &Rule) -> Monomial {
    let mut m = low.left;
    for k in 0..128 {
        m[k] = m[k].max(high.left[k]);
    }
    m
}

impl Problem {
    pub fn rule(&self, left: Monomial, right: Monomial) -> Rule {
        Rule { left, right, set: if self.sets { set_of(&left) } else { 0 } }
    }

    /// Brings a monomial to its normal form by some rules, and names each rule used.
    pub fn reduce(&self, m: &mut Monomial, rules: &[Rule], mut used: impl FnMut(usize)) {
        loop {
            let absent = if self.sets { !set_of(m) } else { 0 };
            match rules.iter().position(|rule| rule.set & absent == 0 && divides(&rule.left, m)) {
                Some(k) => {
                    rewrite(m, &rules[k]);
                    used(k);
                }
                None => return,
            }
        }
    }

    pub fn compare(&self, a: &Monomial, b: &Monomial) -> Ordering {
        let (cells_a, cells_b) = (&a[self.rows..self.rows + self.cols], &b[self.rows..self.rows + self.cols]);
        graded(&a[..self.rows], &b[..self.rows]).then_with(|| {
            if self.lex { cells_a.cmp(cells_b) } else { graded(cells_a, cells_b) }
        })
    }

    /// The weight of a monomial on the margin of a row.
    pub fn weight(&self, m: &Monomial, i: usize) -> u64 {
        let row = &self.entries[i * self.cols..(i + 1) * self.cols];
        let cells = &m[self.rows..self.rows + self.cols];
        u64::from(m[i]) + row.iter().zip(cells).map(|(a, x)| a * u64::from(*x)).sum::<u64>()
    }

    pub fn is_light(&self, m: &Monomial) -> bool {
        (0..self.rows).all(|i| self.weight(m, i) <= 65_535)
    }

    /// The margins' symbols of a column.
    pub fn of_column(&self, j: usize) -> Monomial {
        let mut m = [0; 128];
        for i in 0..self.rows {
            m[i] = self.entries[i * self.cols + j] as u16;
        }
        m
    }

    /// The symbol of a cell.
    pub fn of_cell(&self, j: usize) -> Monomial {
        let mut m = [0; 128];
        m[self.rows + j] = 1;
        m
    }

    /// The reduced rules, ascending by left side, and the number of looks; or the printed reason why there are none.
    pub fn complete(&self, pairs: u32) -> Result<(Vec<Rule>, u32), String> {
        let (rules, looks) = self.run(pairs)?;
        Ok((self.reduced(&rules), looks))
    }

    fn run(&self, pairs: u32) -> Result<(Vec<Rule>, u32), String> {
        let mut rules: Vec<Rule> = (0..self.cols).map(|j| self.rule(self.of_column(j), self.of_cell(j))).collect();
        let mut looks = 0;
        let mut j = 0;
        while j < rules.len() {
            for i in 0..j {
                if !shares(&rules[i].left, &rules[j].left) {
                    continue;
                }
                if looks == pairs {
                    return Err(format!("unfinished {looks} {i} {j}\n"));
                }
                let mut p = peak(&rules[i], &rules[j]);
                if !self.is_light(&p) {
                    return Err(format!("exponent {i} {j}\n"));
                }
                let mut q = p;
                rewrite(&mut p, &rules[i]);
                self.reduce(&mut p, &rules, |_| {});
                rewrite(&mut q, &rules[j]);
                self.reduce(&mut q, &rules, |_| {});
                match self.compare(&p, &q) {
                    Ordering::Equal => {}
                    Ordering::Greater => rules.push(self.rule(p, q)),
                    Ordering::Less => rules.push(self.rule(q, p)),
                }
                looks += 1;
            }
            j += 1;
        }
        Ok((rules, looks))
    }

    fn reduced(&self, rules: &[Rule]) -> Vec<Rule> {
        let mut kept: Vec<Rule> = Vec::new();
        for rule in rules {
            if rules.iter().any(|other| other.left != rule.left && divides(&other.left, &rule.left)) {
                continue;
            }
            if kept.iter().any(|other| other.left == rule.left) {
                continue;
            }
            let mut right = rule.right;
            self.reduce(&mut right, rules, |_| {});
            kept.push(self.rule(rule.left, right));
        }
        kept.sort_by(|a, b| self.compare(&a.left, &b.left));
        kept
    }

    pub fn is_margin_free(&self, rule: &Rule) -> bool {
        rule.left[..self.rows].iter().all(|e| *e == 0)
    }
}
