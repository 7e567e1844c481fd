//! The text of certificates, written and read in one pass over its bytes.
use crate::completion::{Monomial, Problem, Rule};
use crate::{Certificate, Join, Path, Start};

fn put(text: &mut Vec<u8>, n: i64) {
    let mut digits = [0; 20];
    let mut first = digits.len();
    let mut rest = n.unsigned_abs();
    while rest > 0 || first == digits.len() {
        first -= 1;
        digits[first] = b'0' + (rest % 10) as u8;
        rest /= 10;
    }
    if n < 0 {
        text.push(b'-');
    }
    text.extend_from_slice(&digits[first..]);
}

/// A line of numbers.
fn line(text: &mut Vec<u8>, numbers: impl Iterator<Item = i64>) {
    for n in numbers {
        put(text, n);
        text.push(b' ');
    }
    text.pop();
    text.push(b'\n');
}

/// A line of a word and numbers.
fn titled(text: &mut Vec<u8>, word: &str, numbers: &[usize]) {
    text.extend_from_slice(word.as_bytes());
    text.push(b' ');
    line(text, numbers.iter().map(|n| *n as i64));
}

/// A line of some numbers, the lengths of two lists, and the lists.
fn steps_line(text: &mut Vec<u8>, pair: &[u32], first: &[u32], second: &[u32]) {
    let lengths = [first.len() as i64, second.len() as i64];
    let steps = first.iter().chain(second).map(|k| i64::from(*k));
    line(text, pair.iter().map(|k| i64::from(*k)).chain(lengths).chain(steps));
}

pub fn write(certificate: &Certificate) -> Vec<u8> {
    let Problem { lex, rows, cols, ref entries, .. } = certificate.problem;
    let mut text = b"certificate 1\n".to_vec();
    titled(&mut text, "matrix", &[rows, cols]);
    for row in entries.chunks(cols) {
        line(&mut text, row.iter().map(|a| *a as i64));
    }
    text.extend_from_slice(if lex { b"order lex\n" } else { b"order grevlex\n" });
    titled(&mut text, "moves", &[certificate.moves.len() / cols]);
    for z in certificate.moves.chunks(cols) {
        line(&mut text, z.iter().map(|e| i64::from(*e)));
    }
    titled(&mut text, "rules", &[certificate.rules.len()]);
    for rule in &certificate.rules {
        line(&mut text, rule.left[..rows + cols].iter().map(|e| i64::from(*e)));
        text.pop();
        text.extend_from_slice(b" > ");
        line(&mut text, rule.right[..rows + cols].iter().map(|e| i64::from(*e)));
    }
    titled(&mut text, "starts", &[certificate.starts.len()]);
    for start in &certificate.starts {
        steps_line(&mut text, &[], &start.margin_steps, &start.cell_steps);
    }
    titled(&mut text, "joins", &[certificate.joins.len()]);
    for join in &certificate.joins {
        steps_line(&mut text, &[join.low, join.high], &join.low_steps, &join.high_steps);
    }
    titled(&mut text, "paths", &[certificate.paths.len()]);
    for path in &certificate.paths {
        let head = [i64::from(path.rule), path.steps.len() as i64];
        line(&mut text, head.into_iter().chain(path.steps.iter().copied()));
    }
    text.extend_from_slice(b"end\n");
    text
}

/// The first line that leaves the grammar, from 1.
pub struct WrongLine {
    pub line: u64,
}

type Reads<T> = Result<T, WrongLine>;

/// What is left of a text from one place on, in a line of this number.
struct Reader<'a> {
    text: &'a [u8],
    at: usize,
    line: u64,
}

impl Reader<'_> {
    fn wrong<T>(&self) -> Reads<T> {
        Err(WrongLine { line: self.line })
    }

    fn takes(&mut self, bytes: &[u8]) -> bool {
        let here = self.text[self.at..].starts_with(bytes);
        if here {
            self.at += bytes.len();
        }
        here
    }

    fn word(&mut self, bytes: &[u8]) -> Reads<()> {
        if self.takes(bytes) { Ok(()) } else { self.wrong() }
    }

    fn byte(&mut self, byte: u8) -> Reads<()> {
        if self.text.get(self.at) != Some(&byte) {
            return self.wrong();
        }
        self.at += 1;
        Ok(())
    }

    fn space(&mut self) -> Reads<()> {
        self.byte(b' ')
    }

    fn line_end(&mut self) -> Reads<()> {
        self.byte(b'\n')?;
        self.line += 1;
        Ok(())
    }

    /// A number without leading zeros.
    fn number(&mut self, most: u64) -> Reads<u64> {
        let start = self.at;
        let mut n: u64 = 0;
        while let Some(digit @ b'0'..=b'9') = self.text.get(self.at) {
            match n.checked_mul(10).and_then(|n| n.checked_add(u64::from(digit - b'0'))) {
                Some(next) => n = next,
                None => return self.wrong(),
            }
            self.at += 1;
        }
        let digits = self.at - start;
        if digits == 0 || digits > 1 && self.text[start] == b'0' || n > most { self.wrong() } else { Ok(n) }
    }

    /// A number, with `-` before it where it is below 0.
    fn signed(&mut self, most: u64) -> Reads<i64> {
        if self.byte(b'-').is_err() {
            return Ok(self.number(most)? as i64);
        }
        match self.number(most)? as i64 {
            0 => self.wrong(),
            n => Ok(-n),
        }
    }

    /// The line of a word and a number.
    fn counted(&mut self, word: &[u8], most: u64) -> Reads<u64> {
        self.word(word)?;
        let count = self.number(most)?;
        self.line_end()?;
        Ok(count)
    }

    /// An empty list with room for so many items, but for no more than the bytes that are left.
    fn list<T>(&self, count: u64) -> Vec<T> {
        Vec::with_capacity(count.min((self.text.len() - self.at) as u64) as usize)
    }

    /// So many rule numbers, each after a space.
    fn steps(&mut self, count: u64) -> Reads<Vec<u32>> {
        let mut steps = self.list(count);
        for _ in 0..count {
            self.space()?;
            steps.push(self.number(u64::from(u32::MAX))? as u32);
        }
        Ok(steps)
    }

    /// The lengths of two lists of rule numbers, and the lists, to the end of the line.
    fn two_lists(&mut self) -> Reads<(Vec<u32>, Vec<u32>)> {
        let first = self.number(u64::MAX)?;
        self.space()?;
        let second = self.number(u64::MAX)?;
        let lists = (self.steps(first)?, self.steps(second)?);
        self.line_end()?;
        Ok(lists)
    }

    fn problem(&mut self) -> Reads<Problem> {
        self.word(b"certificate 1")?;
        self.line_end()?;
        self.word(b"matrix ")?;
        let rows = self.size()?;
        self.space()?;
        let cols = self.size()?;
        self.line_end()?;
        let mut entries = Vec::new();
        for _ in 0..rows {
            for j in 0..cols {
                if j > 0 {
                    self.space()?;
                }
                entries.push(self.number(1000)?);
            }
            self.line_end()?;
        }
        if (0..cols).any(|j| entries.iter().skip(j).step_by(cols).all(|a| *a == 0)) {
            return Err(WrongLine { line: self.line - 1 });
        }
        let lex = self.takes(b"order lex");
        if !lex {
            self.word(b"order grevlex")?;
        }
        self.line_end()?;
        Ok(Problem { sets: true, lex, rows, cols, entries })
    }

    fn size(&mut self) -> Reads<usize> {
        match self.number(64)? {
            0 => self.wrong(),
            n => Ok(n as usize),
        }
    }

    fn moves(&mut self, cols: usize) -> Reads<Vec<i32>> {
        let count = self.counted(b"moves ", 1_000_064)?;
        let mut moves = Vec::new();
        for _ in 0..count {
            for j in 0..cols {
                if j > 0 {
                    self.space()?;
                }
                moves.push(self.signed(i32::MAX as u64)? as i32);
            }
            self.line_end()?;
        }
        Ok(moves)
    }

    fn monomial(&mut self, symbols: usize) -> Reads<Monomial> {
        let mut m = [0; 128];
        for (k, exponent) in m[..symbols].iter_mut().enumerate() {
            if k > 0 {
                self.space()?;
            }
            *exponent = self.number(u64::from(u16::MAX))? as u16;
        }
        Ok(m)
    }

    fn rules(&mut self, problem: &Problem) -> Reads<Vec<Rule>> {
        let symbols = problem.rows + problem.cols;
        let count = self.counted(b"rules ", 1_000_064)?;
        let mut rules = Vec::new();
        for _ in 0..count {
            let left = self.monomial(symbols)?;
            self.word(b" > ")?;
            rules.push(problem.rule(left, self.monomial(symbols)?));
            self.line_end()?;
        }
        Ok(rules)
    }

    fn starts(&mut self, cols: usize) -> Reads<Vec<Start>> {
        self.word(format!("starts {cols}").as_bytes())?;
        self.line_end()?;
        let mut starts = Vec::new();
        for _ in 0..cols {
            let (margin_steps, cell_steps) = self.two_lists()?;
            starts.push(Start { margin_steps, cell_steps });
        }
        Ok(starts)
    }

    fn joins(&mut self) -> Reads<Vec<Join>> {
        let count = self.counted(b"joins ", (1 << 40) - 1)?;
        let mut joins = Vec::new();
        for _ in 0..count {
            let low = self.number(u64::from(u32::MAX))? as u32;
            self.space()?;
            let high = self.number(u64::from(u32::MAX))? as u32;
            self.space()?;
            let (low_steps, high_steps) = self.two_lists()?;
            joins.push(Join { low, high, low_steps, high_steps });
        }
        Ok(joins)
    }

    fn paths(&mut self) -> Reads<Vec<Path>> {
        let count = self.counted(b"paths ", u64::from(u32::MAX))?;
        let mut paths = Vec::new();
        for _ in 0..count {
            let rule = self.number(u64::from(u32::MAX))? as u32;
            self.space()?;
            let length = self.number(u64::MAX)?;
            let mut steps = self.list(length);
            for _ in 0..length {
                self.space()?;
                match self.signed(u64::from(u32::MAX))? {
                    0 => return self.wrong(),
                    step => steps.push(step),
                }
            }
            self.line_end()?;
            paths.push(Path { rule, steps });
        }
        Ok(paths)
    }
}

pub fn read(text: &[u8]) -> Result<Certificate, WrongLine> {
    let mut reader = Reader { text, at: 0, line: 1 };
    let problem = reader.problem()?;
    let moves = reader.moves(problem.cols)?;
    let rules = reader.rules(&problem)?;
    let starts = reader.starts(problem.cols)?;
    let joins = reader.joins()?;
    let paths = reader.paths()?;
    reader.word(b"end")?;
    reader.line_end()?;
    if reader.at < text.len() {
        return reader.wrong();
    }
    Ok(Certificate { problem, moves, rules, starts, joins, paths })
}
