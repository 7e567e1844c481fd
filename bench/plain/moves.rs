//! `moves MATRIX MOVES` as a plain Rust program: the yardstick of bench/moves.
//!
//! It does what the desk's command does, with the same answers for texts of the form: one pass over the
//! bytes of each file, one row kept at a time, and exact sums in 128 bits.
use std::ops::RangeInclusive;
use std::process::ExitCode;

const LARGEST: i64 = i32::MAX as i64;

fn is_blank(byte: u8) -> bool {
    matches!(byte, 9..=13 | 32)
}

fn number(token: &[u8]) -> Option<i64> {
    let (negative, digits) = match token {
        [b'-', digits @ ..] => (true, digits),
        [b'+', digits @ ..] => (false, digits),
        digits => (false, digits),
    };
    if digits.is_empty() {
        return None;
    }
    let mut value = 0i64;
    for byte in digits {
        if !byte.is_ascii_digit() {
            return None;
        }
        value = (value * 10 + i64::from(byte - b'0')).min(1 << 32);
    }
    Some(if negative { -value } else { value })
}

/// The tokens of a text.
fn tokens(text: &[u8]) -> impl Iterator<Item = &[u8]> {
    text.split(|b| is_blank(*b)).filter(|t| !t.is_empty())
}

/// The next token's number, within these limits.
fn next<'a>(tokens: &mut impl Iterator<Item = &'a [u8]>, limits: RangeInclusive<i64>) -> Option<i64> {
    number(tokens.next()?).filter(|n| limits.contains(n))
}

/// Reads the rows of a text into one buffer and gives each to `row`; the sizes.
fn read(text: &[u8], most_rows: i64, mut row: impl FnMut(usize, &[i32])) -> Option<(usize, usize)> {
    let mut tokens = tokens(text);
    let rows = next(&mut tokens, 0..=most_rows)? as usize;
    let cols = next(&mut tokens, 1..=64)? as usize;
    let mut buffer = vec![0; cols];
    for k in 0..rows {
        for entry in &mut buffer {
            *entry = next(&mut tokens, -LARGEST..=LARGEST)? as i32;
        }
        row(k, &buffer);
    }
    tokens.next().is_none().then_some((rows, cols))
}

fn margin(row: &[i32], moved: &[i32]) -> i128 {
    row.iter().zip(moved).map(|(a, z)| i128::from(i64::from(*a) * i64::from(*z))).sum()
}

fn main() -> ExitCode {
    let names: Vec<String> = std::env::args().skip(2).collect();
    let texts: Vec<Vec<u8>> = names.iter().map(|name| std::fs::read(name).unwrap()).collect();
    let mut matrix = Vec::new();
    let (_, matrix_cols) = read(&texts[0], 64, |_, row| matrix.push(row.to_vec())).expect("a matrix");
    let mut wrong = None;
    let (moves, cols) = read(&texts[1], 1_000_064, |k, moved| {
        if wrong.is_none() && matrix.iter().any(|row| margin(row, moved) != 0) {
            wrong = Some(k + 1);
        }
    })
    .expect("moves");
    if matrix_cols != cols {
        println!("refused WidthDiffers matrix {matrix_cols} moves {cols}");
        return ExitCode::from(3);
    }
    if let Some(row) = wrong {
        println!("refused NotAMove row {row}");
        return ExitCode::from(3);
    }
    println!("moves {moves}");
    ExitCode::SUCCESS
}
