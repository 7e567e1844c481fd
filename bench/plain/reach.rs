//! `reach MATRIX MOVES TABLE --limit L` as a plain Rust program: the yardstick of bench/reach.
//!
//! A breadth-first walk over sparse moves with a hash set of whole tables, which prints the same bytes. With `KEYS=1`
//! in the environment the set holds keys of 128 bits instead: a sum over the cells, to which a move adds its own. Two
//! tables of one key would be taken for one, which is not to be feared at this length.
use std::collections::HashSet;
use std::fmt::Write;
use std::process::ExitCode;

type Table = Vec<u32>;

fn numbers(path: &str) -> Vec<Vec<i64>> {
    let text = std::fs::read_to_string(path).unwrap();
    let all: Vec<i64> = text.split_ascii_whitespace().map(|t| t.parse().unwrap()).collect();
    all[2..].chunks(all[1] as usize).map(<[i64]>::to_vec).collect()
}

trait Visited {
    fn is_new(&mut self, table: &Table, key: u128) -> bool;
    fn len(&self) -> usize;
}

/// A move: its cells that aren't 0, with their entries, and what it adds to a key.
struct Change {
    lows: Vec<(usize, i64)>,
    highs: Vec<(usize, i64)>,
    key: u128,
}

/// The number of a cell in keys: 128 bits of a fixed generator.
fn weight(cell: usize) -> u128 {
    let mut x = 0x9e37_79b9_7f4a_7c15_f39c_c060_5ced_c835u128.wrapping_mul(cell as u128 + 1);
    x ^= x >> 61;
    x = x.wrapping_mul(0xbf58_476d_1ce4_e5b9_94d0_49bb_1331_11ebu128);
    x ^= x >> 59;
    x | 1
}

fn key_of(counts: impl Iterator<Item = i64>) -> u128 {
    counts.enumerate().fold(0u128, |key, (cell, x)| key.wrapping_add(weight(cell).wrapping_mul(x as i128 as u128)))
}

fn change(row: &[i64]) -> Change {
    let parts = |low: bool| row.iter().copied().enumerate().filter(|(_, z)| *z != 0 && (*z < 0) == low).collect();
    Change { lows: parts(true), highs: parts(false), key: key_of(row.iter().copied()) }
}

struct Tables(HashSet<Table>);

impl Visited for Tables {
    fn is_new(&mut self, table: &Table, _key: u128) -> bool {
        !self.0.contains(table) && self.0.insert(table.clone())
    }
    fn len(&self) -> usize {
        self.0.len()
    }
}

struct Keys(HashSet<u128>);

impl Visited for Keys {
    fn is_new(&mut self, _table: &Table, key: u128) -> bool {
        self.0.insert(key)
    }
    fn len(&self) -> usize {
        self.0.len()
    }
}

fn can_move(table: &Table, parts: &[(usize, i64)], sign: i64) -> bool {
    parts.iter().all(|(cell, z)| (0..=i64::from(u32::MAX)).contains(&(i64::from(table[*cell]) + sign * z)))
}

fn make_move(table: &mut Table, change: &Change, sign: i64) {
    for (cell, z) in change.lows.iter().chain(&change.highs) {
        table[*cell] = (i64::from(table[*cell]) + sign * z) as u32;
    }
}

fn walk(start: Table, moves: &[Change], limit: usize, seen: &mut dyn Visited) -> Option<Vec<Vec<Table>>> {
    let mut rings = Vec::new();
    let key = |table: &Table| key_of(table.iter().map(|x| i64::from(*x)));
    seen.is_new(&start, key(&start));
    let mut ring = vec![start];
    while !ring.is_empty() {
        let mut found = Vec::new();
        for table in &ring {
            let here = key(table);
            let mut next = table.clone();
            for z in moves {
                for (sign, first, then) in [(1, &z.lows, &z.highs), (-1, &z.highs, &z.lows)] {
                    if !can_move(&next, first, sign) || !can_move(&next, then, sign) {
                        continue;
                    }
                    make_move(&mut next, z, sign);
                    let there = if sign > 0 { here.wrapping_add(z.key) } else { here.wrapping_sub(z.key) };
                    if seen.is_new(&next, there) {
                        if seen.len() > limit {
                            return None;
                        }
                        found.push(next.clone());
                    }
                    make_move(&mut next, z, -sign);
                }
            }
        }
        found.sort_unstable();
        rings.push(std::mem::replace(&mut ring, found));
    }
    Some(rings)
}

fn print(rings: &[Vec<Table>]) {
    let mut out = String::new();
    writeln!(out, "tables {}", rings.iter().map(Vec::len).sum::<usize>()).unwrap();
    for (k, ring) in rings.iter().enumerate() {
        writeln!(out, "ring {k} {}", ring.len()).unwrap();
        for table in ring {
            let mut parted = "";
            for x in table {
                write!(out, "{parted}{x}").unwrap();
                parted = " ";
            }
            out.push('\n');
        }
    }
    use std::io::Write;
    std::io::stdout().write_all(out.as_bytes()).unwrap();
}

fn main() -> ExitCode {
    let words: Vec<String> = std::env::args().skip(2).collect();
    let moves: Vec<Change> = numbers(&words[1]).iter().map(|row| change(row)).collect();
    let start: Table = numbers(&words[2])[0].iter().map(|x| *x as u32).collect();
    let limit = words.get(4).map_or(100_000, |l| l.parse().unwrap());
    let mut tables = Tables(HashSet::new());
    let mut keys = Keys(HashSet::new());
    let seen: &mut dyn Visited = if std::env::var("KEYS").is_ok() { &mut keys } else { &mut tables };
    match walk(start, &moves, limit, seen) {
        Some(rings) => {
            print(&rings);
            ExitCode::SUCCESS
        }
        None => {
            println!("refused TooLarge seen {}", limit + 1);
            ExitCode::from(5)
        }
    }
}
