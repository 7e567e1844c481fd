//! `generate SEED` as a plain Rust program: the yardstick of bench/generate.
//!
//! A breadth-first walk from the table by the 36 basic moves of 4 x 4 independence, which are written down and not
//! computed, with a hash set of whole tables. With `KEYS=1` in the environment the set holds keys of 64 bits instead: a
//! sum over the cells, to which a move adds its own. Two tables of one key would be taken for one, which is not to be
//! feared at this length. With `THREADS=N` so many threads share each ring and claim keys among atomic words. The weights
//! are quotients of factorials.
use std::collections::HashSet;
use std::sync::atomic::{AtomicU64, Ordering};

const SIZE: usize = 4;
const CELLS: usize = SIZE * SIZE;

type Table = [u32; CELLS];

/// The table whose cells are the digits of a number in base 3, the least significant first.
fn table_of(mut seed: u64) -> Table {
    let mut table = [0; CELLS];
    for count in &mut table {
        *count = (seed % 3) as u32;
        seed /= 3;
    }
    table
}

/// A step: one is taken from two cells and put into two others; and what that adds to a key.
struct Step {
    from: [usize; 2],
    to: [usize; 2],
    key: u64,
}

/// The number of a cell in keys: 64 bits of a fixed generator.
fn number(cell: usize) -> u64 {
    let mut x = 0x9e37_79b9_7f4a_7c15u64.wrapping_mul(cell as u64 + 1);
    x ^= x >> 30;
    x = x.wrapping_mul(0xbf58_476d_1ce4_e5b9);
    x ^ (x >> 27) | 1
}

fn key_of(table: &Table) -> u64 {
    (0..CELLS).fold(0, |key, cell| number(cell).wrapping_mul(u64::from(table[cell])).wrapping_add(key))
}

fn step(from: [usize; 2], to: [usize; 2]) -> Step {
    let sum = |cells: [usize; 2]| number(cells[0]).wrapping_add(number(cells[1]));
    Step { from, to, key: sum(to).wrapping_sub(sum(from)) }
}

/// The basic moves of independence, each both ways.
fn steps() -> Vec<Step> {
    let mut steps = Vec::new();
    for a in 0..SIZE {
        for b in a + 1..SIZE {
            for c in 0..SIZE {
                for d in c + 1..SIZE {
                    let level = [SIZE * a + c, SIZE * b + d];
                    let crossed = [SIZE * a + d, SIZE * b + c];
                    steps.push(step(level, crossed));
                    steps.push(step(crossed, level));
                }
            }
        }
    }
    steps
}

trait Visited {
    fn is_new(&mut self, table: &Table, key: u64) -> bool;
}

struct Tables(HashSet<Table>);

impl Visited for Tables {
    fn is_new(&mut self, table: &Table, _key: u64) -> bool {
        self.0.insert(*table)
    }
}

struct Keys(HashSet<u64>);

impl Visited for Keys {
    fn is_new(&mut self, _table: &Table, key: u64) -> bool {
        self.0.insert(key)
    }
}

/// All tables that the steps reach, ring after ring.
fn walk<V: Visited>(start: Table, seen: &mut V) -> Vec<Table> {
    let steps = steps();
    seen.is_new(&start, key_of(&start));
    let mut reached = vec![start];
    let mut place = 0;
    while place < reached.len() {
        let mut table = reached[place];
        let key = key_of(&table);
        for step in &steps {
            if step.from.iter().all(|cell| table[*cell] > 0) {
                step.from.iter().for_each(|cell| table[*cell] -= 1);
                step.to.iter().for_each(|cell| table[*cell] += 1);
                if seen.is_new(&table, key.wrapping_add(step.key)) {
                    reached.push(table);
                }
                step.to.iter().for_each(|cell| table[*cell] -= 1);
                step.from.iter().for_each(|cell| table[*cell] += 1);
            }
        }
        place += 1;
    }
    reached
}

/// Keys that threads claim: one table of atomic words, open addressing with linear probing, a load before each exchange.
struct Words(Vec<AtomicU64>);

impl Words {
    fn is_new(&self, key: u64) -> bool {
        let mut at = (key % self.0.len() as u64) as usize;
        loop {
            match self.0[at].load(Ordering::Acquire) {
                0 => match self.0[at].compare_exchange(0, key, Ordering::AcqRel, Ordering::Acquire) {
                    Ok(_) => return true,
                    Err(found) if found == key => return false,
                    Err(_) => {}
                },
                found if found == key => return false,
                _ => {}
            }
            at = if at + 1 == self.0.len() { 0 } else { at + 1 };
        }
    }
}

/// The new tables one step from a share of a ring.
fn expanded(share: &[Table], steps: &[Step], words: &Words) -> Vec<Table> {
    let mut next = Vec::new();
    for table in share {
        let key = key_of(table);
        for step in steps {
            if step.from.iter().all(|cell| table[*cell] > 0) && words.is_new(key.wrapping_add(step.key)) {
                let mut new = *table;
                step.from.iter().for_each(|cell| new[*cell] -= 1);
                step.to.iter().for_each(|cell| new[*cell] += 1);
                next.push(new);
            }
        }
    }
    next
}

/// All tables that the steps reach, ring after ring, each of which the threads share.
fn walk_by_threads(start: Table, threads: usize) -> Vec<Table> {
    let (steps, words) = (steps(), Words((0..2_000_003).map(|_| AtomicU64::new(0)).collect()));
    words.is_new(key_of(&start));
    let mut reached = vec![start];
    let mut first = 0;
    while first < reached.len() {
        let ring = &reached[first..];
        let next: Vec<Table> = std::thread::scope(|scope| {
            let shares = ring.chunks(ring.len().div_ceil(threads));
            let parts: Vec<_> = shares.map(|share| scope.spawn(|| expanded(share, &steps, &words))).collect();
            parts.into_iter().flat_map(|part| part.join().unwrap()).collect()
        });
        first = reached.len();
        reached.extend(next);
    }
    reached
}

/// The product over the rows of the multinomial coefficient of a row's counts.
fn weight(factorials: &[u128], table: &Table) -> u128 {
    table
        .chunks_exact(SIZE)
        .map(|row| {
            let below: u128 = row.iter().map(|count| factorials[*count as usize]).product();
            factorials[row.iter().sum::<u32>() as usize] / below
        })
        .product()
}

/// A fraction's first six decimals, cut off, digit by digit.
fn decimals(mut rest: u128, den: u128) -> String {
    if rest == den {
        return "1.000000".to_string();
    }
    let mut text = "0.".to_string();
    for _ in 0..6 {
        rest *= 10;
        text.push(char::from(b'0' + (rest / den) as u8));
        rest %= den;
    }
    text
}

fn main() {
    let seed = std::env::args().nth(2).map_or(0, |seed| seed.parse().unwrap());
    let table = table_of(seed);
    let threads = std::env::var("THREADS").ok().and_then(|threads| threads.parse().ok());
    let reached = if let Some(threads) = threads {
        walk_by_threads(table, threads)
    } else if std::env::var("KEYS").is_ok() {
        walk(table, &mut Keys(HashSet::new()))
    } else {
        walk(table, &mut Tables(HashSet::new()))
    };
    let factorials: Vec<u128> = (0..=8).scan(1, |last, n: u128| {
        *last *= n.max(1);
        Some(*last)
    }).collect();
    let most = weight(&factorials, &table);
    let (mut below, mut whole) = (0u128, 0u128);
    for table in &reached {
        let weight = weight(&factorials, table);
        whole += weight;
        if weight <= most {
            below += weight;
        }
    }
    let counts: Vec<String> = table.iter().map(u32::to_string).collect();
    println!("table {}", counts.join(" "));
    println!("tables {}", reached.len());
    println!("fraction {below}/{whole}");
    println!("decimals {}", decimals(below, whole));
}
