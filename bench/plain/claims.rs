//! `claims THREADS KEYS` as a plain Rust program: the yardstick of bench/walk for claims alone.
//!
//! One table of atomic words, open addressing with linear probing: a load of each word, and a compare-and-exchange where it
//! is 0. THREADS threads, 1, 2 or 4, make four claims of each of KEYS keys together, all at once.
use std::sync::atomic::{AtomicU64, Ordering};

const WORDS: usize = 2_000_003;
const CLAIMS: u64 = 4;

fn is_new(words: &[AtomicU64], key: u64) -> bool {
    let mut at = (key % WORDS as u64) as usize;
    loop {
        match words[at].load(Ordering::Acquire) {
            0 => match words[at].compare_exchange(0, key, Ordering::AcqRel, Ordering::Acquire) {
                Ok(_) => return true,
                Err(found) if found == key => return false,
                Err(_) => {}
            },
            found if found == key => return false,
            _ => {}
        }
        at = if at + 1 == WORDS { 0 } else { at + 1 };
    }
}

fn claim_all(words: &[AtomicU64], keys: u64) -> u64 {
    (0..keys).filter(|n| is_new(words, (n + 1).wrapping_mul(0x9e37_79b9_7f4a_7c15))).count() as u64
}

fn main() {
    let numbers: Vec<u64> = std::env::args().skip(2).map(|word| word.parse().unwrap_or(0)).collect();
    let (threads, keys) = (numbers[0], numbers[1].min(1_000_000));
    let words: Vec<AtomicU64> = (0..WORDS).map(|_| AtomicU64::new(0)).collect();
    let sides = threads.clamp(1, CLAIMS);
    let new: u64 = std::thread::scope(|scope| {
        let sides: Vec<_> = (0..sides)
            .map(|_| scope.spawn(|| (0..CLAIMS / sides).map(|_| claim_all(&words, keys)).sum::<u64>()))
            .collect();
        sides.into_iter().map(|side| side.join().unwrap_or(0)).sum()
    });
    println!("new {new}");
}
