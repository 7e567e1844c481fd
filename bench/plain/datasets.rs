//! A plain reader of datasets: splits at line ends and commas, and finds levels and combinations by hash maps.
use std::collections::HashMap;

const MOST_CELLS: usize = 64;

fn main() {
    let path = std::env::args().nth(1).unwrap();
    let text = std::fs::read_to_string(path).unwrap();
    let mut lines = text.lines();
    let factors = lines.next().unwrap().split(',').count() - 1;
    let mut levels: Vec<HashMap<&str, usize>> = vec![HashMap::new(); factors];
    let mut rows: HashMap<Vec<usize>, Option<u32>> = HashMap::new();
    let mut total = 0u32;
    for line in lines {
        let mut fields = line.split(',');
        let mut places = Vec::with_capacity(factors);
        for names in levels.iter_mut() {
            let next = names.len();
            places.push(*names.entry(fields.next().unwrap()).or_insert(next));
        }
        let entry = match fields.next().unwrap().trim_matches(' ') {
            "*" => None,
            digits => Some(digits.parse::<u32>().unwrap()),
        };
        total += entry.unwrap_or(0);
        assert!(total <= 1_000_000 && fields.next().is_none());
        assert!(rows.insert(places, entry).is_none());
    }
    let sizes: Vec<usize> = levels.iter().map(HashMap::len).collect();
    let combinations: usize = sizes.iter().product();
    let mut cells = Vec::new();
    let mut places = vec![0; factors];
    for number in 0..combinations {
        let mut left = number;
        for factor in (0..factors).rev() {
            places[factor] = left % sizes[factor];
            left /= sizes[factor];
        }
        if let Some(count) = rows.get(&places).copied().unwrap_or(Some(0)) {
            cells.push((number, count));
            assert!(cells.len() <= MOST_CELLS);
        }
    }
    for (number, count) in &cells {
        println!("{number} {count}");
    }
    println!("combinations {combinations} total {total}");
}
