// Records in a Bloom filter in two ways, in turns: a store at each position, and a store where the bit is clear. Prints for each filter
// and share of set bits the nanoseconds of a record, the least and the middle one of many turns, and the ratios.
use std::hint::black_box;
use std::time::Instant;

const RECORDS: usize = 400;
const TURNS: usize = 300;

// The fingerprints of `filter_bench`.
struct Row(u64);

impl Iterator for Row {
    type Item = u64;

    fn next(&mut self) -> Option<u64> {
        let f = self.0;
        let y = f.wrapping_mul(6364136223846793005).wrapping_add(1442695040888963407);
        self.0 = y ^ (y >> 29);
        Some(f)
    }
}

struct Positions {
    at: u64,
    step: u64,
    bits: u64,
    left: u32,
}

impl Positions {
    fn of(f: u64, bits: u64, k: u32) -> Positions {
        Positions {
            at: f % bits,
            step: 1 + (f >> 32) % (bits - 1),
            bits,
            left: k,
        }
    }
}

impl Iterator for Positions {
    type Item = u64;

    fn next(&mut self) -> Option<u64> {
        if self.left == 0 {
            return None;
        }
        self.left -= 1;
        let at = self.at;
        let sum = at + self.step;
        self.at = if sum < self.bits { sum } else { sum - self.bits };
        Some(at)
    }
}

fn all_set(words: &[u64], bits: u64, f: u64, k: u32) -> bool {
    for at in Positions::of(f, bits, k) {
        if (words[(at / 64) as usize] >> (at % 64)) % 2 == 0 {
            return false;
        }
    }
    true
}

#[inline(never)]
fn store_at_each(words: &mut Vec<u64>, bits: u64, f: u64, k: u32) -> bool {
    if all_set(words, bits, f, k) {
        return false;
    }
    for at in Positions::of(f, bits, k) {
        words[(at / 64) as usize] |= 1 << (at % 64);
    }
    true
}

#[inline(never)]
fn store_where_clear(words: &mut Vec<u64>, bits: u64, f: u64, k: u32) -> bool {
    if all_set(words, bits, f, k) {
        return false;
    }
    for at in Positions::of(f, bits, k) {
        let word = words[(at / 64) as usize];
        let with = word | 1 << (at % 64);
        if with != word {
            words[(at / 64) as usize] = with;
        }
    }
    true
}

type Way = fn(&mut Vec<u64>, u64, u64, u32) -> bool;

// Nanoseconds of the records of one turn, over words as they are at first.
fn turn(way: Way, words: &mut Vec<u64>, first: &[u64], row: Row, k: u32) -> u128 {
    // The large filter is left as the last turn had it: a turn sets one bit in a thousand of it.
    if first.len() < 100_000 {
        words.copy_from_slice(first);
    }
    let bits = words.len() as u64 * 64;
    let start = Instant::now();
    for f in row.take(RECORDS) {
        black_box(way(words, bits, f, k));
    }
    start.elapsed().as_nanos()
}

fn main() {
    let ways: [Way; 2] = [store_at_each, store_where_clear];
    for (words, k) in [(8_192, 6), (8_192, 58), (655_360, 6), (655_360, 58)] {
        for set in [0, 16, 32] {
            let mut row = Row(99);
            let bit = |i: u32, f: u64| if (f >> 20) % 64 < set { 1 << i } else { 0 };
            let word = |_| (0..64).map(|i| bit(i, row.next().unwrap())).sum::<u64>();
            let first: Vec<u64> = (0..words).map(word).collect();
            let mut held = first.clone();
            let mut took = [vec![], vec![]];
            let mut seed = 12345u64;
            for i in 0..TURNS {
                if i % 40 == 0 {
                    held.copy_from_slice(&first);
                }
                for (way, took) in ways.iter().zip(&mut took) {
                    seed = seed.wrapping_mul(6364136223846793005).wrapping_add(i as u64);
                    took.push(turn(*way, &mut held, &first, Row(seed), k));
                }
            }
            let figure = |took: &mut Vec<u128>| {
                took.sort();
                [took[0], took[TURNS / 2]].map(|nanos| nanos as f64 / RECORDS as f64)
            };
            let ([a, b], [c, d]) = (figure(&mut took[0]), figure(&mut took[1]));
            println!("{words} words, {k} positions, {set}/64 set: least {a:.0} {c:.0} ({:.2}), middle {b:.0} {d:.0} ({:.2})", c / a, d / b);
        }
    }
}
