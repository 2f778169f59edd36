// The same work as the program filter_bench, by Rust's HashSet with a hasher that is the identity.
use std::collections::HashSet;
use std::hash::{BuildHasher, Hasher};
use std::time::Instant;

#[derive(Default)]
struct Identity(u64);

impl Hasher for Identity {
    fn write(&mut self, bytes: &[u8]) {
        self.0 = bytes.iter().fold(0, |n, b| n << 8 | u64::from(*b));
    }
    fn write_u64(&mut self, n: u64) {
        self.0 = n;
    }
    fn finish(&self) -> u64 {
        self.0
    }
}

#[derive(Default, Clone)]
struct BuildIdentity;

impl BuildHasher for BuildIdentity {
    type Hasher = Identity;
    fn build_hasher(&self) -> Identity {
        Identity::default()
    }
}

type Set = HashSet<u64, BuildIdentity>;

fn next(x: u64) -> u64 {
    let y = x.wrapping_mul(6364136223846793005).wrapping_add(1442695040888963407);
    y ^ (y >> 29)
}

fn record_all(set: &mut Set, x: u64, count: u32) -> u64 {
    let mut f = x;
    for _ in 0..count {
        set.insert(f);
        f = next(f);
    }
    f
}

fn count_held(set: &Set, x: u64, count: u32) -> u64 {
    let mut f = x;
    let mut held = 0;
    for _ in 0..count {
        if set.contains(&f) {
            held += 1;
        }
        f = next(f);
    }
    held
}

fn round(set: &mut Set, held: u32) -> [u128; 3] {
    set.clear();
    let tenth = held / 10;
    let last = record_all(set, 1, held - tenth);
    let start = Instant::now();
    let past = record_all(set, last, tenth);
    let record = start.elapsed().as_nanos();
    let start = Instant::now();
    let found = count_held(set, 1, held);
    let hit = start.elapsed().as_nanos();
    let start = Instant::now();
    let missed = count_held(set, past, held);
    let miss = start.elapsed().as_nanos();
    assert!(found == u64::from(held) && missed == 0);
    [record, hit, miss]
}

fn measure(held: u32) {
    let mut set = Set::with_capacity_and_hasher(held as usize, BuildIdentity);
    let mut least = round(&mut set, held);
    for _ in 0..20 {
        for (a, b) in least.iter_mut().zip(round(&mut set, held)) {
            *a = b.min(*a);
        }
    }
    let held = u128::from(held);
    println!("{held} record {} hit {} miss {}", least[0] * 100 / (held / 10), least[1] * 100 / held, least[2] * 100 / held);
}

fn main() {
    measure(1_000);
    measure(30_000);
    measure(458_752);
}
