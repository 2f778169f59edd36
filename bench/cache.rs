// The same work as the program cache_bench, by a map from names to a list in order of use, as the Rust has it.
use std::collections::{HashMap, VecDeque};
use std::sync::Arc;
use std::time::Instant;

const NONE: u32 = u32::MAX;

struct Entry {
    name: Arc<str>,
    tokens: VecDeque<Vec<u8>>,
    before: u32,
    after: u32,
}

// Entries in the order of their last use, linked both ways.
struct Cache {
    lookup: HashMap<Arc<str>, u32>,
    entries: Vec<Option<Entry>>,
    free: Vec<u32>,
    first: u32,
    last: u32,
    names: usize,
    tokens: usize,
}

impl Cache {
    fn new(names: usize, tokens: usize) -> Cache {
        Cache {
            lookup: HashMap::new(),
            entries: Vec::new(),
            free: Vec::new(),
            first: NONE,
            last: NONE,
            names,
            tokens,
        }
    }

    fn entry(&mut self, key: u32) -> &mut Entry {
        self.entries[key as usize].as_mut().unwrap()
    }

    fn unlink(&mut self, key: u32) {
        let (before, after) = (self.entry(key).before, self.entry(key).after);
        if before == NONE {
            self.first = after
        } else {
            self.entry(before).after = after
        }
        if after == NONE {
            self.last = before
        } else {
            self.entry(after).before = before
        }
    }

    fn link_last(&mut self, key: u32) {
        let last = self.last;
        (self.entry(key).before, self.entry(key).after) = (last, NONE);
        if last == NONE {
            self.first = key
        } else {
            self.entry(last).after = key
        }
        self.last = key;
    }

    fn remove(&mut self, key: u32) -> Entry {
        self.unlink(key);
        self.free.push(key);
        self.entries[key as usize].take().unwrap()
    }

    fn insert(&mut self, name: &str, token: Vec<u8>) {
        let name = Arc::<str>::from(name);
        if let Some(key) = self.lookup.get(&name).copied() {
            self.unlink(key);
            self.link_last(key);
            let most = self.tokens;
            let tokens = &mut self.entry(key).tokens;
            if tokens.contains(&token) {
                return;
            }
            if tokens.len() >= most {
                tokens.pop_front();
            }
            tokens.push_back(token);
            return;
        }
        if self.lookup.len() >= self.names {
            let entry = self.remove(self.first);
            self.lookup.remove(&entry.name);
        }
        let entry = Entry {
            name: name.clone(),
            tokens: VecDeque::from([token]),
            before: NONE,
            after: NONE,
        };
        let key = self.free.pop().unwrap_or(self.entries.len() as u32);
        if key as usize == self.entries.len() {
            self.entries.push(Some(entry));
        } else {
            self.entries[key as usize] = Some(entry);
        }
        self.link_last(key);
        self.lookup.insert(name, key);
    }

    fn take(&mut self, name: &str) -> Option<Vec<u8>> {
        let key = *self.lookup.get(name)?;
        self.unlink(key);
        self.link_last(key);
        let token = self.entry(key).tokens.pop_front().unwrap();
        if self.entry(key).tokens.is_empty() {
            self.remove(key);
            self.lookup.remove(name);
        }
        Some(token)
    }
}

const CALLS: u32 = 10_000;

fn name(unit: u32) -> String {
    let digits: String = (0..5)
        .map(|shift| char::from(b'0' + (unit / 10u32.pow(shift) % 10) as u8))
        .collect();
    format!("unit-{digits}.harbour.example")
}

// The name that a call is about: one of the first so many.
fn unit(units: &[String], call: u32, names: u32) -> &str {
    let at = call.wrapping_mul(2654435761) >> 12;
    &units[(at % names) as usize]
}

fn token(call: u32) -> Vec<u8> {
    let mut token = vec![7; 81];
    token[..4].copy_from_slice(&call.to_le_bytes());
    token
}

fn round(cache: &mut Cache, units: &[String], names: u32) -> [u128; 3] {
    for call in 0..names {
        cache.insert(unit(units, call, names), token(call));
    }
    let start = Instant::now();
    for call in 0..CALLS {
        cache.insert(unit(units, call, names), token(call));
    }
    let insert = start.elapsed().as_nanos();
    let start = Instant::now();
    let mut out = [0; 512];
    for call in 0..names {
        let token = cache.take(unit(units, call, names));
        if let Some(token) = token {
            out[..token.len()].copy_from_slice(&token);
        }
        std::hint::black_box(&mut out);
    }
    let take = start.elapsed().as_nanos();
    let start = Instant::now();
    for call in 0..CALLS {
        cache.insert(unit(units, call, 4 * names), token(call));
    }
    let new = start.elapsed().as_nanos();
    [insert, take, new]
}

fn measure(names: u32) {
    let units: Vec<String> = (0..4 * names).map(name).collect();
    let mut cache = Cache::new(names as usize, 2);
    let mut least = round(&mut cache, &units, names);
    for _ in 0..10 {
        for (a, b) in least.iter_mut().zip(round(&mut cache, &units, names)) {
            *a = b.min(*a);
        }
    }
    let calls = u128::from(CALLS);
    println!(
        "{names} insert {} take {} new {}",
        least[0] / calls,
        least[1] / u128::from(names),
        least[2] / calls
    );
}

fn main() {
    measure(16);
    measure(256);
    measure(1024);
}
