//! The crate `lru-slab`: values under keys, in the order of their last use.
#[derive(Debug)]
pub struct LruSlab<T> {
    /// The least recently used first.
    used: Vec<(u32, T)>,
    next: u32,
}

impl<T> Default for LruSlab<T> {
    fn default() -> Self {
        Self {
            used: Vec::new(),
            next: 0,
        }
    }
}

impl<T> LruSlab<T> {
    fn place(&self, key: u32) -> usize {
        self.used.iter().position(|(k, _)| *k == key).unwrap()
    }

    pub fn len(&self) -> u32 {
        self.used.len() as u32
    }

    /// The key of the value least recently used.
    pub fn lru(&self) -> Option<u32> {
        self.used.first().map(|(key, _)| *key)
    }

    pub fn insert(&mut self, value: T) -> u32 {
        let key = self.next;
        self.next += 1;
        self.used.push((key, value));
        key
    }

    pub fn remove(&mut self, key: u32) -> T {
        let place = self.place(key);
        self.used.remove(place).1
    }

    /// Lends a value, which is then the one used last.
    pub fn get_mut(&mut self, key: u32) -> &mut T {
        let place = self.place(key);
        let entry = self.used.remove(place);
        self.used.push(entry);
        &mut self.used.last_mut().unwrap().1
    }
}
