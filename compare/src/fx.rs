//! Stand-ins for the Fx hasher and for what uses it: `FxHashMap`, `FxHashSet`, and
//! `FxIndexMap`, which keeps the order of first insertion.

use std::collections::{HashMap, HashSet};
use std::hash::{BuildHasher, BuildHasherDefault, Hash, Hasher};

pub type FxBuildHasher = BuildHasherDefault<FxHasher>;
pub type FxHashMap<K, V> = HashMap<K, V, FxBuildHasher>;
pub type FxHashSet<T> = HashSet<T, FxBuildHasher>;

const FACTOR: u64 = 0xf135_7aea_2e62_a9c5;

/// Adds a word and multiplies; the last rotation brings the well mixed high
/// bits to the low end, where tables look.
#[derive(Default, Clone, Copy)]
pub struct FxHasher {
    state: u64,
}

impl FxHasher {
    #[inline]
    fn add(&mut self, word: u64) {
        self.state = self.state.wrapping_add(word).wrapping_mul(FACTOR);
    }
}

impl Hasher for FxHasher {
    #[inline]
    fn finish(&self) -> u64 {
        self.state.rotate_left(26)
    }

    fn write(&mut self, bytes: &[u8]) {
        for chunk in bytes.chunks(8) {
            let mut word = [0; 8];
            word[..chunk.len()].copy_from_slice(chunk);
            self.add(u64::from_le_bytes(word));
        }
    }

    #[inline]
    fn write_u8(&mut self, n: u8) {
        self.add(n.into());
    }

    #[inline]
    fn write_u32(&mut self, n: u32) {
        self.add(n.into());
    }

    #[inline]
    fn write_u64(&mut self, n: u64) {
        self.add(n);
    }

    #[inline]
    fn write_usize(&mut self, n: usize) {
        self.add(n as u64);
    }

    #[inline]
    fn write_isize(&mut self, n: isize) {
        self.add(n as u64);
    }
}

/// A map in order of first insertion: a list of pairs, and a table of places
/// in that list, searched from the key's hash onward.
#[derive(Debug)]
pub struct FxIndexMap<K, V> {
    pairs: Vec<(K, V)>,
    /// A place in `pairs` plus one; 0 is free. Its length is a power of two, or 0.
    table: Vec<u32>,
}

impl<K, V> Default for FxIndexMap<K, V> {
    fn default() -> Self {
        Self { pairs: Vec::new(), table: Vec::new() }
    }
}

impl<K: Eq + Hash, V> FxIndexMap<K, V> {
    pub fn len(&self) -> usize {
        self.pairs.len()
    }

    pub fn is_empty(&self) -> bool {
        self.pairs.is_empty()
    }

    pub fn get(&self, key: &K) -> Option<&V> {
        self.place_of(key).map(|place| &self.pairs[place].1)
    }

    pub fn keys(&self) -> impl DoubleEndedIterator<Item = &K> {
        self.pairs.iter().map(|(key, _)| key)
    }

    pub fn iter(&self) -> Iter<'_, K, V> {
        self.pairs.iter().map(|(key, value)| (key, value))
    }

    pub fn entry(&mut self, key: K) -> Entry<'_, K, V> {
        let place = self.place_of(&key);
        Entry { map: self, key, place }
    }

    /// Keeps the place of a key that is there already, and gives back its old value.
    pub fn insert(&mut self, key: K, value: V) -> Option<V> {
        match self.place_of(&key) {
            Some(place) => Some(std::mem::replace(&mut self.pairs[place].1, value)),
            None => {
                self.append(key, value);
                None
            }
        }
    }

    fn place_of(&self, key: &K) -> Option<usize> {
        if self.table.is_empty() {
            return None;
        }
        let mask = self.table.len() - 1;
        let mut slot = hash(key) & mask;
        loop {
            let place = (self.table[slot] as usize).checked_sub(1)?;
            if self.pairs[place].0 == *key {
                return Some(place);
            }
            slot = (slot + 1) & mask;
        }
    }

    /// Adds a key that is not there and gives its place.
    fn append(&mut self, key: K, value: V) -> usize {
        // At most three quarters of the table are used, so that a search ends.
        if (self.pairs.len() + 1) * 4 > self.table.len() * 3 {
            self.grow_table();
        }
        let place = self.pairs.len();
        enter(&mut self.table, hash(&key), place);
        self.pairs.push((key, value));
        place
    }

    fn grow_table(&mut self) {
        self.table = vec![0; (self.table.len() * 2).max(4)];
        for (place, (key, _)) in self.pairs.iter().enumerate() {
            enter(&mut self.table, hash(key), place);
        }
    }
}

fn hash<K: Hash>(key: &K) -> usize {
    FxBuildHasher::default().hash_one(key) as usize
}

/// Writes a place into the first free slot from the hash onward.
fn enter(table: &mut [u32], hash: usize, place: usize) {
    let mask = table.len() - 1;
    let mut slot = hash & mask;
    while table[slot] != 0 {
        slot = (slot + 1) & mask;
    }
    table[slot] = place as u32 + 1;
}

type Iter<'m, K, V> = std::iter::Map<std::slice::Iter<'m, (K, V)>, fn(&'m (K, V)) -> (&'m K, &'m V)>;

impl<'m, K, V> IntoIterator for &'m FxIndexMap<K, V> {
    type Item = (&'m K, &'m V);
    type IntoIter = Iter<'m, K, V>;

    fn into_iter(self) -> Self::IntoIter {
        self.pairs.iter().map(|(key, value)| (key, value))
    }
}

/// A key and the place where it stands, if it does.
pub struct Entry<'m, K, V> {
    map: &'m mut FxIndexMap<K, V>,
    key: K,
    place: Option<usize>,
}

impl<'m, K: Eq + Hash, V> Entry<'m, K, V> {
    pub fn or_insert_with(self, make: impl FnOnce() -> V) -> &'m mut V {
        let place = match self.place {
            Some(place) => place,
            None => self.map.append(self.key, make()),
        };
        &mut self.map.pairs[place].1
    }
}

#[cfg(test)]
mod tests {
    use super::*;

    #[test]
    fn keys_stay_in_order_of_first_insertion() {
        let mut map = FxIndexMap::default();
        let keys: Vec<u64> = (0..1000).map(|n: u64| n.wrapping_mul(0x9e37_79b9) % 7919).collect();
        for &key in &keys {
            assert_eq!(map.insert(key, key + 1), None);
        }
        assert_eq!(map.insert(keys[3], 5), Some(keys[3] + 1));
        assert_eq!(map.len(), 1000);
        assert!(map.keys().eq(keys.iter()));
        for &key in &keys {
            assert_eq!(map.get(&key), Some(&if key == keys[3] { 5 } else { key + 1 }));
        }
        assert_eq!(map.get(&8000), None);
    }

    #[test]
    fn an_entry_is_made_once() {
        let mut map: FxIndexMap<u32, Vec<u32>> = FxIndexMap::default();
        assert!(map.is_empty() && map.get(&0).is_none());
        for n in [7, 3, 7, 9, 3] {
            map.entry(n).or_insert_with(Vec::new).push(n);
        }
        let pairs: Vec<(u32, usize)> = map.iter().map(|(k, v)| (*k, v.len())).collect();
        assert_eq!(pairs, [(7, 2), (3, 2), (9, 1)]);
        assert!((&map).into_iter().map(|(k, _)| *k).eq([7, 3, 9]));
    }

    #[test]
    fn keys_with_equal_hashes_are_kept_apart() {
        #[derive(PartialEq, Eq, Debug)]
        struct Same(u32);
        impl Hash for Same {
            fn hash<H: Hasher>(&self, state: &mut H) {
                state.write_u32(1);
            }
        }
        let mut map = FxIndexMap::default();
        for n in 0..50 {
            map.insert(Same(n), n);
        }
        assert!((0..50).all(|n| map.get(&Same(n)) == Some(&n)));
        assert_eq!(map.get(&Same(50)), None);
    }
}
