//! A map whose entries lie in the order in which they came, beside a table of their places. So
//! growing hashes no key again, and dropping goes through the memory in order.
use crate::rattle_std::alloc::AllocError;
use crate::rattle_std::hash::FoldHasher;
use std::fmt;
use std::hash::{BuildHasher, BuildHasherDefault, Hash};

/// The least number of slots of a table that has some.
const LEAST_SLOTS: usize = 8;

/// A map.
#[derive(Clone)]
pub struct HashMap<K, V, S = BuildHasherDefault<FoldHasher>> {
    entries: Vec<(K, V)>,
    // A power of two of them, or none: 0, or half of an entry's hash and, below it, one more than
    // the entry's place. Each lies at its home, or behind it with no 0 between. At least one is 0.
    slots: Vec<u64>,
    hasher: S,
}

impl<K: fmt::Debug, V: fmt::Debug, S> fmt::Debug for HashMap<K, V, S> {
    fn fmt(&self, f: &mut fmt::Formatter<'_>) -> fmt::Result {
        let entries = self.entries.iter().map(|entry| (&entry.0, &entry.1));
        f.debug_map().entries(entries).finish()
    }
}

impl<K, V, S: Default> Default for HashMap<K, V, S> {
    fn default() -> Self {
        HashMap::with_hasher(S::default())
    }
}

impl<K, V, S> HashMap<K, V, S> {
    /// A map without entries. It takes no memory.
    pub fn with_hasher(hasher: S) -> Self {
        HashMap {
            entries: Vec::new(),
            slots: Vec::new(),
            hasher,
        }
    }

    /// The number of entries.
    pub fn len(&self) -> usize {
        self.entries.len()
    }

    /// Whether it has no entries.
    pub fn is_empty(&self) -> bool {
        self.entries.is_empty()
    }

    /// What makes the hashes.
    pub fn hasher(&self) -> &S {
        &self.hasher
    }

    fn mask(&self) -> usize {
        self.slots.len().wrapping_sub(1)
    }

    fn home(&self, slot: u64) -> usize {
        (slot >> u32::BITS) as usize & self.mask()
    }

    /// Puts a slot at its home, or behind it.
    fn put_slot(&mut self, slot: u64) {
        let mut at = self.home(slot);
        while self.slots[at] != 0 {
            at = (at + 1) & self.mask();
        }
        self.slots[at] = slot;
    }

    /// Makes a slot 0, and moves those behind it that it parts from their homes.
    fn clear_slot(&mut self, at: usize) {
        let mask = self.mask();
        let (mut hole, mut next) = (at, (at + 1) & mask);
        while self.slots[next] != 0 {
            let home = self.home(self.slots[next]);
            if next.wrapping_sub(home) & mask >= next.wrapping_sub(hole) & mask {
                self.slots[hole] = self.slots[next];
                hole = next;
            }
            next = (next + 1) & mask;
        }
        self.slots[hole] = 0;
    }

    /// Takes memory for this number of further entries. After an error the map is as it was.
    pub fn try_reserve(&mut self, further: usize) -> Result<(), AllocError> {
        let count = self.len().checked_add(further).ok_or(AllocError)?;
        if count > u32::MAX as usize - 1 {
            return Err(AllocError);
        }
        self.entries.try_reserve(further)?;
        // At most three in four are taken.
        let wanted = (count + count / 3 + 1).next_power_of_two().max(LEAST_SLOTS);
        if wanted <= self.slots.len() {
            return Ok(());
        }
        let mut slots = Vec::new();
        slots.try_reserve_exact(wanted)?;
        slots.resize(wanted, 0);
        let old = std::mem::replace(&mut self.slots, slots);
        old.into_iter()
            .filter(|slot| *slot != 0)
            .for_each(|slot| self.put_slot(slot));
        Ok(())
    }
}

/// The entries, in the order in which they came.
impl<K, V, S> IntoIterator for HashMap<K, V, S> {
    type Item = (K, V);
    type IntoIter = std::vec::IntoIter<(K, V)>;

    fn into_iter(self) -> Self::IntoIter {
        self.entries.into_iter()
    }
}

/// The entries, in the order in which they came.
impl<'a, K, V, S> IntoIterator for &'a HashMap<K, V, S> {
    type Item = (&'a K, &'a V);
    type IntoIter = std::iter::Map<std::slice::Iter<'a, (K, V)>, fn(&'a (K, V)) -> Self::Item>;

    fn into_iter(self) -> Self::IntoIter {
        self.entries.iter().map(|entry| (&entry.0, &entry.1))
    }
}

/// The place of a key in a map, with memory for it.
pub struct Entry<'a, K, V, S> {
    map: &'a mut HashMap<K, V, S>,
    key: K,
    half: u64,
    place: Option<usize>,
}

impl<'a, K, V, S> Entry<'a, K, V, S> {
    /// The value of the key. If there is none, it is mapped to this one.
    pub fn or_insert(self, value: V) -> &'a mut V {
        let Entry {
            map,
            key,
            half,
            place,
        } = self;
        let place = match place {
            Some(place) => place,
            None => {
                map.entries.push((key, value));
                map.put_slot(half | map.entries.len() as u64);
                map.entries.len() - 1
            }
        };
        &mut map.entries[place].1
    }
}

/// Where an entry is: its slot, and its place.
struct Found {
    slot: usize,
    place: usize,
}

impl<K: Eq + Hash, V, S: BuildHasher> HashMap<K, V, S> {
    /// The value of the key, if there is one.
    pub fn get(&self, key: &K) -> Option<&V> {
        let found = self.find(self.half(key), key)?;
        Some(&self.entries[found.place].1)
    }

    /// Maps the key to the value, and returns the value that it was mapped to.
    pub fn try_put(&mut self, key: K, value: V) -> Result<Option<V>, AllocError> {
        let half = self.half(&key);
        if let Some(found) = self.find(half, &key) {
            return Ok(Some(std::mem::replace(
                &mut self.entries[found.place].1,
                value,
            )));
        }
        self.try_reserve(1)?;
        self.entries.push((key, value));
        self.put_slot(half | self.entries.len() as u64);
        Ok(None)
    }

    /// The place of the key. After an error the map is as it was.
    pub fn entry(&mut self, key: K) -> Result<Entry<'_, K, V, S>, AllocError> {
        let half = self.half(&key);
        let place = self.find(half, &key).map(|found| found.place);
        if place.is_none() {
            self.try_reserve(1)?;
        }
        Ok(Entry {
            map: self,
            key,
            half,
            place,
        })
    }

    /// Takes the entry of the key out, and returns its value.
    pub fn remove(&mut self, key: &K) -> Option<V> {
        let found = self.find(self.half(key), key)?;
        let last = self.entries.len() - 1;
        let moved = self.find(self.half(&self.entries[last].0), &self.entries[last].0)?;
        self.slots[moved.slot] =
            self.slots[moved.slot] & !u64::from(u32::MAX) | (found.place as u64 + 1);
        self.clear_slot(found.slot);
        Some(self.entries.swap_remove(found.place).1)
    }

    /// Half of the key's hash, as a slot has it.
    fn half(&self, key: &K) -> u64 {
        self.hasher.hash_one(key) & !u64::from(u32::MAX)
    }

    fn find(&self, half: u64, key: &K) -> Option<Found> {
        let mut at = self.home(half);
        while let Some(&slot) = self.slots.get(at) {
            let place = (slot as u32 as usize).checked_sub(1)?;
            if slot & !u64::from(u32::MAX) == half && self.entries[place].0 == *key {
                return Some(Found { slot: at, place });
            }
            at = (at + 1) & self.mask();
        }
        None
    }
}

#[cfg(test)]
mod tests {
    use super::HashMap;
    use std::collections::BTreeMap;
    use std::hash::{BuildHasher, Hasher};

    /// Keys that are equal up to a multiple of `homes` collide.
    #[derive(Clone, Copy)]
    struct Weak {
        homes: u64,
        state: u64,
    }

    impl BuildHasher for Weak {
        type Hasher = Weak;

        fn build_hasher(&self) -> Weak {
            *self
        }
    }

    impl Hasher for Weak {
        fn write(&mut self, _: &[u8]) {
            unreachable!("keys are numbers");
        }

        fn write_u64(&mut self, number: u64) {
            self.state = number % self.homes;
        }

        fn finish(&self) -> u64 {
            // Homes at the end of the table, so that what lies behind them begins anew.
            (u64::MAX - self.state) << 32
        }
    }

    /// Does the same to a map and to one of Rust, and compares all that they answer.
    fn compare(homes: u64, keys: u64) {
        let mut map = HashMap::with_hasher(Weak { homes, state: 0 });
        let mut other = BTreeMap::new();
        let mut random = 1_u64;
        for step in 0..4000 {
            random = random
                .wrapping_mul(6364136223846793005)
                .wrapping_add(1442695040888963407);
            let key = (random >> 33) % keys;
            match random >> 60 {
                0..6 => assert_eq!(
                    map.try_put(key, step).expect("memory"),
                    other.insert(key, step)
                ),
                6..9 => assert_eq!(
                    map.entry(key).expect("memory").or_insert(step),
                    other.entry(key).or_insert(step)
                ),
                _ => assert_eq!(map.remove(&key), other.remove(&key)),
            }
            assert_eq!(map.len(), other.len());
            assert!((0..keys).all(|it| map.get(&it) == other.get(&it)));
        }
        assert_eq!(map.into_iter().collect::<BTreeMap<_, _>>(), other);
    }

    #[test]
    fn few_keys_at_one_home() {
        compare(1, 12);
    }

    #[test]
    fn keys_at_few_homes() {
        compare(3, 40);
    }

    #[test]
    fn keys_at_many_homes() {
        compare(1000, 200);
    }
}
