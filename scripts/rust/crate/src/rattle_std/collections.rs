//! Maps and sets. Those that hash have the hasher of [`hash`](crate::rattle_std::hash).
use crate::rattle_std::alloc::AllocError;
use crate::rattle_std::hash::FoldHasher;
pub use crate::rattle_std::map::HashMap;
use std::collections;
pub use std::collections::BTreeMap;
use std::hash::{BuildHasher, BuildHasherDefault, Hash};

/// Rust's map.
pub type HostMap<K, V, S = BuildHasherDefault<FoldHasher>> = collections::HashMap<K, V, S>;

/// Rust's set.
pub type HashSet<T, S = BuildHasherDefault<FoldHasher>> = collections::HashSet<T, S>;

/// A map without entries, of either kind. It takes no memory.
pub fn map_new<M: Default>() -> M {
    M::default()
}

/// A map without entries, with this hasher. It takes no memory.
pub fn map_with_hasher<K, V, S>(hasher: S) -> HashMap<K, V, S> {
    HashMap::with_hasher(hasher)
}

/// A set without items. It takes no memory.
pub fn set_new<T>() -> HashSet<T> {
    HashSet::default()
}

/// A set without items, with this hasher. It takes no memory.
pub fn set_with_hasher<T, S>(hasher: S) -> HashSet<T, S> {
    HashSet::with_hasher(hasher)
}

/// Calls of Rust's maps that return an error where memory is refused. Then the map is as it was.
pub trait MapExt<K, V> {
    /// Maps the key to the value, and returns the value that it was mapped to.
    fn try_put(&mut self, key: K, value: V) -> Result<Option<V>, AllocError>;
}

impl<K: Eq + Hash, V, S: BuildHasher> MapExt<K, V> for HostMap<K, V, S> {
    #[inline]
    fn try_put(&mut self, key: K, value: V) -> Result<Option<V>, AllocError> {
        if self.len() == self.capacity() {
            self.try_reserve(1)?;
        }
        Ok(self.insert(key, value))
    }
}

/// The memory of such a map can't be refused: where there is none, the program aborts.
impl<K: Ord, V> MapExt<K, V> for BTreeMap<K, V> {
    #[inline]
    fn try_put(&mut self, key: K, value: V) -> Result<Option<V>, AllocError> {
        Ok(self.insert(key, value))
    }
}

/// Calls of Rust's set that return an error where memory is refused. Then the set is as it was.
pub trait SetExt<T> {
    /// Puts an item in, and returns whether it is new.
    fn try_put(&mut self, item: T) -> Result<bool, AllocError>;
}

impl<T: Eq + Hash, S: BuildHasher> SetExt<T> for HashSet<T, S> {
    fn try_put(&mut self, item: T) -> Result<bool, AllocError> {
        self.try_reserve(1)?;
        Ok(self.insert(item))
    }
}
