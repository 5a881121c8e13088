//! Lists.
use crate::rattle_std::alloc::{AllocError, AllocFailed};
use crate::rattle_std::clone::TryClone;

/// A list without items, with memory for this number of them.
pub fn with_capacity<T>(capacity: usize) -> Result<Vec<T>, AllocError> {
    let mut items = Vec::new();
    items.try_reserve_exact(capacity)?;
    Ok(items)
}

/// The list of these items.
pub fn from_array<T, const N: usize>(array: [T; N]) -> Result<Vec<T>, AllocError> {
    let mut items = with_capacity(N)?;
    items.extend(array);
    Ok(items)
}

/// A list of copies of these items.
pub fn from_slice<T: TryClone>(items: &[T]) -> Result<Vec<T>, AllocError> {
    items.try_to_vec()
}

/// The list that has the item this number of times.
pub fn repeated<T: TryClone>(item: T, count: usize) -> Result<Vec<T>, AllocError> {
    let mut items = with_capacity(count)?;
    for _ in 1..count {
        items.push(item.try_clone()?);
    }
    if count > 0 {
        items.push(item);
    }
    Ok(items)
}

/// Calls of iterators that return an error where memory is refused.
pub trait IteratorExt: Iterator {
    /// The list of all items.
    fn try_collect_vec(self) -> Result<Vec<Self::Item>, AllocError>
    where
        Self: Sized,
    {
        let mut items = with_capacity(self.size_hint().0)?;
        for item in self {
            items.try_push(item)?;
        }
        Ok(items)
    }
}

impl<I: Iterator> IteratorExt for I {}

/// Calls of `Vec` that return an error where memory is refused. Then the list is as it was.
pub trait VecExt<T> {
    /// Puts an item at the end.
    fn try_push(&mut self, item: T) -> Result<(), AllocFailed<T>>;

    /// Puts an item at the end, where there is memory for it already.
    fn push_reserved(&mut self, item: T);

    /// Puts an item at this place.
    fn try_insert(&mut self, at: usize, item: T) -> Result<(), AllocFailed<T>>;

    /// Puts copies of these items at the end.
    fn try_extend_from_slice(&mut self, items: &[T]) -> Result<(), AllocError>
    where
        T: TryClone;

    /// Sorts the items. Equal ones keep their order.
    fn try_sort(&mut self) -> Result<(), AllocError>
    where
        T: Ord;
}

impl<T> VecExt<T> for Vec<T> {
    #[inline]
    fn try_push(&mut self, item: T) -> Result<(), AllocFailed<T>> {
        if self.len() == self.capacity() && self.try_reserve(1).is_err() {
            return Err(AllocFailed { value: item });
        }
        self.push(item);
        Ok(())
    }

    #[inline]
    fn push_reserved(&mut self, item: T) {
        self.push(item);
    }

    fn try_insert(&mut self, at: usize, item: T) -> Result<(), AllocFailed<T>> {
        if self.try_reserve(1).is_err() {
            return Err(AllocFailed { value: item });
        }
        self.insert(at, item);
        Ok(())
    }

    fn try_extend_from_slice(&mut self, items: &[T]) -> Result<(), AllocError>
    where
        T: TryClone,
    {
        let before = self.len();
        let copied = T::try_clone_all(items, self);
        if copied.is_err() {
            self.truncate(before);
        }
        copied
    }

    fn try_sort(&mut self) -> Result<(), AllocError>
    where
        T: Ord,
    {
        // `sort` would compare by `partial_cmp`.
        self.sort_by(Ord::cmp);
        Ok(())
    }
}

/// Calls of slices that return an error where memory is refused.
pub trait SliceExt<T> {
    /// A list of copies of the items.
    fn try_to_vec(&self) -> Result<Vec<T>, AllocError>;
}

impl<T: TryClone> SliceExt<T> for [T] {
    fn try_to_vec(&self) -> Result<Vec<T>, AllocError> {
        let mut items = Vec::new();
        items.try_extend_from_slice(self)?;
        Ok(items)
    }
}
