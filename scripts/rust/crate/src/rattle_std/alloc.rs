//! What a refused request for memory leads to.
use std::collections::TryReserveError;
use std::{error, fmt};

/// Memory was refused.
#[derive(Clone, Copy, PartialEq, Eq, PartialOrd, Ord, Hash, Debug)]
pub struct AllocError;

impl fmt::Display for AllocError {
    fn fmt(&self, f: &mut fmt::Formatter<'_>) -> fmt::Result {
        f.write_str("out of memory")
    }
}

impl error::Error for AllocError {}

impl From<TryReserveError> for AllocError {
    fn from(_: TryReserveError) -> AllocError {
        AllocError
    }
}

/// Writing to a text fails only where memory is refused.
impl From<fmt::Error> for AllocError {
    fn from(_: fmt::Error) -> AllocError {
        AllocError
    }
}

/// Memory was refused to a call that was given this value.
#[derive(Clone, Copy, PartialEq, Eq, Debug)]
pub struct AllocFailed<T> {
    pub value: T,
}

impl<T> fmt::Display for AllocFailed<T> {
    fn fmt(&self, f: &mut fmt::Formatter<'_>) -> fmt::Result {
        AllocError.fmt(f)
    }
}

impl<T: fmt::Debug> error::Error for AllocFailed<T> {}

impl<T> From<AllocFailed<T>> for AllocError {
    fn from(_: AllocFailed<T>) -> AllocError {
        AllocError
    }
}

/// The value of a call whose error is refused memory.
///
/// # Panics
///
/// Where memory was refused.
pub fn or_panic<T, E: fmt::Display>(result: Result<T, E>) -> T {
    match result {
        Ok(value) => value,
        Err(error) => panic!("{error}"),
    }
}

/// Rust's global allocator. No call takes it.
#[derive(Clone, Copy, PartialEq, Eq, PartialOrd, Ord, Hash, Debug, Default)]
pub struct Global;

/// An allocator. There is one alone.
pub trait Allocator {}

impl Allocator for Global {}
