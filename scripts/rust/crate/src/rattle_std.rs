//! What Ruffdresser needs of the Rattle toolchain's standard library, over Rust's.
//!
//! Containers are Rust's own. A call that takes memory has a fallible form here that returns an error where
//! memory is refused, such as [`try_push`](vec::VecExt::try_push) for `push`. The allocator is
//! Rust's, so that no call takes one.

pub mod alloc;
pub mod clone;
pub mod collections;
pub mod guards;
pub mod hash;
pub mod io;
pub mod map;
pub mod rt;
pub mod string;
pub mod vec;

pub use crate::{try_format, try_vec};
pub use clone::TryClone;
pub use rt::{boxed, env, fs, process, rc, test};

/// The names that each module has.
pub mod prelude {
    pub use super::clone::TryClone;
    pub use super::collections::{MapExt, SetExt};
    pub use super::rt::{AllocGlobal, HostRuntime};
    pub use super::string::{DisplayExt, StringExt};
    pub use super::vec::{IteratorExt, SliceExt, VecExt};
    pub use std::fmt::Write as _;
}

/// A list of these items, or of an item and its repetitions, or the error of a refused request for
/// memory.
#[doc(hidden)]
#[macro_export]
macro_rules! try_vec {
    ($item:expr; $count:expr) => {
        $crate::rattle_std::vec::repeated($item, $count)
    };
    ($($item:expr),* $(,)?) => {
        $crate::rattle_std::vec::from_array([$($item),*])
    };
}

/// A text, as `format!` makes it, or the error of a refused request for memory.
#[doc(hidden)]
#[macro_export]
macro_rules! try_format {
    ($($format:tt)*) => {
        $crate::rattle_std::string::format(format_args!($($format)*))
    };
}
