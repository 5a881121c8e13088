//! Copies that may be refused memory.
use crate::rattle_std::alloc::{AllocError, Global, or_panic};
use crate::rattle_std::hash::FoldHasher;
use crate::rattle_std::vec::VecExt;
use std::marker::PhantomData;
use std::rc::Rc;

/// A `Clone` that returns an error where memory is refused.
pub trait TryClone: Sized {
    /// A copy of the value, equal to it.
    fn try_clone(&self) -> Result<Self, AllocError>;

    /// Puts copies of the values at the end of a list. After an error it has some of them.
    fn try_clone_all(values: &[Self], list: &mut Vec<Self>) -> Result<(), AllocError> {
        list.try_reserve(values.len())?;
        for value in values {
            list.push(value.try_clone()?);
        }
        Ok(())
    }
}

/// A copy, for a type whose `Clone` is to be as its `TryClone`.
///
/// # Panics
///
/// Where memory is refused.
pub fn cloned<T: TryClone>(value: &T) -> T {
    or_panic(value.try_clone())
}

macro_rules! copied {
    ($($name:ty)*) => {
        $(impl TryClone for $name {
            fn try_clone(&self) -> Result<Self, AllocError> {
                Ok(*self)
            }

            fn try_clone_all(values: &[Self], list: &mut Vec<Self>) -> Result<(), AllocError> {
                list.try_reserve(values.len())?;
                list.extend_from_slice(values);
                Ok(())
            }
        })*
    };
}

copied! { () bool char u8 u16 u32 u64 u128 usize i8 i16 i32 i64 i128 isize f32 f64 }
copied! { AllocError Global FoldHasher }

impl<T: ?Sized> TryClone for &T {
    fn try_clone(&self) -> Result<Self, AllocError> {
        Ok(*self)
    }
}

impl<T> TryClone for PhantomData<T> {
    fn try_clone(&self) -> Result<Self, AllocError> {
        Ok(PhantomData)
    }
}

impl<T> TryClone for Rc<T> {
    fn try_clone(&self) -> Result<Self, AllocError> {
        Ok(Rc::clone(self))
    }
}

impl<T: TryClone> TryClone for Option<T> {
    fn try_clone(&self) -> Result<Self, AllocError> {
        self.as_ref().map(T::try_clone).transpose()
    }
}

impl<A: TryClone, B: TryClone> TryClone for (A, B) {
    fn try_clone(&self) -> Result<Self, AllocError> {
        Ok((self.0.try_clone()?, self.1.try_clone()?))
    }
}

impl<T: TryClone, const N: usize> TryClone for [T; N] {
    fn try_clone(&self) -> Result<Self, AllocError> {
        let mut items = Vec::new();
        items.try_extend_from_slice(self)?;
        match items.try_into() {
            Ok(array) => Ok(array),
            Err(_) => unreachable!("the list is as long as the array"),
        }
    }
}

impl<T: TryClone> TryClone for Vec<T> {
    fn try_clone(&self) -> Result<Self, AllocError> {
        let mut items = Vec::new();
        items.try_extend_from_slice(self)?;
        Ok(items)
    }
}

impl TryClone for String {
    fn try_clone(&self) -> Result<Self, AllocError> {
        crate::rattle_std::string::from_str(self)
    }
}
