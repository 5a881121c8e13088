//! walrus's arena over `ruffdresser`'s, whose ids are ids of markers.
use ruffdresser::arena;
use std::ops::{Index, IndexMut};

#[cfg(feature = "parallel")]
use rayon::prelude::*;

/// What happens to an item when it is deleted. It is a trait of this crate, so that a boxed custom
/// section can have it.
pub trait Tombstone {
    /// Frees what the item holds.
    fn on_delete(&mut self) {}
}

#[derive(Debug)]
struct Item<T>(T);

impl<T: Tombstone> arena::Tombstone for Item<T> {
    fn on_delete(&mut self) {
        self.0.on_delete()
    }
}

/// What the ids of an item are ids of.
pub trait Entity {
    /// The marker.
    type Of;
}

macro_rules! entity {
    ($($item:ty => $of:ty),* $(,)?) => { $(impl crate::tombstone_arena::Entity for $item { type Of = $of; })* };
}
entity! {
    crate::Function => ruffdresser::Function,
    crate::Table => ruffdresser::Table,
    crate::Global => ruffdresser::Global,
    crate::Memory => ruffdresser::Memory,
    crate::Data => ruffdresser::Data,
    crate::Element => ruffdresser::Element,
    crate::Tag => ruffdresser::Tag,
    crate::Export => crate::Export,
    crate::Import => crate::Import,
    crate::Type => crate::Type,
    crate::Local => crate::Local,
    crate::ir::InstrSeq => crate::ir::InstrSeq,
}

impl<T> Entity for Option<T> {
    type Of = Option<T>;
}

/// The id of an item.
pub type Id<T> = arena::Id<<T as Entity>::Of>;

/// Items named by ids.
#[derive(Debug)]
pub struct TombstoneArena<T> {
    items: arena::TombstoneArena<Item<T>>,
}

impl<T> Default for TombstoneArena<T> {
    fn default() -> Self {
        TombstoneArena { items: Default::default() }
    }
}

// The id of an item as its arena has it.
fn inner<T: Entity>(id: Id<T>) -> arena::Id<Item<T>> {
    arena::Id::from_index(id.index())
}

// The id of an item as users have it.
fn outer<T: Entity>(id: arena::Id<Item<T>>) -> Id<T> {
    arena::Id::from_index(id.index())
}

#[allow(missing_docs, dead_code)]
impl<T: Entity> TombstoneArena<T> {
    pub fn delete(&mut self, id: Id<T>)
    where
        T: Tombstone,
    {
        self.items.delete(inner::<T>(id))
    }

    pub fn alloc(&mut self, item: T) -> Id<T> {
        outer(self.items.alloc(Item(item)))
    }

    pub fn alloc_with_id<F: FnOnce(Id<T>) -> T>(&mut self, make: F) -> Id<T> {
        outer(self.items.alloc_with_id(|id| Item(make(outer::<T>(id)))))
    }

    pub fn get(&self, id: Id<T>) -> Option<&T> {
        self.items.get(inner::<T>(id)).map(|item| &item.0)
    }

    pub fn get_mut(&mut self, id: Id<T>) -> Option<&mut T> {
        self.items.get_mut(inner::<T>(id)).map(|item| &mut item.0)
    }

    pub fn next_id(&self) -> Id<T> {
        outer(self.items.next_id())
    }

    pub fn len(&self) -> usize {
        self.items.len()
    }

    pub fn contains(&self, id: Id<T>) -> bool {
        self.items.contains(inner::<T>(id))
    }

    pub fn iter(&self) -> impl Iterator<Item = (Id<T>, &T)> {
        self.items.iter().map(|(id, item)| (outer(id), &item.0))
    }

    pub fn iter_mut(&mut self) -> impl Iterator<Item = (Id<T>, &mut T)> {
        self.items.iter_mut().map(|(id, item)| (outer(id), &mut item.0))
    }

    #[cfg(feature = "parallel")]
    pub fn par_iter(&self) -> impl ParallelIterator<Item = (Id<T>, &T)>
    where
        T: Sync,
        T::Of: Send,
    {
        self.iter().collect::<Vec<_>>().into_par_iter()
    }

    #[cfg(feature = "parallel")]
    pub fn par_iter_mut(&mut self) -> impl ParallelIterator<Item = (Id<T>, &mut T)>
    where
        T: Send + Sync,
        T::Of: Send,
    {
        self.iter_mut().collect::<Vec<_>>().into_par_iter()
    }
}

impl<T: Entity> Index<Id<T>> for TombstoneArena<T> {
    type Output = T;

    fn index(&self, id: Id<T>) -> &T {
        &self.items[inner::<T>(id)].0
    }
}

impl<T: Entity> IndexMut<Id<T>> for TombstoneArena<T> {
    fn index_mut(&mut self, id: Id<T>) -> &mut T {
        &mut self.items[inner::<T>(id)].0
    }
}
