//! Deleted items free what they hold, and sets find what they are told to.
use ruffdresser::arena::{ArenaSet, Id, IdHashSet, Tombstone, TombstoneArena};
use std::rc::Rc;

struct Holder(Option<Rc<()>>);

impl Tombstone for Holder {
    fn on_delete(&mut self) {
        self.0 = None;
    }
}

#[test]
fn a_deleted_item_frees_what_it_holds() {
    let held = Rc::new(());
    let mut arena = TombstoneArena::new();
    let id = arena.alloc(Holder(Some(held.clone())));
    assert_eq!(Rc::strong_count(&held), 2);
    arena.delete(id);
    assert_eq!((Rc::strong_count(&held), arena.contains(id)), (1, false));
}

/// A set of two equal items, of which the first is mapped.
fn two_equal() -> ArenaSet<u32> {
    let mut set = ArenaSet::new();
    set.insert(1);
    set.alloc_unique(1);
    set
}

#[test]
fn many_new_values_leave_the_map() {
    let mut set = two_equal();
    assert_eq!(set.alloc_all(vec![1, 2]), [2, 3].map(Id::from_index));
    assert_eq!(set.next_id().index(), 4);
    assert_eq!((set.find(&1), set.find(&2)), (Some(Id::from_index(0)), None));
}

#[test]
fn a_registered_value_takes_the_entry_of_an_equal_one() {
    let mut set = two_equal();
    for (value, at) in [(1, 2), (2, 3)] {
        assert_eq!(set.alloc_and_register(value).index(), at);
        assert_eq!(set.find(&value), Some(Id::from_index(at)));
    }
    assert!(set.iter().map(|(_, value)| *value).eq([1, 1, 1, 2]));
}

#[test]
fn a_set_has_an_id_once() {
    let mut seen = IdHashSet::<u32>::default();
    let [two, three] = [2, 3].map(Id::from_index);
    assert_eq!([seen.insert(two), seen.insert(two)], [true, false]);
    assert!(!seen.contains(&three));
}
