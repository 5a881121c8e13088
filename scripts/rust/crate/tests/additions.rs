//! What Rust alone has does what its docs say.
use ruffdresser::arena::{ArenaSet, HashKeys, Tombstone, TombstoneArena};
use ruffdresser::body::{NestedBody, Visitor};
use ruffdresser::ir::{Block, InstrSeqType, Value};
use ruffdresser::*;
use std::collections::HashSet;
use std::convert::Infallible;

#[derive(Clone, Debug, PartialEq, Eq, Hash)]
struct Number(u32);

impl Tombstone for Number {}

fn function() -> LocalFunction {
    let mut builder = FunctionBuilder::new(&mut ModuleTypes::default(), &[], &[]);
    let mut body = builder.func_body();
    body.block(None, |block| {
        block.i32_const(1).drop();
        Ok(())
    })
    .expect("a block");
    builder.local_func(Vec::new())
}

#[test]
fn items_are_given_from_the_back() {
    let mut arena = TombstoneArena::default();
    let ids = arena.alloc_all([1, 2, 3, 4].map(Number).to_vec());
    arena.delete(ids[3]);
    arena.delete(ids[1]);
    let mut items = arena.iter();
    assert_eq!(items.next_back(), Some((ids[2], &Number(3))));
    assert_eq!(items.next(), Some((ids[0], &Number(1))));
    assert_eq!((items.next_back(), items.next()), (None, None));
}

#[test]
fn live_items_are_given_for_writing() {
    let mut arena = TombstoneArena::default();
    let ids = arena.alloc_all([1, 2, 3].map(Number).to_vec());
    arena.delete(ids[1]);
    for (_, item) in arena.iter_mut() {
        item.0 *= 10;
    }
    let left: Vec<_> = arena.iter().map(|(id, item)| (id, item.0)).collect();
    assert_eq!(left, [(ids[0], 10), (ids[2], 30)]);
}

#[test]
fn a_clone_is_another_one() {
    let mut set = ArenaSet::default();
    let id = set.insert(Number(1));
    let copy = set.clone();
    set.remove(id);
    assert_eq!((set.contains(id), copy.find(&Number(1))), (false, Some(id)));

    let mut types = ModuleTypes::default();
    let id = types.add(&[ValType::I32], &[]);
    let copy = types.clone();
    types.delete(id);
    assert_eq!((types.iter().count(), copy.iter().next_back().map(|ty| ty.id())), (0, Some(id)));
}

#[test]
fn locals_are_counted_and_given_from_the_back() {
    let mut locals = ModuleLocals::default();
    let ids = locals.add_all(&[ValType::I32, ValType::F64]);
    let copy = locals.clone();
    locals.add(ValType::I64);
    assert_eq!((locals.iter().len(), copy.iter().len()), (3, 2));
    assert!(copy.iter().rev().map(|local| local.id()).eq([ids[1], ids[0]]));
}

#[test]
fn keys_are_not_printed() {
    assert_eq!(format!("{:?}", HashKeys::new(12, 34)), "HashKeys");
}

#[test]
fn equal_locations_have_equal_hashes() {
    let locations = HashSet::from([InstrLocId::new(1), InstrLocId::new(2), InstrLocId::new(1)]);
    assert_eq!(locations.len(), 2);
}

#[test]
fn references_have_older_names() {
    let names = [RefType::Funcref, RefType::Externref, RefType::Exnref].map(|ty| ty.to_string());
    assert_eq!(names, ["funcref", "externref", "exnref"]);
}

/// It leaves out all hooks but one.
#[derive(Default)]
struct Constants(Vec<Value>);

impl Visitor for Constants {
    type Error = Infallible;

    fn visit_value(&mut self, value: &Value) -> Result<(), Infallible> {
        self.0.push(*value);
        Ok(())
    }
}

#[test]
fn a_nested_body_is_walked_more_than_once() {
    let func = function();
    let body = NestedBody::new(&func, func.entry_block()).expect("a nested body");
    let mut constants = Constants::default();
    body.dfs_in_order(&mut constants).expect("a walk");
    body.dfs_in_order(&mut constants).expect("a walk");
    assert_eq!(constants.0, [Value::I32(1), Value::I32(1)]);
}

#[test]
fn an_endless_body_is_not_nested() {
    let mut func = function();
    let seq = func.entry_block();
    func.builder_mut().func_body().instr(Block { seq });
    assert!(NestedBody::new(&func, seq).is_none());
    assert_eq!(func.builder().func_body_id(), seq);
}

#[test]
fn a_sequence_inside_a_later_one_is_nested() {
    let mut func = function();
    let seq = func.entry_block();
    let start = func.builder_mut().dangling_instr_seq(None).instr(Block { seq }).id();
    assert!(NestedBody::new(&func, start).is_some());
}

#[test]
fn what_becomes_the_type_of_a_sequence_does() {
    let mut func = function();
    let builder = func.builder_mut();
    let (simple, of_type) = (builder.dangling_instr_seq(ValType::I64).id(), builder.ty());
    let multiple = builder.dangling_instr_seq(of_type).id();
    assert_eq!(func.block(simple).ty, InstrSeqType::Simple(Some(ValType::I64)));
    assert_eq!(func.block(multiple).ty, InstrSeqType::MultiValue(of_type));
}
