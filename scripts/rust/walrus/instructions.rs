//! walrus's instructions, which are `ruffdresser`'s, and its visitors.
mod traversals;
pub use self::traversals::*;

use crate::{DataId, ElementId, FunctionId, GlobalId, LocalFunction, MemoryId, RefType, TableId, TagId, TypeId, ValType};
use ruffdresser::types::Listed;
pub use ruffdresser::ir::{
    AtomicOp, AtomicWidth, BinaryOp, ExtendedLoad, Instr, InstrLocId, InstrSeq, InstrSeqId,
    InstrSeqType, LegacyCatch, LoadKind, LoadSimdKind, Local, LocalId, MemArg, ShuffleIndices, StoreKind, TernaryOp,
    TryTableCatch, UnaryOp, Value,
};
pub use ruffdresser::ir::{
    {Name},
};

// What a sequence is inside of.
#[derive(Clone, Copy, Debug, PartialEq, Eq, Hash)]
pub(crate) enum BlockKind {
    Block,
    Loop,
    If,
    Else,
    TryTable,
    Try,
    Catch,
    CatchAll,
    FunctionEntry,
}

/// A visitor. A hook that is left out does nothing.
#[allow(missing_docs, unused_variables)]
pub trait Visitor<'instr>: Sized {
    fn start_instr_seq(&mut self, instr_seq: &'instr InstrSeq) {}
    fn end_instr_seq(&mut self, instr_seq: &'instr InstrSeq) {}
    fn visit_instr(&mut self, instr: &'instr Instr, instr_loc: &'instr InstrLocId) {}
    fn visit_{id}(&mut self, it: &{Id}) {}
    fn visit_{kind}(&mut self, instr: &{Kind}) {}
}

/// A visitor that changes what it visits. A hook that is left out does nothing.
#[allow(missing_docs, unused_variables)]
pub trait VisitorMut: Sized {
    fn start_instr_seq_mut(&mut self, instr_seq: &mut InstrSeq) {}
    fn end_instr_seq_mut(&mut self, instr_seq: &mut InstrSeq) {}
    fn visit_instr_mut(&mut self, instr: &mut Instr, instr_loc: &mut InstrLocId) {}
    fn visit_{id}_mut(&mut self, it: &mut {Id}) {}
    fn visit_{kind}_mut(&mut self, instr: &mut {Kind}) {}
}

// The hook of the kind of an instruction.
fn visit_kind<'instr>(visitor: &mut impl Visitor<'instr>, instr: &Instr) {
    match instr {
        Instr::{Kind}(it) => visitor.visit_{kind}(it),
        // walrus 0.24 has no others.
        _ => {}
    }
}

// The hook of the kind of an instruction that it may change.
fn visit_kind_mut(visitor: &mut impl VisitorMut, instr: &mut Instr) {
    match instr {
        Instr::{Kind}(it) => visitor.visit_{kind}_mut(it),
        _ => {}
    }
}

/// The calls of walrus's `Instr`.
#[allow(missing_docs)]
pub trait InstrExt {
    fn is_{kind}(&self) -> bool;
    fn {kind}_mut(&mut self) -> Option<&mut {Kind}>;
    fn unwrap_{kind}(&self) -> &{Kind};
    fn unwrap_{kind}_mut(&mut self) -> &mut {Kind};
}

#[rustfmt::skip]
impl InstrExt for Instr {
    fn is_{kind}(&self) -> bool { matches!(self, Instr::{Kind}(_)) }
    fn {kind}_mut(&mut self) -> Option<&mut {Kind}> { if let Instr::{Kind}(it) = self { Some(it) } else { None } }
    fn unwrap_{kind}(&self) -> &{Kind} { if let Instr::{Kind}(it) = self { it } else { panic!("another instruction") } }
    fn unwrap_{kind}_mut(&mut self) -> &mut {Kind} { self.{kind}_mut().unwrap() }
}

#[allow(missing_docs)]
#[rustfmt::skip]
impl crate::InstrSeqBuilder<'_> {
    pub fn {call}(&mut self{parameters}) -> &mut Self { self.instr({Kind} { {fields} }) }
    pub fn {kind}_at(&mut self, position: usize{parameters}) -> &mut Self { self.instr_at(position, {Kind} { {fields} }) }
}
