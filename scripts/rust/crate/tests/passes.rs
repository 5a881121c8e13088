//! Passes delete just the types that nothing uses, and make and change functions as their docs say.
use ruffdresser::arena::{HashKeys, Id};
use ruffdresser::body::{BuildError, LocalFunctions};
use ruffdresser::ir::*;
use ruffdresser::passes::*;
use ruffdresser::types::{EmitError, Heap, Reference, parse_types};
use ruffdresser::wasm::{decode_types, encode_types};
use ruffdresser::*;
use std::collections::BTreeSet;

fn ids<T>(indices: &[usize]) -> Vec<Id<T>> {
    indices.iter().map(|index| Id::from_index(*index)).collect()
}

/// The types of a section, under ids that are their indices.
fn read(section: &[u8]) -> ModuleTypes {
    let groups = decode_types(section).expect("a section");
    parse_types(HashKeys::fixed(), &groups).expect("types").0
}

/// An open struct, a subtype of it, a function type, a group of two structs of which the first names
/// the function type, and the type of a body that leaves an `i32`.
fn six_types() -> ModuleTypes {
    let group = [0x4E, 2, 0x5F, 1, 0x63, 2, 0, 0x5F, 0].as_slice();
    let singles = [4, 0x50, 0, 0x5F, 0, 0x4F, 1, 0, 0x5F, 0, 0x60, 1, 0x7F, 0].as_slice();
    let mut types = read(&[singles, group].concat());
    types.add_entry_ty(&[ValType::I32]);
    types
}

#[test]
fn types_that_no_root_needs_are_deleted() {
    // The roots: a supertype alone, a member of the group twice, the type of the body, and none.
    let rows: [(&[usize], &[usize], &[usize]); 4] = [
        (&[0], &[1, 2, 3, 4, 5], &[0]),
        (&[4, 4], &[0, 1, 5], &[2, 3, 4]),
        (&[5], &[0, 1, 2, 3, 4], &[5]),
        (&[], &[0, 1, 2, 3, 4, 5], &[]),
    ];
    for (roots, deleted, left) in rows {
        let mut types = six_types();
        assert_eq!(delete_unused_types(&mut types, &ids(roots)), ids(deleted));
        assert_eq!(types.live_ids(), ids(left));
        let sizes = types.rec_groups().iter().map(|group| group.types.len());
        assert_eq!((sizes.len(), sizes.sum()), (5, left.len()));
    }
}

#[test]
fn a_name_of_a_dead_id_needs_nothing() {
    let mut types = six_types();
    let [from, to, root] = [3, 2, 4].map(Id::from_index);
    types.delete(to);
    assert_eq!(delete_unused_types(&mut types, &[root]), ids(&[0, 1, 5]));
    assert_eq!(types.live_ids(), [from, root]);
    assert_eq!(types.emit().err(), Some(EmitError::NoIndex { from, to }));
}

#[test]
fn types_that_are_left_are_written_and_found() {
    let mut types = six_types();
    delete_unused_types(&mut types, &ids(&[4]));
    let (groups, indices) = types.emit().expect("a section");
    let section = [2, 0x60, 1, 0x7F, 0, 0x4E, 2, 0x5F, 1, 0x63, 0, 0, 0x5F, 0];
    assert_eq!(encode_types(&groups).expect("bytes"), section);
    let new = new_indices(&ids(&[0, 1, 2, 3, 4, 5]), &indices);
    assert_eq!(new, [None, None, Some(0), Some(1), Some(2), None]);

    let [left, added] = [2, 6].map(Id::from_index);
    assert_eq!(types.find(&[ValType::I32], &[]), Some(left));
    assert_eq!(types.find_for_function_entry(&[ValType::I32]), None);
    assert_eq!(types.add(&[ValType::I32], &[]), left);
    assert_eq!(types.add_entry_ty(&[ValType::I32]), added);
}

#[test]
fn equal_types_that_are_left_have_one_new_index() {
    let groups = decode_types(&[3, 0x5F, 0, 0x60, 0, 0, 0x5F, 0]).expect("a section");
    let (mut types, ids) = parse_types(HashKeys::fixed(), &groups).expect("types");
    delete_unused_types(&mut types, &[ids[0]]);
    let (_, indices) = types.emit().expect("a section");
    assert_eq!(new_indices(&ids, &indices), [Some(0), None, Some(0)]);
    assert_eq!(new_indices(&[], &IdsToIndices::new()), []);
}

#[test]
fn a_large_group_is_deleted_in_order() {
    let mut types = ModuleTypes::new();
    let structure = || CompositeType::Struct(StructType { fields: vec![].into() });
    let members = |ids: &[TypeId]| ids.iter().map(|_| (structure(), true, None)).collect();
    let group = types.add_rec_group(20_000, members).expect("a group");
    let root = types.add(&[ValType::I32], &[]);
    assert_eq!(delete_unused_types(&mut types, &[root]), group);
    assert_eq!(types.live_ids(), [root]);
}

fn reference(index: usize) -> RefType {
    Reference { nullable: true, heap_type: Heap::Exact(Id::from_index(index)) }
}

/// The indices of the types that a function uses, where the locals 1 to 3 are references to the
/// types 50 to 52.
fn used(func: &LocalFunction) -> Option<BTreeSet<usize>> {
    let mut locals = ModuleLocals::new();
    locals.add(ValType::I32);
    locals.add_all(&[50, 51, 52].map(|index| ValType::Ref(reference(index))));
    Some(used_types(func, &locals)?.iter().map(|id| id.index()).collect())
}

/// A function of a type, whose entry is a sequence of the type 1.
fn function(ty: usize, add: impl FnOnce(&mut InstrSeqBuilder<'_>)) -> LocalFunction {
    let mut builder = FunctionBuilder::without_entry(Id::from_index(ty));
    let mut body = builder.dangling_instr_seq(TypeId::from_index(1));
    add(&mut body);
    let entry = body.id();
    builder.set_entry(entry);
    builder.local_func(Vec::new())
}

/// The instructions of a function's entry, with their locations.
fn instrs(func: &LocalFunction) -> &[(Instr, InstrLocId)] {
    &func.block(func.entry_block()).instrs
}

#[test]
fn functions_use_the_types_that_instructions_name() {
    let id = Id::from_index;
    let heap = |index| Heap::Concrete(id(index));
    let func = function(7, |body| {
        body.ref_null(reference(10)).select(Some(ValType::Ref(reference(11)))).select(None);
        body.call_indirect(id(12), Id::from_index(80)).instr(BrOnCast {
            block: Id::from_index(0),
            from_nullable: true,
            from_heap_type: heap(13),
            to_nullable: false,
            to_heap_type: heap(14),
        });
        body.instr(ArrayCopy { dst_ty: id(15), src_ty: id(16) });
        body.instr(RefTest { nullable: true, heap_type: heap(17) });
    });
    let expected = [1, 7].into_iter().chain(10..=17).collect();
    assert_eq!(used(&func), Some(expected));
}

#[test]
fn functions_use_the_types_of_their_locals() {
    let [first, second, third] = [0, 1, 2].map(Id::from_index);
    let mut func = function(7, |body| {
        body.local_get(second).local_set(third).local_tee(first);
    });
    assert_eq!(used(&func), Some(BTreeSet::from([1, 7, 50, 51])));
    func.block_mut(Id::from_index(0)).instrs.clear();
    func.args = ids(&[0, 2, 9]);
    assert_eq!(used(&func), Some(BTreeSet::from([1, 7, 51])));
}

#[test]
fn only_sequences_that_are_reached_use_types() {
    let mut builder = FunctionBuilder::without_entry(Id::from_index(7));
    builder.dangling_instr_seq(TypeId::from_index(4)).struct_new(Id::from_index(5));
    assert_eq!(used(&builder.local_func(Vec::new())), Some(BTreeSet::from([7])));
}

#[test]
fn a_body_that_is_not_nested_has_no_used_types() {
    // The block 0 has itself inside, and there is no sequence 1.
    for seq in [0, 1].map(Id::from_index) {
        let func = function(7, |body| {
            body.instr(Block { seq });
        });
        assert_eq!(used(&func), None);
    }
}

#[test]
fn types_that_only_a_snipped_function_used_are_deleted() {
    let mut types = read(&[3, 0x5F, 0, 0x60, 0, 0, 0x60, 1, 0x7F, 0]);
    let mut locals = ModuleLocals::new();
    let callee = FunctionId::from_index(0);
    let mut caller = function(1, |body| {
        body.i32_const(8).call(callee);
    });
    let maker = function(2, |body| {
        body.struct_new(Id::from_index(0)).drop();
    });
    let roots = [&caller, &maker].map(|func| used_types(func, &locals).expect("nested"));
    assert_eq!(delete_unused_types(&mut types, &roots.concat()), []);

    snip_calls(&mut caller, &[callee]);
    let snipped = function(1, |body| {
        body.i32_const(8).unreachable();
    });
    assert_eq!(instrs(&caller), instrs(&snipped));
    let trap = unreachable_function(&mut types, &mut locals, Id::from_index(2));
    let roots = [&caller, &trap].map(|func| used_types(func, &locals).expect("nested"));
    assert_eq!(delete_unused_types(&mut types, &roots.concat()), ids(&[0]));
    assert_eq!(types.live_ids(), ids(&[1, 2, 3]));
}

#[test]
fn what_is_not_snipped_stays() {
    let [one, other] = [5, 6].map(Id::from_index);
    let add = |body: &mut InstrSeqBuilder<'_>| {
        body.call(one).ref_func(one).call(other);
    };
    let mut func = function(7, add);
    snip_calls(&mut func, &[]);
    assert_eq!(instrs(&func), instrs(&function(7, add)));

    let [location, end] = [70, 80].map(InstrLocId::new);
    let seq = func.block_mut(Id::from_index(0));
    (seq.instrs[2].1, seq.end) = (location, end);
    snip_calls(&mut func, &[other]);
    assert_eq!(instrs(&func)[2], (Unreachable {}.into(), location));
    assert_eq!(func.block(func.entry_block()).end, end);
}

#[test]
fn a_snipped_entry_keeps_its_type() {
    let mut funcs = LocalFunctions::new();
    let id = funcs.add(function(7, |body| {
        body.i32_const(7);
    }));
    snip(&mut funcs, id);
    let func = funcs.get(id);
    assert_eq!(func.block(func.entry_block()).ty, TypeId::from_index(1).into());
}

#[test]
fn an_unreachable_function_has_new_locals() {
    let (mut types, mut locals) = (ModuleTypes::new(), ModuleLocals::new());
    locals.add(ValType::V128);
    let ty = types.add(&[ValType::I32, ValType::F64], &[ValType::I64]);
    let func = unreachable_function(&mut types, &mut locals, ty);
    assert_eq!((func.ty(), func.name(), func.block_count()), (ty, None, 1));
    assert_eq!(func.block(func.entry_block()).ty, TypeId::from_index(1).into());
    assert_eq!(instrs(&func), [(Unreachable {}.into(), InstrLocId::default())]);
    assert_eq!(func.args, ids(&[1, 2]));
    let expected = [ValType::V128, ValType::I32, ValType::F64];
    assert!(locals.iter().map(|local| local.ty()).eq(expected));
}

#[test]
fn new_functions_share_the_type_of_an_entry() {
    for is_there in [false, true] {
        let (mut types, mut locals) = (ModuleTypes::new(), ModuleLocals::new());
        let ty = types.add(&[], &[ValType::I64]);
        let entry_ty = TypeId::from_index(1);
        if is_there {
            assert_eq!(types.add_entry_ty(&[ValType::I64]), entry_ty);
        }
        let plain = adapter(&mut types, &mut locals, Id::from_index(9), ty);
        let trap = unreachable_function(&mut types, &mut locals, ty);
        for func in [plain, trap] {
            assert_eq!(func.block(func.entry_block()).ty, entry_ty.into());
            assert_eq!((func.ty(), func.args.len()), (ty, 0));
        }
        assert_eq!(types.find_for_function_entry(&[ValType::I64]), Some(entry_ty));
        assert_eq!(types.live_ids(), [ty, entry_ty]);
    }
}

fn pass(body: &mut InstrSeqBuilder<'_>, _: usize, local: LocalId) -> Result<(), BuildError> {
    body.local_get(local);
    Ok(())
}

#[test]
fn plain_conversions_make_the_plain_adapter() {
    let mut types = ModuleTypes::new();
    let ty = types.add(&[ValType::I32, ValType::F64], &[]);
    let callee = Id::from_index(9);
    let mut locals = ModuleLocals::new();
    let func = adapter_between(&mut types, &mut locals, callee, ty, ty, pass, pass);
    let plain = adapter(&mut types, &mut ModuleLocals::new(), callee, ty);
    let expected = function(0, |body| {
        body.local_get(Id::from_index(0)).local_get(Id::from_index(1)).call(callee);
    });
    for func in [func.expect("an adapter"), plain] {
        assert_eq!(instrs(&func), instrs(&expected));
        assert_eq!((&func.args, func.block_count()), (&ids(&[0, 1]), 1));
    }
}

#[test]
fn a_conversion_may_leave_several_values() {
    let (mut types, mut locals) = (ModuleTypes::new(), ModuleLocals::new());
    let func_ty = types.add(&[ValType::I32, ValType::I32, ValType::F64], &[]);
    let ty = types.add(&[ValType::I64, ValType::F64], &[]);
    let callee = Id::from_index(9);
    let wrap_first = |body: &mut InstrSeqBuilder<'_>, place, local| {
        body.local_get(local);
        if place == 0 {
            body.unop(UnaryOp::I32WrapI64).local_get(local).unop(UnaryOp::I32WrapI64);
        }
        Ok(())
    };
    let func = adapter_between(&mut types, &mut locals, callee, func_ty, ty, wrap_first, pass);
    let expected = function(1, |body| {
        let [first, second] = [0, 1].map(Id::from_index);
        body.local_get(first).unop(UnaryOp::I32WrapI64);
        body.local_get(first).unop(UnaryOp::I32WrapI64).local_get(second).call(callee);
    });
    assert_eq!(instrs(&func.expect("an adapter")), instrs(&expected));
}

#[test]
fn an_error_of_a_conversion_is_returned() {
    let (mut types, mut locals) = (ModuleTypes::new(), ModuleLocals::new());
    let ty = types.add(&[ValType::I32], &[ValType::I64]);
    let fail = |_: &mut InstrSeqBuilder<'_>, _, _| Err(BuildError::Position);
    let func = adapter_between(&mut types, &mut locals, Id::from_index(9), ty, ty, fail, pass);
    assert_eq!(func.err(), Some(BuildError::Position));
    assert_eq!(locals.iter().len(), 2);
    assert_eq!(types.find_for_function_entry(&[ValType::I64]), Some(Id::from_index(1)));
}
