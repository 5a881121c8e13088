//! Types as data, index maps, constant expressions, instructions and locals do what contracts say.
use ruffdresser::{arena::Id, ir::*, types::*};
use std::fmt::Debug;

fn id<T>(index: usize) -> Id<T> {
    Id::from_index(index)
}

fn reference<N>(nullable: bool, heap_type: Heap<N>) -> Val<N> {
    Val::Ref(Reference { nullable, heap_type })
}

fn field<N>(element: Val<N>, mutable: bool) -> Field<N> {
    Field { element_type: Storage::Val(element), mutable }
}

const PACKED: FieldType = Field { element_type: Storage::I16, mutable: false };

fn function(params: Vec<ValType>, results: Vec<ValType>) -> CompositeType {
    CompositeType::Function(FunctionType::new(params, results))
}

fn structure(fields: Vec<FieldType>) -> CompositeType {
    CompositeType::Struct(StructType { fields: fields.into() })
}

fn array(field: FieldType) -> CompositeType {
    CompositeType::Array(ArrayType { field })
}

#[test]
fn references_print_as_in_text() {
    let rows = [
        (AbstractHeapType::Func, "funcref", "func"),
        (AbstractHeapType::NoFunc, "nullfuncref", "nofunc"),
        (AbstractHeapType::Extern, "externref", "extern"),
        (AbstractHeapType::NoExtern, "nullexternref", "noextern"),
        (AbstractHeapType::Any, "anyref", "any"),
        (AbstractHeapType::None, "nullref", "none"),
        (AbstractHeapType::Eq, "eqref", "eq"),
        (AbstractHeapType::Struct, "structref", "struct"),
    ];
    for (name, nullable, heap_type) in rows {
        let name: HeapType = Heap::Abstract(name);
        assert_eq!(name.to_string(), heap_type);
        assert_eq!(reference(true, name).to_string(), nullable);
        assert_eq!(reference(false, name).to_string(), format!("(ref {heap_type})"));
        assert_eq!(field(reference(true, name), true).to_string(), format!("(mut {nullable})"));
    }
}

#[test]
fn constants_print_their_names() {
    let rows = [
        (RefType::ANYREF, "anyref"),
        (RefType::EQREF, "eqref"),
        (RefType::FUNCREF, "funcref"),
        (RefType::EXTERNREF, "externref"),
        (RefType::I31REF, "i31ref"),
        (RefType::ARRAYREF, "arrayref"),
        (RefType::STRUCTREF, "structref"),
        (RefType::EXNREF, "exnref"),
        (RefType::NULLREF, "nullref"),
        (RefType::NULLEXTERNREF, "nullexternref"),
        (RefType::NULLFUNCREF, "nullfuncref"),
    ];
    for (constant, text) in rows {
        assert_eq!((constant.to_string().as_str(), constant.is_nullable()), (text, true));
    }
    assert!(!RefType { nullable: false, ..RefType::ANYREF }.is_nullable());
}

#[test]
fn numbers_and_packed_fields_print_their_names() {
    let numbers = [ValType::I32, ValType::I64, ValType::F32, ValType::F64, ValType::V128];
    assert_eq!(numbers.map(|ty| ty.to_string()), ["i32", "i64", "f32", "f64", "v128"]);
    let packed = [StorageType::I8, StorageType::I16];
    assert_eq!(packed.map(|ty| ty.to_string()), ["i8", "i16"]);
    assert_eq!(FieldType { element_type: Storage::I8, mutable: true }.to_string(), "(mut i8)");
}

#[test]
fn each_kind_prints_what_it_is() {
    let rows = [
        (function(vec![], vec![]), "(func)"),
        (function(vec![ValType::I32], vec![ValType::I64]), "(func (param i32) (result i64))"),
        (structure(vec![]), "(struct)"),
        (
            structure(vec![field(Val::I32, true), field(Val::F64, false)]),
            "(struct (field (mut i32)) (field f64))",
        ),
        (array(field(Val::F64, false)), "(array f64)"),
    ];
    for (kind, text) in rows {
        assert_eq!(kind.to_string(), text);
    }
}

#[test]
fn a_type_is_seen_by_its_kind_alone() {
    let of_func = FunctionType::new(vec![ValType::I64], vec![]);
    let of_struct = StructType { fields: vec![].into() };
    let of_array = ArrayType { field: PACKED };
    let rows = [
        (CompositeType::Function(of_func.clone()), (Some(&of_func), None, None)),
        (CompositeType::Struct(of_struct.clone()), (None, Some(&of_struct), None)),
        (CompositeType::Array(of_array), (None, None, Some(&of_array))),
    ];
    for (kind, seen) in rows {
        let is = [seen.0.is_some(), seen.1.is_some(), seen.2.is_some()];
        assert_eq!([kind.is_function(), kind.is_struct(), kind.is_array()], is);
        let ty = Type::new(id(0), kind, true, None);
        assert_eq!([ty.is_function(), ty.is_struct(), ty.is_array()], is);
        assert_eq!((ty.as_function(), ty.as_struct(), ty.as_array()), seen);
    }
}

#[test]
fn a_known_kind_is_unwrapped() {
    let func = function(vec![ValType::I64], vec![]);
    assert_eq!(func.unwrap_function().params(), [ValType::I64]);
    assert!(structure(vec![]).unwrap_struct().fields.is_empty());
    assert_eq!(array(PACKED).unwrap_array().field, PACKED);
}

#[test]
fn a_function_type_is_written_through_its_view() {
    let mut kind = function(vec![ValType::I64], vec![]);
    let view = kind.as_function_mut().expect("a function type");
    *view = FunctionType::new(vec![], vec![ValType::F32]);
    assert_eq!(kind, function(vec![], vec![ValType::F32]));
    assert!(array(PACKED).as_function_mut().is_none());
}

#[test]
fn one_type_is_named_at_most() {
    let three: TypeId = id(3);
    let of = reference(false, Heap::Concrete(three));
    let held = field(of, true);
    assert_eq!(Heap::Concrete(three).type_id(), Some(three));
    assert_eq!(Reference { nullable: false, heap_type: Heap::Exact(three) }.type_id(), Some(three));
    assert_eq!([of.type_id(), held.element_type.type_id(), held.type_id()], [Some(three); 3]);
    assert_eq!((ValType::V128.type_id(), StorageType::I8.type_id()), (None, None));

    let seven = Reference { nullable: true, heap_type: Heap::Exact(7) };
    let record: FieldAt = field(Val::Ref(seven), false);
    assert_eq!([seven.heap_type.name(), seven.name(), Val::Ref(seven).name()], [Some(7); 3]);
    assert_eq!([record.element_type.name(), record.name()], [Some(7); 2]);
    assert_eq!(ValAt::F64.name(), None);
}

#[test]
fn a_type_lists_its_supertype_and_its_fields_in_order() {
    let to = |index| field(reference(true, Heap::Concrete(id(index))), false);
    let three_fields = structure(vec![to(4), field(Val::I32, false), to(3)]);
    let rows = [
        (three_fields, None, vec![7, 4, 3]),
        (array(to(5)), Some(id(6)), vec![7, 6, 5]),
        (array(PACKED), None, vec![7]),
    ];
    for (kind, supertype, wanted) in rows {
        let mut list = vec![id(7)];
        Type::new(id(9), kind, true, supertype).referenced_types(&mut list);
        assert!(list.iter().map(|id| id.index()).eq(wanted));
    }
}

#[test]
fn a_table_has_the_types_that_were_added() {
    let mut types = ModuleTypes::new();
    let small = structure(vec![field(Val::I32, false)]);
    let large = structure(vec![field(Val::I32, false), field(Val::F64, false)]);
    let base = types.add_composite(small.clone(), false, None);
    let derived = types.add_composite(large.clone(), true, Some(base));
    let parts = |id| {
        let ty = types.get(id);
        (ty.kind().clone(), ty.is_final, ty.supertype)
    };
    assert_eq!(parts(base), (small, false, None));
    assert_eq!(parts(derived), (large, true, Some(base)));
}

#[test]
fn types_of_a_group_name_each_other() {
    let namer = |id| {
        let fields = vec![field(reference(true, Heap::Concrete(id)), false)];
        (structure(fields), true, None)
    };
    let mut types = ModuleTypes::new();
    let ids = types.add_rec_group(2, |ids| vec![namer(ids[1]), namer(ids[0])]).expect("a group");
    let texts: Vec<_> = ids.iter().map(|id| types.get(*id).kind().to_string()).collect();
    assert_eq!(texts, ["(struct (field (ref null 1)))", "(struct (field (ref null 0)))"]);
}

#[test]
fn a_list_has_its_items_in_order() {
    let list = Listed::from(vec![3, 1, 4]);
    assert_eq!((list.len(), list[0], list[2]), (3, 3, 4));
    assert!(!list.is_empty() && Listed::<u32>::from(vec![]).is_empty());
    assert!(list.iter().eq(&[3, 1, 4]));
    assert!((&list).into_iter().eq(&[3, 1, 4]));
    assert!(list.into_iter().eq([3, 1, 4]));
}

#[test]
fn items_are_written_in_place() {
    let mut fields = Listed::from(vec![field(Val::I64, false); 2]);
    fields[1].mutable = true;
    fields[0] = PACKED;
    assert_eq!(fields.as_slice(), [PACKED, field(Val::I64, true)]);
}

#[test]
fn lists_compare_by_their_items() {
    let (long, short) = (Listed::from(vec![3, 1, 4]), Listed::from(vec![3, 1]));
    assert_eq!(long, long.clone());
    assert_ne!(long, short);
    assert!(short < long && short.cmp(&long).is_lt());
}

fn is_plain_data<T: Copy + Debug>() {}

#[test]
fn what_an_id_is_of_is_plain_data() {
    is_plain_data::<(Function, Global, Memory, Table, Data, Element, Tag)>();
}

#[test]
fn an_index_stands_for_the_id_that_was_pushed_then() {
    let mut ids = IndicesToIds::new();
    assert_eq!(ids.get_type(0), Err(UnknownIndex(0)));
    ids.push_type(id(7));
    ids.push_type(id(9));
    ids.push_func(id(5));
    ids.push_global(id(6));
    let types = [ids.get_type(0), ids.get_type(1), ids.get_type(2)];
    assert_eq!(types, [Ok(id(7)), Ok(id(9)), Err(UnknownIndex(2))]);
    assert_eq!([ids.get_func(0), ids.get_func(1)], [Ok(id(5)), Err(UnknownIndex(1))]);
    assert_eq!([ids.get_global(0), ids.get_global(4)], [Ok(id(6)), Err(UnknownIndex(4))]);
    ids.remap_type(0, id(8));
    assert_eq!(ids.into_types(), [id(8), id(9)]);
}

#[test]
fn several_indices_stand_for_ids_in_a_row() {
    let mut ids = IndicesToIds::new();
    ids.push_type(id(9));
    ids.push_types(4, 2);
    assert_eq!((ids.type_count(), ids.get_type(2)), (3, Ok(id(5))));
    ids.truncate_types(2);
    assert_eq!(ids.get_type(2), Err(UnknownIndex(2)));
    assert_eq!(ids.into_types(), [id(9), id(4)]);
}

#[test]
fn an_id_gets_the_number_of_earlier_ones_of_its_kind() {
    let mut indices = IdsToIndices::new();
    assert_eq!(indices.get_type_index(id(7)), Err(NoIndex::OfType(id(7))));
    indices.push_type(id(9));
    indices.push_type(id(7));
    assert_eq!([9, 7].map(|ty| indices.get_type_index(id(ty))), [Ok(0), Ok(1)]);
    assert_eq!(indices.get_func_index(id(7)), Err(NoIndex::OfFunc(id(7))));
    assert_eq!(indices.get_global_index(id(7)), Err(NoIndex::OfGlobal(id(7))));
    indices.push_func(id(7));
    indices.push_global(id(7));
    assert_eq!((indices.get_func_index(id(7)), indices.get_global_index(id(7))), (Ok(0), Ok(0)));
}

/// Where types are read, 10, 20 and 30 have the indices 0, 1 and 2. Where they are written, their
/// order is the opposite one.
fn maps() -> (IndicesToIds, IdsToIndices) {
    let (mut ids, mut indices) = (IndicesToIds::new(), IdsToIndices::new());
    let types = [10, 20, 30].map(id);
    types.iter().for_each(|ty| ids.push_type(*ty));
    types.iter().rev().for_each(|ty| indices.push_type(*ty));
    (ids, indices)
}

#[test]
fn heap_and_value_types_change_their_names_alone() {
    let (ids, indices) = maps();
    assert_eq!(HeapType::from_record(&Heap::Exact(0), &ids), Ok(Heap::Exact(id(10))));
    assert_eq!(HeapType::Exact(id(10)).to_record(&indices), Ok(Heap::Exact(2)));
    let thirty = |nullable| reference(nullable, Heap::Concrete(id(30)));
    let at: ValAt = reference(true, Heap::Concrete(2));
    assert_eq!(ValType::from_record(&at, &ids), Ok(thirty(true)));
    assert_eq!(thirty(false).to_record(&indices), Ok(reference(false, Heap::Concrete(0))));
}

#[test]
fn what_names_no_type_stays() {
    let (ids, indices) = maps();
    let of: RefAt = Reference { nullable: false, heap_type: Heap::Abstract(AbstractHeapType::Eq) };
    let read = RefType::from_record(&of, &ids).expect("known indices");
    assert_eq!(read.to_record(&indices), Ok(of));
    let packed: FieldAt = Field { element_type: Storage::I8, mutable: true };
    let read = FieldType::from_record(&packed, &ids).expect("known indices");
    assert_eq!(read.to_record(&indices), Ok(packed));
    let read = StorageType::from_record(&Storage::I8, &ids).expect("known indices");
    assert_eq!(read.to_record(&indices), Ok(Storage::I8));
}

#[test]
fn kinds_go_through_both_maps() {
    let (ids, indices) = maps();
    let exact = reference(false, Heap::Exact(1));
    let func = reference(true, Heap::Abstract(AbstractHeapType::Func));
    let kinds = |index| {
        let params = vec![Val::I32, reference(true, Heap::Concrete(index))].into();
        let to_type = field(reference(false, Heap::Concrete(index)), false);
        let fields = vec![field(func, true), to_type].into();
        [
            CompAt::Function { params, results: vec![exact].into() },
            CompAt::Struct { fields },
            CompAt::Array { field: to_type },
        ]
    };
    for (from, to) in [(0, 2), (2, 0)] {
        for (kind, wanted) in kinds(from).iter().zip(kinds(to)) {
            let read = CompositeType::from_record(kind, &ids).expect("known indices");
            assert_eq!(read.to_record(&indices), Ok(wanted));
        }
    }
}

#[test]
fn the_first_unknown_name_of_a_type_is_the_error() {
    let (ids, indices) = maps();
    let to = |heap_type| field(reference(true, heap_type), false);
    let fields = vec![to(Heap::Concrete(1)), to(Heap::Exact(5))].into();
    let entry = EntryAt { comp: CompAt::Struct { fields }, is_final: true, supertype: Some(7) };
    let error = SubType::from_record(&entry, &ids).err();
    assert_eq!(error, Some(FromRecordError::UnknownIndex(5)));
    let results = [Heap::Concrete(id(5)), Heap::Exact(id(6))].map(|of| reference(true, of));
    let error = ToRecordError::NoIndex(NoIndex::OfType(id(5)));
    assert_eq!(function(vec![], results.to_vec()).to_record(&indices), Err(error));
}

#[test]
fn constant_expressions_name_functions_by_index() {
    let mut ids = IndicesToIds::new();
    ids.push_func(id(9));
    let expr = ConstExpr::eval(&[ConstOpAt::RefFunc(0)], &ids);
    assert_eq!(expr, Ok(ConstExpr::RefFunc(id(9))));
    let error = ToRecordError::NoIndex(NoIndex::OfFunc(id(9)));
    assert_eq!(ConstExpr::RefFunc(id(9)).to_ops(&IdsToIndices::new()), Err(error));
}

#[test]
fn the_first_unknown_index_of_an_expression_is_the_error() {
    let ops = [
        ConstOpAt::StructNewDefault(1),
        ConstOpAt::ArrayNewFixed { ty: 7, len: 2 },
        ConstOpAt::RefFunc(6),
    ];
    assert_eq!(ConstExpr::eval(&ops, &maps().0), Err(FromRecordError::UnknownIndex(7)));
}

#[test]
fn an_expression_lists_its_types_in_order() {
    let null = RefType { nullable: true, heap_type: Heap::Exact(id(3)) };
    let ops = vec![
        ConstOp::StructNew(id(3)),
        ConstOp::GlobalGet(id(4)),
        ConstOp::ArrayNewFixed { ty: id(1), len: 2 },
        ConstOp::RefNull(null),
    ];
    let mut list = vec![id(9)];
    ConstExpr::Extended(ops.into()).referenced_types(&mut list);
    ConstExpr::RefFunc(id(8)).referenced_types(&mut list);
    assert_eq!(list, [9, 3, 1, 3].map(id));
}

#[test]
fn instructions_and_constants_are_equal_where_all_their_parts_are() {
    let call = |func| Instr::Call(Call { func: id(func) });
    assert_eq!(call(3), call(3));
    assert_ne!(call(3), call(4));
    assert_ne!(call(3), Instr::RefFunc(RefFunc { func: id(3) }));
    assert_eq!(Value::F32(0x7fc0_0000), Value::F32(0x7fc0_0000));
    assert_ne!(Value::F32(0), Value::F32(0x8000_0000));
    assert_ne!(Value::I32(0), Value::F32(0));
}

#[test]
fn nothing_follows_a_table_of_branches() {
    let table = BrTable { blocks: vec![].into(), default: id(0) };
    assert!(Instr::from(table).following_instructions_are_unreachable());
}

#[test]
fn sequence_types_are_made_of_their_parts() {
    let three: TypeId = id(3);
    let to_three = reference(false, Heap::Concrete(three));
    let rows = [
        (InstrSeqType::from(None), InstrSeqType::Simple(None), None),
        (ValType::I64.into(), InstrSeqType::Simple(Some(Val::I64)), None),
        (to_three.into(), InstrSeqType::Simple(Some(to_three)), Some(three)),
        (three.into(), InstrSeqType::MultiValue(three), Some(three)),
    ];
    for (made, wanted, named) in rows {
        assert_eq!((made, made.type_id()), (wanted, named));
    }
}

#[test]
fn a_table_finds_the_function_types_that_it_added() {
    let mut types = ModuleTypes::new();
    let (params, results) = ([ValType::I32], [ValType::I64]);
    assert_eq!(types.find_function(&params, &results), None);
    let added = types.add_function(&params, &results);
    assert_eq!(types.find_function(&params, &results), Some(added));
    assert_eq!(types.find(&params, &results), Some(added));
    assert_eq!(types.find_function(&results, &params), None);
}

#[test]
fn locals_come_in_order_and_keep_their_names() {
    let mut locals = ModuleLocals::new();
    assert!(!locals.contains(id(0)));
    let first = locals.add(ValType::I32);
    locals.get_mut(first).name = Some("x".to_string());
    locals.add(ValType::I64);
    assert!(locals.contains(id(1)) && !locals.contains(id(2)));
    let mut named = Local::new(id(0), ValType::I32);
    named.name = Some("x".to_string());
    assert!(locals.iter().eq(&[named, Local::new(id(1), ValType::I64)]));
}

#[test]
fn locals_are_equal_where_id_type_and_name_are() {
    let local = Local::new(id(0), ValType::I32);
    assert_eq!(local, local.clone());
    assert_ne!(local, Local::new(id(1), ValType::I32));
    assert_ne!(local, Local::new(id(0), ValType::I64));
    let mut named = local.clone();
    named.name = Some("x".to_string());
    assert_ne!(local, named);
}

#[test]
fn the_default_location_comes_last() {
    let (place, last) = (InstrLocId::new(7), InstrLocId::default());
    assert_eq!((place.data(), place.is_default(), last.is_default()), (7, false, true));
    assert!(InstrLocId::new(3) < InstrLocId::new(4) && InstrLocId::new(0xffff_fffe) < last);
}
