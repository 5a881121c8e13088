//! What a call requires is tested: a call that breaks it panics, and says what is required. So does
//! a call to which memory is refused, where its fallible form returns an error.
use ruffdresser::{arena::*, body::*, ir::*, passes::*, types::*, *};
use std::convert::Infallible;
use std::panic::{AssertUnwindSafe, catch_unwind};

fn table() -> (ModuleTypes, TypeId) {
    let mut types = ModuleTypes::new();
    let id = types.add(&[], &[]);
    (types, id)
}

fn builder() -> FunctionBuilder {
    let (mut types, _) = table();
    FunctionBuilder::new(&mut types, &[], &[])
}

/// A function whose body has itself inside.
fn endless() -> (LocalFunction, InstrSeqId) {
    let mut builder = builder();
    let mut body = builder.func_body();
    let seq = body.id();
    body.instr(Block { seq });
    (builder.local_func(Vec::new()), seq)
}

#[test]
#[should_panic(expected = "required: `id` is live")]
fn a_dead_type_is_not_deleted_again() {
    let (mut types, id) = table();
    types.delete(id);
    types.delete(id);
}

#[test]
#[should_panic(expected = "required: `id` is live")]
fn a_dead_item_is_not_lent() {
    let mut arena = TombstoneArena::<Number>::new();
    let id = arena.alloc(Number);
    arena.delete(id);
    arena[id] = Number;
}

struct Number;

impl Tombstone for Number {}

#[test]
#[should_panic(expected = "required: no id comes twice in `ids`")]
fn no_type_is_deleted_twice() {
    let (mut types, id) = table();
    types.delete_all(&[id, id]);
}

#[test]
#[should_panic(expected = "required: each of `roots` is live")]
fn dead_roots_are_refused() {
    let (mut types, id) = table();
    types.delete(id);
    delete_unused_types(&mut types, &[id]);
}

#[test]
#[should_panic(expected = "required: `id` is a live function type")]
fn only_functions_have_parameters() {
    let (mut types, _) = table();
    let fields = Vec::new();
    let id = types.add_struct(fields);
    let _ = types.params(id);
}

#[test]
#[should_panic(expected = "required: `id` has no index")]
fn a_type_gets_one_index() {
    let (_, id) = table();
    let mut indices = IdsToIndices::new();
    indices.push_type(id);
    indices.push_type(id);
}

#[test]
#[should_panic(expected = "required: `place` is not past the end")]
fn no_entries_are_before_a_place_past_the_end() {
    let _ = entries_before(&[], 1);
}

#[test]
#[should_panic(expected = "required: `index` is not past the end")]
fn no_item_is_put_past_the_end() {
    Listed::from_vec(vec![1]).insert(2, 3);
}

#[test]
#[should_panic(expected = "required: `index` is below the length")]
fn no_item_is_taken_from_the_end() {
    Listed::from_vec(vec![1]).remove(1);
}

#[test]
#[should_panic(expected = "required: `number` is not 0xffff_ffff")]
fn the_default_location_has_no_number() {
    let _ = InstrLocId::new(0xffff_ffff);
}

#[test]
#[should_panic(expected = "required: `id` is in the list")]
fn an_unknown_function_is_not_lent() {
    let _ = LocalFunctions::new().get(FunctionId::from_index(0));
}

#[test]
#[should_panic(expected = "required: `id` is known")]
fn an_unknown_sequence_is_not_lent() {
    let _ = builder().seq(InstrSeqId::from_index(1));
}

#[test]
#[should_panic(expected = "required: there is an entry")]
fn a_function_without_entry_has_no_body() {
    let (_, ty) = table();
    let _ = FunctionBuilder::without_entry(ty).func_body();
}

#[test]
#[should_panic(expected = "required: the sequence is known")]
fn nothing_is_added_where_the_function_was_replaced() {
    let (_, ty) = table();
    let mut builder = builder();
    let mut body = builder.func_body();
    *body.builder_mut() = FunctionBuilder::without_entry(ty);
    body.unreachable();
}

#[test]
#[should_panic(expected = "required: `position` is not past the end")]
fn nothing_is_put_past_the_end() {
    builder().func_body().instr_at(1, Unreachable {});
}

#[test]
#[should_panic(expected = "required: the closure does not replace its builder")]
fn a_closure_does_not_replace_its_builder() {
    let other = Box::leak(Box::new(builder()));
    let mut other = Some(other.func_body());
    let _ = builder()
        .func_body()
        .block(InstrSeqType::Simple(None), |block| {
            *block = other.take().ok_or(BuildError::Memory)?;
            Ok(())
        });
}

#[test]
#[should_panic(expected = "required: the closure does not replace its builder")]
fn a_conversion_does_not_replace_its_builder() {
    let other = Box::leak(Box::new(builder()));
    let mut other = Some(other.func_body());
    let (mut types, _) = table();
    let ty = types.add(&[ValType::I32], &[]);
    let _ = adapter_between(
        &mut types,
        &mut ModuleLocals::new(),
        Id::from_index(0),
        ty,
        ty,
        |body, _, _| {
            *body = other.take().ok_or(BuildError::Memory)?;
            Ok(())
        },
        |_, _, _| Ok(()),
    );
}

#[test]
#[should_panic(expected = "required: `func_ty` is a live function type")]
fn an_adapter_calls_a_function() {
    let (mut types, ty) = table();
    let fields = Vec::new();
    let func_ty = types.add_struct(fields);
    let _ = adapter_between(
        &mut types,
        &mut ModuleLocals::new(),
        Id::from_index(0),
        func_ty,
        ty,
        |_, _, _| Ok(()),
        |_, _, _| Ok(()),
    );
}

#[test]
#[should_panic(expected = "required: the body is nested from `start`")]
fn an_endless_body_is_not_walked() {
    let (func, start) = endless();
    let _ = dfs_in_order(&mut UsedIds::new(), &func, start);
}

#[test]
#[should_panic(expected = "required: the body is nested from `start`")]
fn an_endless_body_is_not_changed() {
    let (mut func, start) = endless();
    let _ = dfs_pre_order_mut(&mut Nester, &mut func, start);
}

#[test]
#[should_panic(expected = "required: hooks keep which sequences are inside a sequence")]
fn a_hook_puts_no_sequence_into_itself() {
    let mut builder = builder();
    let start = builder.func_body_id();
    builder.func_body().unreachable();
    let mut func = builder.local_func(Vec::new());
    let _ = dfs_pre_order_mut(&mut Nester, &mut func, start);
}

/// Puts each sequence into itself.
struct Nester;

impl VisitorMut for Nester {
    type Error = Infallible;

    fn start_instr_seq_mut(&mut self, seq: &mut InstrSeq) -> Result<(), Infallible> {
        let block = Instr::Block(Block { seq: seq.id() });
        seq.instrs.push((block, InstrLocId::default()));
        Ok(())
    }

    fn end_instr_seq_mut(&mut self, _seq: &mut InstrSeq) -> Result<(), Infallible> {
        Ok(())
    }

    fn visit_instr_mut(
        &mut self,
        _instr: &mut Instr,
        _loc: &mut InstrLocId,
    ) -> Result<(), Infallible> {
        Ok(())
    }

    fn visit_instr_seq_id_mut(&mut self, _id: &mut InstrSeqId) -> Result<(), Infallible> {
        Ok(())
    }

    fn visit_heap_type_mut(&mut self, _ty: &mut HeapType) -> Result<(), Infallible> {
        Ok(())
    }

    fn visit_function_id_mut(&mut self, _id: &mut FunctionId) -> Result<(), Infallible> {
        Ok(())
    }

    fn visit_type_id_mut(&mut self, _id: &mut TypeId) -> Result<(), Infallible> {
        Ok(())
    }

    fn visit_table_id_mut(&mut self, _id: &mut TableId) -> Result<(), Infallible> {
        Ok(())
    }

    fn visit_local_id_mut(&mut self, _id: &mut LocalId) -> Result<(), Infallible> {
        Ok(())
    }

    fn visit_global_id_mut(&mut self, _id: &mut GlobalId) -> Result<(), Infallible> {
        Ok(())
    }

    fn visit_value_mut(&mut self, _value: &mut Value) -> Result<(), Infallible> {
        Ok(())
    }

    fn visit_memory_id_mut(&mut self, _id: &mut MemoryId) -> Result<(), Infallible> {
        Ok(())
    }

    fn visit_data_id_mut(&mut self, _id: &mut DataId) -> Result<(), Infallible> {
        Ok(())
    }

    fn visit_element_id_mut(&mut self, _id: &mut ElementId) -> Result<(), Infallible> {
        Ok(())
    }

    fn visit_tag_id_mut(&mut self, _id: &mut TagId) -> Result<(), Infallible> {
        Ok(())
    }
}

#[test]
#[should_panic(expected = "out of memory")]
fn a_call_panics_where_memory_is_refused() {
    IndicesToIds::new().push_types(0, usize::MAX);
}

#[test]
fn a_fallible_form_returns_an_error_where_memory_is_refused() {
    let mut ids = IndicesToIds::new();
    assert_eq!(ids.try_push_types(0, usize::MAX), Err(AllocError));
    assert_eq!(ids.type_count(), 0);
}

/// Memory is refused to its clones.
#[derive(PartialEq, Eq, Hash)]
struct Costly;

impl Clone for Costly {
    fn clone(&self) -> Costly {
        panic!("out of memory")
    }
}

#[test]
fn a_set_stays_where_a_clone_panics() {
    let mut set = ArenaSet::new();
    let inserted = catch_unwind(AssertUnwindSafe(|| set.insert(Costly)));
    assert!(inserted.is_err());
    assert_eq!(set.iter().count(), 0);
    assert_eq!(set.find(&Costly), None);
}

/// Its clones are not equal to it.
#[derive(PartialEq, Eq, Hash)]
struct Fickle {
    is_clone: bool,
}

impl Clone for Fickle {
    fn clone(&self) -> Fickle {
        Fickle { is_clone: true }
    }
}

#[test]
#[should_panic(expected = "required: a clone of the value is equal to it")]
fn clones_are_equal() {
    let mut set = ArenaSet::new();
    set.insert(Fickle { is_clone: false });
}

#[test]
fn tables_and_functions_may_go_to_other_threads() {
    fn is_shared<T: Send + Sync>() {}
    is_shared::<ModuleTypes>();
    is_shared::<LocalFunctions>();
    is_shared::<FunctionBuilder>();
    is_shared::<ConstExpr>();
}

/// Function types that a user of the libraries keeps.
struct OneType;

impl FunctionTypes for OneType {
    fn add_function(&mut self, _: &[ValType], _: &[ValType]) -> TypeId {
        TypeId::from_index(7)
    }

    fn find_function(&self, _: &[ValType], _: &[ValType]) -> Option<TypeId> {
        None
    }
}

#[test]
fn a_table_of_function_types_needs_no_fallible_forms() {
    let two = [ValType::I32, ValType::I64];
    let ty = InstrSeqType::new(&mut OneType, &two, &[]);
    assert_eq!(ty, InstrSeqType::MultiValue(TypeId::from_index(7)));
}
