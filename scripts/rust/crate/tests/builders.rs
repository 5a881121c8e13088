//! Builders make the function that they are told to, and a list of functions numbers its functions.
use ruffdresser::body::{BuildError, LocalFunctions};
use ruffdresser::ir::*;
use ruffdresser::*;
use std::panic::{AssertUnwindSafe, catch_unwind};

const UNREACHABLE: Instr = Instr::Unreachable(Unreachable {});
const DROP: Instr = Instr::Drop(DropInstr {});

fn builder() -> FunctionBuilder {
    FunctionBuilder::new(&mut ModuleTypes::new(), &[], &[])
}

fn constant(value: Value) -> Instr {
    Instr::Const(Const { value })
}

/// Fills a sequence with this constant.
fn number(value: i32) -> impl Fn(&mut InstrSeqBuilder<'_>) -> Result<(), BuildError> {
    move |seq| {
        seq.i32_const(value);
        Ok(())
    }
}

/// The instructions of all sequences, in the order of their ids.
fn body(func: &LocalFunction) -> Vec<Vec<Instr>> {
    let ids = (0..func.block_count()).map(InstrSeqId::from_index);
    let seqs = ids.map(|id| func.block(id).instrs.iter());
    seqs.map(|instrs| instrs.map(|(instr, _)| instr.clone()).collect()).collect()
}

#[test]
fn a_dangling_sequence_is_filled_in_parts() {
    let mut builder = builder();
    let bits = 1337f64.to_bits();
    let seq = builder.dangling_instr_seq(None).f64_const(bits).drop().id();
    builder.func_body().instr(Block { seq });
    builder.instr_seq(seq).i32_const(42).drop();
    let entry = vec![Instr::Block(Block { seq })];
    let filled = vec![constant(Value::F64(bits)), DROP, constant(Value::I32(42)), DROP];
    assert_eq!(body(&builder.local_func(vec![])), [entry, filled]);
}

#[test]
fn blocks_and_loops_go_where_they_are_put() {
    type Add = fn(&mut InstrSeqBuilder<'_>) -> Result<(), BuildError>;
    let seq = InstrSeqId::from_index(1);
    let rows: [(Add, [Instr; 2]); 3] = [
        (|body| body.block_at(0, None, number(1337)), [Block { seq }.into(), UNREACHABLE]),
        (|body| body.loop_at(0, None, number(1337)), [Loop { seq }.into(), UNREACHABLE]),
        (|body| body.loop_(None, number(1337)), [UNREACHABLE, Loop { seq }.into()]),
    ];
    for (add, entry) in rows {
        let mut builder = builder();
        add(builder.func_body().unreachable()).expect("a sequence");
        let filled = vec![constant(Value::I32(1337))];
        assert_eq!(body(&builder.local_func(vec![])), [entry.to_vec(), filled]);
    }
}

#[test]
fn an_if_has_two_sequences_of_its_type() {
    let mut builder = builder();
    let func = FunctionId::from_index(0);
    let mut entry = builder.func_body();
    entry.call(func).unreachable();
    entry.if_else_at(1, ValType::I32, number(12), number(34)).expect("an if");
    entry.if_else(ValType::I32, number(56), number(78)).expect("an if");
    let made = builder.local_func(vec![]);

    let ids = [1, 2, 3, 4].map(InstrSeqId::from_index);
    let if_else = |at| Instr::IfElse(IfElse { consequent: ids[at], alternative: ids[at + 1] });
    let entry = [Call { func }.into(), if_else(0), UNREACHABLE, if_else(2)];
    assert_eq!(body(&made)[0], entry);
    for (id, value) in ids.into_iter().zip([12, 34, 56, 78]) {
        assert_eq!(body(&made)[id.index()], [constant(Value::I32(value))]);
        assert_eq!(made.block(id).ty, ValType::I32.into());
    }
}

#[test]
fn a_function_has_the_type_that_it_is_made_for() {
    let field = FieldType { element_type: StorageType::Val(ValType::I32), mutable: true };
    let mut types = ModuleTypes::new();
    let rows = [
        (types.add_struct(vec![field; 2]), "(func (param i32 i32) (result (ref null 0)))"),
        (types.add_array(field), "(func (param i32 i32) (result (ref null 1)))"),
    ];
    for (made, text) in rows {
        let result = ValType::Ref(RefType { nullable: true, heap_type: HeapType::Concrete(made) });
        let builder = FunctionBuilder::new(&mut types, &[ValType::I32; 2], &[result]);
        assert_eq!(types.get(builder.local_func(vec![]).ty()).kind().to_string(), text);
    }
}

#[test]
fn a_function_is_built_further() {
    let mut func = builder().local_func(vec![]);
    func.builder_mut().func_body().unreachable();
    assert_eq!(func.builder().func_body_id(), func.entry_block());
    assert_eq!(body(&func), [[UNREACHABLE]]);
}

#[test]
fn functions_are_numbered_after_imported_ones() {
    let mut funcs = LocalFunctions::new_after(2);
    assert!(funcs.is_empty());
    let args = [vec![LocalId::from_index(7)], vec![]];
    let ids = args.clone().map(|args| builder().finish(args, &mut funcs));
    assert_eq!(ids.map(|id| id.index()), [2, 3]);
    assert_eq!((funcs.len(), funcs.is_empty()), (2, false));
    assert_eq!(ids.map(|id| funcs.get(id).args.clone()), args);
    assert!(funcs.iter().map(|func| &func.args).eq(&args));
    let known = [1, 2, 3, 4].map(|index| funcs.contains(FunctionId::from_index(index)));
    assert_eq!(known, [false, true, true, false]);
}

#[test]
fn no_id_comes_after_the_last() {
    let mut funcs = LocalFunctions::new_after(usize::MAX);
    assert_eq!(builder().finish(vec![], &mut funcs).index(), usize::MAX);
    let further = catch_unwind(AssertUnwindSafe(|| builder().finish(vec![], &mut funcs)));
    assert!(further.is_err());
    assert_eq!(funcs.len(), 1);
}
