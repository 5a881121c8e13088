//! Both walks report the fields of instructions, and visitors get what they ask for.
use ruffdresser::arena::Id;
use ruffdresser::body::{AnyId, IdVisitor, InstrVisitor, OnlyIds, OnlyInstrs, WalkError, used_ids};
use ruffdresser::{ir::*, *};
use std::convert::Infallible;

/// What a changing walk adds to each field but sequences and values.
const ADDED: usize = 100;

fn id<T>(index: usize) -> Id<T> {
    Id::from_index(index)
}

fn heap(index: usize) -> HeapType {
    HeapType::Concrete(id(index))
}

/// A function of the sequences 0, 1, and so on.
fn function(seqs: Vec<Vec<Instr>>) -> LocalFunction {
    let mut builder = FunctionBuilder::without_entry(id(0));
    for instrs in seqs {
        let mut seq = builder.dangling_instr_seq(None);
        for instr in instrs {
            seq.instr(instr);
        }
    }
    builder.local_func(Vec::new())
}

/// The fields that a walk reports, less what was added to them before.
struct Fields {
    texts: Vec<String>,
    added: usize,
}

impl Fields {
    fn add(&mut self, kind: &str, number: usize) -> Result<(), Infallible> {
        self.texts.push(format!("{kind} {}", number - self.added));
        Ok(())
    }
}

macro_rules! report_fields {
    ($($kind:literal $id:ident $hook:ident $hook_mut:ident)*) => {
        impl Visitor for Fields {
            type Error = Infallible;

            fn visit_instr_seq_id(&mut self, id: &InstrSeqId) -> Result<(), Infallible> {
                self.add("seq", id.index() + self.added)
            }

            fn visit_value(&mut self, value: &Value) -> Result<(), Infallible> {
                self.texts.push(format!("{value:?}"));
                Ok(())
            }

            fn visit_heap_type(&mut self, ty: &HeapType) -> Result<(), Infallible> {
                let HeapType::Concrete(id) = ty else { unreachable!() };
                self.add("heap", id.index())
            }

            $(fn $hook(&mut self, id: &$id) -> Result<(), Infallible> {
                self.add($kind, id.index())
            })*
        }

        impl VisitorMut for Fields {
            type Error = Infallible;

            fn visit_instr_seq_id_mut(&mut self, id: &mut InstrSeqId) -> Result<(), Infallible> {
                self.visit_instr_seq_id(id)
            }

            fn visit_value_mut(&mut self, value: &mut Value) -> Result<(), Infallible> {
                self.visit_value(value)
            }

            fn visit_heap_type_mut(&mut self, ty: &mut HeapType) -> Result<(), Infallible> {
                let HeapType::Concrete(of) = *ty else { unreachable!() };
                *ty = heap(of.index() + ADDED);
                self.add("heap", of.index())
            }

            $(fn $hook_mut(&mut self, of: &mut $id) -> Result<(), Infallible> {
                let index = of.index();
                *of = id(index + ADDED);
                self.add($kind, index)
            })*
        }
    };
}

report_fields! {
    "function" FunctionId visit_function_id visit_function_id_mut
    "type" TypeId visit_type_id visit_type_id_mut
    "table" TableId visit_table_id visit_table_id_mut
    "local" LocalId visit_local_id visit_local_id_mut
    "global" GlobalId visit_global_id visit_global_id_mut
    "memory" MemoryId visit_memory_id visit_memory_id_mut
    "data" DataId visit_data_id visit_data_id_mut
    "element" ElementId visit_element_id visit_element_id_mut
    "tag" TagId visit_tag_id visit_tag_id_mut
}

/// Both walks report just these fields of the instruction, and what a hook writes there is kept.
/// The sequences 1, 2 and 3 may stand in it.
fn has_fields(instr: Instr, wanted: &str) {
    let mut func = function(vec![vec![instr], vec![], vec![], vec![]]);
    for added in [0, ADDED] {
        let mut read = Fields { texts: Vec::new(), added };
        dfs_in_order(&mut read, &func, id(0)).expect("a walk");
        assert_eq!(read.texts.join(", "), wanted);
        let mut changed = Fields { texts: Vec::new(), added };
        dfs_pre_order_mut(&mut changed, &mut func, id(0)).expect("a walk");
        assert_eq!(changed.texts.join(", "), wanted);
    }
}

/// Instructions of these names and parts, and what is reported of each.
macro_rules! have_fields {
    ($([$($name:ident)+] $parts:tt: $wanted:literal)*) => {
        $($(has_fields($name $parts.into(), $wanted);)+)*
    };
}

#[test]
fn fields_of_control() {
    let (seq, default) = (id(1), id(90));
    have_fields! {
        [Block Loop] { seq }: "seq 1"
        [BrOnNull BrOnNonNull] { block: seq }: "seq 1"
        [IfElse] { consequent: id(2), alternative: id(3) }: "seq 2, seq 3"
        [BrOnCast BrOnCastFail] {
            block: seq,
            from_nullable: true,
            from_heap_type: heap(21),
            to_nullable: true,
            to_heap_type: heap(22),
        }: "seq 1, heap 21, heap 22"
        [Br BrIf] { block: default }: ""
        [BrTable] { blocks: vec![id(91), default].into(), default }: ""
    }
}

#[test]
fn fields_of_calls_and_variables() {
    let (func, ty, table, local, global) = (id(11), id(21), id(31), id(41), id(51));
    have_fields! {
        [Call ReturnCall RefFunc] { func }: "function 11"
        [CallRef ReturnCallRef] { ty }: "type 21"
        [CallIndirect ReturnCallIndirect] { ty, table }: "type 21, table 31"
        [LocalGet LocalSet LocalTee] { local }: "local 41"
        [GlobalGet GlobalSet] { global }: "global 51"
    }
}

#[test]
fn fields_of_values_and_operators() {
    let reference = RefType { nullable: true, heap_type: heap(90) };
    have_fields! {
        [Const] { value: Value::I32(1) }: "I32(1)"
        [Const] { value: Value::F64(7) }: "F64(7)"
        [TernOp] { op: TernaryOp::F32x4RelaxedMadd }: ""
        [Binop] { op: BinaryOp::I32Eq }: ""
        [Unop] { op: UnaryOp::I32Eqz }: ""
        [Select] { ty: Some(ValType::Ref(reference)) }: ""
        [I8x16Shuffle] { indices: [90; 16] }: ""
    }
}

#[test]
fn fields_of_accesses() {
    let (memory, arg, width) = (id(61), MemArg { align: 90, offset: 91 }, AtomicWidth::I32);
    let (table, elem) = (id(31), id(81));
    have_fields! {
        [Load] { memory, kind: LoadKind::F32, arg }: "memory 61"
        [Store] { memory, kind: StoreKind::F32, arg }: "memory 61"
        [LoadSimd] { memory, kind: LoadSimdKind::Splat8, arg }: "memory 61"
        [LoadSimd] { memory, kind: LoadSimdKind::V128Load8Lane(90), arg }: "memory 61"
        [AtomicRmw] { memory, op: AtomicOp::Add, width, arg }: "memory 61"
        [Cmpxchg] { memory, width, arg }: "memory 61"
        [AtomicNotify] { memory, arg }: "memory 61"
        [AtomicWait] { memory, arg, sixty_four: true }: "memory 61"
        [TableGet TableSet TableGrow TableSize TableFill] { table }: "table 31"
        [TableInit] { table, elem }: "table 31, element 81"
        [ElemDrop] { elem }: "element 81"
        [TableCopy] { src: table, dst: id(32) }: "table 31, table 32"
    }
}

#[test]
fn fields_of_references_and_structs() {
    let (ty, field, nullable) = (id(21), 90, true);
    have_fields! {
        [RefNull] { ty: RefType { nullable, heap_type: heap(90) } }: ""
        [RefNull] { ty: RefType::Funcref }: ""
        [RefTest RefCast] { nullable, heap_type: heap(21) }: "heap 21"
        [StructNew StructNewDefault] { ty }: "type 21"
        [StructGet StructGetS StructGetU StructSet] { ty, field }: "type 21"
    }
}

#[test]
fn fields_of_exceptions() {
    let (tag, label) = (id(5), id(90));
    let clauses = vec![
        TryTableCatch::Catch { tag, label },
        TryTableCatch::CatchAll { label },
        TryTableCatch::CatchRef { tag: id(6), label },
        TryTableCatch::CatchAllRef { label },
    ];
    let handlers = vec![
        LegacyCatch::CatchAll { handler: id(1) },
        LegacyCatch::Delegate { relative_depth: 90 },
        LegacyCatch::Catch { tag, handler: id(3) },
    ];
    have_fields! {
        [TryTable] { seq: id(1), catches: clauses.into() }: "seq 1, tag 5, tag 6"
        [Try] { seq: id(2), catches: handlers.into() }: "seq 2, tag 5"
        [Throw] { tag }: "tag 5"
        [Rethrow] { relative_depth: 90 }: ""
    }
}

#[test]
fn others_have_no_fields() {
    have_fields! {
        [Unreachable DropInstr Return AtomicFence RefIsNull RefAsNonNull RefI31] {}: ""
        [I31GetS I31GetU AnyConvertExtern ExternConvertAny RefEq ArrayLen I64Add128] {}: ""
        [I64Sub128 I64MulWideS I64MulWideU V128Bitselect I8x16Swizzle ThrowRef] {}: ""
    }
}

/// Sequence 0 has sequence 1 inside, in which the rest stands.
fn function_of_ids() -> LocalFunction {
    let clauses = vec![TryTableCatch::CatchRef { tag: id(4), label: id(0) }];
    let exact = RefType { nullable: true, heap_type: HeapType::Exact(id(90)) };
    let inner = vec![
        Call { func: id(5) }.into(),
        CallIndirect { ty: id(6), table: id(7) }.into(),
        Call { func: id(5) }.into(),
        LocalGet { local: id(8) }.into(),
        MemoryInit { memory: id(1), data_id: id(2) }.into(),
        TableInit { table: id(3), elem: id(4) }.into(),
        RefCast { nullable: true, heap_type: heap(11) }.into(),
        RefNull { ty: exact }.into(),
        BrIf { block: id(90) }.into(),
        Throw { tag: id(12) }.into(),
    ];
    let outer = vec![TryTable { seq: id(1), catches: clauses.into() }.into()];
    let mut func = function(vec![outer, inner]);
    func.block_mut(id(0)).ty = id(9).into();
    func
}

#[test]
fn used_ids_are_listed_by_kind() {
    let ids = used_ids(&function_of_ids(), id(0)).expect("a nested body");
    assert_eq!((ids.locals, ids.memories), (vec![id(8)], vec![id(1)]));
    assert_eq!((ids.data_segments, ids.elements), (vec![id(2)], vec![id(4)]));
    assert_eq!(ids.globals, []);
}

/// Takes types and functions.
struct Collector {
    ids: Vec<AnyId>,
    refuses_tags: bool,
}

impl IdVisitor for Collector {
    type Error = &'static str;

    fn visit_id(&mut self, id: AnyId) -> Result<(), &'static str> {
        match id {
            AnyId::Tag(_) if self.refuses_tags => return Err("a tag"),
            AnyId::Type(_) | AnyId::Function(_) => self.ids.push(id),
            _ => {}
        }
        Ok(())
    }
}

#[test]
fn one_hook_takes_ids_or_ends_the_walk() {
    let (called, ty) = (AnyId::Function(id(5)), |index| AnyId::Type(id(index)));
    let all = vec![ty(9), called, ty(6), called, ty(11)];
    let refused = Err(WalkError::Hook("a tag"));
    for (refuses_tags, answer, wanted) in [(false, Ok(()), all), (true, refused, vec![ty(9)])] {
        let mut only = OnlyIds { visitor: Collector { ids: Vec::new(), refuses_tags } };
        assert_eq!(dfs_in_order(&mut only, &function_of_ids(), id(0)), answer);
        assert_eq!(only.visitor.ids, wanted);
    }
}

/// How many instructions there are, and how many blocks.
struct Counter(u64, u64);

impl InstrVisitor for Counter {
    type Error = Infallible;

    fn visit_instr(&mut self, instr: &Instr, _: &InstrLocId) -> Result<(), Infallible> {
        self.0 += 1;
        self.1 += u64::from(matches!(instr, Instr::Block(_)));
        Ok(())
    }
}

#[test]
fn one_hook_takes_all_instructions() {
    let mut seqs: Vec<_> = (1..=3).map(|next| vec![Block { seq: id(next) }.into()]).collect();
    seqs.push(Vec::new());
    let mut only = OnlyInstrs { visitor: Counter(0, 0) };
    dfs_in_order(&mut only, &function(seqs), id(0)).expect("a walk");
    assert_eq!((only.visitor.0, only.visitor.1), (3, 3));
}

/// Adds one to so many constants.
struct Adder(usize);

impl VisitorMut for Adder {
    type Error = &'static str;

    fn visit_value_mut(&mut self, value: &mut Value) -> Result<(), &'static str> {
        self.0 = self.0.checked_sub(1).ok_or("enough")?;
        if let Value::I32(n) = value {
            *n += 1;
        }
        Ok(())
    }
}

#[test]
fn a_walk_may_follow_another() {
    for (limit, answer, left) in [(2, Ok(()), 9), (1, Err(WalkError::Hook("enough")), 8)] {
        let outer = vec![Block { seq: id(1) }.into(), Block { seq: id(1) }.into()];
        let inner = vec![Const { value: Value::I32(5) }.into()];
        let mut func = function(vec![outer, inner]);
        assert_eq!(dfs_pre_order_mut(&mut Adder(limit), &mut func, id(0)), answer);
        assert_eq!(dfs_pre_order_mut(&mut Adder(2), &mut func, id(0)), Ok(()));
        let [(Instr::Const(constant), _)] = &func.block(id(1)).instrs[..] else {
            panic!("no constant");
        };
        assert_eq!(constant.value, Value::I32(left));
    }
}

#[test]
fn a_walk_error_can_be_copied() {
    let error = WalkError::Hook(3);
    let copy = error;
    assert_eq!(copy, error);
}
