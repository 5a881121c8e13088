//! What `scripts/measure/steps` measures. The arguments are a kind, a size and a step. The steps before it are done too.
use ruffdresser::ir::{
    BinaryOp, Block, Instr, InstrLocId, InstrSeq, InstrSeqId, Visitor, VisitorMut, dfs_in_order,
    dfs_pre_order_mut,
};
use ruffdresser::body::{Nesting, check_nesting};
use ruffdresser::passes::delete_unused_types;
use ruffdresser::wasm::{decode_types, encode_types};
use ruffdresser::{
    CompositeType, FieldType, FunctionBuilder, HeapType, InstrSeqBuilder, LocalFunction, LocalId,
    ModuleTypes, RefType, StorageType, StructType, TypeId, ValType,
};
use std::convert::Infallible;

/// Two function types, a struct type with a supertype, and an array type: 7 bytes each.
const SHORT: [u8; 29] = [
    0x60, 3, 0x7F, 0x7E, 0x63, 5, 1, 0x7C, 0x60, 1, 0x7F, 0, 0x50, 1, 0xC0, 0x01, 0x5F, 3, 0x7F, 0,
    0x64, 0xC0, 0x01, 0, 0x7B, 1, 0x5E, 0x6B, 0,
];

/// A struct type of ten fields with a supertype, and a function type of eight parameters: 30 bytes
/// each.
const LONG: [u8; 60] = [
    0x50, 1, 0xC0, 0x01, 0x5F, 10, 0x7F, 0, 0x64, 0xC0, 0x01, 0, 0x7B, 1, 0x63, 0xC0, 0x01, 1,
    0x7E, 1, 0x78, 1, 0x6B, 0, 0x63, 0x85, 0xA0, 0x02, 1, 0x7C, 0, 0x64, 0xC0, 0x01, 1, 0x60, 8,
    0x7F, 0x63, 0xC0, 0x01, 0x64, 0x85, 0xA0, 0x02, 0x7E, 0x63, 0x85, 0x02, 0x63, 0xC0, 0x01, 0x7C,
    0x64, 0x85, 0x02, 1, 0x63, 0xC0, 0x01,
];

/// How many sequences, instructions and locals a walk reported.
#[derive(Default, PartialEq, Debug)]
struct Counter {
    sequences: usize,
    instructions: usize,
    locals: usize,
}

impl Visitor for Counter {
    type Error = Infallible;

    fn start_instr_seq(&mut self, _: &InstrSeq) -> Result<(), Infallible> {
        self.sequences += 1;
        Ok(())
    }

    fn visit_instr(&mut self, _: &Instr, _: &InstrLocId) -> Result<(), Infallible> {
        self.instructions += 1;
        Ok(())
    }

    fn visit_local_id(&mut self, _: &LocalId) -> Result<(), Infallible> {
        self.locals += 1;
        Ok(())
    }
}

impl VisitorMut for Counter {
    type Error = Infallible;

    fn start_instr_seq_mut(&mut self, _: &mut InstrSeq) -> Result<(), Infallible> {
        self.sequences += 1;
        Ok(())
    }

    fn visit_instr_mut(&mut self, _: &mut Instr, _: &mut InstrLocId) -> Result<(), Infallible> {
        self.instructions += 1;
        Ok(())
    }

    fn visit_local_id_mut(&mut self, _: &mut LocalId) -> Result<(), Infallible> {
        self.locals += 1;
        Ok(())
    }
}

fn add_nine(body: &mut InstrSeqBuilder) {
    let local = LocalId::from_index(0);
    body.local_get(local).i32_const(1).binop(BinaryOp::I32Add).local_set(local);
    body.local_get(local).i32_const(2).binop(BinaryOp::I32Sub).local_tee(local).drop();
}

/// A body of one sequence, ten instructions for each of the tens.
fn flat(tens: usize) -> LocalFunction {
    let mut builder = FunctionBuilder::without_entry(TypeId::from_index(0));
    let mut body = builder.dangling_instr_seq(None);
    for _ in 0..tens {
        add_nine(&mut body);
        body.drop();
    }
    builder.local_func(Vec::new())
}

/// A body of as many nested blocks as there are tens, each behind nine instructions, and an empty
/// sequence in the last.
fn nested(tens: usize) -> LocalFunction {
    let mut builder = FunctionBuilder::without_entry(TypeId::from_index(0));
    for level in 0..tens {
        let mut body = builder.dangling_instr_seq(None);
        add_nine(&mut body);
        body.instr(Block { seq: InstrSeqId::from_index(level + 1) });
    }
    builder.dangling_instr_seq(None);
    builder.local_func(Vec::new())
}

/// Checks or walks a body of so many sequences, and of so many tens of instructions.
fn body(mut func: LocalFunction, sequences: usize, tens: usize, step: &str) {
    let (start, mut counter) = (InstrSeqId::from_index(0), Counter::default());
    match step {
        "checked" => return assert!(matches!(check_nesting(&func, start), Nesting::Nested(_))),
        "walked" => dfs_in_order(&mut counter, &func, start).expect("a walk"),
        "changed" => dfs_pre_order_mut(&mut counter, &mut func, start).expect("a walk"),
        _ => return,
    }
    assert_eq!(counter, Counter { sequences, instructions: 10 * tens, locals: 4 * tens });
}

/// A type section of `count` types, of which there are so many in `types`.
fn section(types: &[u8], in_types: usize, count: usize, step: &str) {
    let mut bytes = Vec::new();
    // The count as three bytes of LEB128.
    bytes.extend([count as u8 | 0x80, (count >> 7) as u8 | 0x80, (count >> 14) as u8]);
    bytes.extend(types.repeat(count / in_types));
    if step != "built" {
        let groups = decode_types(&bytes).expect("types");
        assert_eq!(groups.len(), count);
        if step == "written" {
            assert_eq!(encode_types(&groups).expect("bytes"), bytes);
        }
    }
}

/// A group of `count` types, as many lone types that each name one of it, and a function type.
fn table(count: usize, step: &str) {
    let mut types = ModuleTypes::new();
    let member = || (CompositeType::Struct(StructType { fields: Vec::new().into() }), true, None);
    let group = types.add_rec_group(count, |_| (0..count).map(|_| member()).collect()).expect("a group");
    for id in group {
        let heap_type = HeapType::Concrete(id);
        let element_type = StorageType::Val(ValType::Ref(RefType { nullable: true, heap_type }));
        types.add_array(FieldType { element_type, mutable: false });
    }
    let root = types.add(&[ValType::I32], &[]);
    if step == "deleted" {
        assert_eq!(delete_unused_types(&mut types, &[root]).len(), 2 * count);
    }
}

fn main() {
    let words: Vec<String> = std::env::args().collect();
    let (size, step) = (words[2].parse().expect("a size"), words[3].as_str());
    match words[1].as_str() {
        "flat" => body(flat(size), 1, size, step),
        "nested" => body(nested(size), size + 1, size, step),
        "short" => section(&SHORT, 4, size, step),
        "long" => section(&LONG, 2, size, step),
        _ => table(size, step),
    }
}
