//! What walrus does with the bodies of steps.rs.
//!
//! `steps --beside PROGRAM` runs what this file compiles to in a Cargo project that depends
//! on walrus 0.28.0. Its arguments are a shape and a step: `flat` or `nested`, and `built`, `walked`
//! or `changed`.
use walrus::ir::{
    dfs_in_order, dfs_pre_order_mut, BinaryOp, Block, Instr, InstrLocId, InstrSeq, InstrSeqId,
    Visitor, VisitorMut,
};
use walrus::{FunctionBuilder, InstrSeqBuilder, LocalFunction, LocalId, Module, ValType};

const TENS: usize = 100_000;

#[derive(Default, PartialEq, Debug)]
struct Counter {
    sequences: usize,
    instructions: usize,
    locals: usize,
}

impl<'instr> Visitor<'instr> for Counter {
    fn start_instr_seq(&mut self, _: &'instr InstrSeq) {
        self.sequences += 1;
    }

    fn visit_instr(&mut self, _: &'instr Instr, _: &'instr InstrLocId) {
        self.instructions += 1;
    }

    fn visit_local_id(&mut self, _: &LocalId) {
        self.locals += 1;
    }
}

impl VisitorMut for Counter {
    fn start_instr_seq_mut(&mut self, _: &mut InstrSeq) {
        self.sequences += 1;
    }

    fn visit_instr_mut(&mut self, _: &mut Instr, _: &mut InstrLocId) {
        self.instructions += 1;
    }

    fn visit_local_id_mut(&mut self, _: &mut LocalId) {
        self.locals += 1;
    }
}

fn add_nine(body: &mut InstrSeqBuilder, local: LocalId) {
    body.local_get(local);
    body.i32_const(1);
    body.binop(BinaryOp::I32Add);
    body.local_set(local);
    body.local_get(local);
    body.i32_const(2);
    body.binop(BinaryOp::I32Sub);
    body.local_tee(local);
    body.drop();
}

fn flat() -> (LocalFunction, InstrSeqId) {
    let mut module = Module::default();
    let local = module.locals.add(ValType::I32);
    let mut builder = FunctionBuilder::new(&mut module.types, &[], &[]);
    let first = builder.dangling_instr_seq(None).id();
    let mut body = builder.instr_seq(first);
    for _ in 0..TENS {
        add_nine(&mut body, local);
        body.drop();
    }
    (builder.local_func(Vec::new()), first)
}

fn nested() -> (LocalFunction, InstrSeqId) {
    let mut module = Module::default();
    let local = module.locals.add(ValType::I32);
    let mut builder = FunctionBuilder::new(&mut module.types, &[], &[]);
    let first = builder.dangling_instr_seq(None).id();
    let mut outer = first;
    for _ in 0..TENS {
        let inner = builder.dangling_instr_seq(None).id();
        let mut body = builder.instr_seq(outer);
        add_nine(&mut body, local);
        body.instr(Block { seq: inner });
        outer = inner;
    }
    (builder.local_func(Vec::new()), first)
}

fn main() {
    let words: Vec<String> = std::env::args().collect();
    let (shape, step) = (words[1].as_str(), words[2].as_str());
    let ((mut func, start), sequences) = match shape {
        "flat" => (flat(), 1),
        _ => (nested(), TENS + 1),
    };
    let mut counter = Counter::default();
    match step {
        "walked" => dfs_in_order(&mut counter, &func, start),
        "changed" => dfs_pre_order_mut(&mut counter, &mut func, start),
        _ => return,
    }
    let expected = Counter {
        sequences,
        instructions: 10 * TENS,
        locals: 4 * TENS,
    };
    assert_eq!(counter, expected);
}
