//! Snips a function: it traps, and so do all functions where they would call it.
use ruffdresser::body::LocalFunctions;
use ruffdresser::ir::Instr;
use ruffdresser::passes::{snip, snip_calls};
use ruffdresser::{FunctionBuilder, FunctionId, ModuleTypes};

fn snip_with_calls(funcs: &mut LocalFunctions, snipped: FunctionId, callers: &[FunctionId]) {
    snip(funcs, snipped);
    for caller in callers {
        snip_calls(funcs.get_mut(*caller), &[snipped]);
    }
}

fn main() {
    let mut types = ModuleTypes::new();
    let mut funcs = LocalFunctions::new();

    let mut builder = FunctionBuilder::new(&mut types, &[], &[]);
    builder.func_body().i32_const(1337).drop();
    let report = builder.finish(Vec::new(), &mut funcs);

    let mut builder = FunctionBuilder::new(&mut types, &[], &[]);
    builder.func_body().call(report);
    let main = builder.finish(Vec::new(), &mut funcs);

    snip_with_calls(&mut funcs, report, &[main]);
    for id in [report, main] {
        let func = funcs.get(id);
        let body = &func.block(func.entry_block()).instrs;
        assert!(matches!(body.as_slice(), [(Instr::Unreachable(_), _)]));
    }
}
