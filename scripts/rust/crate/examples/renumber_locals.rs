//! Renumbers the locals of a function by the order in which it names them, and leaves out those that it does not name.
use ruffdresser::ir::{Instr, LocalGet, VisitorMut, dfs_pre_order_mut};
use ruffdresser::{FunctionBuilder, LocalFunction, LocalId, ModuleLocals, ModuleTypes, ValType};
use std::collections::HashMap;
use std::convert::Infallible;

struct Renumbering<'a> {
    old: &'a ModuleLocals,
    new: ModuleLocals,
    ids: HashMap<LocalId, LocalId>,
}

impl VisitorMut for Renumbering<'_> {
    type Error = Infallible;

    fn visit_local_id_mut(&mut self, id: &mut LocalId) -> Result<(), Infallible> {
        let (ty, new) = (self.old.get(*id).ty(), &mut self.new);
        *id = *self.ids.entry(*id).or_insert_with(|| new.add(ty));
        Ok(())
    }
}

fn renumber(func: &mut LocalFunction, old: &ModuleLocals) -> ModuleLocals {
    let mut renumbering = Renumbering { old, new: ModuleLocals::new(), ids: HashMap::new() };
    for id in &mut func.args {
        let Ok(()) = renumbering.visit_local_id_mut(id);
    }
    let start = func.entry_block();
    dfs_pre_order_mut(&mut renumbering, func, start).expect("memory");
    renumbering.new
}

fn main() {
    let mut locals = ModuleLocals::new();
    let [_, second, third] = [ValType::F64, ValType::I32, ValType::I64].map(|ty| locals.add(ty));
    let mut builder = FunctionBuilder::new(&mut ModuleTypes::new(), &[ValType::I32], &[ValType::I64]);
    builder.func_body().local_get(third);
    let mut func = builder.local_func(vec![second]);

    let locals = renumber(&mut func, &locals);
    assert!(locals.iter().map(|local| local.ty()).eq([ValType::I32, ValType::I64]));
    let (instr, _) = &func.block(func.entry_block()).instrs[0];
    assert_eq!(*instr, Instr::LocalGet(LocalGet { local: LocalId::from_index(1) }));
}
