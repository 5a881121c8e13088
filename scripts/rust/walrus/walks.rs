use ruffdresser::types::HeapType;
use std::convert::Infallible;

// A visitor of walrus as one of `ruffdresser`. What that shows does not live as long as the function, so this looks it
// up there again.
struct InOrder<'v, 'instr, V> {
    visitor: &'v mut V,
    func: Option<&'instr ruffdresser::LocalFunction>,
    // The innermost open sequence, and the place of the next instruction in it.
    open: Option<(&'instr InstrSeq, usize)>,
}

#[rustfmt::skip]
impl<'instr, V: Visitor<'instr>> ruffdresser::ir::Visitor for InOrder<'_, 'instr, V> {
    type Error = Infallible;

    fn start_instr_seq(&mut self, seq: &InstrSeq) -> Result<(), Infallible> {
        let seq = self.func.unwrap().block(seq.id());
        self.open = Some((seq, 0));
        self.visitor.start_instr_seq(seq);
        Ok(())
    }

    fn resume_instr_seq(&mut self, id: InstrSeqId, place: usize) {
        self.open = Some((self.func.unwrap().block(id), place));
    }

    fn end_instr_seq(&mut self, _: &InstrSeq) -> Result<(), Infallible> {
        let (seq, _) = self.open.unwrap();
        self.visitor.end_instr_seq(seq);
        Ok(())
    }

    fn visit_instr(&mut self, _: &Instr, _: &InstrLocId) -> Result<(), Infallible> {
        let (seq, place) = self.open.as_mut().unwrap();
        let (instr, loc) = &seq.instrs[*place];
        *place += 1;
        self.visitor.visit_instr(instr, loc);
        visit_kind(self.visitor, instr);
        Ok(())
    }

    fn visit_{id}(&mut self, it: &{Id}) -> Result<(), Infallible> { self.visitor.visit_{id}(it); Ok(()) }

    fn visit_heap_type(&mut self, heap_type: &HeapType) -> Result<(), Infallible> {
        if let Some(id) = heap_type.type_id() {
            self.visitor.visit_type_id(&id);
        }
        Ok(())
    }
}

// A function whose body is nested from its entry on. Walks from it don't check that again.
#[derive(Clone, Copy)]
pub(crate) struct Nested<'instr> {
    func: &'instr LocalFunction,
    body: ruffdresser::body::NestedBody<'instr>,
}

impl<'instr> Nested<'instr> {
    pub(crate) fn new(func: &'instr LocalFunction) -> Self {
        let body = ruffdresser::body::NestedBody::new(func.inner(), func.entry_block());
        Nested { func, body: body.expect("a nested body") }
    }

    pub(crate) fn with_size(func: &'instr LocalFunction) -> (Self, u64) {
        let nested = Nested::new(func);
        (nested, func.nested_size(nested))
    }

    pub(crate) fn walk(self, visitor: &mut impl Visitor<'instr>) {
        let mut walk = InOrder { visitor, func: Some(self.func.inner()), open: None };
        self.body.dfs_in_order(&mut walk).expect("memory");
    }
}

impl std::ops::Deref for Nested<'_> {
    type Target = LocalFunction;

    fn deref(&self) -> &LocalFunction {
        self.func
    }
}

// The hooks of the fields of one instruction.
pub(crate) fn visit_fields<'instr>(instr: &Instr, visitor: &mut impl Visitor<'instr>) {
    let mut walk = InOrder { visitor, func: None, open: None };
    let Ok(()) = ruffdresser::body::report_fields(&mut walk, instr);
}

struct PreOrder<'v, V>(&'v mut V);

#[rustfmt::skip]
impl<V: VisitorMut> ruffdresser::ir::VisitorMut for PreOrder<'_, V> {
    type Error = Infallible;

    fn start_instr_seq_mut(&mut self, seq: &mut InstrSeq) -> Result<(), Infallible> {
        self.0.start_instr_seq_mut(seq);
        Ok(())
    }

    fn end_instr_seq_mut(&mut self, seq: &mut InstrSeq) -> Result<(), Infallible> {
        self.0.end_instr_seq_mut(seq);
        Ok(())
    }

    fn visit_instr_mut(&mut self, instr: &mut Instr, loc: &mut InstrLocId) -> Result<(), Infallible> {
        self.0.visit_instr_mut(instr, loc);
        visit_kind_mut(self.0, instr);
        Ok(())
    }

    fn visit_{id}_mut(&mut self, it: &mut {Id}) -> Result<(), Infallible> { self.0.visit_{id}_mut(it); Ok(()) }

    fn visit_heap_type_mut(&mut self, heap_type: &mut HeapType) -> Result<(), Infallible> {
        if let HeapType::Concrete(id) | HeapType::Exact(id) = heap_type {
            self.0.visit_type_id_mut(id);
        }
        Ok(())
    }
}

