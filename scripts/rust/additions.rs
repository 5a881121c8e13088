// == walrus_ty/src/listed.rt

/// All calls of slices are calls of the list.
impl<T> std::ops::Deref for Listed<T> {
    type Target = [T];

    fn deref(&self) -> &[T] {
        self.as_slice()
    }
}

/// The list without items.
impl<T> Default for Listed<T> {
    fn default() -> Listed<T> {
        Listed::from_vec(Vec::new())
    }
}

/// `collect` makes a list.
impl<T> FromIterator<T> for Listed<T> {
    fn from_iter<I: IntoIterator<Item = T>>(items: I) -> Listed<T> {
        Listed::from_vec(items.into_iter().collect())
    }
}
// == walrus_arena/src/tombstone_arena.rt

/// The arena without items.
impl<T> Default for TombstoneArena<T> {
    fn default() -> Self {
        TombstoneArena::new()
    }
}

impl<T> TombstoneArena<T> {
    /// The live items for writing, in the order of their ids.
    pub fn iter_mut(&mut self) -> impl DoubleEndedIterator<Item = (Id<T>, &mut T)> {
        let live = self.slots.iter_mut().enumerate().filter(|(_, slot)| slot.is_live);
        live.map(|(at, slot)| (Id::from_index(at), &mut slot.item))
    }
}
// == walrus_arena/src/arena_set.rt

/// The set without items, which finds them by a hash with fixed keys.
impl<T: Clone + Eq + Hash> Default for ArenaSet<T> {
    fn default() -> Self {
        ArenaSet::new()
    }
}
// == walrus_ty/src/ty/references.rt

/// What walrus had as variants before it knew other references.
#[allow(non_upper_case_globals)]
impl RefType {
    /// The same as `FUNCREF`.
    pub const Funcref: RefType = RefType::FUNCREF;
    /// The same as `EXTERNREF`.
    pub const Externref: RefType = RefType::EXTERNREF;
    /// The same as `EXNREF`.
    pub const Exnref: RefType = RefType::EXNREF;
}
// == walrus_types/src/table.rt

/// The table without types, which finds them by a hash with fixed keys.
impl Default for ModuleTypes {
    fn default() -> Self {
        ModuleTypes::new()
    }
}
// == ir_instr/src/locals.rt

/// The list without locals.
impl Default for ModuleLocals {
    fn default() -> Self {
        ModuleLocals::new()
    }
}
// == walrus_traversals/src/traversals.rt

// Whether the body is nested from `start`. Where the sequences inside each one are known, and come
// after it, none can be inside itself. Otherwise, and where others stand among them, this searches.
pub(crate) fn is_nested(func: &LocalFunction, start: InstrSeqId) -> Result<bool, AllocError> {
    let mut children: Vec<InstrSeqId> = Vec::new();
    let (mut at, mut last, mut named) = (start.index(), start.index(), 1);
    while at <= last && func.contains_block(walrus_ir::Id::from_index(at)) {
        for (instr, _) in &func.block(walrus_ir::Id::from_index(at)).instrs {
            if has_children(instr) {
                try_push_children(&mut children, instr)?;
            }
        }
        at += 1;
        named += children.len();
        let is_known = |id: &InstrSeqId| id.index() >= at && func.contains_block(*id);
        if at - start.index() > named || !children.iter().all(is_known) {
            let found = walrus_nesting::try_check_nesting(func, start)?;
            return Ok(matches!(found, walrus_nesting::Nesting::Nested(_)));
        }
        last = children.drain(..).fold(last, |last, id| last.max(id.index()));
    }
    Ok(func.contains_block(start))
}
// == walrus_traversals/src/lib.rt

pub(crate) use traversals::is_nested;

/// A function whose body is nested from a sequence on. Walks from it don't check that again.
///
/// ```
/// use ruffdresser::body::{NestedBody, UsedIds};
/// # use ruffdresser::{FunctionBuilder, ModuleTypes};
/// # let func = FunctionBuilder::new(&mut ModuleTypes::new(), &[], &[]).local_func(Vec::new());
///
/// let body = NestedBody::new(&func, func.entry_block()).ok_or("not nested")?;
/// let (mut first, mut second) = (UsedIds::new(), UsedIds::new());
/// body.dfs_in_order(&mut first)?;
/// body.dfs_in_order(&mut second)?;
/// # Ok::<(), Box<dyn std::error::Error>>(())
/// ```
#[derive(Clone, Copy, Debug)]
pub struct NestedBody<'a> {
    func: &'a walrus_functions::LocalFunction,
    start: walrus_ir::InstrSeqId,
}

impl<'a> NestedBody<'a> {
    /// The function with this sequence, if its body is nested from there on.
    pub fn new(
        func: &'a walrus_functions::LocalFunction,
        start: walrus_ir::InstrSeqId,
    ) -> Option<Self> {
        let is_nested = rattle_std::alloc::or_panic(is_nested(func, start));
        is_nested.then_some(NestedBody { func, start })
    }

    /// Walks as the function [`dfs_in_order`] does.
    pub fn dfs_in_order<V: Visitor>(self, visitor: &mut V) -> Result<(), WalkError<V::Error>> {
        traversals::walk(visitor, self.func, self.start)
    }
}
