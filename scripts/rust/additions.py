"""What the crate has in Rust alone: items behind those of a file, derives, and other text in place of a file's own."""
import os
import re

# The items, behind a line with the crate and the file that they are for.
FILE = f'{os.path.dirname(os.path.abspath(__file__))}/additions.rs'
MARK = re.compile(r'^// == (.*)\n', re.M)
# The types that can be copied in Rust alone.
COPIED = {'Slot', 'TombstoneArena', 'ArenaSet'}
# The structs that become instructions in Rattle too.
NESTED = {'Block', 'Loop', 'IfElse', 'TryTable', 'Try'}


def with_conversions(enum):
    """The enum of instructions, and that its structs become instructions."""
    kinds = [it for it in re.findall(r'^    (\w+)\((\w+)\),', enum[0], re.M) if it[1] not in NESTED]
    return enum[0] + ''.join(
        f'\nimpl From<{struct}> for Instr {{\n    fn from(x: {struct}) -> Instr {{\n        Instr::{kind}(x)\n    }}\n}}\n'
        for kind, struct in kinds)


# By file: a pattern for lines of the rewritten text, and what takes their place.
REPLACED = [
    # A program is told that its standard output is closed.
    ('src/main.rt', r'#!\[forbid(.*\n.*\n)', '#![deny\\1\n#[path = "../../closed_output.rs"]\nmod closed_output;\n'),
    # A hook that is left out does nothing.
    *((path, r'( +fn \w+\([^;{]*\) -> Result<\(\), Self::Error>)\s*;', r'\1 {\n        Ok(())\n    }')
      for path in ('src/visitor.rt', 'src/visitor_mut.rt')),
    ('src/visitor.rt', r'All are\n/// required; one that has nothing to do returns `Ok\(\(\)\)`\.',
     'One that\n/// is left out does nothing.'),
    # A visitor is told where a sequence goes on behind those inside it.
    ('src/visitor.rt', r' +type Error: .*\n', '''\\g<0>
    #[doc(hidden)]
    fn resume_instr_seq(&mut self, id: InstrSeqId, place: usize) {}
'''),
    ('src/traversals.rt', r'(Work::Resume\(id, place\) => )(resume\(.*\)),', r'''\1{
            visitor.resume_instr_seq(id, place);
            \2
        }'''),
    # An arena is copied where its items are, whether that can be refused or not.
    ('src/tombstone_arena.rt', r'impl<T: TryClone> Clone for .*\n(?:.*\n)+?\}\n\n', ''),
    ('src/tombstone_arena.rt', r' +// Where the memory .*\n +pub\(crate\) fn allocator\(.*\n.*\n +\}\n\n', ''),
    # So is a set. Its copy that can be refused makes such copies of the values.
    ('src/arena_set.rt', r'(?:///.*\n)*impl<T: Clone \+ Eq \+ Hash> Clone for .*\n(?:.*\n)+?\}\n\n', ''),
    ('src/arena_set.rt', r'<T: (?=.*> TryClone for)|(?<=\nfn clone_map)<T: ', '<T: TryClone + '),
    ('src/arena_set.rt', r', self\.arena\.allocator\(\)\.try_clone\(\)\?', ''),
    ('src/instr.rt', r'pub enum Instr \{\n(?:.*\n)+?\}\n', with_conversions),
    # Whatever becomes an instruction or the type of a sequence is taken for it.
    ('src/function_builder/instr_seq_builder.rt', r'(?<!fn try_push\(&mut self, )\binstr: Instr\b',
     'instr: impl Into<Instr>'),
    ('src/function_builder/instr_seq_builder.rt', r'(self\.try_push\(|self\.id, position, )instr\)', r'\1instr.into())'),
    ('src/function_builder.rt', r'\bty: InstrSeqType,\n', 'ty: impl Into<InstrSeqType>,\n'),
    ('src/function_builder.rt', r'let id = self\.add_seq\(ty\)', 'let id = self.add_seq(ty.into())'),
    ('src/function_builder/nested.rt', r'\bty: InstrSeqType,', 'ty: impl Into<InstrSeqType>,'),
    ('src/function_builder/nested.rt', r'\.add_seq\(ty\)', '.add_seq(ty.into())'),
    ('src/function_builder/nested.rt', r'let same_ty = ty;',
     'let ty: InstrSeqType = ty.into();\n        let same_ty = ty;'),
    ('src/locals/iter.rt', r"    type Item = &'a Local;\n", '''\\g<0>
    fn size_hint(&self) -> (usize, Option<usize>) {
        (self.left.len(), Some(self.left.len()))
    }
'''),
    # The walk of a body that is known to be nested.
    ('src/traversals.rt', r'(?<=\n    \}\n)    let mut stack\b(?:.*\n){8}\}\n', '''    walk(visitor, func, start)
}

// Walks as `dfs_in_order` does, and checks nothing first. A body of one sequence takes no memory.
pub(crate) fn walk<V: Visitor>(
    visitor: &mut V,
    func: &LocalFunction,
    start: InstrSeqId,
) -> Result<(), WalkError<V::Error>> {
    let mut stack = Vec::new();
    let mut next = Some(Work::Enter(start));
    while let Some(work) = next {
        do_work(visitor, func, work, &mut stack)?;
        next = stack.pop();
    }
    Ok(())
}
'''),
]


def items():
    """The items by the path of the file that they are for, from the folder crates on."""
    with open(FILE, encoding='utf-8') as file:
        _, *parts = MARK.split(file.read())
    return dict(zip(parts[::2], parts[1::2]))


def add_clones(text):
    """The text with `Clone` for the types that can be copied in Rust alone."""
    return re.sub(rf'^(?=pub(?:\(crate\))? struct ({"|".join(COPIED)})\b)', '#[derive(Clone)]\n', text, flags=re.M)
