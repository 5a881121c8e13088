"""What calls require, and how the Rust crate sees to it.

A condition that Rust can test becomes a guard, which panics. Most guards come first in the function that requires the
condition. INSERTIONS has the others, and what tests the promises that a visitor makes.
"""
import dataclasses
import re


@dataclasses.dataclass
class Guard:
    # What is required, in words.
    words: str
    # Rust's condition, or nothing if the function calls another one that tests it, or if an insertion does.
    condition: str = ''
    # Why nothing is tested, if so.
    reason: str = ''
    # Statements that test it, where a condition does not do.
    statements: str = ''


DISTINCT = 'rattle_std::guards::are_distinct(ids.iter().map(|id| id.index()))'
CLOSURE = 'a closure in Rust takes every argument of its type'
NESTED = 'the body is nested from `start`'
CHECK = '''match walrus_traversals::is_nested(func, start) {
        Ok(true) => {}
        Ok(false) => panic!("required: the body is nested from `start`"),
        Err(_) => return Err(WalkError::Memory),
    }'''

# What a clause requires, as a pattern, in order: the first that fits counts.
GUARDS = [
    # Arenas and tables.
    (r'IsLive self\.(old|now)[.\w]* id', Guard('`id` is live', 'self.contains(id)')),
    (r'All \(IsLive self\.old[.\w]*\) ids\.now',
     Guard('each of `ids` is live', 'ids.iter().all(|id| self.contains(*id))')),
    (r'All \(IsLive types\.[.\w]*\) roots\.now', Guard('each of `roots` is live', 'types.contains_all(roots)')),
    (r'IsDistinct nat_eq ids\.now', Guard('no id comes twice in `ids`', DISTINCT)),
    (r'ClonesAreEqual .*', Guard('a clone of the value is equal to it')),
    (r'(F\.pre make|F\.IsAlwaysCallable|FnOnceTakesAt|TakesNew|TakesEach) .*|AfterFilling .*TakesNew .*',
     Guard('the closure takes what it is given', reason=CLOSURE)),
    (r'IsSome \(signature_at self\.now id\)',
     Guard('`id` is a live function type', 'self.contains(id) && self.get(id).kind().is_function()')),
    (r'IsSome \(signature_at types\.old ty\)',
     Guard('`ty` is a live function type', 'types.contains(ty) && types.get(ty).kind().is_function()')),
    (r'IsSome \(signature_at types\.old func_ty\)',
     Guard('`func_ty` is a live function type',
           'types.contains(func_ty) && types.get(func_ty).kind().is_function()')),
    (r'\(index_space \(section_of groups\.now\)\)\.count < 2 \^ 32',
     Guard('there are fewer than 2^32 entries',
           'groups.iter().map(|group| entry_count(group) as u64).sum::<u64>() < 1 << 32')),
    (r'place ≤ length groups\.now', Guard('`place` is not past the end', 'place <= groups.len()')),
    # Modules.
    (r'IsWrittenAgain bytes\.now new\.now',
     Guard('`new` is what `rename_module` made of `bytes`',
           reason='only the caller knows with which types and indices it was made')),
    # Types and indices.
    (r'IsSome \(signature_of self\.now\.kind\)', Guard('it is a function type', 'self.kind().is_function()')),
    (r'IsSome \(signature_of self\.now\)', Guard('it is a function type', 'self.is_function()')),
    (r'IsSome \(struct_of self\.now\)', Guard('it is a struct type', 'self.is_struct()')),
    (r'IsSome \(array_of self\.now\)', Guard('it is an array type', 'self.is_array()')),
    (r'\((type|func|global)_indices self\.old\)\.index id ≡ None',
     Guard('`id` has no index', r'self.get_\1_index(id).is_err()')),
    (r'\((type|func|global)_indices self\.old\)\.count < 2 \^ 32',
     Guard('the next index is below 2^32', r'self.\1s.count < 1 << 32')),
    (r'All \(λ id\. \(type_indices self\.old\)\.index id ≡ None\) ids\.now',
     Guard('none of `ids` has an index', 'ids.iter().all(|id| self.get_type_index(*id).is_err())')),
    (r'\(type_indices self\.old\)\.count \+ length ids\.now ≤ 2 \^ 32',
     Guard('the next indices are below 2^32', 'self.types.count + ids.len() as u64 <= 1 << 32')),
    (r'index < length self\.old\.types', Guard('`index` has a type', '(index as usize) < self.types.len()')),
    (r'index < length self\.old', Guard('`index` is below the length', 'index < self.len()')),
    (r'index ≤ length self\.old', Guard('`index` is not past the end', 'index <= self.len()')),
    (r'first \+ count < 2 \^ 64',
     Guard('`first + count` is below 2^64', 'first.checked_add(count).is_some()')),
    # Instructions, functions and their sequences.
    (r'number ≢ no_location', Guard('`number` is not 0xffff_ffff', 'number != NO_LOCATION')),
    (r'self\.now ≢ no_location', Guard('it is not the default location', '!self.is_default()')),
    (r'id < length self\.(old|now)|IsLocal self\.(old|now) id', Guard('`id` is in the list', 'self.contains(id)')),
    (r'id < length funcs\.old|IsLocal funcs\.old id', Guard('`id` is one of `funcs`', 'funcs.contains(id)')),
    (r'Knows self\.(old|now) id', Guard('`id` is known', 'self.contains_seq(id)')),
    (r'Knows self\.(old|now)\.body id', Guard('`id` is known', 'self.contains_block(id)')),
    (r'IsSome self\.(old|now)(\.body)?\.entry', Guard('there is an entry', 'self.entry().is_some()')),
    (r'IsKnown self\.(old|now)', Guard('the sequence is known', 'self.builder.contains_seq(self.id)')),
    (r'position ≤ length \(instrs_of .*\)',
     Guard('`position` is not past the end', 'position <= self.instrs().len()')),
    (r'(KeepsFunction|KeepsBuilder) .*|AfterFilling .*KeepsFunction .*', Guard('the closure does not replace its builder')),
    (r'IsNested func\.old\.body start', Guard(NESTED, statements=CHECK)),
    (r'IsNested func\.now\.body start', Guard(NESTED, statements=CHECK)),
]
# When a guard panics, by what it requires.
BROKEN = {
    '`id` is live': '`id` is not live',
    'each of `ids` is live': 'one of `ids` is not live',
    'each of `roots` is live': 'one of `roots` is not live',
    'no id comes twice in `ids`': 'an id comes twice in `ids`',
    'a clone of the value is equal to it': 'a clone of the value is not equal to it',
    '`id` is a live function type': '`id` is not a live function type',
    '`ty` is a live function type': '`ty` is not a live function type',
    '`func_ty` is a live function type': '`func_ty` is not a live function type',
    'there are fewer than 2^32 entries': 'there are 2^32 entries or more',
    '`place` is not past the end': '`place` is past the end',
    'it is a function type': 'it is no function type',
    'it is a struct type': 'it is no struct type',
    'it is an array type': 'it is no array type',
    '`id` has no index': '`id` has an index',
    'the next index is below 2^32': 'no index below 2^32 is left',
    'none of `ids` has an index': 'one of `ids` has an index',
    'the next indices are below 2^32': 'too few indices below 2^32 are left',
    '`index` has a type': '`index` has no type',
    '`index` is below the length': '`index` is not below the length',
    '`index` is not past the end': '`index` is past the end',
    '`first + count` is below 2^64': '`first + count` is 2^64 or more',
    '`number` is not 0xffff_ffff': '`number` is 0xffff_ffff',
    'it is not the default location': 'it is the default location',
    '`id` is in the list': '`id` is not in the list',
    '`id` is one of `funcs`': '`id` is none of `funcs`',
    '`id` is known': '`id` is not known',
    'there is an entry': 'there is no entry',
    'the sequence is known': 'the sequence is not known',
    '`position` is not past the end': '`position` is past the end',
    'the closure does not replace its builder': 'the closure replaces its builder',
    NESTED: 'the body is not nested from `start`',
    'hooks keep which sequences are inside a sequence': 'a hook changes which sequences are inside a sequence',
}
# Calls whose guard is in the call that they make.
DELEGATED = {'ArenaSet::insert', 'UsedIds::of'}

# By file: a pattern for lines of the rewritten text, and what takes their place.
INSERTIONS = [
    ('src/arena_set.rt', r'( +let key = value\.)try_clone\(\)\?;\n',
     r'\1clone();\n        assert!(key == value, "required: a clone of the value is equal to it");\n'),
    ('src/function_builder/nested.rt', r'( +let id = self\.builder\.add_seq\(ty\)\?;\n)',
     r'\1        let function: *const _ = &*self.builder;\n'),
    ('src/function_builder/nested.rt', r'( +make\(&mut inner\)\?;\n)', r'''\1        assert!(
            std::ptr::eq(function, &*inner.builder),
            "required: the closure does not replace its builder"
        );
'''),
    ('src/converting_adapters.rt', r'( +convert\(body, i, \*local\)\?;\n)',
     r'''        let (function, id): (*const _, _) = (body.builder(), body.id());
\1        assert!(
            std::ptr::eq(function, body.builder())
                && body.id() == id
                && body.builder().contains_seq(id),
            "required: the closure does not replace its builder"
        );
'''),
    # The sequences inside a sequence, before it is visited and after.
    ('src/traversals_mut.rt', r'( +visit_block\(visitor, func, seq, &mut stack\)\?;\n)',
     r'''        let children_of = |seq: &InstrSeq| {
            let mut children: Vec<InstrSeqId> = Vec::new();
            for (instr, _) in &seq.instrs {
                try_push_children(&mut children, instr).map_err(|_| WalkError::Memory)?;
            }
            Ok::<_, WalkError<V::Error>>(children)
        };
        let children = children_of(func.block(seq))?;
\1        assert!(
            children_of(func.block(seq))? == children,
            "required: hooks keep which sequences are inside a sequence"
        );
'''),
]
# What a function requires of the visitor that it is given, beside its clauses.
PROMISES = {'dfs_pre_order_mut': 'hooks keep which sequences are inside a sequence'}


def guard_of(clause):
    """The guard of what a clause requires."""
    for pattern, guard in GUARDS:
        found = re.fullmatch(pattern, clause)
        if found:
            return dataclasses.replace(guard, condition=found.expand(guard.condition))
    raise ValueError(f'scripts/rust/guards.py has no guard for: {clause}')


def guards_of(function):
    """The guards of a function, each once."""
    found = []
    for _, clause in function.requires:
        guard = guard_of(clause)
        if guard.words not in [it.words for it in found]:
            found.append(guard)
    promise = PROMISES.get(function.path())
    return [*found, Guard(promise)] if promise else found


def statements(function):
    """What comes first in the body of the function."""
    indent = '        ' if function.owner else '    '
    if function.path() in DELEGATED:
        return ''
    lines = []
    for guard in guards_of(function):
        if guard.statements:
            lines.append(guard.statements.replace('\n    ', '\n' + indent))
        elif guard.condition:
            lines.append(f'assert!({guard.condition}, "required: {guard.words}");')
    return ''.join(f'\n{indent}{it}' for it in lines)


def panics(function):
    """When the function panics at a guard, in words."""
    return [BROKEN[it.words] for it in guards_of(function) if not it.reason]
