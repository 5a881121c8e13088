"""Examples in docs, as a Rust program has them. What they leave out is added in lines that docs don't show."""
import collections
import re

CRATE = 'rattle_std'
# What is between two fences in a comment.
FENCED = re.compile(r'^(?P<head> *//[/!]) ```(?P<kind>\w*)\n(?P<code>(?:(?P=head)(?! ```).*\n)*)(?P=head) ```$', re.M)
RULES = [(re.compile(pattern, re.M), text) for pattern, text in [
    # Contracts.
    (r'^ *(?:requires|ensures|ghost)\b.*[};]\n\n?', ''),
    (r'^#\[derive\(Drop\)\]\n', ''),
    (r'(\)(?: -> .*)?)\n *\{$', r'\1 {'),
    # What takes memory, and what the system gives.
    (rf'\b{CRATE}::try_vec!(\[.*?\])\?', r'vec!\1'),
    (r'\.try_(push|insert|extend_from_slice)\((.*)\)\?', r'.\1(\2)'),
    (r'\.try_(push|insert)\(', r'.\1('),
    (r'\bprintln!\(rt; (.*)\)\?', r'println!(\1)'),
    (rf'\b{CRATE}::test::fail\((".*?")\)', r'\1.into()'),
    (r'^ *alloc,\n', ''),
    # What a call returns of refused memory where the one here panics.
    (r'\blet Ok\((\w+)\) = (.*) else \{\n.*"out of memory".*\n\};', r'let \1 = \2;'),
    (r'^match (.*) \{\n    Ok\((\w+)\) => (.*),\n.*"out of memory".*\n\}', r'let \2 = \1;\n\3;'),
    (r'^( *)Ok\((Nesting::\w+\(_\)|_)\) =>', r'\1\2 =>'),
    (r'^ *Err\(_\) => Err\(WalkError::Memory\),\n', ''),
    (r'\.ok\(\);', ';'),
    # Rust has to know the type of items.
    (r'\bArenaSet::with_hash_keys\(', 'ArenaSet::<String>::with_hash_keys('),
    # A builder's call returns the builder.
    (r'^( *)((?:again|block|body)\.(?!loop_|block|if_else)\w+\(.*\))$', r'\1\2;\n\1Ok(())'),
    # A hook that can't be refused.
    (r'\btype Error = AllocError;', 'type Error = Infallible;'),
    (r'\bvisit_id\((.*)\) -> Result<\(\), AllocError>', r'visit_id(\1) -> Result<(), Infallible>'),
    (r'match id \{\n( *)    (.*) => (.*),\n.*_ => Ok\(\(\)\),\n *\}',
     r'if let \2 = id {\n\1    \3;\n\1}\n\1Ok(())'),
]]
# A function whose only error would be refused memory, and what it returns.
RESULT = re.compile(r'-> Result<(.*), AllocError> \{')
OK = re.compile(r'(^ *|=> |return )Ok\((.*)\)([,;]?)$', re.M)


# The lines that make what examples use and don't make themselves.
LINES = '''
let add_handle = FunctionId::from_index(1);
let args = Vec::new();
let mut body = builder.func_body();
let mut builder = FunctionBuilder::new(&mut types, &[], &[]);
let bytes = [0, 0x61, 0x73, 0x6D, 1, 0, 0, 0, 1, 4, 1, 0x60, 0, 0].as_slice();
let fields = Vec::new();
let mut func = builder.local_func(Vec::new());
let function = CompositeType::Function(FunctionType::new(Vec::new(), Vec::new()));
let mut funcs = LocalFunctions::new_after(0);
let groups = decode_types(&[2, 0x5F, 0, 0x60, 0, 0])?;
let id = funcs.add(func);
let import = FunctionId::from_index(0);
let import_ty = types.add(&[ValType::F64], &[ValType::F64]);
let imported = 1;
let index = 0;
let init = ConstExpr::Value(Value::I32(0));
let instr = &Instr::Unreachable(Unreachable {});
let keys = HashKeys::fixed();
let mut locals = ModuleLocals::new();
let map = &[1, 0];
let memory = MemoryId::from_index(0);
let new_indices = [Some(0)].as_slice();
let mut out = Vec::new();
let panic = FunctionId::from_index(0);
let snipped = FunctionId::from_index(0);
let start = func.entry_block();
let structure = decode_types(&[1, 0x5F, 0])?.remove(0);
let table = TableId::from_index(0);
let ty = types.add(&[ValType::I32], &[ValType::I32]);
let mut types = ModuleTypes::new();
let wanted = decode_types(&[2, 0x60, 0, 0, 0x5F, 0])?;
let wrapper = FunctionId::from_index(2);
'''
# Those of a file that means something else by such a name.
CONTENT = '[1, 0x60, 0, 0].as_slice();'
LINES_OF_FILES = {
    'src/canonical_form.rt': '''
let lone = decode_types(&[1, 0x5F, 1, 0x63, 0, 0])?.remove(0);
let names_0 = match lone { GroupAt::Single(it) => it, _ => panic!() };
let group = decode_types(&[1, 0x4E, 1, 0x5F, 1, 0x63, 1, 0])?.remove(0);
let list_of_names_1 = match group { GroupAt::Rec(it) => it, _ => panic!() };
''',
    'src/customs.rt': f'let types = {CONTENT}',
    'src/decode/reader.rt': f'let bytes = {CONTENT}',
    'src/id_visitor.rt': 'let func = &builder.local_func(Vec::new());',
    'src/index_maps.rt': 'let groups = &decode_types(&[2, 0x5F, 0, 0x60, 0, 0])?;',
    'src/instr_visitor.rt': 'let func = &builder.local_func(Vec::new());',
    'src/normal_form.rt': '''
let none = Listed::default();
let function = EntryAt { comp: CompAt::Function { params: none.clone(), results: none }, is_final: true, supertype: None };
let structure = EntryAt { comp: CompAt::Struct { fields: Listed::default() }, is_final: true, supertype: None };
''',
    'src/outdated.rt': f'let types = {CONTENT}',
    'src/rename_types.rt': '''
let mut func = FunctionBuilder::new(&mut ModuleTypes::new(), &[], &[]).local_func(Vec::new());
let types = [TypeId::from_index(0), TypeId::from_index(1)];
''',
    'src/used_section.rt': 'let function = decode_types(&[1, 0x60, 0, 0])?.remove(0);',
}
VARIABLE = re.compile(r'^let (?:mut )?(\w+) = (.*)', re.M)
# How an example begins that has items alone.
ITEM = re.compile(r'(?:pub )?(?:fn|struct|impl)\b')
DEFINED = re.compile(r'^struct (\w+)', re.M)
TAIL = '# Ok::<(), Box<dyn std::error::Error>>(())'
OF_STD = {'Infallible': 'std::convert'}


class Examples:
    """The examples of a file, given where public names are. They are run only if users see them."""

    def __init__(self, path, places, is_seen):
        self.is_seen, self.places = is_seen, {**places, **OF_STD}
        lines = LINES + LINES_OF_FILES.get(path, '')
        self.lines = {found[1]: (found[0], found[2]) for found in VARIABLE.finditer(lines)}
        # The examples that define types, by these.
        self.defined = {}

    def rewrite(self, text):
        """The text of the file with its examples in Rust, given that calls there have the names and results of Rust's."""
        return FENCED.sub(lambda it: it[0] if it['kind'] not in ('', 'rust') else self.rewritten(it), text)

    def rewritten(self, example):
        code = rust_code(example)
        lines = ['```', *self.whole(code), '```'] if self.is_seen else ['```ignore', *code.split('\n'), '```']
        return '\n'.join(f'{example["head"]} {line}'.rstrip() for line in lines)

    def whole(self, code):
        """The lines of an example, with those that docs don't show."""
        added = self.definitions(code) + self.made(code, set())
        shown, hidden = self.uses(code), [*self.uses('\n'.join(added), code), *added]
        lines = [*shown, *(f'# {it}' for it in hidden), *[''] * bool(shown), *code.split('\n')]
        self.defined.update({name: code for name in DEFINED.findall(code)})
        can_fail = not ITEM.match(code) and re.search(r'\?|\breturn Err', '\n'.join(lines))
        return [*lines, TAIL] if can_fail else lines

    def definitions(self, code):
        """The lines of other examples that define what this one uses."""
        names = [it for it in self.defined if re.search(rf'\b{it}\b', code) and it not in DEFINED.findall(code)]
        return [line for it in names for line in self.defined[it].split('\n')]

    def made(self, code, known):
        """The lines that make what the code uses and does not make."""
        lines = []
        for name in () if ITEM.match(code) else re.findall(r'(?<![\w.:])[a-z]\w*\b(?!\s*[(:!])', bare(code)):
            if name in self.lines and name not in known and not is_made(name, code):
                known.add(name)
                line, value = self.lines[name]
                lines += [*self.made(value, known), line]
        return lines

    def uses(self, code, shown=''):
        """A line for each module of names that the code uses, but the shown code does not."""
        names = collections.defaultdict(list)
        for name in sorted(self.names(code) - self.names(shown)):
            names[self.places[name]].append(name)
        return [f'use {module}::{its[0] if len(its) == 1 else "{" + ", ".join(its) + "}"};'
                for module, its in sorted(names.items())]

    def names(self, code):
        """The public names that the code uses: types, and functions that it calls."""
        found = re.findall(r'(?<![\w.:])([A-Z]\w*|[a-z]\w*(?=(?:::<.*>)?\())', bare(code))
        return {it for it in found if it in self.places and not re.search(rf'\b(?:fn|struct) {it}\b', code)}


def bare(code):
    """The code without comments and strings."""
    return re.sub(r'//.*|".*?"', '', code)


def is_made(name, code):
    """Whether the code has a pattern with this variable."""
    return re.search(rf'\blet\b[^=;]*\b{name}\b|\bfor\b [^=;]*\b{name}\b.* in |\|[^|{{;]*\b{name}\b[^|{{;]*\|', code)


def rust_code(example):
    """The text of an example in Rust."""
    code = re.sub(rf'^{example["head"]} ?', '', example['code'], flags=re.M)
    for pattern, new in RULES:
        code = pattern.sub(new, code)
    if RESULT.search(code):
        code = OK.sub(r'\1\2\3', RESULT.sub(r'-> \1 {', code))
    return code.rstrip('\n')
