"""Rewrites Rattle's text without contracts as Rust's.

Each rule is a pattern and what is put in its place. A call that takes memory gets another name, since Rust's own type
has one of the old name that can't be refused: `push` is `try_push`.
"""
import re

import contracts
import derives

CRATE = 'rattle_std'
# What Rust's standard library has under the same name and with the same meaning stays as it is.
OTHER_MODULES = 'alloc|collections|env|fs|hash|process::Abort|rt|test'
REFUSABLE = 'push|insert|reserve|extend_from_slice|sort|push_str|to_vec|to_string|clone'
# Rust's maps and sets: a call `try_insert` of theirs is to come with another meaning.
MAPS = r'self\.map|self\.by_id|self\.ready|seen|kept|known|copies|(?<!\.)names'
# An allocator as an argument, and as a parameter or an argument.
ALLOCATOR = r'[*&]?(?:\w+\.)*_?alloc(?:ator)?(?:\(\))?(?=[,;)\]])'
PASSED = rf'(?:{ALLOCATOR}|_?alloc: (?:[\w:]+::)?(?:A|Global)(?=[,)]))'
# What only clauses name is unused in Rust.
LINTS = '''#![forbid(unsafe_code)]
#![allow(unused_imports, unused_variables, dead_code, non_contiguous_range_endpoints)]

'''

RULES = [
    # Ghosts.
    (r'^use std::marker::Model;\n', ''),
    (r'\bstd::marker::\{Model, PhantomData\}', 'std::marker::PhantomData'),
    (r'^(?:///.*\n)*impl(?:<[^{]*?>)? Model for [^{]*\{\s*\}\n', ''),
    # A type with drops of its own is any type.
    (r'^ *\w+: Drop,\n', ''),
    (r' \+ Drop\b', ''),
    (r'\b(\w+): Drop\b', r'\1'),
    (r'^ *#\[derive\(Drop\)\]\n', ''),
    (r'(#\[derive\([^)]*?), Drop\b', r'\1'),
    (r'<T: Copy>', '<T: Copy + TryClone>'),
    # The allocator is always Rust's: no call takes one, and no type has one.
    (r'^ *A: (?:Copy|Clone),\n', ''),
    (r'\bA: Allocator(?: \+ \w+)*, ', ''),
    (r', A: Allocator(?: \+ \w+)*(?: = Global)?>', '>'),
    (r', A>', '>'),
    (r'\bIntoIter<(\w+), Global>', r'IntoIter<\1>'),
    (r'^(?: *(?://|#\[).*\n)* *_?alloc(?:: \w+(?:\.allocator\(\))?)?,\n', ''),
    (r'^ *(?://[/!] *)?(?:alloc: Global|rt\.alloc\(\)),\n', ''),
    (rf'^ *let alloc = {ALLOCATOR};\n', ''),
    (rf'\bvec!\[\s*in {ALLOCATOR};? ?', f'{CRATE}::try_vec!['),
    (rf'\bformat!\(\s*in {ALLOCATOR}; ?', f'{CRATE}::try_format!('),
    (r'\.collect\(alloc\)', '.try_collect_vec()'),
    (rf'\({PASSED}(?:, ?)?', '('),
    (rf', {PASSED}', ''),
    (r'\*([\w.]+)\.allocator\(\)', f'{CRATE}::alloc::Global'),
    (r': `alloc`\s*///\s*is needed when the type is deleted\.', '.'),
    # Laws are for tests. Docs don't show them.
    (r'^pub mod ((?:record_)?laws);', r'#[doc(hidden)]\npub mod \1;'),
    (r'\b(?:record_laws|laws as \w+),\s*|,\s*laws as \w+(?=\s*\})', ''),
    (r'^pub use \w+::laws as \w+;\n', ''),
    # Where a crate exports those of another one in Rattle, their calls go too: they do nothing.
    (r'^use \w+::\w+_laws;\n', ''),
    (r'^(use \w+::\{[^}]*),\s*\w+_laws(?=\s*\};)', r'\1'),
    (r'^ *\w+_laws::\w+(?:::<\w+>)?\(\);\n', ''),
    # What is random comes from Rust's standard library.
    (r'\bsource: &impl RandomSource', ''),
    (r'^use std::random::RandomSource;\n', ''),
    (r'\b(RandomState::new|HashKeys::random)\(&?(?:rt|source)\)', r'\1()'),
    # Rust's calls on files take no system.
    (r'(\bFile::create_new|\.open)\((?:\w+\.)*rt, ', r'\1('),
    # Names of the standard library.
    (r'\bstd::process::\{Abort, (\w+)\}', rf'{CRATE}::process::{{Abort, \1}}'),
    (rf'\bstd::({OTHER_MODULES})\b', rf'{CRATE}::\1'),
    (r'\bstd::\{env, fs\}', f'{CRATE}::{{env, fs}}'),
    (r'^use thiserror::Error;\n', ''),
    # Printing.
    (r'<W: (?:std::)?fmt::Write>\(', '('),
    (r', W: (?:std::)?fmt::Write>\(', '>('),
    (r'\bfmt::Formatter<W>', "fmt::Formatter<'_>"),
    (r'\bFormatter<W>', "Formatter<'_>"),
    # A map that users name is Rust's.
    (r'^(pub type .* = )HashMap<', rf'\1{CRATE}::collections::HostMap<'),
    # Macros.
    (r'\b(assert(?:_eq|_ne)?|panic|unreachable)!\(&?rt;\s*', r'\1!('),
    # An id may go to another thread.
    (r'\bof: PhantomData<P>', 'of: PhantomData<fn() -> P>'),
    # What is refused.
    (r'\bVec::with_capacity\(', f'{CRATE}::vec::with_capacity('),
    (r'\bVec::from_slice\(', f'{CRATE}::vec::from_slice('),
    (r'\bString::from_str\(', f'{CRATE}::string::from_str('),
    (r'\bHashMap::(new|with_hasher)\(', rf'{CRATE}::collections::map_\1('),
    (r'\bHashSet::(new|with_hasher)\(', rf'{CRATE}::collections::set_\1('),
    (r'\bIdHashMap::(new|with_hasher)\(', rf'{CRATE}::collections::map_\1('),
    (r'\bIdHashSet::(new|with_hasher)\(', rf'{CRATE}::collections::set_\1('),
    (r'\bRc::new\(', f'{CRATE}::rc::new('),
    (r'\bBox::new\(', f'{CRATE}::boxed::new('),
    (r'\bBufWriter::new\(', f'{CRATE}::io::buf_writer('),
    (rf'\b({MAPS})\.insert\(', r'\1.try_put('),
    (rf'\.({REFUSABLE})\(', r'.try_\1('),
    (r'\bfn (push|insert|clone)(<[^(]*>)?\(&', r'fn try_\1\2(&'),
    (r'\.expect\(\s*&?rt,\s*', '.expect('),
    (r'\.unwrap\(&?rt\)', '.unwrap()'),
    (r'\bFail::new\(', f'{CRATE}::test::fail('),
    # Entries of programs and of tests.
    (r'(#\[test\]\n\s*fn \w+\()rt: HostRuntime(\)[^{]*\{)', r'\1\2 let rt = HostRuntime;'),
    # A copy by Rust's `Clone` can't be refused.
    (r'(#\[test\]\n)(fn \w+_with_a_refused_clone\()', r'\1#[should_panic(expected = "out of memory")]\n\2'),
    (r'^(fn main\()rt: HostRuntime(\)[^{]*\{)', r'\1\2\n    let rt = HostRuntime;'),
]
COMPILED = [(re.compile(pattern, re.M), text) for pattern, text in RULES]


ITEM = re.compile(r'(?P<attributes>(?:^#\[.*\]\n)*)(?P<item>^(?:pub(?:\(\w+\))? )?(?:struct|enum) (?P<name>\w+))', re.M)
# What is not to be printed: the keys of a hash. It gets a `Debug` that leaves them out.
SECRET = {'HashKeys'}


def add_debug(text):
    """The text with `Debug` for each type that has none."""
    def derived(item):
        name = item['name']
        has_debug = 'Debug' in item['attributes'] or re.search(rf'\bDebug for {name}\b', text)
        return item[0] if has_debug or name in SECRET else f'{item["attributes"]}#[derive(Debug)]\n{item["item"]}'

    return ITEM.sub(derived, text)


def rewrite_clones(text):
    """The trait `Clone` can be refused. A type that has it gets Rust's too, which is all that a set wants of its items."""
    parts = re.split(r'(#\[derive[^\n]*\n|//[^\n]*\n)', text)
    names = r'(?<!::)\bClone\b(?! \+ Eq \+ Hash)'
    parts = [part if at % 2 else re.sub(names, 'TryClone', part) for at, part in enumerate(parts)]
    text = ''.join(parts)
    return re.sub(r'^impl(<.*>)? TryClone for (.*?) \{\n', add_clone, text, flags=re.M)


def add_clone(found):
    generics, name = found[1] or '', found[2]
    return (f'impl{generics} Clone for {name} {{\n    fn clone(&self) -> Self {{\n'
            f'        {CRATE}::clone::cloned(self)\n    }}\n}}\n\n{found[0]}')


def with_prelude(text, is_root):
    """The text with the prelude, behind what has to come first in a file. The root of a crate has lints too."""
    lints = LINTS if is_root else ''
    head = re.match(r'(?:(?://!.*|#!\[.*\])?\n)*', text)
    return f'{text[:head.end()]}{lints}use {CRATE}::prelude::*;\n{text[head.end():]}'


def replace(rules, path, text):
    """The rewritten text of a file, by rules of this file: a pattern for its lines, and what takes their place."""
    for _, pattern, new in (it for it in rules if it[0] == path):
        text, count = re.subn(pattern, new, text)
        if not count:
            raise ValueError(f'nothing in {path} is like {pattern}')
    return text


def rewrite(text):
    """The text in Rust, without its prelude. Rules see no strings."""
    strings = []

    def hide(token):
        if token.lastgroup != 'string':
            return token[0]
        strings.append(token[0])
        return f'"\x05{len(strings) - 1}\x06"'

    text = contracts.TOKEN.sub(hide, text)
    for pattern, new in COMPILED:
        text = pattern.sub(new, text)
    text = contracts.without_gaps(rewrite_clones(add_debug(text)))
    return derives.write_out(re.sub('"\x05(\\d+)\x06"', lambda found: strings[int(found[1])], text))
