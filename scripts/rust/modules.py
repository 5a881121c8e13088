"""The modules of the Rust crate: which libraries each of them has, and where names are there."""
import collections
import re
import textwrap

CRATE = 'ruffdresser'
# By module: its libraries, and those of them whose docs its page has.
MODULES = {
    'arena': (['walrus_id', 'walrus_arena'], ['walrus_arena']),
    'types': (['walrus_ty', 'walrus_sections', 'walrus_normal_form', 'walrus_normal_form_check', 'walrus_canonical',
               'walrus_types'],
              ['walrus_types', 'walrus_canonical']),
    'ir': (['ir_operators', 'ir_instr', 'ir_const_expr', 'walrus_ir'], ['walrus_ir']),
    'body': (['walrus_functions', 'walrus_nesting', 'walrus_traversals', 'walrus_traversals_mut', 'walrus_body'],
             ['walrus_body']),
    'passes': (['walrus_unused', 'walrus_passes'], ['walrus_passes']),
    'text': (['walrus_text'], ['walrus_text']),
    'wasm': (['wasm_binary', 'wasm_module', 'wasm_normalise'], ['wasm_normalise', 'wasm_module', 'wasm_binary']),
    # What the programs share. Docs don't show it.
    'programs': (['command_line', 'error_context'], []),
}
# What a module has of another one, since walrus has it there.
ELSEWHERE = {
    'ir': 'pub use crate::body::{Visitor, VisitorMut, dfs_in_order, dfs_pre_order_mut};\n',
    'body': 'pub use walrus_traversals::NestedBody;\n',
}
HOME = {library: module for module, (libraries, _) in MODULES.items() for library in libraries}
LIBRARY = f'(?<![\\w:])({"|".join(HOME)})'
LIBRARY_NAME = re.compile(rf'{LIBRARY}::(\w+)')
STD = re.compile(r'(?<![\w:])rattle_std::')
USE = re.compile(rf'^(?P<head> *(?:pub )?use ){LIBRARY}::(?P<names>\{{[^}}]*\}}|\w+(?: as \w+)?);', re.M)
# What the root of a library exports: names of its own modules or of other libraries, and modules with laws.
EXPORT = re.compile(r'^pub use (\w+)::(?:\w+::)*(?:\{([^}]*)\}|(\w+));', re.M)
LAWS = re.compile(r'^pub mod (\w*laws);', re.M)


def exports(root, is_own=False):
    """The names that a library exports, given the text of its root. They may be its own alone."""
    found = [several or one for first, several, one in EXPORT.findall(root) if not is_own or first not in HOME]
    return [name for names in found for name in re.findall(r'\w+', names)]


class Names:
    """Where the public names of libraries are, given the texts of the libraries' roots."""

    def __init__(self, roots):
        self.own = {library: exports(text, is_own=True) for library, text in roots.items()}
        self.laws = {library: LAWS.findall(text) for library, text in roots.items()}

    def place(self, library, name):
        """The module of a name that a library exports, and its name there: modules with laws get others."""
        if name in self.laws[library]:
            return HOME[library], f'{library}_{name}'
        known = [name, name.removeprefix('try_')]
        homes = [it for it in [library, *self.own] if any(name in self.own[it] for name in known)]
        return HOME[homes[0]], name

    def places(self, root):
        """The module in which a user finds each name, given the text of the crate's root."""
        found = {name: f'{CRATE}::{HOME[library]}' for library, names in self.own.items() for name in names}
        return {**found, **{name: CRATE for name in exports(root)}}

    def text(self, module):
        """The items of a module: its libraries, and what it exports of them."""
        libraries, _ = MODULES[module]
        lines = [f'pub(crate) mod {it};' for it in libraries] + ['']
        lines += [textwrap.fill(f'pub use {it}::{{{", ".join(self.own[it])}}};', 100, subsequent_indent='    ')
                  for it in libraries if self.own[it]]
        lines += [f'#[doc(hidden)]\npub use {library}::{it} as {library}_{it};'
                  for library in libraries for it in self.laws[library]]
        return '\n'.join(lines) + '\n' + ELSEWHERE.get(module, '')

    def outside(self, text):
        """A text that uses the libraries, as one that uses the crate."""
        text = LIBRARY_NAME.sub(lambda it: '::'.join([CRATE, *self.place(it[1], it[2])]), USE.sub(self.use, text))
        return STD.sub(f'{CRATE}::rattle_std::', text)

    def use(self, found):
        """A `use` of names of a library, as one for each module where they are."""
        names = collections.defaultdict(list)
        for name, other in re.findall(r'(\w+)(?: as (\w+))?', found['names']):
            module, new = self.place(found[2], name)
            alias = other or name
            names[module].append(new if new == alias else f'{new} as {alias}')
        return '\n'.join(f'{found["head"]}{CRATE}::{module}::{{{", ".join(its)}}};' for module, its in names.items())


def inside(library, text):
    """A text of a library, as one of the crate."""
    text = re.sub(r'(?<![\w:$])crate::', f'crate::{HOME[library]}::{library}::', text)
    text = text.replace('](crate)', f'](crate::{HOME[library]})')
    text = re.sub(f'{LIBRARY}::', lambda it: f'crate::{HOME[it[1]]}::{it[1]}::', text)
    text = re.sub(f'`{LIBRARY}`', lambda it: f'`{HOME[it[1]]}`', text)
    return STD.sub('crate::rattle_std::', text)
