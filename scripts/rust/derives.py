"""Writes out what the toolchain's standard library derives and Rust's does not: copies that may be refused memory, errors
with messages, and traits that bound no parameter."""
import dataclasses
import re

import contracts

ITEM = re.compile(
    r'(?P<attributes>(?:^#\[.*\]\n)+)(?P<head>(?:pub(?:\(\w+\))? )?(?P<kind>struct|enum) (?P<name>\w+))'
    r'(?P<parameters><[^>{(;]*>)?\s*(?P<opening>[{(;])', re.M)
ATTRIBUTE = re.compile(r'#\[(\w+)(?:\((.*)\))?\]')
PART = re.compile(r'\s*(?P<attributes>(?:#\[[^\n]*\]\s*)*)(?:pub(?:\([^)]*\))?\s+)?(?P<rest>.*)', re.S)
DERIVE = re.compile(r'#\[derive\((.*)\)\]\n')
WHERE = re.compile(r' *#\[derive_where\((.*)\)\]\n')
# A field in a message, or in what is behind it: `{0}` or `.0`.
FIELD_OF_MESSAGE = re.compile(r'(\{|(?<![\w)])\.)(\w+)')


@dataclasses.dataclass
class Part:
    """A variant or a field: its attributes, its name, and what is behind that."""
    attributes: dict
    name: str
    rest: str

    def fields(self):
        """The fields of a variant. The name of one without a name is its number."""
        named = self.rest.startswith('{')
        parts = parts_of(self.rest[1:-1]) if self.rest[:1] in ('{', '(') else []
        return [part(it, None if named else str(at)) for at, it in enumerate(parts)]


def parts_of(text):
    """What is between the commas that are in no brackets."""
    depth, parts = 0, ['']
    for at, letter in enumerate(text):
        depth += (letter in '([{<') - (letter in ')]}' or letter == '>' and text[at - 1] != '-')
        if letter == ',' and depth == 0:
            parts.append('')
        else:
            parts[-1] += letter
    return [it.strip() for it in parts if it.strip()]


def part(text, name=None):
    found = PART.fullmatch(text)
    rest = found['rest'].strip()
    name = name or re.match(r'\w+', rest)[0]
    return Part(dict(ATTRIBUTE.findall(found['attributes'])), name, rest.removeprefix(name).lstrip(': '))


class Item:
    """A struct or an enum. A struct is its only variant."""

    def __init__(self, found, body):
        self.name, self.parameters = found['name'], found['parameters'] or ''
        self.derived = [it for names in DERIVE.findall(found['attributes']) for it in names.split(', ')]
        self.where = [it for names in WHERE.findall(found['attributes']) for it in names.split(', ')]
        body = re.sub(r'//[^\n]*', '', body)
        struct = Part(dict(ATTRIBUTE.findall(found['attributes'])), '', body)
        self.variants = [part(it) for it in parts_of(body[1:-1])] if found['kind'] == 'enum' else [struct]

    def impl(self, trait, body, bound=''):
        """An `impl` for the item. Each of its types may be bound by a trait too."""
        given = parts_of(self.parameters[1:-1])
        names = [it.split(':')[0].strip() for it in given]
        if bound:
            given = [it if it[0] == "'" else f'{it} + {bound}' if ':' in it else f'{it}: {bound}' for it in given]
        of, to = (f'<{", ".join(it)}>' if it else '' for it in (given, names))
        return f'\nimpl{of} {trait} for {self.name}{to} {{{body}}}\n'

    def made(self, variant, values):
        """A variant of these values of its fields. As a pattern it may leave out some."""
        path, names = f'Self::{variant.name}' if variant.name else 'Self', [it.name for it in variant.fields()]
        if not names:
            return path
        if names[0].isdigit():
            return f'{path}({", ".join(values.get(it, "_") for it in names)})'
        fields = [it if values[it] == it else f'{it}: {values[it]}' for it in names if it in values]
        return f'{path} {{ {", ".join(fields + [".."] * (len(fields) < len(names)))} }}'

    def counted(self):
        """The fields of a struct that count in comparisons."""
        return [it.name for it in self.variants[0].fields() if 'derive_where' not in it.attributes]

    def match(self, arm):
        """A match with an arm for each variant. Rust sees that an enum has no value only at the enum itself."""
        arms = ''.join(f'\n            {arm(it)},' for it in self.variants)
        return f'\n        match {"self" if arms else "*self"} {{{arms}\n        }}'


def method(signature, body):
    return f'\n    fn {signature} {{{body}\n    }}\n'


def variable(field):
    """What a pattern binds a field to."""
    return f'field_{field}' if field.isdigit() else field


def try_clone(item, is_bound):
    """A copy that may be refused memory. It may be that each type has to have one, too."""
    def arm(variant):
        variables = {it.name: variable(it.name) for it in variant.fields()}
        copies = {name: f'{it}.try_clone()?' for name, it in variables.items()}
        return f'{item.made(variant, variables)} => Ok({item.made(variant, copies)})'

    is_copy = 'Copy' in item.derived + item.where
    body = '\n        Ok(*self)' if is_copy else item.match(arm)
    signature = 'try_clone(&self) -> Result<Self, rattle_std::alloc::AllocError>'
    bound = ('Copy' if is_copy else 'TryClone') if is_bound else ''
    return item.impl('rattle_std::TryClone', method(signature, body), bound)


def error(item):
    """`Display` by the messages in `#[error("..")]`, and `Error`."""
    def arm(variant):
        message = variant.attributes['error']
        message = '"{0}"' if message == 'transparent' else message
        variables = {name: variable(name) for _, name in FIELD_OF_MESSAGE.findall(message)}
        message = FIELD_OF_MESSAGE.sub(lambda it: it[1].strip('.') + variable(it[2]), message)
        return f'{item.made(variant, variables)} => write!(f, {message})'

    signature = "fmt(&self, f: &mut std::fmt::Formatter<'_>) -> std::fmt::Result"
    return item.impl('std::fmt::Display', method(signature, item.match(arm))) + item.impl('std::error::Error', '')


def without_bounds(item, name):
    """The `impl` of a trait in `#[derive_where(..)]`."""
    fields = item.counted()
    shown = [it.name for it in item.variants[0].fields() if it.attributes.get('derive_where') != 'skip']
    equal = ' && '.join(f'self.{it} == other.{it}' for it in fields)
    order = ''.join(f'\n            .then_with(|| self.{it}.cmp(&other.{it}))' for it in fields)
    debug = ''.join(f'\n            .field("{it}", &self.{it})' for it in shown)
    hashed = ''.join(f'\n        std::hash::Hash::hash(&self.{it}, state);' for it in fields)
    path, body = {
        'Copy': ('Copy', ''),
        'Clone': ('Clone', method('clone(&self) -> Self', '\n        *self')),
        'Eq': ('Eq', ''),
        'PartialEq': ('PartialEq', method('eq(&self, other: &Self) -> bool', f'\n        {equal}')),
        'PartialOrd': ('PartialOrd', method(
            'partial_cmp(&self, other: &Self) -> Option<std::cmp::Ordering>', '\n        Some(self.cmp(other))')),
        'Ord': ('Ord', method(
            'cmp(&self, other: &Self) -> std::cmp::Ordering', f'\n        std::cmp::Ordering::Equal{order}')),
        'Hash': ('std::hash::Hash', method('hash<H: std::hash::Hasher>(&self, state: &mut H)', hashed)),
        'Debug': ('std::fmt::Debug', method(
            "fmt(&self, f: &mut std::fmt::Formatter<'_>) -> std::fmt::Result",
            f'\n        f.debug_struct("{item.name}"){debug}\n            .finish()')),
    }[name]
    return item.impl(path, body)


def written(item):
    """The traits of an item that Rust does not derive."""
    parts = [try_clone(item, is_bound=True)] if 'Clone' in item.derived else []
    parts += [try_clone(item, is_bound=False)] if 'Clone' in item.where else []
    parts += [error(item)] if 'Error' in item.derived else []
    return ''.join(parts + [without_bounds(item, it) for it in item.where])


def write_out(text):
    """The text with these traits behind each item."""
    at, parts = 0, []
    while found := ITEM.search(text, at):
        start = found.start('opening')
        closing = {'{': '}', '(': ')'}.get(found['opening'])
        end = contracts.end_of(text, start, found['opening'], closing) if closing else start
        behind = end + (text[end] == ';')
        attributes = DERIVE.sub(rust_derives, WHERE.sub('', found['attributes']))
        attributes = re.sub(r'#\[error\(.*\)\]\n', '', attributes)
        body = re.sub(r'^ *#\[error\(.*\)\]\n', '', WHERE.sub('', text[found.end('attributes'):behind]), flags=re.M)
        traits = written(Item(found, text[start:end]))
        parts += [text[at:found.start()], attributes, body, f'\n{traits.rstrip()}' if traits else '']
        at = behind
    return ''.join(parts) + text[at:]


def rust_derives(found):
    """The attribute with the traits that Rust derives."""
    names = [it for it in found[1].split(', ') if it != 'Error']
    return f'#[derive({", ".join(names)})]\n' if names else ''
