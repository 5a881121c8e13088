"""Calls whose only error is refused memory return their value alone in Rust.

Such a call keeps its body in a fallible form, which has another name: `try_add` for `add`. Libraries and tests call
fallible forms, so that they need no other change. Before each fallible form comes the call itself. It returns what is
in the fallible form's `Ok`, and panics where that returns an error. Docs don't show fallible forms.

A call whose closure can be refused nothing but memory has a fallible form too. The closure of the call itself returns
no `Result`. In a trait the call itself is the one to implement, and the fallible form is provided.
"""
import dataclasses
import re

import contracts
import rewriting

OR_PANIC = 'rattle_std::alloc::or_panic'
# The fallible forms of calls whose names can't have `try_` in front.
NAMES = {'delete': 'delete_or_error', 'try_delete': 'try_delete_or_error'}
# Names that calls without fallible forms have too. What is before the dot decides: such a call is on the receiver of
# WITHOUT, or on none of WITH.
WITHOUT = {'block': 'func'}
WITH = {'remove': ['set', 'types'], 'finish': ['builder', 'f']}
SIGNATURE = re.compile(
    r'(?P<head>.*?\bfn )(?P<name>\w+)(?P<middle>.*)\) -> Result<(?P<value>.*), (?P<error>\w+)>'
    r'(?P<where>\s+where\b.*?)?\s*', re.S)
# The type of a closure that can be refused memory.
CLOSURE = re.compile(r'(?P<type>\w+): FnOnce\((?P<given>[^)]*)\) -> Result<(?P<value>.*), AllocError>')
# How clauses begin that say of an error of a type with other values that it is refused memory.
ONLY_MEMORY = ('AddsOrNothing self.old self.new result', 'IfErr result (AddsNothing self.old self.new)',
               'IfErr result (λ e. e ≡ BuildError.Memory)')
# By the type of an error that means no more than refused memory: what else it means.
HANDED_BACK = {'LocalFunction': 'or no id is left'}
# Calls of traits that have fallible forms.
OF_TRAITS = {'add_function'}
# Builders: where a fallible form returns nothing, the call itself returns its receiver.
CHAINED = {'InstrSeqBuilder'}
PARAMETER = re.compile(r'(?:^|,)\s*(?:mut )?(\w+)\s*:(?!:)\s*(\w*)')
RECEIVER = re.compile(r'\s*(?:&\s*)?(?:mut )?self\b')
USE = re.compile(r'^(?:pub )?use [^;]*;', re.M)


@dataclasses.dataclass(frozen=True)
class Call:
    """A call that has a fallible form."""
    name: str
    # The type that it is a call of, or nothing.
    owner: str
    has_receiver: bool
    # The type of the error that its fallible form returns and the call itself does not, or nothing.
    error: str
    # Whether it returns its receiver, so that calls make chains.
    is_chained: bool


def fallible_name(name):
    return NAMES.get(name) or f'try_{name}'


def signature_of(text, number):
    """The place of a function's signature in a text with marks, behind the mark of its docs."""
    start = text.index(contracts.docs_mark(number)) + len(contracts.docs_mark(number)) + 1
    body = text.find(f'{{{contracts.body_mark(number)}', start)
    return start, body if body >= 0 else text.index(';', start)


def parameters(middle):
    """The text of the parameters, given what is between the name of a function and their end."""
    depth = 0
    for at in range(len(middle) - 1, -1, -1):
        depth += (middle[at] == ')') - (middle[at] == '(')
        if depth < 0:
            return middle[at + 1:]
    raise ValueError('a signature has no parameters')


def call_of(function, signature):
    """The function as a call with a fallible form, or None."""
    found = SIGNATURE.fullmatch(signature)
    is_callable = function.is_public and not function.is_of_trait or function.name in OF_TRAITS
    if not found or not is_callable:
        return None
    error = found['error'] if is_refusal(function, found['error']) else ''
    if not error and not CLOSURE.search(found['middle']):
        return None
    has_receiver = bool(RECEIVER.match(parameters(found['middle'])))
    is_chained = bool(error) and function.owner in CHAINED and found['value'] == '()'
    return Call(function.name, function.owner, has_receiver, error, is_chained)


def is_refusal(function, error):
    """Whether an error of this type means refused memory, and nothing that a caller could mend."""
    is_only_memory = any(text.startswith(ONLY_MEMORY) for _, text in function.ensures)
    return error == 'AllocError' or error in HANDED_BACK or is_only_memory


def note(function, call):
    """What the docs of a call say about its contract."""
    what = ('whose closure returns a `Result`' if not call.error else
            'which returns `Ok(())` where this call returns the builder' if call.is_chained else
            'which returns what this call returns in an `Ok`')
    return [f'It is the contract of `{fallible_name(function.name)}`, {what}.', '']


def panics(function, call):
    """When a call with a fallible form panics beside its guards, in words."""
    if not call.error or any(text == 'IsOk result' for _, text in function.ensures):
        return []
    return [' '.join(['memory is refused', *([HANDED_BACK[call.error]] if call.error in HANDED_BACK else [])])]


def add_call(text, number, function, call):
    """Puts the call itself before its fallible form, or the fallible form behind what a trait declares."""
    start, end = signature_of(text, number)
    found = SIGNATURE.fullmatch(text[start:end])
    signature = text[start:end].replace(f'fn {found["name"]}', f'fn {fallible_name(function.name)}', 1)
    indent = '    ' if function.owner else ''
    head = head_of(function, found, call)
    hidden = f'\n\n{indent}#[doc(hidden)]\n'
    if text[end] == ';':
        body = f'Ok({called(function, found, function.name)})'
        return f'{text[:start]}{head};{hidden}{signature.rstrip()} {{\n{indent}    {body}\n{indent}}}{text[end + 1:]}'
    where = f'{found["where"]}\n{indent}' if found['where'] else ' '
    body = body_of(function, found, call, f'\n{indent}    ')
    return f'{text[:start]}{head}{where}{{{body}\n{indent}}}{hidden}{signature}{text[end:]}'


def head_of(function, found, call):
    """The signature of the call itself, up to its bounds, given its fallible form's."""
    if not call.error:
        middle = CLOSURE.sub(r'\g<type>: FnOnce(\g<given>) -> \g<value>', found['middle'])
        return f'{found["head"]}{function.name}{middle}) -> Result<{found["value"]}, {found["error"]}>'
    value = '&mut Self' if call.is_chained else found['value']
    return f'{found["head"]}{function.name}{found["middle"]})' + ('' if value == '()' else f' -> {value}')


def body_of(function, found, call, line):
    """The body of the call itself, each line behind what a line begins with."""
    value = called(function, found, fallible_name(function.name))
    if not call.error:
        return f'{line}{value}'
    if call.error in HANDED_BACK:
        message = f'out of memory, {HANDED_BACK[call.error]}'
        return f'{line}{value}.unwrap_or_else(|_| panic!("{message}"))'
    return f'{line}{OR_PANIC}({value})' + (f';{line}self' if call.is_chained else '')


def called(function, found, callee):
    """A call of a function of this name, with the parameters as they are. Where it is the fallible form, the value of a
    closure gets an `Ok` round it."""
    given = parameters(found['middle'])
    receiver = 'self.' if RECEIVER.match(given) else 'Self::' if function.owner else ''
    closures = [] if function.name == callee else [it['type'] for it in CLOSURE.finditer(found['middle'])]
    arguments = [f'|it| Ok({name}(it))' if kind in closures else name for name, kind in PARAMETER.findall(given)]
    return f'{receiver}{callee}({", ".join(arguments)})'


def rename(text, number, function):
    """Gives a function the name that calls of it have by now."""
    start, end = signature_of(text, number)
    signature = re.sub(rf'\bfn {function.name}\b', f'fn {fallible_name(function.name)}', text[start:end])
    return text[:start] + signature + text[end:]


class Renaming:
    """Renames calls that have fallible forms."""

    def __init__(self, calls):
        # The others have been renamed with the calls of Rust's own lists.
        self.methods = {it.name for it in calls if it.has_receiver} - set(rewriting.REFUSABLE.split('|'))
        self.functions = {it.name for it in calls if not it.owner}
        methods = '|'.join(method_pattern(it) for it in sorted(self.methods))
        paths = '|'.join(sorted(rf'{it.owner}(?:::<[^>]*>)?::{it.name}' for it in calls if it.owner))
        free = '|'.join(sorted(self.functions))
        kinds = [methods, rf'\b(?:{paths})', rf'(?<![\w.:])(?<!fn )(?:[a-z]\w*::)*(?:{free})']
        self.patterns = [re.compile(rf'(?:{it})(?=\()') for it in kinds]
        self.used = re.compile(rf'(?<=[{{:\s])({free})(?=[,}};\s])')

    def is_of_name(self, function):
        """Whether calls of the function are renamed, since another function of its name has a fallible form."""
        names = self.methods - set(WITH) if function.owner else self.functions
        return function.name in names and not function.is_of_trait

    def calls(self, text):
        """The text with calls of fallible forms."""
        for pattern in self.patterns:
            at, parts = 0, []
            for start, end, new in sorted(edit_of(text, *found.span()) for found in pattern.finditer(text)):
                parts += [text[at:start], new]
                at = end
            text = ''.join(parts) + text[at:]
        return text

    def uses(self, text):
        """The text, where a `use` of a function has its fallible form beside it."""
        return USE.sub(lambda use: self.used.sub(with_fallible, use[0]), text)


def method_pattern(name):
    receivers = [rf'(?<=\b{it})' for it in WITH.get(name, [])]
    before = rf'(?<!\b{WITHOUT[name]})' if name in WITHOUT else f'(?:{"|".join(receivers)})'
    return rf'{before}\.{name}'


def edit_of(text, start, end):
    """What takes the place of what, so that the call named here calls its fallible form. A call in an example in a
    comment stays, and the `?` behind it goes."""
    if text[text.rfind('\n', 0, start) + 1:start].lstrip().startswith('//'):
        behind = contracts.end_of(text, end, '(', ')')
        return behind, behind + text.startswith('?', behind), ''
    name = re.search(r'\w+$', text[start:end])[0]
    return end - len(name), end, fallible_name(name)


def with_fallible(found):
    both = f'{found[1]}, {fallible_name(found[1])}'
    return f'{{{both}}}' if found.string[:found.start()].endswith('::') else both
