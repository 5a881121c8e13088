"""Docs of public functions: what they panic at, and their contracts. Also the table of docs/RUST.md."""
import re

import contracts
import guards
import fallible
import wording

LAWS = re.compile(r'(^|/)(record_)?laws(/|\.rt$)')
# What walrus calls something, where that is another name.
ALIASES = {'DropInstr': 'Drop', 'LocalFunctions': 'ModuleFunctions', 'data_id': 'data', 'delete_unused_types': 'gc'}
PUBLIC = re.compile(r'^( *)pub (?:(?:fn|struct|enum|trait) )?(?!try_)(\w+)', re.M)
FOLDED = ['<details><summary>Contract</summary>']
HEAD = '| Module | Required | Functions |\n|---|---|---|\n'


def is_law(path):
    """Whether a file has laws: functions that do nothing, or that make calls which have guards."""
    return bool(LAWS.search(path))


def is_exported(function, exported, path):
    """Whether users of the library can call the function."""
    return function.is_public and (is_law(path) or (function.owner or function.name) in exported)


def docs_of(function, is_law, call, then=''):
    """The lines that the docs of a function get at their end. It may be a call with a fallible form, of which something
    may be said for the time after it panics."""
    panics = ([] if is_law else guards.panics(function)) + (fallible.panics(function, call) if call else [])
    note = fallible.note(function, call) if call else []
    parts = [
        ['# Panics', '', f'Panics if {", or if ".join(panics)}. {then}'.rstrip()] if panics else [],
        [*FOLDED, '', *note, '```text', *function.lines, '```', '', '</details>'] if function.lines else [],
    ]
    return [line for part in parts if part for line in ['', *part]][1:]


def fill(text, number, function, is_law, call):
    """Ends the docs of a public function, at its mark. It may be a call with a fallible form."""
    found = re.search(rf'^(?P<before>(?: *///.*\n)*)(?P<indent> *){contracts.docs_mark(number)}\n', text, re.M)
    before, then = wording.without_errors(found['before']) if call and call.error else (found['before'], '')
    lines = docs_of(function, is_law, call, then)
    lines = ['', *lines] if lines and before else lines
    docs = before + ''.join(f'{found["indent"]}/// {it}'.rstrip() + '\n' for it in lines)
    return text[:found.start()] + docs + text[found.end():]


def with_aliases(text):
    """The text, where names that users may search by another spelling have that, too."""
    def aliased(found):
        alias = ALIASES.get(found[2], re.sub('(ormal|anonical)is', r'\1iz', found[2]))
        return found[0] if alias == found[2] else f'{found[1]}#[doc(alias = "{alias}")]\n{found[0]}'

    return PUBLIC.sub(aliased, text)


def table(required):
    """The table of functions that require something, with a row for each condition of a module. Behind it is what nothing
    tests."""
    tested, untested = {}, {}
    for module, function, found in required:
        for guard in found:
            rows, key = (untested, guard.reason) if guard.reason else (tested, module)
            rows.setdefault((key, guard.words), []).append(f'`{function.path()}`')
    rows = [f'| `{module}` | {words} | {", ".join(names)} |\n' for (module, words), names in tested.items()]
    lines = [f'\nNothing tests that {words} ({", ".join(names)}): {why}.\n' for (why, words), names in untested.items()]
    return HEAD + ''.join(rows + lines)
