"""Writes the Rust crate: one package, with a module for each group of libraries, programs and tests."""
import functools
import os
import re
import shutil

import additions
import contracts
import documents
import examples
import fallible
import guards
import modules
import rewriting
import wording

HERE = os.path.dirname(os.path.abspath(__file__))
ROOT = os.path.dirname(os.path.dirname(HERE))
# What is written as it is: the root of the crate, the stand-in for the toolchain's standard library, and tests
# that Rust alone has.
AS_IT_IS = f'{HERE}/crate'
ROOTS = ['src/lib.rt', 'src/main.rt']
# What takes the place of lines, by file.
REPLACED = guards.INSERTIONS + additions.REPLACED
# The file whose examples users don't see, though its functions are public.
PRIVATE = 'src/sort_key.rt'
LICENSES = ['LICENSE.md', 'LICENSE-MIT', 'LICENSE-APACHE']


def read(path):
    with open(path, encoding='utf-8') as file:
        return file.read()


def write(path, text):
    os.makedirs(os.path.dirname(path), exist_ok=True)
    with open(path, 'w', encoding='utf-8') as file:
        file.write(text)


def crates():
    """The crates of crates.txt but the one that has nothing of its own."""
    return [it for it in re.findall(r'^(\w+)[^:#\n]*:', read(f'{ROOT}/crates.txt'), re.M) if it != modules.CRATE]


@functools.cache
def sources(crate):
    """The paths of the files of a crate, from its folder on."""
    top = f'{ROOT}/crates/{crate}'
    found = []
    for folder, _, files in os.walk(f'{top}/src'):
        found += [os.path.relpath(f'{folder}/{it}', top) for it in files if it.endswith('.rt')]
    return sorted(found)


def is_program(crate):
    return 'src/main.rt' in sources(crate)


def is_library(crate):
    return not is_program(crate) and not crate.endswith('_tests')


@functools.cache
def rewritten(crate, path):
    """A file of a crate in Rust, with marks and without guards, docs and fallible forms."""
    stripped = contracts.strip(read(f'{ROOT}/crates/{crate}/{path}'))
    return contracts.Stripped(rewriting.rewrite(stripped.text), stripped.functions)


def is_exported(crate, path, function):
    """Whether users of the crate can call the function."""
    return documents.is_exported(function, exports(crate) if is_library(crate) else set(), path)


def calls_with_fallible_forms():
    """For each library, and file: the calls that have fallible forms, by the number of their functions."""
    found = {}
    for crate in (it for it in crates() if is_library(it)):
        for path in (it for it in sources(crate) if not documents.is_law(it)):
            text, functions = rewritten(crate, path).text, rewritten(crate, path).functions
            calls = {at: fallible.call_of(it, text[slice(*fallible.signature_of(text, at))])
                     for at, it in enumerate(functions) if is_exported(crate, path, it) or it.is_of_trait}
            found[crate, path] = {at: call for at, call in calls.items() if call}
    return found


def rust_text(crate, path, calls, renaming):
    """A file of a crate in Rust, given the calls of the file that have fallible forms."""
    text, is_law = rewritten(crate, path).text, documents.is_law(path)
    text = wording.rewrite(with_examples(crate, path, renaming.uses(renaming.calls(text))))
    for number, function in enumerate(rewritten(crate, path).functions):
        is_public = is_exported(crate, path, function)
        if number in calls:
            text = fallible.add_call(text, number, function, calls[number])
        elif renaming.is_of_name(function) and not is_public:
            text = fallible.rename(text, number, function)
        if is_public:
            text = documents.fill(text, number, function, is_law, calls.get(number))
        text = without_mark(text, number)
        is_guarded = not is_law and (is_public or function.is_of_trait)
        text = text.replace(contracts.body_mark(number), guards.statements(function) if is_guarded else '')
    text = rewriting.with_prelude(text, path in ROOTS and not is_library(crate))
    text = re.sub(r'\n{3,}', '\n\n', rewriting.replace(REPLACED, path, additions.add_clones(text)))
    text += additions.items().get(f'{crate}/{path}', '')
    return modules.inside(crate, documents.with_aliases(text)) if is_library(crate) else names().outside(text)


@functools.cache
def places():
    return names().places(read(f'{AS_IT_IS}/src/lib.rs'))


def with_examples(crate, path, text):
    """A text with its examples in Rust. Those that users see are run."""
    is_page = any(crate in pages for _, pages in modules.MODULES.values())
    is_seen = is_library(crate) and (is_page if path in ROOTS else path != PRIVATE and not documents.is_law(path))
    return examples.Examples(path, places(), is_seen).rewrite(text)


def without_mark(text, number):
    """The text without the mark of a function's docs, if it is still there."""
    return re.sub(rf'^ *{contracts.docs_mark(number)}\n', '', text, flags=re.M)


def root(library):
    return read(f'{ROOT}/crates/{library}/src/lib.rt')


@functools.cache
def exports(library):
    """The names that the root of a library exports."""
    return set(modules.exports(root(library)))


@functools.cache
def names():
    return modules.Names({it: root(it) for it in modules.HOME})


def required():
    """The guarded functions of all libraries: the module, the function and its guards. Also how many are public."""
    found, count = [], 0
    for crate in (it for it in crates() if is_library(it)):
        for path in (it for it in sources(crate) if not documents.is_law(it)):
            functions = rewritten(crate, path).functions
            public = [it for it in functions if documents.is_exported(it, exports(crate), path)]
            count += len(public)
            found += [(modules.HOME[crate], it, guards.guards_of(it)) for it in public if guards.guards_of(it)]
    return found, count


def destination(crate, path):
    """Where a file of a crate is written."""
    inner = path.removeprefix('src/').removesuffix('.rt')
    if is_program(crate):
        return f'src/bin/{crate}/{inner}.rs'
    if is_library(crate):
        return f'src/{modules.HOME[crate]}/{crate}{"" if path in ROOTS else f"/{inner}"}.rs'
    return f'tests/{crate}/{"main" if path in ROOTS else inner}.rs'


def write_modules(out, renaming):
    """Writes the module of each group of libraries. Its docs are those of libraries, which lose them."""
    for module, (_, pages) in modules.MODULES.items():
        docs = []
        for path in (f'{out}/{destination(it, ROOTS[0])}' for it in pages):
            head, rest = re.fullmatch(r'((?://![^\n]*\n)*)\n*(.*)', read(path), re.S).groups()
            docs.append(head)
            write(path, rest)
        page = re.sub(rf'\[(`(\w+)`)\]\(crate::{module}::\w+::\2\)', r'[\1]', '//!\n'.join(docs))
        write(f'{out}/src/{module}.rs', f'{page}\n{renaming.uses(names().text(module))}')


def is_writable(out):
    """Whether the folder is missing or empty, or was written before."""
    return not os.path.isdir(out) or not os.listdir(out) or os.path.isdir(f'{out}/src/rattle_std')


def check_paths():
    """Refuses to go on without a file that something is added to."""
    added = {path for path, *_ in REPLACED} | set(additions.items())
    missing = added - {it for crate in crates() for path in sources(crate) for it in (path, f'{crate}/{path}')}
    if missing:
        raise ValueError(f'no crate has {", ".join(missing)}')


def write_package(out):
    shutil.copytree(AS_IT_IS, out, dirs_exist_ok=True)
    check_paths()
    calls = calls_with_fallible_forms()
    renaming = fallible.Renaming({call for of_file in calls.values() for call in of_file.values()})
    for crate in crates():
        for path in sources(crate):
            text = rust_text(crate, path, calls.get((crate, path), {}), renaming)
            write(f'{out}/{destination(crate, path)}', text)
    write_modules(out, renaming)
    for name in LICENSES:
        shutil.copy(f'{ROOT}/{name}', f'{out}/{name}')
