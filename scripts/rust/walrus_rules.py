"""What scripts/walrus_on_this changes in walrus 0.24.4: rules by file and line, and the texts of our own that they put in.

scripts/rust/walrus/rules.txt has, for each file, a line '== PATH SHA256' and a line '-- FIRST-LAST' before each new text,
which takes the place of these lines, or comes before the first one if LAST is below it. Behind the numbers may be a file
beside it that has the text. Such a file may have lines that are written once for each kind of instructions, or once for
each kind of ids.
"""
import dataclasses
import functools
import hashlib
import os
import re

import package

FOLDER = f'{package.HERE}/walrus'
FILE = re.compile(r'^== (\S+) (\w+)\n', re.M)
LINES = re.compile(r'^-- (\d+)-(\d+)(?: (\S+))?\n', re.M)
# walrus's kinds of instructions. The ones on the last line have no call that adds them.
KINDS = '''
    Call CallIndirect LocalGet LocalSet LocalTee GlobalGet GlobalSet Const TernOp Binop Unop Select Unreachable Br BrIf
    BrTable Drop Return MemorySize MemoryGrow MemoryInit DataDrop MemoryCopy MemoryFill Load Store AtomicRmw Cmpxchg
    AtomicNotify AtomicWait AtomicFence TableGet TableSet TableGrow TableSize TableFill RefNull RefIsNull RefFunc
    RefAsNonNull BrOnNull BrOnNonNull CallRef ReturnCallRef V128Bitselect I8x16Swizzle I8x16Shuffle LoadSimd TableInit
    ElemDrop TableCopy ReturnCall ReturnCallIndirect Throw ThrowRef Rethrow
    Block Loop IfElse TryTable Try
'''
WITHOUT_CALL = KINDS.split('\n')[-2].split()
IDS = 'InstrSeqId LocalId MemoryId TableId GlobalId FunctionId DataId TypeId ElementId TagId Value'
STRUCT = re.compile(r'^pub struct (\w+) \{(.*?)\}', re.M | re.S)
FIELD = re.compile(r'pub (\w+): (.*),')
KEYWORDS = ('const', 'return')
# What walrus's manifest has: a pattern, and what takes its place.
MANIFEST = [
    (r'^version = "0\.24\.4"\n', r'\g<0>'),
    (r'^\[dependencies\.id-arena\]\n(?:.+\n)+\n', ''),
    (r'^\[dependencies\.walrus-macro\]\n(?:.+\n)+\n', ''),
    (r'^    "id-arena/rayon",\n', ''),
    (r'\Z', '\n[dependencies.ruffdresser]\npath = "ruffdresser"\n'),
]


@dataclasses.dataclass
class Rule:
    """What is changed in a file: the first and the last line and the new text, for each change."""
    path: str
    digest: str
    changes: list

    def fits(self, content):
        return hashlib.sha256(content).hexdigest() == self.digest

    def changed(self, content):
        lines = content.decode().splitlines(keepends=True)
        for first, last, text in reversed(self.changes):
            lines[first - 1:last] = [text]
        return ''.join(lines)


class Manifest:
    """What is changed in Cargo.toml, which not all copies of walrus have alike."""
    path = 'Cargo.toml'

    def fits(self, content):
        return all(re.search(pattern, content.decode(), re.M) for pattern, _ in MANIFEST)

    def changed(self, content):
        text = content.decode()
        for pattern, new in MANIFEST:
            text = re.sub(pattern, new, text, flags=re.M)
        return text


def rules():
    _, *parts = FILE.split(package.read(f'{FOLDER}/rules.txt'))
    return [Manifest()] + [Rule(path, digest, changes_of(text))
                           for path, digest, text in zip(parts[::3], parts[1::3], parts[2::3])]


def changes_of(text):
    _, *parts = LINES.split(text)
    return [(int(first), int(last), expanded(file) if file else new)
            for first, last, file, new in zip(parts[::4], parts[1::4], parts[2::4], parts[3::4])]


def expanded(file):
    """The text of a file, with the lines that are written for each kind."""
    lines = []
    for line in package.read(f'{FOLDER}/{file}').splitlines(keepends=True):
        places = set(re.findall(r'\{(\w+)\}', line))
        values = [it for it in of_instructions() + of_ids() if places and places <= it.keys()]
        lines += [re.sub(r'\{(\w+)\}', lambda found: it[found[1]], line) for it in values] or [line]
    return ''.join(lines)


@functools.cache
def structs():
    """The fields of the instructions of the crate, with their types."""
    paths = [it for it in package.sources('ir_instr') if '/' not in it.removeprefix('src/')]
    texts = [package.rewritten('ir_instr', it).text for it in paths]
    return {name: FIELD.findall(fields) for text in texts for name, fields in STRUCT.findall(text)}


@functools.cache
def of_instructions():
    """What stands for each place of a line that is for each kind of instructions."""
    found = []
    for name in KINDS.split():
        snake = re.sub(r'(?<=[a-z0-9])(?=[A-Z])', '_', name).lower()
        places = {'Kind': name, 'kind': snake, 'Name': 'DropInstr as Drop' if name == 'Drop' else name}
        if name not in WITHOUT_CALL:
            fields = structs()['DropInstr' if name == 'Drop' else name]
            places['call'] = snake + '_' * (snake in KEYWORDS)
            places['parameters'] = ''.join(f', {field}: {of_type}' for field, of_type in fields)
            places['fields'] = ', '.join(field for field, _ in fields)
        found.append(places)
    return found


def of_ids():
    """The same for each kind of ids."""
    return [{'Id': it, 'id': re.sub(r'(?<=[a-z])(?=[A-Z])', '_', it).lower()} for it in IDS.split()]
