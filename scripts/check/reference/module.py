"""Modules: each place that names a type, and what `wasmnorm` must do with a module (`outcome`).

It is slow and plain, and shares no text with the crates. The grammar is that of the WebAssembly core specification 3.0,
"Binary Format", with a few proposals: the older exceptions, wide arithmetic, memories of 64 bits and their page sizes,
threads, exact heap types. A custom section that describes other bytes of the module, such as debug data, is known by its
name (`is_outdated`).
"""
import dataclasses
import functools

from reference import canonical_form, type_section
from reference.reader import Malformed, NoSuchType, Reader, signed, unsigned

HEADER = b'\0asm\1\0\0\0'
CUSTOM, TYPE, IMPORT, FUNCTION, TABLE, MEMORY, GLOBAL, EXPORT, START, ELEMENT, CODE, DATA, DATA_COUNT, TAG = range(14)
ORDER = [TYPE, IMPORT, FUNCTION, TABLE, MEMORY, TAG, GLOBAL, EXPORT, START, ELEMENT, DATA_COUNT, CODE, DATA]
TYPE_NAMES, FIELD_NAMES = 4, 10
DONE, REFUSED, UNKNOWN = 0, 1, 2


class Renamer(Reader):
    """A reader that also writes: what it has taken, with other indices of types."""

    def __init__(self, data, at, end, images, keeps_widths):
        super().__init__(data, at, end)
        self.images, self.keeps_widths = images, keeps_widths
        # What is written so far, and where the bytes begin that were taken and not written yet.
        self.written, self.copied = bytearray(), at
        self.has_names = False
        # Whether a number was written with more or fewer bytes than it had, and whether one was in the last content that
        # has a size.
        self.changes_lengths = self.changes_lengths_inside = False

    def write_number(self, begin, number, text=unsigned):
        """Writes a number in the place of what was taken from begin on."""
        self.written += self.data[self.copied:begin]
        new = text(number, self.at - begin if self.keeps_widths else 0)
        self.written += new
        self.changes_lengths |= len(new) != self.at - begin
        self.copied = self.at

    def text(self):
        """All that was taken, as it is written."""
        return bytes(self.written + self.data[self.copied:self.at])

    def image(self, index, at=None):
        self.has_names = True
        if index >= len(self.images):
            raise NoSuchType(index, at)
        return self.images[index]

    def type_index(self):
        begin = self.at
        self.write_number(begin, self.image(self.u(32), begin))

    def signed_type_index(self):
        begin = self.at
        number = self.s(33)
        if number < 0:
            raise Malformed(self.at - 1)
        self.write_number(begin, self.image(number, begin), signed)

    def inside(self, end):
        """A renamer of the bytes from here to end."""
        if end > self.end:
            raise Malformed(self.end)
        return Renamer(self.data, self.at, end, self.images, self.keeps_widths)

    def sized(self, take):
        """A size and as many bytes, which take has to take whole."""
        begin = self.at
        size = self.u(32)
        content = self.inside(self.at + size)
        take(content)
        content.finish()
        if content.has_names:
            text = content.text()
            self.write_number(begin, len(text))
            self.written += text
            self.copied = content.end
            self.has_names = True
        self.changes_lengths_inside = content.changes_lengths
        self.changes_lengths |= content.changes_lengths
        self.at = content.end

    def vec(self, take):
        for _ in range(self.u(32)):
            take(self)


def heap_type(it):
    code = it.peek()
    if code in type_section.HEAPS:
        it.byte()
    elif code == type_section.EXACT_CODE:
        it.byte()
        it.type_index()
    else:
        it.signed_type_index()


def value_type(it):
    if it.peek() in type_section.NUMBERS:
        it.byte()
    else:
        reference_type(it)


def reference_type(it):
    code = it.byte()
    if code in (type_section.NULLABLE_CODE, type_section.PLAIN_CODE):
        heap_type(it)
    elif code not in type_section.HEAPS:
        raise Malformed(it.at - 1)


def block_type(it):
    code = it.peek()
    if code == 0x40:
        it.byte()
    elif 0x41 <= code < 0x80:
        value_type(it)
    else:
        it.signed_type_index()


def one_of(*codes):
    def take(it):
        if it.byte() not in codes:
            raise Malformed(it.at - 1)
    return take


def any_bytes(count):
    return lambda it: it.skip(count)


def index(it):
    it.u(32)


def type_index(it):
    it.type_index()


def access(width):
    """What is behind an access of this many bytes: an alignment of at most as many, perhaps a memory, and an offset."""
    def take(it):
        begin = it.at
        flags = it.u(32)
        if flags >= 128 or 2 ** (flags % 64) > width:
            raise Malformed(begin)
        if flags >= 64:
            index(it)
        it.u(64)
    return take


def catch_clause(it):
    code = it.byte()
    if code > 3:
        raise Malformed(it.at - 1)
    for _ in range(2 if code < 2 else 1):
        index(it)


def vec_of(take):
    return lambda it: it.vec(take)


def by_opcode(*rows):
    """What is behind each opcode. A row is opcodes, and what is behind each of them."""
    return {code: takes for codes, *takes in rows for code in codes}


def to(first, last):
    """Both and what is between them."""
    return range(first, last + 1)


END, DELEGATE = 0x0B, 0x18
OPENING, CLOSING = [0x02, 0x03, 0x04, 0x06, 0x1F], [END, DELEGATE]
INSTRUCTIONS = by_opcode(
    ([0x00, 0x01, 0x05, 0x0A, 0x0B, 0x0F, 0x19, 0x1A, 0x1B, 0xD1, 0xD3, 0xD4],),
    ([0x02, 0x03, 0x04, 0x06], block_type),
    ([0x07, 0x08, 0x09, 0x18, 0x0C, 0x0D, 0xD5, 0xD6, 0x10, 0x12, 0xD2], index),
    ([0x0E], vec_of(index), index),
    ([0x11, 0x13], type_index, index),
    ([0x14, 0x15], type_index),
    ([0x1C], vec_of(value_type)),
    ([0x1F], block_type, vec_of(catch_clause)),
    (to(0x20, 0x26), index),
    ([0x2C, 0x2D, 0x30, 0x31, 0x3A, 0x3C], access(1)),
    ([0x2E, 0x2F, 0x32, 0x33, 0x3B, 0x3D], access(2)),
    ([0x28, 0x2A, 0x34, 0x35, 0x36, 0x38, 0x3E], access(4)),
    ([0x29, 0x2B, 0x37, 0x39], access(8)),
    (to(0x3F, 0x40), index),
    ([0x41], lambda it: it.s(32)),
    ([0x42], lambda it: it.s(64)),
    ([0x43], any_bytes(4)),
    ([0x44], any_bytes(8)),
    (to(0x45, 0xC4),),
    ([0xD0], heap_type),
)
# Numbers in the range of vector instructions that are none.
NO_VECTOR_INSTRUCTIONS = {
    154, 162, 165, 166, 175, 176, 178, 179, 180, 187, 194, 197, 198, 207, 208, 210, 211, 212, 226, 238}
# The atomic instructions of i32, those of 1 byte, and so on: of each kind one for each operation.
ATOMIC_4, ATOMIC_8, ATOMIC_1, ATOMIC_2, ATOMIC_1_OF_8, ATOMIC_2_OF_8, ATOMIC_4_OF_8 = (
    range(first, 79, 7) for first in range(16, 23))
# The same by the number behind one of these bytes.
PREFIXED = {
    0xFB: by_opcode(
        ([0, 1, 6, 7, 11, 12, 13, 14, 16], type_index),
        ([2, 3, 4, 5, 8, 9, 10, 18, 19], type_index, index),
        ([17], type_index, type_index),
        ([15, *to(26, 30)],),
        (to(20, 23), heap_type),
        (to(24, 25), one_of(0, 1, 2, 3), index, heap_type, heap_type),
    ),
    0xFC: by_opcode(
        ([*to(0, 7), *to(19, 22)],),
        ([9, 11, 13, 15, 16, 17], index),
        ([8, 10, 12, 14], index, index),
    ),
    0xFD: by_opcode(
        ([7], access(1)),
        ([8], access(2)),
        ([9, 92], access(4)),
        ([*to(1, 6), 10, 93], access(8)),
        ([0, 11], access(16)),
        ([84, 88], access(1), any_bytes(1)),
        ([85, 89], access(2), any_bytes(1)),
        ([86, 90], access(4), any_bytes(1)),
        ([87, 91], access(8), any_bytes(1)),
        ([12, 13], any_bytes(16)),
        (to(21, 34), any_bytes(1)),
        ([*to(14, 20), *to(35, 83), *(set(to(94, 275)) - NO_VECTOR_INSTRUCTIONS)],),
    ),
    0xFE: by_opcode(
        ([*ATOMIC_1, *ATOMIC_1_OF_8], access(1)),
        ([*ATOMIC_2, *ATOMIC_2_OF_8], access(2)),
        ([0, 1, *ATOMIC_4, *ATOMIC_4_OF_8], access(4)),
        ([2, *ATOMIC_8], access(8)),
        ([3], one_of(0)),
    ),
}


def expression(it):
    depth = 1
    while depth:
        begin, code = it.at, it.byte()
        if code in PREFIXED:
            begin = it.at
            takes = PREFIXED[code].get(it.u(32))
        else:
            takes = INSTRUCTIONS.get(code)
        # A number behind a prefix is known only as a whole, so its fault is where it begins.
        if takes is None or code == DELEGATE and depth == 1:
            raise Malformed(begin)
        for take in takes:
            take(it)
        depth += (code in OPENING) - (code in CLOSING)


def limits(flags):
    def take(it):
        code = it.byte()
        if code not in flags:
            raise Malformed(it.at - 1)
        for bit in (0, 1, 8):
            if bit == 0 or code & bit:
                it.u(64)
    return take


def mutability(it):
    one_of(0, 1)(it)


def table_type(it):
    reference_type(it)
    limits((0, 1, 4, 5))(it)


def global_type(it):
    value_type(it)
    mutability(it)


def tag_type(it):
    one_of(0)(it)
    it.type_index()


def imported(it):
    it.name()
    it.name()
    kind = it.byte()
    if kind > 4:
        raise Malformed(it.at - 1)
    [type_index, table_type, limits(range(16)), global_type, tag_type][kind](it)


def table(it):
    if it.peek() == 0x40:
        it.byte()
        one_of(0)(it)
        table_type(it)
        expression(it)
    else:
        table_type(it)


def global_(it):
    global_type(it)
    expression(it)


def element(it):
    begin = it.at
    form = it.u(32)
    if form > 7:
        raise Malformed(begin)
    if form in (2, 6):
        index(it)
    if form in (0, 2, 4, 6):
        expression(it)
    if form in (1, 2, 3):
        one_of(0)(it)
    if form in (5, 6, 7):
        reference_type(it)
    it.vec(index if form < 4 else expression)


def data(it):
    begin = it.at
    form = it.u(32)
    if form > 2:
        raise Malformed(begin)
    if form == 2:
        index(it)
    if form in (0, 2):
        expression(it)
    it.name()


def local(it):
    index(it)
    value_type(it)


def body(it):
    it.vec(local)
    expression(it)


CONTENTS = {
    IMPORT: vec_of(imported), FUNCTION: vec_of(type_index), TABLE: vec_of(table), TAG: vec_of(tag_type),
    GLOBAL: vec_of(global_), ELEMENT: vec_of(element), DATA: vec_of(data), CODE: vec_of(lambda it: it.sized(body)),
}


def whole(it):
    it.skip(it.end - it.at)


def name_map(it, take):
    """A map from types, by ascending new index. Of entries with one new index that of the least old one stays, and none
    of a deleted type."""
    begin = it.at
    count = it.u(32)
    behind, entries = it.at, []
    for _ in range(count):
        entry = it.inside(it.end)
        old = entry.u(32)
        new = entry.image(old)
        if new is not None:
            entry.write_number(it.at, new)
        take(entry)
        it.at = entry.at
        entries.append((new, old, entry.text()))
    if entries:
        kept = {}
        for new, old, text in sorted(entries, key=lambda entry: entry[1]):
            if new is not None:
                kept.setdefault(new, text)
        at, it.at = it.at, behind
        it.write_number(begin, len(kept))
        it.at = it.copied = at
        it.written += b''.join(kept[new] for new in sorted(kept))
        it.has_names = True


def naming(it):
    it.u(32)
    it.name()


def name_subsection(it):
    code = it.byte()
    if code == TYPE_NAMES:
        it.sized(lambda inner: name_map(inner, Reader.name))
    elif code == FIELD_NAMES:
        it.sized(lambda inner: name_map(inner, vec_of(naming)))
    else:
        it.name()


def name_subsections(it):
    while it.at < it.end:
        name_subsection(it)


def are_names(it):
    """Whether all that is left are subsections of a section `name`, with names of types that there are."""
    try:
        name_subsections(it.inside(it.end))
    except (Malformed, NoSuchType):
        return False
    return True


def custom(it):
    if it.name() == b'name' and are_names(it):
        name_subsections(it)
    whole(it)


def sections_of(module):
    """The id of each section, and its size with its content."""
    if module[:len(HEADER)] != HEADER:
        raise Malformed(0)
    reader, place = Reader(module, len(HEADER), len(module)), 0
    while reader.at < reader.end:
        code = reader.byte()
        if code != CUSTOM:
            if code not in ORDER[place:]:
                raise Malformed(reader.at - 1)
            place = ORDER.index(code) + 1
        begin = reader.at
        reader.name()
        yield code, module[begin:reader.at]


def first_fault(module, types):
    """The first fault in the contents of custom sections and of those that can name types, with its place, if the module
    has as many types. Sections are judged as far as they are framed."""
    at = len(HEADER)
    try:
        for code, section in sections_of(module):
            end = at + 1 + len(section)
            begin = end - len(Reader(module, at + 1, end).name())
            at = end
            if code == CUSTOM or code in CONTENTS:
                it = Renamer(module, begin, end, range(types), False)
                try:
                    (custom if code == CUSTOM else CONTENTS[code])(it)
                    it.finish()
                except Malformed as fault:
                    return f'malformed at {fault.at}'
                except NoSuchType as fault:
                    return f'no type {fault.index} at {fault.at}'
    except Malformed:
        pass
    return None


@functools.cache
def canonical(section, roots=None):
    """The type section in canonical form, and the new index of each type; where there are roots, of what these use."""
    reader = Reader(section, 0, len(section))
    text, images = canonical_form.canonical(reader.name(), roots)
    return unsigned(len(text)) + text, images


@dataclasses.dataclass(frozen=True)
class Section:
    """A section before and after, each its size with its content."""
    code: int
    old: bytes
    new: bytes
    # Whether an integer gets another length, in the content and in all of the section.
    changes_lengths_inside: bool = False
    changes_lengths: bool = False

    def changes_length(self):
        """Whether a length in it changes. Of types and of custom sections the length of the whole counts."""
        if self.code in (TYPE, CUSTOM):
            return len(self.new) != len(self.old)
        return self.changes_lengths

    def name(self):
        """The name of a custom section, or None."""
        reader = Reader(self.old, 0, len(self.old))
        reader.u(32)
        return reader.name() if self.code == CUSTOM else None


@functools.cache
def renamed(code, section, images, keeps_widths):
    """Another section than that of types, with these indices of types."""
    it = Renamer(section, 0, len(section), images, keeps_widths)
    it.sized(custom if code == CUSTOM else CONTENTS.get(code, whole))
    return Section(code, section, it.text(), it.changes_lengths_inside, it.changes_lengths)


def content(section):
    reader = Reader(section, 0, len(section))
    return reader.name()


def is_outdated(name, sections):
    """Whether what a custom section of this name describes changes."""
    codes = [section.code for section in sections]
    if name == b'external_debug_info' or name.startswith((b'.debug_', b'metadata.code.')):
        return any(section.changes_lengths_inside for section in sections if section.code == CODE)
    if name == b'sourceMappingURL':
        return CODE in codes and any(section.changes_length() for section in sections[:codes.index(CODE) + 1])
    if name == b'linking' or name.startswith(b'reloc.'):
        return any(content(section.new) != content(section.old) for section in sections if section.code in (CODE, DATA))
    return name == b'signature' and any(section.new != section.old for section in sections)


def outdated_at(sections):
    """The place of the first custom section that describes bytes that change, or None."""
    at = len(HEADER)
    for section in sections:
        if section.code == CUSTOM and is_outdated(section.name(), sections):
            return at
        at += 1 + len(section.old)
    return None


class Noted:
    """New indices of types that all stay. It notes which types are named."""

    def __init__(self, count):
        self.count, self.named = count, set()

    def __len__(self):
        return self.count

    def __getitem__(self, index):
        self.named.add(index)
        return index


@functools.cache
def named(code, section, count):
    """The types that a section names, of this many. The names that it gives to types are no such."""
    noted = Noted(count)
    it = Renamer(section, 0, len(section), noted, False)
    it.sized(custom if code == CUSTOM else CONTENTS.get(code, whole))
    return () if code == CUSTOM else tuple(sorted(noted.named))


def outcome(module, keeps_widths=False, prunes=False):
    """The status of `wasmnorm`, and the module that it writes, or None."""
    try:
        parts = list(sections_of(module))
        section = next((section for code, section in parts if code == TYPE), None)
        types, images = (b'', ()) if section is None else canonical(section)
        if prunes and section is not None:
            roots = {root for code, other in parts if code != TYPE for root in named(code, other, len(images))}
            types, images = canonical(section, tuple(sorted(roots)))
        sections = [
            Section(code, section, types) if code == TYPE else renamed(code, section, images, keeps_widths)
            for code, section in parts]
    except Malformed:
        return REFUSED, None
    except NoSuchType:
        return UNKNOWN, None
    if outdated_at(sections) is not None:
        return REFUSED, None
    return DONE, HEADER + b''.join(bytes([section.code]) + section.new for section in sections)
