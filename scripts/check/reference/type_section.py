"""Type sections: reading and writing.

The grammar is that of the WebAssembly core specification 3.0, "Binary Format", types and type section, with exact heap
types (proposal).

A definition is a tuple, and tuples compare as definitions do. A value type is (0,) to (4,), which is its place in
NUMBERS, or (REFERENCE, nullable, sort, number), where the sort is ABSTRACT, INDEX or EXACT.
"""
from reference.reader import Malformed, NoSuchType, Reader, signed, unsigned

NUMBERS = bytes([0x7F, 0x7E, 0x7D, 0x7C, 0x7B])
REFERENCE = 5
ABSTRACT, INDEX, EXACT = range(3)
# func extern any none noextern nofunc eq struct array i31 exn noexn
HEAPS = bytes([0x70, 0x6F, 0x6E, 0x71, 0x72, 0x73, 0x6D, 0x6B, 0x6A, 0x6C, 0x69, 0x74])
EXACT_CODE, NULLABLE_CODE, PLAIN_CODE = 0x62, 0x63, 0x64
FUNCTION, STRUCT, ARRAY = range(3)
COMPOSITES = {0x60: FUNCTION, 0x5F: STRUCT, 0x5E: ARRAY}
VALUE, I8, I16 = range(3)
REC_CODE, FINAL_CODE, OPEN_CODE = 0x4E, 0x4F, 0x50


# ---- reading

def read_vec(reader, read):
    items = []
    for _ in range(reader.u(32)):
        items.append(read(reader))
    return tuple(items)


def read_heap(reader):
    """The sort and the number of a heap type."""
    code = reader.peek()
    if code in HEAPS:
        reader.byte()
        return ABSTRACT, HEAPS.index(code)
    if code == EXACT_CODE:
        reader.byte()
        return EXACT, reader.u(32)
    number = reader.s(33)
    if number < 0:
        raise Malformed(reader.at - 1)
    return INDEX, number


def read_value(reader):
    code = reader.byte()
    if code in NUMBERS:
        return (NUMBERS.index(code),)
    if code in HEAPS:
        return REFERENCE, True, ABSTRACT, HEAPS.index(code)
    if code in (NULLABLE_CODE, PLAIN_CODE):
        return REFERENCE, code == NULLABLE_CODE, *read_heap(reader)
    raise Malformed(reader.at - 1)


def read_field(reader):
    packed = {0x78: I8, 0x77: I16}.get(reader.peek())
    if packed is None:
        storage = (VALUE, read_value(reader))
    else:
        reader.byte()
        storage = (packed,)
    mutable = reader.byte()
    if mutable > 1:
        raise Malformed(reader.at - 1)
    return storage, mutable


def read_composite(reader):
    kind = COMPOSITES.get(reader.byte())
    if kind is None:
        raise Malformed(reader.at - 1)
    if kind == FUNCTION:
        return kind, read_vec(reader, read_value), read_vec(reader, read_value)
    return kind, read_vec(reader, read_field) if kind == STRUCT else (read_field(reader),)


def read_definition(reader):
    """The composite type, whether it is final, and the supertypes."""
    is_final, supers = True, ()
    if reader.peek() in (FINAL_CODE, OPEN_CODE):
        is_final = reader.byte() == FINAL_CODE
        begin = reader.at
        supers = read_vec(reader, lambda it: it.u(32))
        if len(supers) > 1:
            raise Malformed(begin)
    return read_composite(reader), is_final, supers


def read_group(reader):
    """Whether it is a recursion group, and its definitions."""
    if reader.peek() == REC_CODE:
        reader.byte()
        return True, read_vec(reader, read_definition)
    return False, (read_definition(reader),)


# ---- names

def renamed_value(value, rename):
    if value[0] == REFERENCE and value[2] != ABSTRACT:
        return value[:3] + (rename(value[3]),)
    return value


def renamed(definition, rename):
    """The definition with another number in the place of each index."""
    (kind, *parts), is_final, supers = definition

    def renamed_part(part):
        if kind == FUNCTION:
            return tuple(renamed_value(value, rename) for value in part)
        return tuple(((sort, *(renamed_value(value, rename) for value in values)), mutable)
                     for (sort, *values), mutable in part)

    return (kind, *map(renamed_part, parts)), is_final, tuple(map(rename, supers))


def names_of(definition):
    """The indices that the definition names."""
    found = []
    renamed(definition, lambda index: found.append(index) or index)
    return found


# ---- writing

def vec(texts):
    return unsigned(len(texts)) + b''.join(texts)


def value_text(value):
    if value[0] != REFERENCE:
        return NUMBERS[value[0]:value[0] + 1]
    _, nullable, sort, number = value
    code = bytes([NULLABLE_CODE if nullable else PLAIN_CODE])
    if sort == ABSTRACT:
        return (b'' if nullable else code) + HEAPS[number:number + 1]
    return code + (signed(number) if sort == INDEX else bytes([EXACT_CODE]) + unsigned(number))


def field_text(field):
    (sort, *values), mutable = field
    return (value_text(values[0]) if sort == VALUE else {I8: b'\x78', I16: b'\x77'}[sort]) + bytes([mutable])


def definition_text(definition):
    (kind, *parts), is_final, supers = definition
    text = bytes([0x60 - kind])
    if kind == FUNCTION:
        text += b''.join(vec([value_text(it) for it in part]) for part in parts)
    elif kind == STRUCT:
        text += vec([field_text(it) for it in parts[0]])
    else:
        text += field_text(parts[0][0])
    if is_final and not supers:
        return text
    return bytes([FINAL_CODE if is_final else OPEN_CODE]) + vec([unsigned(it) for it in supers]) + text


def group_text(group):
    is_rec, definitions = group
    texts = [definition_text(it) for it in definitions]
    return bytes([REC_CODE]) + vec(texts) if is_rec else texts[0]


def read_section(content):
    """The groups of a type section with this content. Each name is below the end of its group."""
    reader = Reader(content, 0, len(content))
    groups = read_vec(reader, read_group)
    reader.finish()
    end = 0
    for _, definitions in groups:
        end += len(definitions)
        for name in (name for definition in definitions for name in names_of(definition)):
            if name >= end:
                raise NoSuchType(name)
    return groups


def section_text(groups):
    return vec([group_text(it) for it in groups])
