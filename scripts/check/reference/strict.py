"""What `wasmnorm --strict` must do with a module (`outcome`), and of which modules `wasmnorm` must warn (`complaint`).

Slow and plain, like the modules beside it, which say what the new module is.
"""
from reference import module
from reference.module import CUSTOM, DONE, HEADER, REFUSED
from reference.reader import Reader

KNOWN = (b'name', b'producers', b'target_features', b'dylink.0', b'dylink', b'build_id', b'authors', b'licenses',
         b'description', b'homepage', b'source', b'revision', b'version', b'.dep-v0', b'.llvmbc', b'.llvmcmd',
         b'emscripten_metadata', b'__wasm_bindgen_unstable', b'contractspecv0', b'contractmetav0', b'contractenvmetav0')
KNOWN_PREFIX = b'component-type'
DESCRIPTIONS = (b'external_debug_info', b'linking', b'signature', b'sourceMappingURL')
DESCRIPTION_PREFIXES = (b'.debug_', b'metadata.code.', b'reloc.')
# How many bytes of the name of a section are shown.
SHOWN = 64


def is_known(name):
    """Whether a custom section of this name is of a known kind, such as one that describes other bytes of the module."""
    return name in KNOWN + DESCRIPTIONS or name.startswith((KNOWN_PREFIX, *DESCRIPTION_PREFIXES))


def unknown_section(text):
    """The name and the place of the first custom section of an unknown kind, or None. The module is accepted without the
    option, so each custom section has a name."""
    at = len(HEADER)
    for code, section in module.sections_of(text):
        if code == CUSTOM:
            content = module.content(section)
            name = Reader(content, 0, len(content)).name()
            if not is_known(name):
                return name, at
        at += 1 + len(section)
    return None


def unread_names(text):
    """The place of the first section `name` that can't be read, or None."""
    parts, at = list(module.sections_of(text)), len(HEADER)
    count = sum(len(module.canonical(section)[1]) for code, section in parts if code == module.TYPE)
    for code, section in parts:
        content = module.content(section)
        it = module.Renamer(content, 0, len(content), range(count), False)
        if code == CUSTOM and it.name() == b'name' and not module.are_names(it):
            return at
        at += 1 + len(section)
    return None


def shown(name):
    """A name as a string of the text format, with three points behind it if it is long."""
    def of_byte(byte):
        if byte in b'"\\':
            return '\\' + chr(byte)
        return chr(byte) if 0x20 <= byte < 0x7F else f'\\{byte:02x}'

    return '"' + ''.join(map(of_byte, name[:SHOWN])) + '"' + '...' * (len(name) > SHOWN)


def complaint(text):
    """The line about a module that only `--strict` rejects, and of which there is a warning without it. Or None."""
    found = unknown_section(text)
    if found is not None:
        name, at = found
        return f'the custom section {shown(name)} at byte {at} is of an unknown kind'
    at = unread_names(text)
    return None if at is None else f'the custom section "name" at byte {at} can\'t be read'


def outcome(text, keeps_widths=False, prunes=False):
    """The status, the module that it writes, or None, and the line of `complaint`, or None."""
    status, new = module.outcome(text, keeps_widths, prunes)
    line = complaint(text) if status == DONE else None
    return (status, new, None) if line is None else (REFUSED, None, line)
