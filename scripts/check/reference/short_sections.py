"""Modules with short types that refer to earlier types and to themselves (`modules`)."""
import itertools

from reference import type_section
from reference.module import FUNCTION, HEADER, TYPE
from reference.reader import unsigned
from reference.type_section import INDEX, REFERENCE, group_text, vec

MOST_TYPES = 3
# How the types of a section are grouped: the size of each explicit group, and 0 for a lone type.
GROUPINGS = {
    1: [(1,)],
    2: [(1, 0), (0, 1), (1, 1), (2,)],
    3: [(1, 0, 0), (0, 1, 0), (0, 0, 1), (1, 1, 0), (1, 0, 1), (0, 1, 1), (2, 0), (0, 2), (3,)],
}


def function(parameters, results=(), supers=()):
    """The definition of a function type whose values are nullable references to these types."""
    parts = [tuple((REFERENCE, True, INDEX, it) for it in part) for part in (parameters, results)]
    return (type_section.FUNCTION, *parts), True, supers


def definitions(index):
    """The types that can come at an index. They refer to earlier types and to themselves, up to two times."""
    yield function(())
    for name in range(index + 1):
        yield function((name,))
        yield function((), (name,))
        yield function((), (), (name,))
        for other in range(index + 1):
            yield function((name, other))


def grouped(types, sizes):
    """The groups of these types, with sizes as in GROUPINGS."""
    rest = iter(types)
    return [(size > 0, list(itertools.islice(rest, max(size, 1)))) for size in sizes]


def sections():
    """All lists of at most MOST_TYPES types as lone types, and each of them again with one of GROUPINGS."""
    lists = [types for count in range(1, MOST_TYPES + 1) for types in itertools.product(*map(definitions, range(count)))]
    for number, types in enumerate(lists):
        yield grouped(types, (0,) * len(types))
        groupings = GROUPINGS[len(types)]
        yield grouped(types, groupings[number % len(groupings)])


def section(code, content):
    return bytes([code]) + unsigned(len(content)) + content


def module_of(groups, functions):
    """A module with these groups of types, and with functions of the types with these indices. It has no bodies."""
    types = vec([group_text(it) for it in groups])
    return HEADER + section(TYPE, types) + section(FUNCTION, vec([unsigned(it) for it in functions]))


def modules():
    """A module for each section, each with whether it is pruned: every third one is. Such a module has a function of its
    last type alone, and each other one has a function of each type."""
    for number, groups in enumerate(sections()):
        count = sum(len(types) for _, types in groups)
        prunes = number % 3 == 2
        yield module_of(groups, [count - 1] if prunes else range(count)), prunes
