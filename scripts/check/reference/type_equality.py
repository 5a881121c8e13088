"""Equality of types, by the rule of the WebAssembly core specification 3.0, "Types", recursive types, and "Validation",
defined types.

Two types are equal if they are at the same place of groups of the same length whose definitions are alike. An index into
the same group stands for a place in it, and any other index for its type. A lone type is a group of one. So it equals the
same type in an explicit group.
"""
from reference.type_section import renamed


def ids_of(groups, known):
    """An id for each type of these groups, as type_section reads them. Types are equal if their ids are, also types of two
    sections for which `known` is the same dictionary. It has a number for each closed group."""
    ids = []
    for _, definitions in groups:
        first = len(ids)

        def closed(index):
            return ids[index] if index < first else (index - first,)

        group = tuple(renamed(definition, closed) for definition in definitions)
        number = known.setdefault(group, len(known))
        ids += [(number, place) for place in range(len(definitions))]
    return ids
