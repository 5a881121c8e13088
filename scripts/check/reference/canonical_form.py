"""The canonical form of a type section: the one of crates/walrus_canonical/specs/Listing.antt.

Slow and plain. Equal types have one id, by type_equality. Each needed type is written once, as part of its group. Of the
groups whose other names are all written, the least comes next, as a list of definitions with their new indices.
"""
from reference import type_equality, type_section
from reference.type_section import names_of, renamed


class Group:
    """A group of types, by the index of the first one in the section."""

    def __init__(self, first, definitions):
        self.first, self.definitions = first, definitions

    def indices(self):
        return range(self.first, self.first + len(self.definitions))

    def names(self):
        return [name for it in self.definitions for name in names_of(it)]

    def other_names(self):
        """The indices outside of the group that it names."""
        return [name for name in self.names() if name not in self.indices()]


def placed(groups):
    """The groups with their places. Those without types are left out."""
    first = 0
    for _, definitions in groups:
        if definitions:
            yield Group(first, definitions)
        first += len(definitions)


def needed_of(groups, roots):
    """The indices that some indices need: with each its group, and what that names."""
    group_of = {index: group for group in groups for index in group.indices()}
    needed, left = set(), list(roots)
    while left:
        index = left.pop()
        if index not in needed:
            needed.add(index)
            left += [*group_of[index].indices(), *group_of[index].names()]
    return needed


def canonical_form(section, roots=None):
    """The groups of the canonical form, and the new index of each index. If there are roots, what they do not need is
    deleted, and has the new index None."""
    ids, groups = type_equality.ids_of(section, {}), list(placed(section))
    needed = set(range(len(ids))) if roots is None else needed_of(groups, roots)
    # One group of those that are equal, by their number.
    left = {ids[group.first][0]: group for group in reversed(groups) if group.first in needed}
    written, new = [], {}

    def as_written(group):
        def new_of(index):
            return len(new) + index - group.first if index in group.indices() else new[ids[index]]

        return [renamed(it, new_of) for it in group.definitions]

    while left:
        ready = [number for number, group in left.items() if all(ids[name] in new for name in group.other_names())]
        definitions, number = min((as_written(left[number]), number) for number in ready)
        written.append((len(definitions) > 1, definitions))
        for place in range(len(definitions)):
            new[number, place] = len(new)
        del left[number]
    return written, [new[it] if index in needed else None for index, it in enumerate(ids)]


def canonical(content, roots=None):
    """The content of a type section in canonical form, and the new index of each type, None if it is deleted. If there
    are roots, only what these indices need stays."""
    groups, images = canonical_form(type_section.read_section(content), roots)
    return type_section.section_text(groups), tuple(images)
