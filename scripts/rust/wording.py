"""What docs say of refused memory and of laws, in the words of a Rust program.

A break of a line may be anywhere in the text that a rule is for. A rule that fits nothing does nothing.
"""
import re

# A space, or a break between two lines of a comment.
GAP = r'(?:\s+//[/!] ?|\s+)'
ERRORS = re.compile(r'(?P<gap>^ *///\n)?^ */// # Errors\n *///\n *///(?P<text>.*\n(?: */// .*\n)*)', re.M)
REFUSED = re.compile(
    r'(?:\[?`AllocError`\]? comes where memory was refused|(?:An error comes if|Where) memory is refused)\. ?')


def spaced(words):
    return words.replace(' ', GAP)


def paragraph(words):
    """A paragraph or an item of a list in the docs of a file, from these words on, with the empty line before it."""
    return rf'(?:^//!\n(?=//! {spaced(words)}))?^//! {spaced(words)}.*\n(?:^//! (?!- ).+\n)*'


RULES = [(re.compile(pattern, re.M), text) for pattern, text in [
    (spaced('After an `AllocError`,? '), 'Where memory is refused, '),
    (spaced('after an `AllocError`,? '), 'where memory is refused, '),
    (spaced('no id is left, the error is the function itself, and'), 'no id is left,'),
    (spaced('a call that adds returns `Memory`, and nothing'), 'a call that adds panics, and nothing'),
    (spaced('Each call that takes memory returns a `Result`. If memory is refused, nothing changes.'),
     'A call to which memory is refused panics, and nothing has changed.'),
    (spaced('refused, or `build` returned an error.'), 'refused.'),
    (spaced('std\'s `FoldHasher`'), '`FoldHasher` of `rattle_std`'),
    (r'\(\[(`\w+`)\]\([\w:]*laws::\w+\)\)', r'(law \1)'),
    (r'\[(`\w+`)\]\([\w:]*laws(?:::\w+)?\)', r'\1'),
    # It is a call of a crate above, which the docs of walrus_unused can't link to.
    (r'\[(`used_types`)\]\(crate::used_types\)', r'\1'),
    (paragraph(r'- \[`laws`\]'), ''),
    (paragraph('Contracts find the definitions'), ''),
    (paragraph('The tests of this crate, in'), ''),
    (spaced('`ArenaSet` of `walrus_arena`'), '`ArenaSet`'),
    # What a call returns that returns no `Result` here.
    (spaced('(?:, and always returns `Ok`|, and never returns an error|, with the same errors)'), ''),
    # What pages say of other libraries.
    (spaced('all public names of `walrus_functions`, `walrus_nesting`, `walrus_traversals` and `walrus_traversals_mut`'),
     'functions, their builders, and walks'),
    (paragraph(r'\[`delete_unused_types`\] and \[`new_indices`\] are those of'), ''),
    (spaced('calls of the crates below'), 'these calls'),
    (spaced(r'\[this crate\]'), '[this module]'),
]]


def rewrite(text):
    """The text of a file with its docs in these words."""
    for pattern, new in RULES:
        text = pattern.sub(new, text)
    return text


def without_errors(docs):
    """The docs of a call that panics where its fallible form returns `AllocError`, and what they say of later calls."""
    found = ERRORS.search(docs)
    text = ' '.join(found['text'].replace('///', ' ').split()) if found else ''
    if not REFUSED.match(text):
        return docs, ''
    return docs[:found.start()] + docs[found.end():], REFUSED.sub('', text, count=1)
