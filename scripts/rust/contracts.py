"""Takes the contracts out of the text of a Rattle file, and keeps what they say.

What is left has marks where functions begin and where their bodies do, so that docs and guards find their places after
the text has been rewritten.
"""
import dataclasses
import re

TOKEN = re.compile(
    r'(?P<comment>//[^\n]*)|(?P<string>b?"(?:\\.|[^"\\])*")|(?P<char>b?\'(?:\\[^\']+|\\\'|[^\'\\])\')'
    r'|(?P<tactic>#!?\[tactic\()|(?P<word>[A-Za-z_]\w*)|(?P<other>.)', re.S)
GHOST = re.compile(r'ghost\s+\w+')
CLAUSE = re.compile(r'(requires|ensures)\*?(?:\s+([A-Za-z_]\w*))?\s*\{')
FUNCTION = re.compile(r'fn\s+(\w+)')
# The line with which an `impl` or a trait begins, up to its brace.
BLOCK = re.compile(r'^(?:impl|pub trait|trait)\b[^{;]*', re.M)
# What is left of the line of an attribute, with the indentation of the next line.
REST_OF_LINE = re.compile(r'(?:\n *)?')
BRACKETS = {'(': 1, '[': 1, ')': -1, ']': -1}


@dataclasses.dataclass
class Function:
    name: str
    # The type of the `impl` that it is in, or its trait, or nothing.
    owner: str
    is_public: bool
    # Whether it is in the `impl` of a trait.
    is_of_trait: bool
    # The clauses of each kind: a name, which may be empty, and a text in one line.
    requires: list = dataclasses.field(default_factory=list)
    ensures: list = dataclasses.field(default_factory=list)
    # All clauses as they are written, line by line.
    lines: list = dataclasses.field(default_factory=list)

    def path(self):
        return f'{self.owner}::{self.name}' if self.owner else self.name


@dataclasses.dataclass
class Stripped:
    text: str
    functions: list


def docs_mark(number):
    """The mark of the line before which the docs of this function end."""
    return f'\x01{number}\x02'


def body_mark(number):
    """The mark of the place where the body of this function begins."""
    return f'\x03{number}\x04'


def end_of(text, start, opening, closing):
    """Where the bracket that opens at or after `start` is closed."""
    depth = 0
    for at in range(start, len(text)):
        depth += (text[at] == opening) - (text[at] == closing)
        if depth == 0 and text[at] == closing:
            return at + 1
    raise ValueError(f'{opening} is not closed')


def end_of_ghost(text, start):
    """Where the ghost item ends that begins here: behind its semicolon, which is in no braces."""
    depth = 0
    for at in range(start, len(text)):
        depth += (text[at] == '{') - (text[at] == '}')
        if text[at] == ';' and depth == 0:
            return at + 1
    raise ValueError('a ghost item has no end')


def block_of(so_far):
    """The last block that begins here: its type or trait, whether it is a public trait, and whether it is the `impl`
    of a trait."""
    head = BLOCK.findall(so_far)[-1]
    if 'trait' in head.split()[:2]:
        return re.search(r'trait (\w+)', head)[1], head.startswith('pub'), False
    rest = head.removeprefix('impl')
    rest = rest[end_of(rest, 0, '<', '>'):] if rest.startswith('<') else rest
    of_trait, has_trait, of_type = rest.partition(' for ')
    return re.search(r'\w+', of_type if has_trait else of_trait)[0], False, bool(has_trait)


class Stripping:
    """One pass over a text."""

    def __init__(self, text):
        self.text, self.at, self.out, self.functions = text, 0, [], []
        # The function whose signature is being read, and the depth of brackets there.
        self.signature, self.depth = None, 0

    def run(self):
        while self.at < len(self.text):
            token = TOKEN.match(self.text, self.at)
            kind = token.lastgroup
            if kind == 'tactic':
                self.at = REST_OF_LINE.match(self.text, end_of(self.text, self.at, '[', ']')).end()
            elif kind == 'comment' and self.signature and self.depth == 0:
                # It is about clauses.
                self.at = token.end()
            elif kind == 'word' and self.skips(token[0]):
                continue
            else:
                self.keep(kind, token[0])
        return ''.join(self.out)

    def skips(self, word):
        """Goes over a ghost item or a clause that begins with this word, if one does."""
        ghost = word == 'ghost' and GHOST.match(self.text, self.at)
        clause = word in ('requires', 'ensures') and CLAUSE.match(self.text, self.at)
        if ghost:
            self.drop_comment()
            self.at = end_of_ghost(self.text, ghost.end())
        elif clause:
            self.at = end_of(self.text, clause.end() - 1, '{', '}')
            if self.signature:
                self.add_clause(clause)
        return bool(ghost or clause)

    def drop_comment(self):
        """Takes the comment that ends on the line before off what is kept."""
        while True:
            spaces = len(self.out)
            while spaces and self.out[spaces - 1].isspace():
                spaces -= 1
            is_comment = spaces and self.out[spaces - 1].startswith('//') and not self.out[spaces - 1].startswith('//!')
            if not is_comment or self.out[spaces:].count('\n') > 1:
                return
            del self.out[spaces - 1:]

    def add_clause(self, clause):
        """Adds a clause to the function whose signature is being read."""
        content = ' '.join(self.text[clause.end():self.at - 1].split())
        getattr(self.signature, clause[1]).append((clause[2] or '', content))
        column = clause.start() - self.text.rfind('\n', 0, clause.start()) - 1
        first, *rest = self.text[clause.start():self.at].split('\n')
        self.signature.lines += [first, *(it[min(column, len(it) - len(it.lstrip())):] for it in rest)]

    def keep(self, kind, token):
        self.at += len(token)
        named = kind == 'word' and token == 'fn' and FUNCTION.match(self.text, self.at - 2)
        if named:
            self.begin(named[1])
        self.out.append(token)
        if self.signature and kind == 'other':
            self.depth += BRACKETS.get(token, 0)
            if token == '{':
                self.out.append(body_mark(len(self.functions) - 1))
            if token == '{' or token == ';' and self.depth == 0:
                self.signature = None

    def begin(self, name):
        """Begins the signature of a function, whose `fn` is not kept yet."""
        before = ''.join(self.out[-4000:])
        line = before[before.rfind('\n') + 1:]
        owner, is_trait, is_of_trait = block_of(self.text[:self.at]) if line.startswith(' ') else ('', False, False)
        is_public = is_trait or bool(re.match(r'\s*pub (const )?$', line))
        self.signature, self.depth = Function(name, owner, is_public, is_of_trait), 0
        self.functions.append(self.signature)
        self.out.append('\x05')


def with_docs_marks(text):
    """Moves the mark before each `fn` to the end of its docs."""
    lines, number = text.split('\n'), 0
    placed = []
    for line in lines:
        if '\x05' not in line:
            placed.append(line)
            continue
        above = []
        while placed and placed[-1].lstrip().startswith('#['):
            above.insert(0, placed.pop())
        indent = line[:len(line) - len(line.lstrip())]
        placed += [indent + docs_mark(number), *above, line.replace('\x05', '')]
        number += line.count('\x05')
    return '\n'.join(placed)


def without_gaps(text):
    """The text without the empty lines that clauses leave before the body of a function, or behind `where`."""
    text = re.sub(r'[ \t]+\n', '\n', text)
    text = re.sub('\\s+where\\s*\\{\x03', ' {\x03', text)
    text = re.sub(',\\s*\n( *)\\{\x03', ',\n\\1{\x03', text)
    return re.sub('(?<![,\\s])\\s+\\{\x03', ' {\x03', text)


def strip(text):
    """The text without its contracts, and its functions in order."""
    stripping = Stripping(text)
    return Stripped(with_docs_marks(stripping.run()), stripping.functions)
