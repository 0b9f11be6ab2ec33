"""Reads a file of the proved source token by token."""
import re
from pathlib import Path

CLOSING = {'(': ')', '[': ']', '{': '}'}
TOKEN = re.compile(
    r"""(?P<space>\s+|//[^\n]*)
      | (?P<literal>b?"(?:\\.|[^"\\\n])*"|b?'(?:\\.|[^'\\\n])'|[0-9]\w*)
      | (?P<lifetime>'[a-z_]\w*)
      | (?P<word>[A-Za-z_]\w*\b(?!["']))
      | (?!/\*)(?P<sign>::|->|=>|\.\.=|\.\.|<=|>=|==|!=|&&|\|\||[-+*/%]=|[][(){}<>;:,.=!?&|+*/%@\#-])""",
    re.VERBOSE | re.ASCII,
)
# What a block that only the prover reads is gone through by: if a brace stands in it, it counts.
GHOST_PART = re.compile(
    r'(?P<text>"(?:\\.|[^"\\\n])*")|(?P<comment>(?://|--)[^\n]*)|\'[{}"]\'|["{}]'
)


class Refusal(Exception):
    """Something that isn't known, with the place where it stands."""


class Token:
    """A word, sign or literal, and where it stands."""

    def __init__(self, kind, text, start):
        self.kind, self.text, self.start, self.end = kind, text, start, start + len(text)


class Source:
    """A file of the source, read token by token."""

    def __init__(self, root, crate, module):
        self.crate, self.module = crate, module
        self.path = Path('crates', crate, 'src', '/'.join(module) or 'lib').with_suffix('.rt')
        self.text = (root / self.path).read_text(encoding='utf-8')
        self.at = 0

    def refuse(self, what, at=None):
        line = self.text.count('\n', 0, self.at if at is None else at) + 1
        raise Refusal(f'{self.path}:{line}: {what}')

    def scan(self, at):
        """The token that begins at a place, or None at the end."""
        if at == len(self.text):
            return None
        found = TOKEN.match(self.text, at)
        if not found:
            self.refuse(f'unknown character {self.text[at]!r}', at)
        return Token(found.lastgroup, found.group(), at)

    def lead(self):
        """Takes the spaces and comments that stand next."""
        start = self.at
        while (token := self.scan(self.at)) and token.kind == 'space':
            self.at = token.end
        return self.text[start:self.at]

    def peek(self):
        """The next token behind spaces and comments, which isn't taken."""
        at = self.at
        while (token := self.scan(at)) and token.kind == 'space':
            at = token.end
        return token

    def sees(self, *texts):
        token = self.peek()
        return token is not None and token.text in texts

    def take(self, *texts):
        """Takes the next token, which has to be one of these texts where there are any."""
        self.lead()
        token = self.scan(self.at)
        if token is None:
            self.refuse('the file ends too early')
        if texts and token.text not in texts:
            self.refuse(f'`{token.text}` where `{"` or `".join(texts)}` is looked for')
        self.at = token.end
        return token

    def take_if(self, text):
        found = self.sees(text)
        if found:
            self.take(text)
        return found

    def take_word(self):
        token = self.take()
        if token.kind != 'word':
            self.refuse(f'`{token.text}` where a name is looked for', token.start)
        return token.text

    def skip_block(self):
        """Takes a block that only the prover reads, to the brace that ends it."""
        start, depth = self.take('{').start, 1
        while depth:
            found = GHOST_PART.search(self.text, self.at)
            if not found:
                self.refuse('a block without an end', start)
            self.at, part = found.end(), found.group()
            depth += {'{': 1, '}': -1}.get(part, 0)
            is_unclear = set(part) & set('"{}') if found['comment'] else part not in {'{', '}'}
            if is_unclear and not found['text']:
                self.refuse(f'unknown brace or quote in `{part}`', found.start())
