"""The calls of the crates, as the sources have them, with the clauses that stand at each."""
import itertools
import re
from pathlib import Path

ROOT = Path(__file__).resolve().parent.parent.parent
TYPE = re.compile(r'(?:pub(?:\([^)]*\))? )?(?:struct|enum) (\w+)')
FUNCTION = re.compile(r'( *)(?:pub(?:\([^)]*\))? )?(?:const )?fn (\w+)')
LAW = re.compile(r'    ghost (\w+)(?: =|:)')
CLAUSE = re.compile(r'ensures(?: (\w+))? \{')
# The files whose functions are in no module of the crate.
ROOTS = ('lib', 'main')


class Owner:
    """What a block of functions belongs to: a type or a trait, or a trait of a type."""

    def __init__(self, name, trait, arguments=''):
        self.name, self.trait = name, trait
        # The types that the trait is given, in one word, or those of a type's own block.
        self.arguments = arguments


class Call:
    """A function or method, its first line, which may be an attribute, its last line, and the
    clauses that it ensures."""

    def __init__(self, path, line, last, owner, name):
        self.path, self.line, self.last, self.name = path, line, last, name
        self.owner = owner.name if owner else ''
        self.trait = owner.trait if owner else None
        self.arguments = owner.arguments if owner else ''
        self.clauses, self.text = [], ''

    def place(self):
        return f'{self.owner}::{self.name}' if self.owner else self.name

    def name_in_proofs(self):
        """What the prover calls it, without its module. Of a trait, but for `Drop`, the type and the
        trait with its types are one word, and so are a type and those that its own block is for."""
        trait = '' if self.trait == 'Drop' else (self.trait or '') + self.arguments
        return f'{self.owner}{trait}::{self.name}' if self.owner else self.name

    def path_in_proofs(self):
        """What the prover calls it: a function with its modules, a method by its type, which may be
        of another module."""
        if self.owner:
            return self.name_in_proofs()
        modules = self.path.with_suffix('').parts
        modules = modules[len(modules) - modules[::-1].index('src') :]
        return '::'.join([*(it for it in modules if it not in ROOTS), self.name])

    def is_named(self, name):
        """Whether the end of its name in proofs is this name."""
        return f'::{self.path_in_proofs()}'.endswith(f'::{name}')


class Crate:
    """A crate of the repository: its calls, its types, and their laws and implementations."""

    def __init__(self, name):
        self.name = name
        self.folder = ROOT / 'crates' / name
        self.calls, self.types, self.impls, self.laws = [], set(), set(), set()
        for path in sorted((self.folder / 'src').rglob('*.rt')):
            self.read(path)

    def read(self, path):
        """Takes in the calls of a file."""
        lines = path.read_text('utf-8').split('\n')
        owner = None
        for number, line in enumerate(lines, 1):
            if line.startswith(('impl', 'pub trait ', 'trait ')):
                owner = owner_of(lines[number - 1 :])
                if owner.trait:
                    self.impls.add(f'{owner.trait} for {owner.name}')
            if line.startswith('}') or (line.startswith('impl') and line.endswith('{}')):
                owner = None
            if made := TYPE.match(line):
                derived = re.findall(r'\w+', ' '.join(attributes(lines[: number - 1])))
                self.types.add(made[1])
                self.impls |= {f'{trait} for {made[1]}' for trait in derived}
            law = LAW.match(line)
            if owner and law:
                self.laws.add((owner.name, law[1]))
            found = FUNCTION.match(line)
            if found and bool(found[1]) == bool(owner):
                begin = number - len(attributes(lines[: number - 1]))
                rest = itertools.takewhile(lambda it: it != found[1] + '}', lines[number - 1 :])
                call = Call(path, begin, number + len([*rest]), owner, found[2])
                call.clauses, call.text = contract(lines[number - 1 :], found[1])
                self.calls.append(call)

    def at(self, path, line):
        """The call whose text stands at this line of a file, or None."""
        before = [call for call in self.calls if call.path == path and call.line <= line]
        return max(before, key=lambda call: call.line, default=None)


def attributes(lines):
    """The attributes with which the lines end: a place in an item may be the first of them."""
    return [*itertools.takewhile(lambda line: line.strip().startswith('#['), reversed(lines))]


def owner_of(lines):
    """What the block that begins here belongs to."""
    last = next(at for at, line in enumerate(lines) if line.endswith(('{', '{}')))
    head = ' '.join(lines[: last + 1])
    if not head.startswith('impl'):
        return Owner(re.search(r'trait (\w+)', head)[1], None)
    rest = without_generics(head.removeprefix('impl')).strip()
    trait, is_for, type_name = rest.partition(' for ')
    first = re.match(r'[\w:]+', trait)[0].split('::')[-1]
    given = re.split(r' where |\{', trait)[0].partition('<')[2]
    types = re.findall(r"(?<!')\b[A-Za-z]\w*|\(\)", given)
    if not is_for:
        is_open = {*types} <= {*re.findall(r'\w+', head.partition(first)[0])}
        words = [] if is_open else ['', *(it.replace('()', 'unit') for it in types)]
        return Owner(first, None, '+'.join(words))
    name = re.search(r'\w+', type_name)
    arguments = ''.join('Unit' if it == '()' else it for it in types)
    return Owner(name[0] if name else '()', first, arguments)


def without_generics(text):
    """The text without the `<..>` that it begins with."""
    depth = 0
    for at, letter in enumerate(text):
        depth += {'<': 1, '>': -1}.get(letter, 0)
        if depth == 0:
            return text[at + (letter == '>') :]
    return text


def contract(lines, indent):
    """The names of the clauses of the function that begins here, and its contract's text.

    A clause without a name is the empty word.
    """
    names, text, depth = [], '', 0
    for line in lines:
        bare = line.split(' // ')[0].strip()
        if line in (indent + '{', indent + '{}'):
            break
        begins = re.match(r'(ensures|requires|may_|decreases)', bare) and not depth
        if not text and not begins:
            if bare.endswith(('{', '{}', ';', '}')):
                break
            continue
        if found := CLAUSE.match(bare):
            names.append(found[1] or '')
        text += bare + ' '
        depth += bare.count('{') - bare.count('}')
        if depth == 0 and bare.endswith(';'):
            break
    return names, ' '.join(text.split())


def listed_crates():
    """The crates of crates.txt in their order, each with the libraries that it stands on."""
    listed = {}
    for line in (ROOT / 'crates.txt').read_text('utf-8').split('\n'):
        if ':' in line and not line.startswith('#'):
            head, _, below = line.partition(':')
            listed[head.split()[0]] = below.split()
    return listed


def crates_below():
    """Each crate with those of the repository that its line of crates.txt names."""
    listed = listed_crates()
    return {name: [it for it in names if it in listed] for name, names in listed.items()}


def wanted(names, below):
    """These crates with all that they stand on, each with those right below it."""
    found, left = {}, [*names]
    while left:
        name = left.pop()
        found[name] = below[name]
        left += [it for it in below[name] if it not in found]
    return found


def crate_lines(names):
    """The lines that these crates have in crates.txt."""
    named = re.compile(rf'({"|".join(names)})\b')
    lines = (ROOT / 'crates.txt').read_text('utf-8').splitlines(keepends=True)
    return [*filter(named.match, lines)]
