"""The table of crates and the list of tools: from crates.txt, and the first line of each."""
import re

from .sources import ROOT, listed_crates

# The sentence with which a tool says what it is.
SENTENCE = re.compile(r'(?:"""|(?:\A|\n)# )(.+?)\.(?:"""|\s)', re.DOTALL)

# What the names of crates begin with that are no libraries.
OTHERS = ('program_', 'example_', 'test_', 'bench_')


def root_file(name):
    source = ROOT / 'crates' / name / 'src'
    return next((it for it in (source / 'lib.rt', source / 'main.rt') if it.is_file()), None)


def first_line(name):
    """What a crate is, or what is wrong with how it says so, as a pair."""
    path = root_file(name)
    if path is None:
        return '', f'crates.txt: {name}: there is no such crate: name it as its folder is named'
    line, *others = path.read_text('utf-8').split('\n')
    said = line.removeprefix('//! ')
    place = f'{path.relative_to(ROOT)}:1'
    if said == line or not said.endswith('.'):
        return said, f'{place}: begin the crate with one sentence on one line, as //! A list.'
    if others and others[0].startswith('//! '):
        return said, f'{place}: leave an empty line //! after the first sentence'
    return said, None


def faults():
    """What is wrong with the crates, before any table."""
    listed = listed_crates()
    folders = {it.name for it in (ROOT / 'crates').iterdir() if (it / 'src').is_dir()}
    lines = [first_line(name)[1] for name in listed]
    lines += [
        f'crates/{name}: name the crate in crates.txt, with the libraries that it stands on'
        for name in sorted(folders - set(listed))
    ]
    return [line for line in lines if line]


def is_library(name):
    """Whether a crate is a library: `trysend` is a program by what it is."""
    is_program = (ROOT / 'crates' / name / 'src' / 'main.rt').is_file()
    return not is_program and not name.startswith(OTHERS)


def table():
    """The libraries, and what each is, without what its first line says behind a colon."""
    names = filter(is_library, listed_crates())
    return [f"- `{name}`: {first_line(name)[0].rstrip('.').split(': ')[0]}." for name in names]


def tools():
    """What each tool is, by the sentence with which it begins. Tests of tools have no line, nor has
    what others source."""
    lines = []
    top = ROOT / 'tools'
    for path in sorted([*top.iterdir(), *top.glob('*/check.py')]):
        is_tool = path.is_file() and not path.name.endswith(('.txt', '.sh', '_tests'))
        text = path.read_text('utf-8') if is_tool else ''
        if found := SENTENCE.search(text):
            said = ' '.join(found[1].replace('\n# ', ' ').split())
            lines.append(f'{str(path.relative_to(top)):24} {said}')
    return lines
