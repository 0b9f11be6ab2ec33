"""The figures of docs/figures.txt: the tables that pages have of them, and a picture of some.

A section begins with its name in brackets. Lines `key: value` follow, an empty line, and rows of
fields between tabs, the names of the columns first; or no row, but what is said. The keys:

    page      the page that has the table
    said      what stands above the table there
    measured  when, and of which state of the code, which stands there too
    machine   what it was measured on, and what else ran there
    versions  of what was compared
    plot      the rows of the picture, between semicolons
"""
import re
from html import escape
from string import Template

from .sources import ROOT

FIGURES = ROOT / 'docs' / 'figures.txt'
PICTURE = ROOT / 'docs' / 'figures.svg'
KEYS = {'page', 'said', 'measured', 'machine', 'versions', 'plot'}

TABLE = re.compile(r'<!-- tools/facts: .*?<!-- end -->', re.DOTALL)
RATIO = re.compile(r'(?<![\d.])\d\.\d\d(?![\d.])')

# The columns that are drawn, each with its color and its shape around a place.
DRAWN = {
    'here': ('#1E88D2', '<path fill="{0}" d="M{1} {2}m-6 0l6-6l6 6l-6 6z"/>'),
    'flume': ('#D55E00', '<circle fill="{0}" cx="{1}" cy="{2}" r="4.5"/>'),
    'crossbeam': ('#009E73', '<path fill="{0}" d="M{1} {2}m-5 4.5l5-9l5 9z"/>'),
    'tokio': ('#CC79A7', '<path fill="{0}" d="M{1} {2}m-4-4h8v8h-8z"/>'),
}
HEAD = Template('''\
<svg xmlns="http://www.w3.org/2000/svg" width="$width" height="$height" viewBox="0 0 $width $height" role="img">
<title>Time of one thread's work, as a ratio to async-channel</title>
<style>text{font:13px sans-serif;fill:#222}.e{text-anchor:end}.m{text-anchor:middle}
.b{fill:#fff}.l{stroke:#ccc}.o{stroke:#555;stroke-width:2}
@media(prefers-color-scheme:dark){text{fill:#ddd}.b{fill:#111}.l{stroke:#444}.o{stroke:#bbb}}</style>
<rect class="b" width="100%" height="100%" rx="6"/>
''')
# How far it is from a ratio of 0 to 1, where the first row is, and how high a row and wide a letter.
SCALE, TOP, ROW, LETTER = 360, 60, 26, 7
# What is free at both sides, and between a row's name and its ratios.
EDGE, GAP = 16, 16


class Section:
    """What was measured in one way: the keys, the names of the columns, and the rows."""

    def __init__(self, text):
        name, _, rest = text.partition(']\n')
        keys, _, rows = rest.partition('\n\n')
        self.name = name
        self.keys = dict(line.split(': ', 1) for line in keys.split('\n'))
        self.head, *self.rows = [line.split('\t') for line in rows.strip('\n').split('\n')]

    def text(self):
        keys = [f'{key}: {value}' for key, value in self.keys.items()]
        rows = ['\t'.join(row) for row in [self.head, *self.rows]]
        return '\n'.join([f'[{self.name}]', *keys, '', *rows, ''])

    def faults(self):
        """What is wrong with how the section is written."""
        place = f'docs/figures.txt: [{self.name}]'
        if wrong := set(self.keys) - KEYS:
            yield f'{place}: there is no key {", ".join(sorted(wrong))}'
        if 'machine' not in self.keys:
            yield f'{place}: say on which machine it was measured, and what else ran there'
        if self.rows and 'measured' not in self.keys:
            yield f'{place}: say when it was measured, and of which state of the code'
        for row in self.rows:
            if len(row) != len(self.head):
                yield f'{place}: {row[0]}: write {len(self.head)} fields with tabs between them'

    def lines(self):
        """The table as a page has it."""
        measured = f"Measured {self.keys['measured']}." if 'measured' in self.keys else ''
        said = f"{self.keys.get('said', '')} {measured}".strip()
        if not self.rows:
            return [said]
        rule = '|---' * len(self.head) + '|'
        lines = ['| ' + ' | '.join(row) + ' |' for row in [self.head, *self.rows]]
        first, *others = [line.replace('|  ', '| ').replace('|  ', '| ') for line in lines]
        return [said, '', first, rule, *others]


def parts():
    """What stands before the first section, and the sections."""
    if not FIGURES.is_file():
        return '', []
    before, *texts = re.split(r'^\[', FIGURES.read_text('utf-8'), flags=re.MULTILINE)
    return before, [Section(text) for text in texts]


def tables():
    """Each table on a page: the page, the name and the lines."""
    for section in parts()[1]:
        if 'page' in section.keys:
            yield ROOT / section.keys['page'], section.name, section.lines()


def loose():
    """The ratios that stand beside tables of figures, and not in them."""
    for path in sorted({path for path, _, _ in tables()}):
        for part in path.read_text('utf-8').split('\n## '):
            beside = re.sub(TABLE, '', part)
            for ratio in RATIO.findall(beside) if beside != part else []:
                yield f"{path.relative_to(ROOT)}: {ratio} isn't of docs/figures.txt: put it there"


def plotted():
    """Each row of the picture: its name, and its numbers by their columns."""
    for section in parts()[1]:
        for row in section.rows:
            if row[0] in section.keys.get('plot', '').split('; '):
                cells = dict(zip(section.head, row))
                yield row[0], {name: float(cells[name]) for name in DRAWN if cells.get(name)}


def legend(x):
    """The shapes with their names, side by side from this place on."""
    for name, (color, shape) in DRAWN.items():
        yield shape.format(color, x, 20) + f'<text x="{x + 12}" y="25">{name}</text>\n'
        x += LETTER * len(name) + 40


def scale(left, bottom):
    """The lines of the ratios, each with its number, and async-channel's."""
    for tenths in range(0, 11, 2):
        x, kind = left + SCALE * tenths // 10, 'o' if tenths == 10 else 'l'
        label = 'async-channel' if tenths == 10 else tenths / 10
        yield f'<path class="{kind}" d="M{x} {TOP - 16}V{bottom - 8}"/>'
        yield f'<text class="m" x="{x}" y="{bottom + 14}">{label}</text>\n'


def row_of(work, ratios, left, y):
    """A row's name, and its ratios from the last to the first."""
    out = f'<text class="e" x="{left - GAP}" y="{y + 5}">{escape(work)}</text>'
    for name, ratio in reversed(ratios.items()):
        color, shape = DRAWN[name]
        out += shape.format(color, round(left + SCALE * ratio), y)
    return out + '\n'


def picture():
    """The picture in SVG, light or dark as its reader has it; nothing if no row is to be drawn."""
    rows = [*plotted()]
    if not rows:
        return ''
    left = EDGE + LETTER * max(len(work) for work, _ in rows) + GAP
    right = left + SCALE + LETTER * len('async-channel') // 2
    bottom = TOP + ROW * len(rows)
    drawn = [*legend(left), *scale(left, bottom)]
    drawn += [row_of(*row, left, TOP + ROW * at) for at, row in enumerate(rows)]
    return HEAD.substitute(width=right + EDGE, height=bottom + 34) + ''.join(drawn) + '</svg>\n'


def faults():
    """What is wrong with the file of figures, and whether the picture differs from it."""
    yield from loose()
    for section in parts()[1]:
        yield from section.faults()
    stored = PICTURE.read_text('utf-8') if PICTURE.is_file() else ''
    if stored != picture():
        yield 'docs/figures.svg: it differs from docs/figures.txt: run tools/facts --write'


def write():
    """Writes the picture."""
    if text := picture():
        PICTURE.write_text(text, 'utf-8')
