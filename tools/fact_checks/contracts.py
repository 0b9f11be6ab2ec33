"""The contracts that docs/THEOREMS.md and the table of each CALLING.md cite.

A citation is a call, as `Core::len` or `run_all`; a call with names of its clauses, as
`Core::try_send: reply, after`; the same of the calls of a type, as `Core::*: rung`, where each
clause stands at one or more; a law of a type or a trait, as `Core: invariant`; an implementation,
as `Visitor for Outcomes`; or one that is not there, as `no Drop for Ticket`. It stands in the last
column of a table, or in brackets at the end of a point, below a heading that names its crate, or
begins with its crate, as `channel_core::Exact: same`. A text with other signs after a citation has to
stand in the contract of that call; `..` leaves something out of it. Who claims 'exactly if' cites a
call of whose clauses one is an equivalence.
"""
import re

from .pages import for_callers
from .sources import ROOT, Crate, listed_crates

THEOREMS = ROOT / 'docs' / 'THEOREMS.md'
NAMES = re.compile(r'`([^`]+)`')
CITATION = re.compile(r'[\w:]+(::\*)?(: \w+(, \w+)*)?|(no )?\w+ for \w+')


def cited_rows(text):
    """Each row or point below a heading that names crates: its line, the crates, what it claims and
    what it cites."""
    crates, listed, rows = [], listed_crates(), []
    for number, line in enumerate(text.split('\n'), 1):
        if line.startswith('#'):
            crates = [name for name in NAMES.findall(line) if name in listed]
        if not crates:
            continue
        if line.startswith('| '):
            claim, _, cell = line.rstrip(' |').rpartition(' | ')
            rows.append((number, crates, claim, cell))
        elif line.startswith('- ') and line.endswith(']'):
            claim, _, cell = line.rpartition(' [`')
            rows.append((number, crates, claim, '`' + cell))
    return rows


def is_there(crate, place, clauses):
    """Whether the crate has what is cited, or lacks it, as it says."""
    if place.startswith('no '):
        return place.split()[-1] in crate.types and place.removeprefix('no ') not in crate.impls
    owner, _, name = place.rpartition('::')
    calls = [call for call in crate.calls if call.owner == owner and name in ('*', call.name)]
    if name == '*':
        return all(any(clause in call.clauses for call in calls) for clause in clauses)
    if clauses and all((place, clause) in crate.laws for clause in clauses):
        return True
    is_call = any(call.clauses and set(clauses) <= set(call.clauses) for call in calls)
    return is_call or place in crate.impls


def is_quoted(text, calls):
    """Whether the contract of one of these calls has the text's parts, one behind the other."""
    parts = (re.escape(' '.join(part.split())) for part in text.split('..'))
    return any(re.search('.*'.join(parts), call.text) for call in calls)


def cell_faults(cell, crates, named):
    """What of a cell no source has."""
    place = ''
    for cited in NAMES.findall(cell):
        if not CITATION.fullmatch(cited):
            calls = [it for name in named for it in crates[name].calls if it.place() == place]
            if not is_quoted(cited, calls):
                yield cited
            continue
        place, _, labels = cited.partition(': ')
        first, _, rest = place.partition('::')
        where, place = ([first], rest) if first in crates else (named, place)
        clauses = labels.split(', ') if labels else []
        if not any(is_there(crates[name], place, clauses) for name in where):
            yield cited


def is_equivalence(cell, calls):
    """Whether a call that is cited has a clause that is one."""
    places = [cited.partition(': ')[0] for cited in NAMES.findall(cell)]
    return any('↔' in call.text for call in calls if call.place() in places)


def rows():
    """Each row or point with citations, of docs/THEOREMS.md and of the pages for callers."""
    for path in [THEOREMS, *for_callers()]:
        for row in cited_rows(path.read_text('utf-8')):
            yield path, *row


def citations():
    """Each text that is cited."""
    return [cited for *_, cell in rows() for cited in NAMES.findall(cell)]


def faults():
    """The citations that no source has."""
    crates = {name: Crate(name) for name in listed_crates()}
    for path, number, named, claim, cell in rows():
        calls = [call for name in named for call in crates[name].calls]
        if 'exactly if' in claim and not is_equivalence(cell, calls):
            yield (
                f'{path.relative_to(ROOT)}:{number}: `exactly if` is an equivalence, and no call '
                'that is cited has one: claim what its clause says'
            )
        for cited in cell_faults(cell, crates, named):
            yield (
                f'{path.relative_to(ROOT)}:{number}: `{cited}` is no contract of '
                f'{" or ".join(named)}: cite a call and its clauses as they stand there'
            )
