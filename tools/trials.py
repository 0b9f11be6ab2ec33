"""Tries changed bodies of functions on the prover.

A change has a `name`, the `function` that it changes, as the prover names its end, and its `file`
in the crate. `is_local` says that it changes nothing else, and `written_into` answers the file's
text with the change, or None if it has no place there. The libraries are those that `rt ci` or
`rt check` built.

One copy of the crate has many changes, and one run tries them. Each stands in a copy of its
function; that of a poll is in a block of its type's own. `main` and other methods of traits can
have no copy, and are changed themselves. Nearly every other function has a body there that keeps
any contract, as it calls what is assumed never to return. A proof can't look into what is called.
So a change is tried against contracts, and nothing that is right is proved again.

A change is refused if a goal in its lines isn't proved. A run leaves it open if its function is
only said to call one that isn't proved, or if nothing is wrong but that stored answers, which cite
the text of their function, don't fit. Those of the latter kind are tried again in the same copy
without these answers, and whatever is open then by itself. If all goals that aren't proved then are
those that had one, `breaks_a_proof` is set: the prover may find none for a change that keeps to the
contract, either.

A change of a definition names a law, which is proved by hand. It is refused if that isn't proved.
If the definitions themselves have an error then, it wasn't tried.
If a worked row finds it, it names the row, too, and the law's proof begins with that row.

A change may have a `clause`. Then its copy ensures that clause alone, and it is refused if a goal
of that clause isn't proved. So no time goes into the other clauses.

The prover looks a second time for a proof that it could offer of each goal that it did not prove,
unless an answer of the function has a hole. So a hole is put beside the answers.
"""
import os
import re
import shutil
import subprocess
import tempfile
import threading
from collections import Counter
from concurrent.futures import ThreadPoolExecutor
from pathlib import Path

from fact_checks.sources import CLAUSE, ROOTS, Crate

VERDICT = re.compile(
    r'^fn \w+::(\S+): (proved|not proved|no proof|could not tell)(?:,[^:;]*)?(?:[:;] (.*))?$'
)
# Where a goal stands that isn't proved, and its name.
GOAL = re.compile(
    r'^note: (\S+):(\d+):\d+: (?:it is not proved|`search` found no proof).*?\(`([\w-]+)`\)', re.M
)
# A definition that the prover doesn't take.
UNREAD = re.compile(r'^(?:\./)?specs/\S+:\d+:\d+: error.*', re.M)
# How many run side by side, whatever crates they are of.
TURNS = threading.BoundedSemaphore(len(os.sched_getaffinity(0)))
# How many changes a copy of a crate has at most, so that no run takes much longer than others.
MOST = 60
# What may be stored for a function, among the proofs, and where its answers are.
ANSWERS = 'Answers.antt'
WHOLE = 'Proof.antt'
STORED = (ANSWERS, 'Invariants.antt', WHOLE)
HOLE = '\npub unproved : Unit {0}\nunproved = ?\n'
# A module whose function is assumed never to return, and the body that calls it.
SOURCE = 'src/never.rt'
NEVER = 'unsafe extern "C" {\n    pub safe fn never()\n        ensures { ⊥ };\n}\n'
BODY = 'crate::never::never(); unreachable!()'
# The traits whose methods get that body too, and None for functions of no trait. Some keep theirs.
POLLED = (None, 'Future', 'Stream')
KEEPS_ITS_BODY = re.compile(r'\bconst fn\b|-> .*\bimpl\b|\bdecreases\b|#\[(cycle|test)\b')
# An answer for a goal of another clause than this one, and the name of a goal of this one: of a
# function's only clause it is the first part alone.
OTHER = r'^pub returns\S*-clause-(?!%s )\w+ :.*?(?=^pub |\Z)'
OWN = r'\b(returns[\w-]*)-clause-%s\b'


class Refused(Exception):
    """What is wrong with a change, or with a run."""


class Tried:
    """A change, as it is tried, and what is found out."""

    # More flags for the prover.
    flags = ()
    # Its function in the sources.
    call = None
    # The clause that must refuse it, if it is known.
    clause = None
    # Whether it changes a definition, and the row that finds it, as FILE.THEOREM in proofs/.
    is_definition, row = False, ''
    # What the name of its copy ends in, if it has one.
    ending = ''
    # Its lines in the file that it was put into.
    lines = range(0)
    # The files of answers that have a hole for it.
    holes = ()
    # The lines in which a stored answer doesn't fit it.
    misfits = ()
    # Whether nothing isn't proved but goals that had one of these.
    breaks_a_proof = False
    # Why its function isn't proved if that is no goal of its own.
    other_reason = ''

    @property
    def tried(self):
        """The function that has the change, as the prover names its end."""
        function = self.call.place() if self.is_moved else self.function
        return function + self.ending

    @property
    def is_moved(self):
        """Whether it has a copy of a trait's method, which stands behind the trait's block."""
        return bool(self.ending and self.call.trait)

    @property
    def has_one_clause(self):
        """Whether it is tried with one clause alone, which only a copy of a function can be."""
        return bool(self.clause and self.ending)

    def changed_lines(self, right):
        """The lines of its function with the change in it."""
        wrong, name = self.written_into(right).split('\n'), self.call.name
        last = self.call.last + len(wrong) - len(right.split('\n'))
        changed = wrong[self.call.line - 1 : last]
        if self.has_one_clause:
            changed = with_one_clause(changed, self.clause)
        changed = '\n'.join(changed)
        changed = re.sub(rf'\bfn {name}\b', f'fn {name}{self.ending}', changed, count=1)
        if self.is_moved:
            changed = of_type(changed, right.split('\n'), self.call)
        return changed.split('\n')

    def lines_before(self, lines):
        """How many lines of the file come before its copy, or how many end with its function."""
        return lines.index('}', self.call.last) + 1 if self.is_moved else self.call.last

    def put_proofs(self, proofs):
        """Gives its copy what is stored for its function."""
        self.misfits, self.holes = (), []
        name = self.call.name
        for folder in stored_for(self.function, proofs):
            owner = self.call.owner if self.is_moved else folder.parent.name
            changed = folder.parent.with_name(owner) / f'{name}{self.ending}'
            if self.ending:
                shutil.copytree(folder, changed)
            ends = f'{folder.parent.name}.{name}.', f'{owner}.{name}{self.ending}.'
            for file in changed.rglob('*.antt'):
                text = file.read_text('utf-8').replace(*ends)
                if self.has_one_clause and file.name == ANSWERS:
                    text = re.sub(OTHER % self.clause, '', text, flags=re.M | re.S)
                    text = re.sub(OWN % self.clause, r'\1', text)
                file.write_text(text, 'utf-8')
            if self.row:
                begin_with(changed / ANSWERS, self.row)
            if not self.is_definition and not (changed / WHOLE).exists():
                self.holes.append(changed / ANSWERS)
                with (changed / ANSWERS).open('a', encoding='utf-8') as answers:
                    answers.write(HOLE)

    def drop_misfits(self):
        """Takes the answers that don't fit from what is stored for its copy, or all if what they
        cite isn't there."""
        for file in self.holes:
            kept, at = [], 1
            for part in re.split(r'^(?=pub )', file.read_text('utf-8'), flags=re.M):
                after = at + part.count('\n')
                if self.misfits.isdisjoint(range(at, after)):
                    kept.append(part)
                at = after
            is_whole = kept and not kept[0].startswith('pub ')
            file.write_text(''.join(kept) if is_whole else HOLE, 'utf-8')

    def answered(self, path):
        """The goals, as it has them, that have an answer in this file."""
        names = re.findall(r'^pub ([\w-]+) :', path.read_text('utf-8'), re.M)
        return {re.sub(OWN % self.clause, r'\1', it) if self.has_one_clause else it for it in names}

    def unproved(self, said):
        """Its goals that were not proved."""
        named = f'returns.*-clause-{self.clause}' if self.clause else '.*'
        of_clause = re.compile('returns.*' if self.has_one_clause else named)
        return {
            goal for file, line, goal in GOAL.findall(said)
            if not self.is_local or (Path(file) == Path(self.file) and int(line) in self.lines)
            if of_clause.fullmatch(goal)
        }


def stored_for(function, proofs):
    """The folders of what is stored for a function, whose name ends so."""
    *owner, name = function.split('::')
    stored = {it.parent for file in STORED for it in proofs.rglob(f'{name}/{file}')}
    return [it for it in stored if [*it.parts[-1 - len(owner) : -1]] == owner]


def with_one_clause(lines, clause):
    """The lines of a function that ensures nothing but this clause."""
    end = next(at for at, line in enumerate(lines) if line.strip() == '{')
    depth, kept = 0, []
    for line in lines[:end]:
        begins = CLAUSE.match(line.strip()) if not depth else None
        is_other = begins[1] != clause if begins else depth and is_other
        depth += line.count('{') - line.count('}')
        if not is_other:
            kept.append(line)
    return kept + lines[end:]


def begin_with(answers, row):
    """Lets a function's proof rest on a worked row, which stands in the proofs of its crate."""
    text = answers.read_text('utf-8')
    proofs, (module, name) = re.search(r'Rattle\.\w+\.proofs', text)[0], row.split('.')
    text = text.replace('\nreturns g c = ', f'\nreturns g c = let row = {name} in ')
    answers.write_text(f'use {proofs}.{module}.{{{name}}}\n{text}', 'utf-8')


def is_wrong(row, said):
    """Whether the prover says that a worked row isn't so."""
    file, name = row.split('.')
    return bool(re.search(rf'^\./proofs/{file}\.antt:\d+:\d+: error: `{name}`:', said, re.M))


def can_be_copied(call):
    """Whether a function may have a copy: a poll only if its clauses are its own."""
    return call.trait in POLLED and (call.clauses or not call.trait) and call.name != 'main'


def of_type(changed, lines, call):
    """A trait's method as one of its type's own."""
    begin = next(at for at in range(call.line - 1, -1, -1) if lines[at].startswith('impl'))
    block = lines[begin : lines.index('}', call.last)]
    end = next(at for at, line in enumerate(block) if line.endswith('{')) + 1
    head = re.sub(r'\S+ for ', '', ' '.join(map(str.strip, block[:end])), count=1)
    uses = [it for it in block if it.startswith('    ghost use ')]
    changed = re.sub(r'\bSelf::(Output|Item)\b', rf'<Self as {call.trait}>::\1', changed)
    return '\n'.join([head, *uses, changed, '}'])


def body_of(lines):
    """The lines of a function's body, or none if it is empty or has to stay."""
    indent = len(lines[0]) - len(lines[0].lstrip())
    ends = (at for at, line in enumerate(lines) if line[indent:].endswith(('{', '}', ';'))
            and not line[indent:].startswith(' '))
    begin = next(ends)
    stays = not lines[begin].endswith('{') or KEEPS_ITS_BODY.search(' '.join(lines[: begin + 1]))
    return range(0) if stays else range(begin + 1, len(lines) - 1)


def without_bodies(text, calls):
    """The text of a file in which these functions have the body that keeps any contract, on as many
    lines."""
    lines = text.split('\n')
    for call in calls:
        for at in body_of(lines[call.line - 1 : call.last]):
            lines[call.line - 1 + at] = BODY if lines[call.line - 2 + at].endswith('{') else ''
    return '\n'.join(lines)


def text_with(changes, right, rest):
    """The text of a file with these changes in it, and the rest as given. Each change learns its
    lines."""
    lines, written, at = rest.split('\n'), [], 0
    for change in sorted(changes, key=lambda it: it.lines_before(lines)):
        changed, after = change.changed_lines(right), change.lines_before(lines)
        written += lines[at : after if change.ending else change.call.line - 1]
        change.lines = range(len(written) + 1, len(written) + len(changed) + 1)
        written, at = written + changed, after
    return '\n'.join(written + lines[at:])


def round_of(changes, most):
    """As many of the changes as one copy of the crate can have, but at most so many."""
    taken = {}
    for change in changes:
        if change.tried not in taken and len(taken) < most:
            taken[change.tried] = change
    return [*taken.values()]


def rounds_of(changes):
    """Rounds of much the same length that try each of the changes once. What changes anything
    outside of its function is tried by itself."""
    together = [it for it in changes if it.is_local]
    often = Counter(it.tried for it in together)
    together.sort(key=lambda it: -often[it.tried])
    count = max(-(-len(together) // MOST), *often.values(), 1)
    while together:
        taken = round_of(together, -(-len(together) // count))
        yield taken
        together, count = [it for it in together if it not in taken], max(count - 1, 1)
    yield from ([it] for it in changes if not it.is_local)


class Trial:
    """A crate whose changes are tried, in a folder."""

    def __init__(self, crate, room, rtlib):
        self.crate, self.room, self.rtlib = crate, room, rtlib
        self.folder, self.sources = Path(crate.folder), Crate(crate.name)

    def without_bodies(self, copy, changed):
        """Gives a copy's functions but these the body that keeps any contract."""
        types = ('', *self.sources.types)
        places = {(it.path, it.line) for it in changed}
        others = [it for it in self.sources.calls if it.trait in POLLED and it.owner in types
                  and it.name != 'main' and (it.path, it.line) not in places]
        for path in {it.path for it in others}:
            text = path.read_text('utf-8')
            calls = [it for it in others if it.path == path]
            bare = without_bodies(text, calls)
            (copy / path.relative_to(self.folder)).write_text(bare, 'utf-8')
            for call in calls:
                if body_of(text.split('\n')[call.line - 1 : call.last]):
                    self.drop_stored(call, copy / 'proofs')
        root = next(it for name in ROOTS if (it := copy / f'src/{name}.rt').exists())
        root.write_text(f'{root.read_text("utf-8")}\nmod never;\n', 'utf-8')
        (copy / SOURCE).write_text(NEVER, 'utf-8')

    def drop_stored(self, call, proofs):
        """Takes out what is stored for a function that has no body of its own any more."""
        name = call.path_in_proofs()
        for folder in stored_for(name, proofs):
            if call.owner or folder.relative_to(proofs).parts == (*name.split('::'),):
                shutil.rmtree(folder)

    def copy_with(self, changes):
        """A copy of the crate with the changes in it."""
        copy = Path(tempfile.mkdtemp(prefix='edits-', dir=self.room))
        for part in filter(lambda it: (self.folder / it).is_dir(), self.rtlib.PARTS):
            shutil.copytree(self.folder / part, copy / part)
        for change in changes:
            change.put_proofs(copy / 'proofs')
        if changes[0].is_local:
            self.without_bodies(copy, [it.call for it in changes if not it.ending])
        for file in {it.file for it in changes}:
            mine = [it for it in changes if it.file == file]
            right = (self.folder / file).read_text('utf-8')
            rest = (copy / file).read_text('utf-8')
            is_local = mine[0].is_local
            text = text_with(mine, right, rest) if is_local else mine[0].written_into(right)
            (copy / file).write_text(text, 'utf-8')
        return copy

    def said(self, copy, changes):
        """What the prover says of the functions of these changes in a copy. What a run of it proved
        is kept for the next."""
        kept = copy.with_name(f'kept-{copy.name}')
        kept.mkdir(exist_ok=True)
        only = [word for it in changes for word in ('--only', it.tried)]
        flags = ['--jobs', '1', *changes[0].flags, *only]
        words = [*self.crate.words(flags, keeps=False), '--incremental', str(kept)]
        if (copy / SOURCE).exists():
            # It says what it is linked with.
            words = [f'{it}c' if it == f'{self.crate.name}=' else it for it in words]
        with TURNS:
            said = subprocess.run(
                [*self.rtlib.guarded(), self.rtlib.RATTLE, 'check', *words],
                cwd=copy, stdin=subprocess.DEVNULL, stdout=subprocess.PIPE,
                stderr=subprocess.STDOUT, text=True, errors='replace',
            ).stdout
        if not re.search(r'^only=\d+ proved=\d+', said, re.M):
            raise Refused(said[-2000:])
        return said

    def outcome(self, change, said, is_alone):
        """Whether the change was proved, or None if that is open."""
        verdicts = [it for it in map(VERDICT.match, said.split('\n')) if it]
        mine = [it for it in verdicts if f'::{it[1]}'.endswith(f'::{change.tried}')]
        if len(mine) != 1:
            raise Refused(f'{change.function} is no name of one function')
        name, verdict, why = mine[0].groups()
        if change.is_definition and (unread := UNREAD.search(said)):
            raise Refused(unread[0])
        if change.is_definition and verdict != 'could not tell':
            if change.row and verdict != 'proved' and not is_wrong(change.row, said):
                raise Refused('it is not its row that fails')
            return verdict == 'proved'
        stored = f'proofs/{name.replace("::", "/")}'
        misfits = re.findall(rf'^\./{re.escape(stored)}/{ANSWERS}:(\d+):.*: error', said, re.M)
        unproved = change.unproved(said)
        if misfits and not unproved and not change.misfits:
            change.misfits = {*map(int, misfits)}
            return None
        if verdict == 'proved' or (verdict == 'not proved' and not why and not unproved):
            return True
        if verdict == 'could not tell' and is_alone:
            raise Refused('the prover could not tell')
        if is_alone and not unproved and why and why.startswith('it calls'):
            raise Refused(why)
        if is_alone and not unproved:
            change.other_reason = f'{verdict}: {why}'
        if change.misfits:
            right, *_ = stored_for(change.function, self.folder / 'proofs')
            change.breaks_a_proof = unproved <= change.answered(right / ANSWERS)
        return False if verdict != 'could not tell' and (is_alone or unproved) else None

    def outcomes(self, copy, changes, is_alone):
        """Each of these changes of a copy with its outcome."""
        said = self.said(copy, changes)
        return [(it, self.outcome(it, said, is_alone)) for it in changes]

    def tried(self, changes):
        """Each of these changes, with whether it was proved, or what is wrong with it. Those that
        can't be read together are tried in halves."""
        is_alone, half = len(changes) == 1, len(changes) // 2
        try:
            copy = self.copy_with(changes)
            found = self.outcomes(copy, changes, is_alone)
            unfit = [it for it, outcome in found if it.misfits]
            for change in unfit:
                change.drop_misfits()
            found = [it for it in found if it[0] not in unfit]
            found += self.outcomes(copy, unfit, is_alone) if unfit else []
        except Refused as why:
            if is_alone:
                return [(changes[0], str(why))]
            return self.tried(changes[:half]) + self.tried(changes[half:])
        left = [it for it, outcome in found if outcome is None]
        settled = [it for it in found if it[0] not in left]
        return settled + [it for change in left for it in self.tried([change])]


def tried_in(crate, changes, rtlib):
    """Each change of a crate, with whether it was proved or what is wrong with it."""
    for number, change in enumerate(changes):
        if change.is_local and can_be_copied(change.call):
            change.ending = f'_changed_{number}'
    rounds = [*rounds_of(changes)]
    with tempfile.TemporaryDirectory() as room, ThreadPoolExecutor(len(rounds)) as pool:
        trial = Trial(crate, Path(room), rtlib)
        for tried in pool.map(trial.tried, rounds):
            yield from tried
