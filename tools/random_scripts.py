"""Random scripts for `chanrun`, one in six of them spoilt.

Names are picked from those that are probably live, so that most lines are more than a refusal.
Nothing here says what a reply should be.
"""

LARGEST = 2**64 - 1
LONGEST_LINE = 256


class Random:
    """Random numbers, the same for the same seed (SplitMix64)."""

    def __init__(self, *seeds):
        self.state = 0
        for seed in seeds:
            self.state = (self.next() + seed) & LARGEST

    def next(self):
        self.state = (self.state + 0x9E3779B97F4A7C15) & LARGEST
        mixed = self.state
        mixed = ((mixed ^ (mixed >> 30)) * 0xBF58476D1CE4E5B9) & LARGEST
        mixed = ((mixed ^ (mixed >> 27)) * 0x94D049BB133111EB) & LARGEST
        return mixed ^ (mixed >> 31)

    def below(self, bound):
        return self.next() % bound

    def one_in(self, number):
        return self.below(number) == 0

    def pick(self, items):
        return items[self.below(len(items))]

    def weighted(self, weights):
        place = self.below(sum(weights.values()))
        for item, weight in weights.items():
            if place < weight:
                return item
            place -= weight


# How often each command is picked.
WEIGHTS = {
    'try_send': 12, 'force_send': 4, 'try_recv': 10, 'send': 14, 'recv': 14, 'closed': 7,
    'poll': 22, 'next': 10, 'notice': 12, 'settle': 9, 'drop': 10, 'clone': 5, 'downgrade': 3,
    'upgrade': 3, 'close': 1, 'is_closed': 1, 'is_empty': 1, 'is_full': 1, 'is_terminated': 1,
    'len': 2, 'capacity': 1, 'senders': 1, 'receivers': 1,
}
QUESTIONS = {'close', 'is_closed', 'is_empty', 'is_full', 'len', 'capacity', 'senders', 'receivers'}
WEAK = {'s': 'ws', 'r': 'wr'}


class Writer:
    """Makes the lines of a script, and keeps the names that are probably live."""

    def __init__(self, random):
        self.random = random
        self.live = {'s': ['s0'], 'r': ['r0'], 'ws': [], 'wr': [], 'o': []}
        self.borrows = {}
        self.message = 0
        # A part of the scripts never closes by hand, so that more of them stay open.
        self.closes = random.one_in(2)

    def script(self):
        first = 'unbounded' if self.random.one_in(3) else f'bounded {1 + self.random.below(4)}'
        count = 10 + self.random.below(160)
        return [first] + [self.line() for _ in range(count)]

    def name(self, space):
        """A name of the space: most often one that is probably live."""
        live = self.live[space]
        if live and not self.random.one_in(20):
            return self.random.pick(live)
        if self.random.one_in(50):
            return f'{space}{LARGEST - self.random.below(2)}'
        return f'{space}{self.random.below(8)}'

    def new_name(self, space):
        if self.random.one_in(12):
            return self.name(space)
        while True:
            name = f'{space}{self.random.below(40 + len(self.live[space]))}'
            if name not in self.live[space]:
                return name

    def make(self, name, space):
        if name not in self.live[space]:
            self.live[space].append(name)

    def handle(self):
        return self.name(self.random.pick('sr'))

    def number(self):
        self.message += 1
        return str(LARGEST - self.message if self.random.one_in(100) else self.message)

    def line(self):
        command = self.random.weighted(WEIGHTS)
        if command == 'close' and not self.closes:
            command = 'len'
        write = getattr(self, command, None)
        if write is not None:
            return ' '.join([command, *write()])
        words = {'settle': lambda: [], 'poll': lambda: [self.name('o')]}
        if command in QUESTIONS:
            words[command] = lambda: [self.handle()]
        return ' '.join([command, *words[command]()])

    def try_send(self):
        return self.name('s'), self.number()

    force_send = try_send

    def try_recv(self):
        return (self.name('r'),)

    next = is_terminated = try_recv

    def notice(self):
        return (self.name('r' if self.random.one_in(3) else 'o'),)

    def start(self, space, *words):
        operation, handle = self.new_name('o'), self.name(space)
        self.make(operation, 'o')
        self.borrows[operation] = handle
        return operation, handle, *words

    def send(self):
        return self.start('s', self.number())

    def recv(self):
        return self.start('r')

    def closed(self):
        return self.start('s')

    def clone(self):
        space = self.random.pick(['s', 'r', 'ws', 'wr'])
        return self.copied(space, space)

    def downgrade(self):
        space = self.random.pick('sr')
        return self.copied(space, WEAK[space])

    def upgrade(self):
        space = self.random.pick('sr')
        return self.copied(WEAK[space], space)

    def copied(self, space, to):
        name, new = self.name(space), self.new_name(to)
        self.make(new, to)
        return name, new

    def drop(self):
        space = self.random.weighted({'s': 2, 'r': 2, 'ws': 1, 'wr': 1, 'o': 8})
        name = self.name(space)
        if space in WEAK and name in self.borrows.values() and not self.random.one_in(4):
            space, name = 'o', self.name('o')
        borrowed = name in self.borrows.values()
        # The last handles of a side go less often, so that more happens before the end.
        if space in WEAK and len(self.live[space]) == 1 and not self.random.one_in(3):
            return (self.name('o'),)
        if name in self.live[space] and not borrowed:
            self.live[space].remove(name)
            self.borrows.pop(name, None)
        return (name,)


def random_script(seed, number):
    """The bytes of random script `number`."""
    random = Random(seed, number)
    lines = Writer(random).script()
    text = ('\n'.join(lines) + '\n').encode()
    return spoilt(random, text) if number % 6 == 5 else text


def spoilt(random, text):
    """The script with a fault somewhere, most often."""
    lines = text.split(b'\n')
    place = 1 + random.below(len(lines) - 2)
    words = lines[place].split(b' ')
    last = b' '.join(words[:-1])
    ways = {
        'cut': lambda: text[: random.below(len(text))],
        'byte': lambda: text[: (at := random.below(len(text)))] + bytes([random.below(256)])
        + text[at + 1 :],
        'first': lambda: b'\n'.join([first_line(random), *lines[1:]]),
        'noise': lambda: bytes(random.below(256) for _ in range(random.below(400))),
    }
    spoils = {
        'long': b'x' * (LONGEST_LINE - 1 + random.below(4)),
        'long number': lines[place] + b'0' * (LONGEST_LINE - len(lines[place]) + random.below(2)),
        'more words': lines[place] + b' s0',
        'fewer words': last,
        'spaces': lines[place].replace(b' ', b'  ', 1),
        'space after': lines[place] + b' ',
        'empty': b'',
        'return': lines[place] + b'\r',
        'command': words[0].upper() + b' s0',
        'first again': b'unbounded',
        'leading zero': last + b' s00',
        'other name': last + b' ' + random.pick([b's0', b'r0', b'ws0', b'wr0', b'o0', b'x0', b'7']),
        'large name': last + b' s18446744073709551616',
        'large number': b'try_send s0 1844674407370955161' + bytes([48 + random.below(10)]),
        'no number': b'try_send s0 ' + random.pick([b'01', b'-1', b'1x', b'', b'+1']),
    }
    for kind, line in spoils.items():
        ways[kind] = lambda line=line: b'\n'.join([*lines[:place], line, *lines[place + 1 :]])
    return ways[random.pick(sorted(ways))]()


def first_line(random):
    return random.pick([
        b'bounded 0', b'bounded 1000000', b'bounded 1000001', b'bounded 18446744073709551616',
        b'bounded', b'bounded 1 1', b'bounded 02', b'bounded x', b'unbounded 1', b'unbound', b'',
        b' unbounded', b'UNBOUNDED', b'len s0', b'\xff\xfe',
    ])
