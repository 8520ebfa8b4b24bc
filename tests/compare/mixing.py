"""Single statements whose parts are right or wrong, and programs for the checks behind the reading."""

import random

from making import TOP, text


# ---- one statement with parts that are right or wrong, at a place where it may stand or not -------------------------------

SUMS = ['1', '1', '1', '2', '2', '3', 'i', 'i+1', '2*i+1', '0', '4', '5', '1-2', 'i-9', str(TOP), f'{TOP - 1}', f'{2 ** 32}', f'0*{TOP}', '100', '101',
        '3-i-i', '300', f'{2 ** 32}*{2 ** 32}', '007', '1-2+5', f'{2 ** 32 + 1}']
NO_SUMS = ['u', '1+', '', 'i*', 'I', '1-2+u', 'i+u', '1.0']
REGIONS = ['y', 'y', 'z', 'z', 'w', 'q', 'y:1', 'r:i', 'r:1', 'r1', 'r:9', 'r:1-2', 'r00', 'r:00', 'r0', 'y_', f'r:{TOP}']
NO_REGIONS = ['Y', 'r:u', 'y:', '', '_', '0']
NAMES = ['n', 'n', 'm:i', 'm:1', 'y', 'z', 'd', 'd:0', 'd0', 'd:1', 'd:i', 'flip', 'n' * 32, 'n' * 33, 'n' * 31 + ':i', 'n' * 31 + ':9+1', 'n:1-2', 'x',
         'n:' + str(TOP), 'n:' + str(TOP - 1), 'n' * 13 + ':' + str(TOP - 1), 'root', 'r:0', 'r:i', 'y' * 40]
NO_NAMES = ['N', 'n:', 'n:u', 'n/m', '_n', '9n', 'n-m', 'none']
KINDS = ['flip', 'flip', 'node', 'node,link', 'none', 'link,flip,node']
NO_KINDS = ['flip,flip', 'flip,', 'none,flip', 'hard', 'FLIP', ',', 'lost', 'soft']
ROUGH = 0.03


def part(rng, right, wrong):
    return rng.choice(wrong if rng.random() < ROUGH else right)


def some_range(rng):
    name = part(rng, REGIONS, NO_REGIONS)
    way = rng.random()
    if way < 0.35:
        return name
    if way < 0.6:
        return f'{name}[{part(rng, SUMS, NO_SUMS)}]'
    return f'{name}[{part(rng, SUMS, NO_SUMS)}{part(rng, [".."], [".", "...", ":"])}{part(rng, SUMS, NO_SUMS)}]' if rng.random() < 0.97 else \
        rng.choice([f'{name}[', f'{name}]', f'{name}[]', f'{name}[1]]', f'{name}[[1]', f'{name}[1][1]', f'{name}[0..1..2]', f'{name}[1]x', f'[1]{name}'])


def calm_range(rng):
    return rng.choice(['y', 'y', 'z', 'y[0..2]', 'y[2..4]', 'z[1..3]', 'z[0..2]', 'y[i]', 'y[i+1]', 'z[i]', 'y[0..3]', 'z[0..3]', 'z[1]', 'w', 'w[0..4]', 'w[i..i+2]'])


def some_pattern(rng):
    kind = part(rng, ['const', 'iota', 'mix'], ['zero', 'Const'])
    return [kind] + [part(rng, SUMS, NO_SUMS) for _ in range(part(rng, [1], [0, 2]) if kind != 'iota' else part(rng, [2], [1, 3]))]


def some_statement(rng):
    e = lambda: part(rng, SUMS, NO_SUMS)
    word = rng.choice(['region', 'region', 'domain', 'domain', 'preserve', 'preserve', 'strike', 'strike', 'for', 'kind', 'operation', 'operation', 'operation',
                       'group', 'end', 'cd'][:rng.choice([14, 14, 14, 16])])
    rough = rng.random() < 0.5
    r = (lambda: some_range(rng)) if rough else (lambda: calm_range(rng))
    k = e if rough else (lambda: rng.choice(['1', 'i', '7*i', str(TOP - 1)]))
    if word == 'operation':
        word = rng.choice(['fill', 'copy', 'add', 'sub', 'mul', 'axpy', 'scan', 'sum', 'dot', 'max', 'stencil', 'spmv'])
        shape = {'fill': 'rk', 'copy': 'rr', 'add': 'rrr', 'sub': 'rrr', 'mul': 'rrr', 'axpy': 'rkr', 'scan': 'rr', 'sum': 'rr', 'dot': 'rrr', 'max': 'rr',
                 'stencil': 'rkkkr', 'spmv': 'rrrrr', 'nothing': 'rr'}[word]
        words = [word] + [r() if part == 'r' else k() for part in shape]
    else:
        words = {
            'region': lambda: ['region', part(rng, NAMES, NO_NAMES), e()] + some_pattern(rng),
            'domain': lambda: ['domain', part(rng, NAMES, NO_NAMES), part(rng, ['retry'], ['tries']), e(), part(rng, ['detects'], ['detect']), part(rng, KINDS, NO_KINDS)],
            'preserve': lambda: ['preserve', r()] + rng.choice([['copy'], ['copy'], ['refer'], ['regen'] + some_pattern(rng), ['regen'] + some_pattern(rng)] + ([['regen'], ['keep']] if rng.random() < ROUGH else [])),
            'strike': lambda: ['strike', rng.choice(['root', 'root', 'root/d:0', 'root/d0', 'root/' + part(rng, NAMES, NO_NAMES), part(rng, NAMES, NO_NAMES), 'root/', '/']), e(), e(),
                               part(rng, ['flip', 'flip', 'node', 'link'], ['none', 'lost', 'soft']), rng.choice([f'y[{e()}]', f'y[{e()}]', f'{part(rng, REGIONS, NO_REGIONS)}[{e()}]', f'{part(rng, REGIONS, NO_REGIONS)}[{e()}]', some_range(rng) if rng.random() < 0.2 else 'w[1]']), e()],
            'for': lambda: ['for', part(rng, ['a', 'a', 'i', 'b', 'v' * 40, 'for'], ['A', 'a:1']), part(rng, ['in'], ['of']), f'{e()}{part(rng, [".."], [".", "..."])}{e()}'],
            'kind': lambda: ['kind', part(rng, NAMES, NO_NAMES)] + part(rng, [[], ['halt']], [['stop']]),
            'group': lambda: ['group'], 'end': lambda: ['end'], 'faults': lambda: ['faults'], 'cd': lambda: ['cd', rng.choice(['1', '2', '3'])],
        }[word]()
    if rng.random() < 0.03:
        rng.choice([lambda: words.append('x'), lambda: words.pop(), lambda: words.append('#'), lambda: words.insert(1, 'y')])()
    return [word for word in words if word]


def mixed(seed, number):
    """A document of one form, with one or two statements put in at one place, in a loop with the variable `i`."""
    rng = random.Random(f'mixed {seed} {number}')
    version = rng.choice([1, 1, 2])
    before = [['cd', str(version)]] + ([['kind', 'flip'], ['kind', 'soft', 'halt'], ['kind', 'node'], ['kind', 'link']] if version == 2 else [])
    regions = [['region', 'y', '4', 'const', '0'], ['region', 'z', '4', 'iota', '1', '1'], ['region', 'w', '6', 'mix', '1'], ['region', 'r0', '2', 'const', '1'], ['region', 'r1', '2', 'const', '1']]
    root = [['domain', 'root', 'retry', '2', 'detects', 'flip']]
    entries = [['preserve', name, 'copy'] for name in ('y', 'z', 'w', 'r0', 'r1')]
    child = [['domain', 'd0', 'retry', '2', 'detects', 'flip'], ['preserve', 'y', 'refer'], ['preserve', 'z', 'refer']]
    child_end = [['fill', 'y[1]', '3'], ['end']]
    body = [['group'], ['domain', 'd1', 'retry', '1', 'detects', 'flip'], ['preserve', 'w', 'refer'], ['end']]
    body_end = [['end'], ['copy', 'y', 'z'], ['end']]
    faults = [['faults'], ['strike', 'root/d0', '1', '0', 'flip', 'y[1]', '1']]
    parts = [before, regions, root, entries, child, child_end, body, body_end, faults]
    put = []
    for _ in range(rng.choice([1, 1, 2])):
        words = some_statement(rng)
        put.append(words)
        if words and words[0] in ('domain', 'group', 'for'):
            if words[0] != 'for' and rng.random() < 0.5:
                put.append(rng.choice([['domain', 'x', 'retry', '1', 'detects', 'flip'], ['group']]))
                put.append(['end'])
            if rng.random() < 0.9:
                put.append(['end'])
    # Where the statement may stand, more often than elsewhere.
    fit = {'region': [0, 1], 'kind': [0], 'domain': [3, 5, 6, 4], 'preserve': [2, 3, 4], 'strike': [8], 'group': [3, 5, 6], 'cd': [0], 'faults': [7]}.get(put[0][0] if put[0] else '', [3, 4, 5])
    if put[0] and put[0][0] == 'for':
        fit = range(9)
    at = rng.choice(list(fit)) if rng.random() < 0.93 else rng.randrange(len(parts))
    loop = rng.choice([None, '0..1', '0..1', '1..2', '1..3', '0..2'])
    if loop or rng.random() < 0.9:
        put = [['for', 'i', 'in', loop or '0..1']] + put + [['end']]
    lines = [words for part in parts[:at + 1] for words in part] + put + [words for part in parts[at + 1:] for words in part]
    return text(rng, lines)


# ---- programs for the checks behind the reading --------------------------------------------------------------------------

class Tangle:
    """Small domains over two or three short regions, whose ranges keep apart and are covered only most of the time."""

    def __init__(self, rng):
        self.rng = rng
        self.careful = rng.choice([0.3, 0.6, 0.8, 0.9, 0.95])
        self.lines = [['cd', '1']]
        self.sizes = {name: rng.choice([2, 4, 6, 8]) for name in rng.choice([['y', 'z'], ['y', 'z', 'x'], ['y']])}
        self.count = 0
        self.domains = []

    def careless(self):
        return self.rng.random() > self.careful

    def say(self, *words):
        self.lines.append([str(word) for word in words])

    def some(self, inside):
        """A range inside one of these ranges, or anywhere."""
        rng = self.rng
        if not inside or self.careless() and rng.random() < 0.25:
            name = rng.choice(list(self.sizes))
            low, high = 0, self.sizes[name]
        else:
            name, low, high = rng.choice(inside)
        first = rng.randrange(low, high)
        return name, first, rng.randrange(first + 1, high + 1)

    def text(self, given):
        name, low, high = given
        return name if (low, high) == (0, self.sizes[name]) and self.rng.random() < 0.5 else f'{name}[{low}..{high}]'

    def make(self):
        for name, size in self.sizes.items():
            self.say('region', name, size, 'mix', 1)
        whole = [(name, 0, size) for name, size in self.sizes.items()]
        self.domain('root', 'root', whole, whole, 1, ())
        self.say('faults')
        for _ in range(self.rng.randrange(3)):
            self.strike()
        return self.lines

    def domain(self, name, path, mine, seen, depth, above):
        rng = self.rng
        detects = rng.choice(['flip', 'flip', 'flip,lost', 'node', 'none'])
        self.say('domain', name, 'retry', rng.choice([1, 2]), 'detects', detects)
        kinds = above + tuple(detects.split(','))
        for given in seen:
            if self.careless() and rng.random() < 0.4:
                continue
            name_, low, high = given
            if high - low > 1 and rng.random() < 0.2:
                cut = rng.randrange(low + 1, high)
                pieces = [(name_, low, cut), (name_, cut, high)]
            elif self.careless():
                pieces = [self.some([given])]
            else:
                pieces = [given]
            for piece in pieces:
                how = 'copy' if depth == 1 and not self.careless() else rng.choice(['copy', 'refer', 'refer', 'regen mix 1'])
                self.say('preserve', self.text(piece), *how.split())
        items = 0
        for _ in range(rng.choice([0, 1, 2, 3, 4])):
            if depth < 4 and rng.random() < 0.55 and self.count < 12:
                self.group(path, mine, seen, depth, kinds)
                items += 1
            else:
                items += self.operation(mine, seen)
        self.domains.append((path, kinds, items, seen))
        self.say('end')

    def operation(self, mine, seen):
        rng = self.rng
        if not mine and rng.random() < 0.9:
            return 0
        to = self.some(mine)
        size = to[2] - to[1]
        sources = [given for given in (self.some(seen) for _ in range(6)) if given[2] - given[1] == size and (given[0] != to[0] or given[2] <= to[1] or to[2] <= given[1])]
        if sources and rng.random() < 0.7:
            self.say('copy', self.text(to), self.text(sources[0]))
        else:
            self.say('fill', self.text(to), rng.randrange(9))
        return 1

    def group(self, path, mine, seen, depth, kinds):
        rng = self.rng
        members = rng.choice([1, 2, 2, 3])
        plain = members == 1 and rng.random() < 0.7
        if not plain:
            self.say('group')
        shares = [[] for _ in range(members)]
        for name, low, high in mine:
            cuts = sorted(rng.randrange(low, high + 1) for _ in range(members - 1))
            for share, first, last in zip(shares, [low] + cuts, cuts + [high]):
                if first < last:
                    share.append((name, first, last))
        written = [rng.random() < 0.6 or members == 1 for _ in self.sizes]
        writable = [name for name, is_written in zip(self.sizes, written) if is_written]
        for share in shares:
            share = [given for given in share if given[0] in writable]
            others = [given for given in seen if given[0] not in writable and rng.random() < 0.7]
            self.count += 1
            name = f'd{self.count}'
            if rng.random() < 0.1 and self.careless():
                share = share + [self.some(mine)]
            self.domain(name, path + '/' + name, share, share + others, depth + 1, kinds)
        if not plain:
            self.say('end')

    def strike(self):
        rng = self.rng
        path, kinds, items, seen = rng.choice(self.domains)
        kind = rng.choice([kind for kind in kinds if kind != 'none'] or ['flip'])
        point = rng.randrange(items + 1)
        if self.careless():
            kind, point = rng.choice([(rng.choice(['flip', 'lost', 'link', 'node']), point), (kind, point + rng.randrange(3))])
        name, index, _ = self.some(seen)
        if self.careless():
            path = rng.choice([path + '/d1', path.rpartition('/')[0] or path, path])
        self.say('strike', path, rng.choice([1, 1, 2, 0]), point, kind, f'{name}[{index}]', 1)


def tangled(seed, number):
    rng = random.Random(f'tangled {seed} {number}')
    return text(rng, Tangle(rng).make())
