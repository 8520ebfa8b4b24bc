"""Documents of one domain, and texts of such a document with one thing put wrong."""

import random

from making import TOP, Lin, Maker, Part, some_name, some_word, text, written

TEXT_LIMIT = 1048576

# What stands behind the destination: a number (k), a source of its length that may be the destination (s), or another source: of a
# length that it shares (c; n, of small numbers), of one or two words more (1, of small numbers; 2), of any length (x).
SHAPES = {'fill': 'k', 'copy': 's', 'add': 'ss', 'sub': 'ss', 'mul': 'ss', 'axpy': 'ks', 'scan': 's', 'sum': 'x', 'dot': 'cc', 'max': 'x',
          'stencil': 'kkk2', 'spmv': '1ncx'}

# Patterns of small numbers, which serve as row starts and as columns.
SMALL = [['iota', '0', '1'], ['iota', '0', '2'], ['const', '1'], ['iota', '1', '0']]


class Single(Maker):
    """A document of one domain. Its strikes may come at each begin, so that the root is exhausted."""

    def make(self):
        rng = self.rng
        self.kinds_of_version(rng.choice([1, 2]))
        self.kept = []
        self.written = []
        entries = self.regions()
        self.root = some_name(rng, [])
        self.retry = rng.choice([1, 1, 2, 2, 3, 3, 4, 7, 100])
        self.detects = self.kinds(rng.random() < 0.9)
        self.say('domain', self.region_name(self.root), 'retry', self.number(self.retry), 'detects', ','.join(self.detects) or 'none')
        for name, low, high in entries:
            how = ['copy'] if rng.random() < 0.9 else ['regen', *rng.choice([self.patterns[name], self.patterns[name], self.pattern()])]
            self.say('preserve', self.written_range((name, low, high)), *how)
        self.items = 0
        if self.kept:
            for _ in range(rng.choice([0, 1, 1, 2, 3, 5, 8, 13])):
                self.step()
        self.say('end')
        if rng.random() < 0.9:
            self.say('faults')
            if self.detects and self.kept:
                self.strikes()
        return self.lines

    def kinds_of_version(self, version):
        rng = self.rng
        self.say('cd', version)
        self.names = ['flip', 'lost', 'link', 'node']
        if version == 2:
            self.names = []
            for _ in range(rng.choice([1, 2, 3, 3, 5, 16])):
                name = some_name(rng, self.names + ['none'])
                self.names.append(name)
                self.say('kind', name, *(['halt'] if rng.random() < 0.25 else []))

    def regions(self):
        """Says the regions, and gives the ranges that are preserved; `kept` has those that hang together."""
        rng = self.rng
        self.sizes, self.patterns, self.small = {}, {}, set()
        entries = []
        usual = rng.choice([[1, 2, 3, 4, 5], [3, 4, 8, 9, 10], [15, 16, 17, 18], [1, 16, 63, 64, 65, 66], [rng.randrange(1, 300), 1, 100]])
        for _ in range(rng.choice([0, 1, 2, 3, 4, 5, 6])):
            name, size = some_name(rng, self.sizes), rng.choice(usual)
            self.sizes[name] = size
            pattern = self.patterns[name] = rng.choice([self.pattern(), self.pattern(), *SMALL])
            if pattern in SMALL:
                self.small.add(name)
            self.say('region', self.region_name(name), self.number(size), *pattern)
            if rng.random() < 0.15:
                continue
            low, high = (0, size) if rng.random() < 0.7 else self.inside(0, size)
            self.kept.append((name, low, high))
            cuts = sorted({low, high, *(rng.randrange(low, high + 1) for _ in range(rng.choice([0, 0, 0, 1, 2])))})
            entries += [(name, first, last) for first, last in zip(cuts, cuts[1:])]
            if rng.random() < 0.2:
                entries.append((name, *self.inside(low, high)))
        rng.shuffle(entries)
        return entries

    def inside(self, low, high, size=None):
        """A range inside this one, of this size or of any."""
        if size is None:
            first = self.rng.randrange(low, high)
            return first, self.rng.randrange(first + 1, high + 1)
        first = self.rng.randrange(low, high - size + 1)
        return first, first + size

    def written_range(self, given):
        name, low, high = given
        return self.range(Part(name, Lin(low), high - low, self.sizes[name]), Lin(low), high - low)

    def readable(self):
        """The ranges that a source may lie in."""
        return self.kept

    def piece_of(self, size=None, apart=None):
        """A range of kept words, of this size or of any, to be written, or to be read, apart from this other one; None where none was found."""
        among = self.kept if apart is None else self.readable()
        for _ in range(6):
            whole = self.rng.choice(among)
            name, low, high = whole
            if size is not None and not 1 <= size <= high - low:
                continue
            low, high = self.inside(low, high, size)
            if size is None and self.rng.random() < 0.4:
                _, low, high = whole
            if apart is None or name != apart[0] or high <= apart[1] or apart[2] <= low:
                return name, low, high
        return None

    def first_words(self, size, apart):
        """The first kept words of a region of small numbers, apart from another range; None where there are none."""
        fit = [(name, low, low + size) for name, low, high in self.readable()
               if name in self.small and size <= high - low and (name != apart[0] or low + size <= apart[1] or apart[2] <= low)]
        return self.rng.choice(fit) if fit else None

    def step(self):
        rng = self.rng
        if rng.random() < 0.12:
            return self.loop()
        for _ in range(8):
            word = rng.choice(list(SHAPES))
            to = self.piece_of(1 if word in ('sum', 'dot', 'max') else None)
            if to is None:
                continue
            size = to[2] - to[1]
            common = rng.choice([1, 2, 3, 5, 8])
            parts = [self.part(letter, to, size, common) for letter in SHAPES[word]]
            if None not in parts:
                return self.operate(word, to, *parts)
        return self.operate('fill', self.piece_of(), self.number(some_word(rng)))

    def operate(self, word, to, *parts):
        self.say(word, self.written_range(to), *parts)
        self.written.append(to)
        self.items += 1

    def part(self, letter, to, size, common):
        if letter == 'k':
            return self.number(some_word(self.rng))
        if letter == 's' and self.rng.random() < 0.35:
            return self.written_range(to)
        length = {'s': size, '1': size + 1, '2': size + 2, 'c': common, 'n': common, 'x': None}[letter]
        found = self.first_words(length, to) if letter in '1n' and self.rng.random() < 0.8 else None
        found = found or self.piece_of(length, to)
        return found and self.written_range(found)

    def loop(self):
        """Words that are written one by one, from the one before or from a number."""
        rng = self.rng
        name, low, high = rng.choice(self.kept)
        if high - low < 2 or high - low > 20:
            return
        self.say('for', 'i', 'in', f'{self.number(low + 1)}..{self.number(high)}')
        at, before = f'{name}[i]', f'{name}[{rng.choice(["i-1", "i-1..i"])}]'
        self.say(*rng.choice([['fill', at, written(rng, Lin(rng.randrange(9), {'i': rng.randrange(4)}))], ['copy', at, before], ['add', at, at, before],
                              ['mul', f'{name}[i..i+1]', before, before], ['axpy', at, written(rng, Lin(3, {'i': 1})), before], ['sub', at, before, at]]))
        self.say('end')
        self.written.append((name, low + 1, high))
        self.items += high - low - 1

    def strikes(self):
        rng = self.rng
        spared = rng.choice([None, None, None, 1, self.retry])
        begins = [begin for begin in range(1, self.retry + 1) if begin != spared]
        said = []
        if self.retry <= 7 and rng.random() < 0.5:
            said = [[self.strike_at(self.number(begin))] for begin in begins]
        elif rng.random() < 0.3:
            last = self.retry + 1 if spared is None else rng.randrange(1, self.retry + 2)
            said = [[['for', 'b', 'in', f'1..{self.number(last)}'], self.strike_at('b'), ['end']]]
        for _ in range(rng.choice([0, 0, 1, 2, 4, 9])):
            said.append([self.strike_at(self.number(rng.choice([1, 1, 1, 2, 2, 3, 4, 0, 101, TOP - 1])))])
        rng.shuffle(said)
        for block in said:
            for words in block:
                self.say(*words)

    def strike_at(self, begin):
        rng = self.rng
        name, low, high = rng.choice(self.kept)
        index = rng.choice([low, high - 1, rng.randrange(low, high)])
        return ['strike', self.region_name(self.root), begin, self.number(rng.choice([0, self.items, rng.randrange(self.items + 1)])), rng.choice(self.detects),
                f'{self.region_name(name)}[{self.number(index)}]', self.number(rng.choice([0, 1, 255, TOP - 1, some_word(rng)]))]


def single(seed, number):
    rng = random.Random(f'single {seed} {number}')
    return text(rng, Single(rng).make())


def at_limits():
    """Documents at a limit and just above it, as far as a run tells them apart or their text is what is large."""
    head = 'cd 1\nregion y 1 const 3\ndomain root retry 2 detects flip\n'
    body = head + 'preserve y copy\nfill y 7\nend\n'
    out = {'text of nothing but spaces': ' ' * TEXT_LIMIT, 'text of nothing but spaces, too long': ' ' * (TEXT_LIMIT + 1),
           'text of nothing but line feeds': '\n' * TEXT_LIMIT, 'text far too long and wrong at once': 'x\n' * TEXT_LIMIT,
           'no region and no item': 'cd 1\ndomain root retry 1 detects flip\nend', 'faults without strikes': 'cd 1\ndomain root retry 1 detects flip\nend\nfaults'}
    for size in (TEXT_LIMIT, TEXT_LIMIT + 1):
        out[f'text of {size} bytes'] = body + ' ' * (size - len(body))
        out[f'text of {size} bytes, struck'] = body + 'faults\n#' + 'x' * (size - len(body) - 36) + '\nstrike root 1 1 flip y[0] 1\n'
    for times in (16384, 16385):
        out[f'{times} items'] = head + 'preserve y copy\n' + 'fill y 7\nadd y y y\n' * (times // 2) + 'fill y 7\n' * (times % 2) + 'end\n'
    for times in (255, 256, 257):
        out[f'{times} strikes at one point'] = body + 'faults\n' + 'strike root 1 1 flip y[0] 1\n' * times
    for retry, struck in ((1, 0), (1, 1), (2, 1), (2, 2), (99, 99), (100, 99), (100, 100)):
        strikes = ''.join(f'strike root {begin} 1 flip y[0] {begin}\n' for begin in range(1, struck + 1))
        out[f'{retry} tries, {struck} struck'] = body.replace('retry 2', f'retry {retry}') + 'faults\n' + strikes
    for begin, point, index in ((1, 0, 0), (1, 1, 0), (1, 2, 0), (9, 2, 0), (1, 1, 1), (0, 1, 0), (2, 0, 0), (TOP - 1, 1, 0), (1, 2 ** 32, 0), (1, 0, 2 ** 32)):
        out[f'strike at begin {begin}, point {point}, index {index}'] = body + f'faults\nstrike root {begin} {point} flip y[{index}] 1\n'
    for count in (64, 65):
        out[f'{count} entries of one region'] = head + 'preserve y copy\n' * count + 'fill y 7\nend\nfaults\nstrike root 1 0 flip y[0] 9\n'
    for words in (TEXT_LIMIT - 1, TEXT_LIMIT):
        out[f'{words} words beside one'] = body.replace('domain', f'region z {words} const {TOP - 1}\ndomain')
    for words in (100000, TEXT_LIMIT):
        out[f'{words} words kept and restored'] = body.replace('y 1 const 3', f'y {words} mix 3') + 'faults\nstrike root 1 1 flip y[5] 8\n'
    return out


GOOD = ['cd 1', 'region x 4 const 1', 'region y 4 const 5', 'region w 5 const 2', 'region z 4 const 3', 'domain root retry 2 detects flip', 'preserve x copy', 'preserve y copy',
        'preserve w copy', 'add y y x', 'end', 'faults', 'strike root 1 1 flip y[0] 255']

# A line's number, and what is put in its place: each way in which it can be wrong, and some in which it is not.
PUT = {
    1: ['cd', 'cd 01', 'cd 1 1', 'CD 1', '', '\tcd\r1 ', 'cd 2', 'cd 3', 'cd 1.0', '\xef\xbb\xbfcd 1', 'cd\xa01'],
    2: ['region x 0 const 1', 'region x 4 const', 'region x 4 mix 1', 'region x 004 const 01', 'region x 4 Const 1', 'region x 4 const 1 1', 'region x 4', 'Region x 4 const 1',
        'region x -1 const 1', 'region x +4 const 1', 'region x 0x4 const 1', 'region x 1e1 const 1', "region x '4' const 1", 'region x 1_0 const 1', 'region x \xb2 const 1'],
    3: ['region x 4 const 5', f'region y 4 const {TOP - 1}', f'region y 4 const {TOP}', 'region y 4294967300 const 5', f'region y {TOP - 1} const 5', 'region Y 4 const 5', 'region y-y 4 const 5',
        'region y.y 4 const 5', 'region y/y 4 const 5', 'region \xe9 4 const 5', 'region y\x00 4 const 5', 'region 7 4 const 5', f'region y {10 ** 25} const 5'],
    6: ['domain root retry 0 detects flip', 'domain root retry 101 detects flip', 'domain root retry 1 detects flip', 'domain root retry 4294967297 detects flip', 'domain r retry 2 detects flip',
        'domain root retry 2 detects none', 'domain root retry 2 detects flip,lost', 'domain root retry 2 detects flip,', 'domain root retry 2 detects Flip', 'domain root retries 2 detects flip',
        'domain root retry 2', 'domain root/a retry 2 detects flip', 'domain root retry 0101 detects flip', 'domain root retry 256 detects flip', '', 'group'],
    8: ['preserve q copy', 'preserve y refer', 'preserve y[0..4] copy', 'preserve y copy copy', 'preserve x copy', 'region v 1 const 1', 'preserve y copy # why', '#', 'faults', 'end', 'preserve y[0] copy',
        'preserve y[] copy', 'preserve y', 'preserve y Copy', 'preserve y regen const 0', 'preserve y regen', 'preserve y[0..5] copy', 'preserve #y copy', 'preserve y copy;', 'preserve y\x0bcopy'],
    10: ['fill y 7', 'fill z 7', 'fill q 7', 'fill y[0] 7', 'fill y', 'fil y 7', 'add z y x', 'add y z x', 'add y x z', 'add y w x', 'add y x w', 'add w x y', 'add w w w', 'add y y y', 'add x y x', 'add y x',
         'add y q x', 'add y x q', 'add y y x x', 'preserve z copy', 'domain a retry 1 detects flip', 'group', 'cd 1', 'strike root 1 1 flip y[0] 255', 'copy y x', 'sum y[1] x', 'scan y x', 'dot w[4] x y',
         'stencil y[1] 1 2 3 x[0..3]', 'stencil y[1] 1 2 3 y[1..4]', 'max w[0] w', 'max w[0] w[1..5]', 'axpy y 1-2 x', 'fill y 18446744073709551616', 'spmv x[0..3] y x[3] w[0] w', 'spmv x[0..2] y[0..3] w[0] w[1] w'],
    11: ['end end', 'End', '', 'end # why', 'end#', 'end\x00', 'group'],
    12: ['', 'faults 1', 'end', 'region v 1 const 1', 'Faults', 'faults\xa0'],
    13: ['strike root 2 0 flip w[4] 0', 'strike root 1 1 flip w[5] 1', 'strike root 1 1 flip y[4] 1', 'strike root 1 2 flip y[0] 1', 'strike root 1 4294967297 flip y[0] 1', 'strike root 3 2 flip y[0] 1',
         'strike root 1 1 flip z[0] 1', 'strike root 1 1 flip q[0] 1', 'strike root 1 1 lost y[0] 1', 'strike root/a 1 1 flip y[0] 1', 'strike root 1 1 flip y 1', 'strike root 1 1 flip y[] 1',
         'strike root 1 1 flip y[0]] 1', 'strike root 1 1 flip y[0 1', 'strike root 1 1 flip y[4294967296] 1', 'strike root 0001 01 flip y[003] 00255', 'strike root 1 1 flip y[0] 1 1',
         'strike root 1 1 flip y[0]', 'faults', 'end', 'fill y 7', 'strike root:1 1 1 flip y[0] 1', 'strike Root 1 1 flip y[0] 1', 'strike root/ 1 1 flip y[0] 1', 'strike /root 1 1 flip y[0] 1',
         'strike root 1 1 none y[0] 1', 'strike root 1 1 flip,lost y[0] 1', 'strike root 1 1 flip y[-1] 1', 'strike root 1 1 flip y(0) 1', 'strike root 1 1 flip y[0..1] 1', 'strike roo 1 1 flip y[0] 1',
         f'strike root {TOP} 1 flip y[0] 1', f'strike root 1 {TOP} flip y[0] 1', f'strike root 1 1 flip y[0] {TOP}', f'strike root 1 1 flip y[{TOP}] 1'],
}


def put_wrong():
    """The same document with one line put, with each line left out or twice, cut after each line, and with other bytes for blanks."""
    out = {}
    for number, lines in PUT.items():
        for line in lines:
            out[f'line {number} as {line!r}'] = '\n'.join(GOOD[:number - 1] + [line] + GOOD[number:])
    for k in range(len(GOOD)):
        out[f'line {k + 1} left out'] = '\n'.join(GOOD[:k] + GOOD[k + 1:])
        out[f'line {k + 1} twice'] = '\n'.join(GOOD[:k + 1] + GOOD[k:])
        out[f'cut after line {k + 1}'] = '\n'.join(GOOD[:k + 1])
        out[f'cut in line {k + 1}'] = '\n'.join(GOOD[:k + 1])[:-2]
    whole = '\n'.join(GOOD)
    for other in ('\x0b', '\x0c', '\x00', '\xa0', '\xc2\xa0', '\x1c', '\x85', '\xe2\x80\xa8', '\r\r', '\t\t'):
        for k in (whole.index(' '), whole.index('\n'), whole.index(' copy'), len(whole) - 3):
            out[f'{other!r} before byte {k}'] = whole[:k] + other + whole[k:]
            out[f'{other!r} for byte {k}'] = whole[:k] + other + whole[k + 1:]
    for other in ('\xef\xbb\xbf', '\xff', '\xfe', '\x80', '\x7f', '\xc3\xa9', '!', '"', '\\', '#'):
        for k in (0, whole.index('root'), len(whole)):
            out[f'{other!r} put before byte {k}'] = whole[:k] + other + whole[k:]
    return out
