"""Nested documents with scripts: groups, references, regenerated words, leaks, halting kinds, and tries that are used up."""

import random

from making import TOP, Lin, Part, digits, some_name, some_word, text
from single import SMALL, Single

SIZES = [[1, 2, 3, 4, 6, 8], [4, 8, 12, 16, 24], [15, 16, 17, 20], [1, 16, 63, 64, 65, 130], [200, 64, 8]]
# Operations of a worker in a loop: its own words, and its first one.
OWN = [['fill', 'own', 'number'], ['scan', 'own', 'own'], ['add', 'own', 'own', 'own'], ['mul', 'own', 'own', 'own'], ['axpy', 'own', 'number', 'own']]
FIRST = [['sum', 'first', 'seen'], ['max', 'first', 'seen'], ['dot', 'first', 'seen', 'seen']]


class Level:
    """A domain: its path, the kinds declared on it, what it may write, what it may only read, and what it did so far."""

    def __init__(self, path, above, retry, detects, mine, seen):
        self.path = path
        self.kinds = above | set(detects)
        self.retry = retry
        self.detects = detects
        self.mine = mine
        self.seen = seen
        self.entries = []
        self.written = []
        self.items = 0
        self.names = set()


def meet(one, other):
    return one[0] == other[0] and one[1] < other[2] and other[1] < one[2]


def holds(one, other):
    return one[0] == other[0] and one[1] <= other[1] and other[2] <= one[2]


class Nested(Single):
    """A document whose domains are in order, but for a few. Operations are those of a single domain, on the level in hand."""

    def make(self):
        rng = self.rng
        self.levels = []
        self.domains = []
        self.left = rng.choice([1, 2, 3, 4, 6, 9, 14, 20])
        self.deepest = rng.choice([2, 3, 3, 4, 5, 8, 8, 16])
        self.kinds_of_version(rng.choice([1, 2, 2]))
        self.domain(some_name(rng, []), '', set(), self.regions(), [])
        if rng.random() < 0.95:
            self.say('faults')
            self.script()
        return self.lines

    def number(self, value):
        """A sum with this value; the greatest numbers are written as they are, so that no part of a sum is too large."""
        return super().number(value) if value < TOP // 2 else digits(self.rng, value)

    # What a single domain's operations ask of the domain in hand.

    @property
    def kept(self):
        return self.levels[-1].mine

    @property
    def written(self):
        return self.levels[-1].written

    @property
    def items(self):
        return self.levels[-1].items

    @items.setter
    def items(self, count):
        self.levels[-1].items = count

    def readable(self):
        return self.levels[-1].mine + self.levels[-1].seen

    # Regions and entries.

    def regions(self):
        """Says the regions, and gives them as ranges."""
        rng = self.rng
        self.sizes, self.patterns, self.small = {}, {}, set()
        usual = rng.choice(SIZES)
        for _ in range(rng.choice([1, 2, 2, 3, 3, 4, 5])):
            name, size = some_name(rng, self.sizes), rng.choice(usual)
            pattern = rng.choice([self.pattern(), self.pattern(), *SMALL])
            self.sizes[name], self.patterns[name] = size, pattern
            if pattern in SMALL:
                self.small.add(name)
            self.say('region', self.region_name(name), self.number(size), *pattern)
        return [(name, 0, size) for name, size in self.sizes.items()]

    def is_fresh(self, given):
        """Whether a domain above keeps these words, and they were not written since."""
        sought = given
        for level in reversed(self.levels):
            if any(meet(given, written) for written in level.written):
                return False
            found = next(((kept, how) for kept, how in level.entries if how != 'regen' and holds(kept, sought)), None)
            if found and found[1] == 'copy':
                return True
            if found:
                sought = found[0]
        return False

    def way(self, given):
        """How a range is preserved."""
        rng = self.rng
        ways = ['copy', 'copy', 'regen']
        if not self.levels:
            ways = ['copy', 'copy', 'copy', 'copy', 'regen']
        elif self.is_fresh(given) or rng.random() < 0.01:
            ways += ['refer'] * 5
        how = rng.choice(ways)
        if how != 'regen':
            return [how]
        return [how] + (self.patterns[given[0]] if rng.random() < 0.7 else rng.choice([self.pattern(), *SMALL]))

    def preserve_all(self, level):
        """Each range as one entry or as two, and now and then a part of it once more."""
        rng = self.rng
        ranges = []
        for name, low, high in level.mine + level.seen:
            cuts = [low, high]
            if high - low > 1 and rng.random() < 0.12:
                cuts.insert(1, rng.randrange(low + 1, high))
            ranges += [(name, first, last) for first, last in zip(cuts, cuts[1:])]
            if rng.random() < 0.06:
                ranges.append((name, *self.inside(low, high)))
        rng.shuffle(ranges)
        for given in ranges:
            way = self.way(given)
            self.say('preserve', self.written_range(given), *way)
            level.entries.append((given, way[0]))

    # Domains and their items.

    def domain(self, name, above_path, above_kinds, mine, seen):
        rng = self.rng
        detects = self.kinds(not self.levels)
        level = Level(above_path + name, above_kinds, rng.choice([1, 1, 2, 2, 2, 3, 4, 100 if rng.random() < 0.1 else 2]), detects, mine, seen)
        self.domains.append(level)
        self.say('domain', self.region_name(name), 'retry', self.number(level.retry), 'detects', ','.join(detects) or 'none')
        self.preserve_all(level)
        self.levels.append(level)
        for _ in range(rng.choice([1, 1, 2, 2, 3, 4] if len(self.levels) < 3 else [0, 1, 1, 2, 3])):
            self.item()
        self.levels.pop()
        self.say('end')
        return level

    def item(self):
        rng = self.rng
        likely = 0.75 if len(self.levels) < 3 else 0.5
        if self.left > 0 and len(self.levels) < self.deepest and rng.random() < (likely if self.readable() else 0.1):
            return rng.choice([self.group, self.group, self.group, self.alone, self.workers])()
        return self.step() if self.kept else None

    def some_child_name(self):
        name = some_name(self.rng, self.levels[-1].names)
        self.levels[-1].names.add(name)
        return name

    def members(self, shares):
        """Domains with these ranges to write and to read; what they write counts only once all are said."""
        level = self.levels[-1]
        self.left -= len(shares)
        said = [self.domain(self.some_child_name(), level.path + '/', level.kinds, mine, seen) for mine, seen in shares]
        level.items += 1
        level.written += [written for member in said for written in member.written]

    def alone(self):
        self.members(self.shares(1))

    def group(self):
        self.say('group')
        self.members(self.shares(self.rng.choice([1, 2, 2, 2, 3, 3, 4, 5])))
        self.say('end')

    def shares(self, count):
        """For each member its ranges to write and to read: each range is cut, or given to one of them, or read by some."""
        rng = self.rng
        shares = [([], []) for _ in range(count)]
        for name, low, high in self.kept:
            way = rng.random()
            if way < 0.5:
                cuts = [low, *sorted(rng.randrange(low, high + 1) for _ in range(count - 1)), high]
                for (mine, _), first, last in zip(shares, cuts, cuts[1:]):
                    if first < last:
                        mine.append((name, first, last))
            elif way < 0.75:
                rng.choice(shares)[0].append((name, low, high))
            else:
                self.read_by_some(shares, (name, low, high))
        for given in self.levels[-1].seen:
            self.read_by_some(shares, given)
        return shares

    def read_by_some(self, shares, given):
        for _, seen in shares:
            if self.rng.random() < 0.6:
                seen.append(given if self.rng.random() < 0.7 else (given[0], *self.inside(*given[1:])))

    def workers(self):
        """Workers in a loop, each with its part of one range."""
        rng = self.rng
        level = self.levels[-1]
        wide = [given for given in level.mine if given[2] - given[1] > 1]
        if not wide:
            return
        name, low, high = rng.choice(wide)
        count = min(rng.choice([2, 2, 3, 4, 4, 6, 8, 16, 40]), high - low)
        size = (high - low) // count
        self.left -= count
        seen = [given for given in self.readable() if given[0] != name and rng.random() < 0.6]
        base = self.some_child_name()[:20] + '_'
        if base in level.names:
            return
        level.names.add(base)
        retry, detects = rng.choice([1, 2, 2, 3]), self.kinds()
        own = Part(name, Lin(low).plus_times(size, 'a'), size, self.sizes[name])
        way = self.way((name, low, high))
        steps = [rng.choice(OWN + (FIRST if seen else [])) for _ in range(rng.choice([0, 1, 1, 2, 3]))]
        self.say('group')
        self.say('for', 'a', 'in', f'0..{count}')
        self.say('domain', f'{base}:a', 'retry', self.number(retry), 'detects', ','.join(detects) or 'none')
        for said in [(self.range(own, own.low, size), way)] + [(self.written_range(given), self.way(given)) for given in seen]:
            self.say('preserve', said[0], *said[1])
        for step in steps:
            self.say(step[0], *(self.worker_part(part, own, seen[:1]) for part in step[1:]))
        for _ in range(3):
            self.say('end')
        for a in range(count):
            worker = Level(f'{level.path}/{base}{a}', level.kinds, retry, detects, [(name, low + size * a, low + size * a + size)], seen)
            worker.items = len(steps)
            self.domains.append(worker)
        level.items += 1
        level.written += [(name, low, high)] if steps else []

    def worker_part(self, part, own, seen):
        if part == 'number':
            return self.rng.choice(['a', '3*a+1', '7', self.number(some_word(self.rng))])
        if part == 'seen':
            return self.written_range(seen[0])
        return self.range(own, own.low, own.size if part == 'own' else 1)

    # The script.

    def script(self):
        rng = self.rng
        for way in rng.choice([['few'], ['few'], ['one'], ['wear'], ['wear', 'few'], ['wear', 'wear'], ['leaks'], ['leaks', 'few'], ['exhaust'], ['few', 'exhaust']]):
            getattr(self, way)()

    def strikable(self, among=None):
        return [level for level in among or self.domains if level.kinds and level.mine + level.seen]

    def strike(self, level, begin, kinds):
        """A strike of one of these kinds; `begin` is a number or a variable."""
        rng = self.rng
        name, low, high = rng.choice(level.mine * 3 + level.seen)
        index = rng.choice([low, high - 1, rng.randrange(low, high)])
        self.say('strike', level.path, begin, self.number(rng.choice([0, level.items, rng.randrange(level.items + 1)])), rng.choice(sorted(kinds)),
                 f'{self.region_name(name)}[{self.number(index)}]', self.number(rng.choice([0, 1, 255, TOP - 1, some_word(rng)])))

    def few(self):
        rng = self.rng
        among = self.strikable()
        for _ in range(rng.choice([1, 2, 3, 5, 8]) if among else 0):
            level = rng.choice(among)
            kinds = level.detects if level.detects and rng.random() < 0.6 else level.kinds
            self.strike(level, self.number(rng.choice([1, 1, 1, 1, 2, 2, 3, 4, 7])), kinds)

    def one(self):
        self.begins_of(self.strikable(self.domains[1:]), lambda level: 1, lambda level: level.detects or level.kinds)

    def leaks(self):
        """A domain is struck by a kind that only a domain above declares."""
        among = [level for level in self.strikable() if level.kinds - set(level.detects)]
        self.begins_of(among, lambda level: self.rng.choice([1, 1, 2, 3]), lambda level: level.kinds - set(level.detects))

    def wear(self):
        """A domain is struck at all begins of one try of its parent, or of so many tries further above that these are used up too."""
        def begins(level):
            count = level.retry
            for above in self.domains:
                if level.path.startswith(above.path + '/') and self.rng.random() < 0.5:
                    count *= above.retry
            return min(count, 60)
        self.begins_of(self.strikable(self.domains[1:]), begins, lambda level: level.detects or level.kinds)

    def exhaust(self):
        self.begins_of(self.strikable(self.domains[:1]), lambda level: min(level.retry, 100), lambda level: level.detects)

    def begins_of(self, among, count, kinds):
        """One of these domains is struck at its first begins, as a loop or one by one."""
        if not among:
            return
        level = self.rng.choice(among)
        last = count(level)
        if last > 4 or self.rng.random() < 0.3:
            self.say('for', 'b', 'in', f'1..{self.number(last + 1)}')
            self.strike(level, 'b', kinds(level))
            self.say('end')
        else:
            for begin in range(1, last + 1):
                self.strike(level, self.number(begin), kinds(level))


def nested(seed, number):
    rng = random.Random(f'nested {seed} {number}')
    return text(rng, Nested(rng).make())
