"""Documents that are accepted, most of them, and their texts with blanks, comments and zeros as they come."""

import re

TOP = 2 ** 64


# ---- sums that are linear in variables ---------------------------------------------------------------------------------

class Lin:
    """A number plus multiples of variables; `low` and `high` are the least and greatest values that it takes."""

    def __init__(self, number=0, parts=()):
        self.number = number
        self.parts = dict(parts)

    def plus(self, number):
        return Lin(self.number + number, self.parts)

    def plus_times(self, times, variable):
        parts = dict(self.parts)
        parts[variable] = parts.get(variable, 0) + times
        return Lin(self.number, parts)


def digits(rng, number):
    return ('0' * rng.choice([1, 2, 25]) if rng.random() < 0.05 else '') + str(number)


def term(rng, times, variable):
    if times == 1 and rng.random() < 0.7:
        return variable
    factors = [digits(rng, times), variable]
    if times % 2 == 0 and times and rng.random() < 0.2:
        factors = [digits(rng, 2), digits(rng, times // 2), variable]
    if rng.random() < 0.1:
        factors.append('1')
    rng.shuffle(factors)
    return '*'.join(factors)


def written(rng, lin):
    """An expression that has the values of a linear sum."""
    terms = [term(rng, times, variable) for variable, times in lin.parts.items() if times]
    number = lin.number
    if number or not terms:
        if number > 1 and rng.random() < 0.1:
            cut = rng.randrange(1, number)
            terms += [digits(rng, cut), digits(rng, number - cut)]
        else:
            terms.append(digits(rng, number))
    rng.shuffle(terms)
    text = '+'.join(terms)
    if rng.random() < 0.07:
        extra = rng.choice(['1', '7', '2*3', str(2 ** 40)] + list(lin.parts))
        text += f'+{extra}-{extra}'
    if rng.random() < 0.03:
        text += '+0*' + rng.choice(['5', str(TOP - 1)] + list(lin.parts))
    return text


# ---- documents ---------------------------------------------------------------------------------------------------------

WORDS = ['region', 'copy', 'fill', 'end', 'root', 'flip', 'const', 'faults', 'none', 'cd', 'for', 'in', 'halt', 'kind', 'refer']


def some_name(rng, taken):
    letters = 'abcdefghijklmnopqrstuvwxyz'
    while True:
        size = rng.choice([1, 1, 1, 2, 3, 5, 8, 30])
        name = rng.choice(letters) + ''.join(rng.choice(letters + '0123456789_') for _ in range(size - 1))
        if rng.random() < 0.1:
            name = rng.choice(WORDS)
        if name not in taken:
            return name


def some_word(rng):
    return rng.choice([0, 1, 2, 255, 2 ** 32, TOP - 1, rng.randrange(100), rng.randrange(TOP)])


class Part:
    """What a domain may touch of a region: `size` words from `low` on."""

    def __init__(self, name, low, size, whole, writable=True):
        self.name = name
        self.low = low
        self.size = size
        self.whole = whole
        self.writable = writable


class Maker:
    def __init__(self, rng):
        self.rng = rng
        self.lines = []
        self.domains = []         # (path pieces, kinds on the path, parts, items)
        self.env = {}
        self.left = rng.choice([2, 4, 8, 16])
        self.variables = 0

    def say(self, *words):
        self.lines.append([str(word) for word in words])

    def number(self, value):
        return written(self.rng, Lin(value))

    def pattern(self):
        rng = self.rng
        kind = rng.choice(['const', 'iota', 'mix'])
        return [kind] + [self.number(some_word(rng)) for _ in range(2 if kind == 'iota' else 1)]

    def region_name(self, name):
        """The name, or a base and the value of its last digits."""
        found = re.fullmatch('([a-z][a-z0-9_]*?)(0|[1-9][0-9]*)', name)
        if found and self.rng.random() < 0.3 and int(found.group(2)) < TOP:
            return f'{found.group(1)}:{self.number(int(found.group(2)))}'
        return name

    def range(self, part, low, size):
        rng = self.rng
        name = self.region_name(part.name)
        if part.whole == size and not low.parts and low.number == 0 and rng.random() < 0.7:
            return name
        if size == 1 and rng.random() < 0.6:
            return f'{name}[{written(rng, low)}]'
        return f'{name}[{written(rng, low)}..{written(rng, low.plus(size))}]'

    def piece(self, part, size=None):
        rng = self.rng
        if size is None:
            size = rng.choice([part.size, part.size, 1, rng.randrange(1, part.size + 1)])
        if size > part.size:
            return None
        return part.low.plus(rng.choice([0, part.size - size, rng.randrange(part.size - size + 1)])), size

    def kinds(self, some=False):
        rng = self.rng
        chosen = [kind for kind in self.names if rng.random() < 0.4]
        if some and not chosen and self.names:
            chosen = [rng.choice(self.names)]
        rng.shuffle(chosen)
        return chosen

    def make(self):
        rng = self.rng
        version = rng.choice([1, 1, 2])
        self.say('cd', version)
        self.names = ['flip', 'lost', 'link', 'node']
        if version == 2:
            self.names = []
            for _ in range(rng.choice([1, 2, 2, 3, 5, 16, 0])):
                name = some_name(rng, self.names + ['none'])
                self.names.append(name)
                self.say('kind', name, *(['halt'] if rng.random() < 0.3 else []))
        parts = []
        base = some_name(rng, [])
        for k in range(rng.randrange(1, 6)):
            size = rng.choice([1, 2, 3, 4, 6, 8, 8, 12, 16, 24])
            name = some_name(rng, [part.name for part in parts]) if rng.random() < 0.5 else f'{base[:29]}{k}'
            if name in [part.name for part in parts]:
                continue
            parts.append(Part(name, Lin(0), size, size))
            self.say('region', self.region_name(name), self.number(size), *self.pattern())
        self.parts = parts
        root = some_name(rng, [])
        self.domain(root, [root], set(), parts, 1, True)
        if rng.random() < 0.7:
            self.say('faults')
            for _ in range(rng.randrange(0, 6)):
                self.strike()
        return self.lines

    def domain(self, name_text, path, above, parts, depth, is_root=False):
        rng = self.rng
        detects = self.kinds(is_root)
        kinds = above | set(detects)
        self.say('domain', name_text, 'retry', self.number(rng.choice([1, 2, 3, 100])), 'detects', ','.join(detects) or 'none')
        for part in parts:
            self.preserve(part, is_root)
        items = 0
        for _ in range(rng.choice([0, 1, 1, 2, 3])):
            items += self.item(parts, path, kinds, depth)
        self.domains.append((path, kinds, parts, items, dict(self.env)))
        self.say('end')

    def preserve(self, part, is_root):
        rng = self.rng
        how = ['copy'] if rng.random() < (0.85 if is_root else 0.35) else ['regen'] + self.pattern() if is_root or rng.random() < 0.2 else ['refer']
        if part.size > 2 and rng.random() < 0.15:
            cut = rng.randrange(1, part.size)
            self.say('preserve', self.range(part, part.low, cut), *how)
            self.say('preserve', self.range(part, part.low.plus(cut), part.size - cut), *how)
        elif part.size > 1 and rng.random() < 0.1:
            variable = self.variable()
            self.say('for', variable, 'in', f'0..{part.size}')
            self.env[variable] = part.size
            self.say('preserve', self.range(part, part.low.plus_times(1, variable), 1), *how)
            del self.env[variable]
            self.say('end')
        else:
            self.say('preserve', self.range(part, part.low, part.size), *how)

    def variable(self):
        self.variables += 1
        name = self.rng.choice(['a', 'b', 'i', 'j', 'k', 'n', 'end', 'for'])
        return name if name not in self.env else f'v{self.variables}'

    def item(self, parts, path, kinds, depth):
        rng = self.rng
        if self.left > 0 and depth < 6:
            way = rng.random()
            if way < 0.25:
                self.left -= 1
                return self.direct(parts, path, kinds, depth)
            if way < 0.6:
                self.left -= 1
                return self.sliced(parts, path, kinds, depth)
            if way < 0.65:
                return self.skipped(parts)
            if way < 0.75:
                return self.repeated(parts)
        return self.operation(parts)

    def direct(self, parts, path, kinds, depth):
        rng = self.rng
        name = f'd{self.variables}{rng.randrange(10 ** 6)}'
        self.variables += 1
        chosen = [part for part in parts if rng.random() < 0.8]
        self.domain(self.region_name(name), path + [name], kinds, chosen, depth + 1)
        return 1

    def sliced(self, parts, path, kinds, depth):
        """A group whose members have a slice of each of some regions, and see others whole."""
        rng = self.rng
        turns = rng.choice([1, 2, 2, 3, 4])
        cut = [part for part in parts if part.writable and part.size >= turns and rng.random() < 0.7]
        seen = [part for part in parts if part not in cut and rng.random() < 0.7]
        variable = self.variable()
        self.variables += 1
        base = f's{self.variables}_'
        self.say('group')
        start = rng.choice([0, 0, 1, 5])
        self.say('for', variable, 'in', f'{self.number(start)}..{self.number(start + turns)}')
        self.env[variable] = (start, turns)
        members = []
        for part in cut:
            size = part.size // turns
            members.append(Part(part.name, part.low.plus_times(size, variable).plus(-size * start), size, part.whole))
        members = [part for part in members if part.low.number >= 0]
        members += [Part(part.name, part.low, part.size, part.whole, False) for part in seen]
        self.domain(f'{base}:{written(rng, Lin(0, {variable: 1}))}', path + [(base, variable)], kinds, members, depth + 1)
        del self.env[variable]
        self.say('end')
        self.say('end')
        return 1

    def skipped(self, parts):
        """A `for` without turns, in which anything may stand."""
        self.say('for', self.variable(), 'in', self.rng.choice(['0..0', '5..5', '7..3', '2*3..6']))
        self.say(*self.rng.choice([['what', 'ever'], ['fill', 'nothing', '1-2'], ['region', 'x', '0'], ['cd', '9'], ['strike']]))
        self.say('end')
        return 0

    def repeated(self, parts):
        rng = self.rng
        turns = rng.choice([1, 2, 3])
        part = rng.choice(parts) if parts else None
        if part is None or not part.writable or part.size < turns:
            return 0
        variable = self.variable()
        self.say('for', variable, 'in', f'0..{turns}')
        self.env[variable] = (0, turns)
        self.say('fill', self.range(part, part.low.plus_times(1, variable), 1), rng.choice([variable, f'{variable}*7+1', '3']))
        del self.env[variable]
        self.say('end')
        return turns

    def operation(self, parts):
        rng = self.rng
        mine = [part for part in parts if part.writable]
        if not mine:
            return 0
        for _ in range(4):
            part = rng.choice(mine)
            others = [other for other in parts if other.name != part.name]
            op = rng.choice(['fill', 'copy', 'add', 'sub', 'mul', 'axpy', 'scan', 'sum', 'dot', 'max', 'stencil', 'spmv'])
            low, size = self.piece(part, 1 if op in ('sum', 'dot', 'max') else None)
            to = self.range(part, low, size)

            def source(length, same=True):
                if same and rng.random() < 0.3:
                    return to
                fit = [other for other in others if other.size >= length]
                if not fit or length < 1:
                    return None
                other = rng.choice(fit)
                return self.range(other, *self.piece(other, length))

            k = lambda: self.number(some_word(rng))
            some = rng.choice([1, 1, 2, 4])
            words = {
                'fill': lambda: [to, k()], 'copy': lambda: [to, source(size)],
                'add': lambda: [to, source(size), source(size)], 'sub': lambda: [to, source(size), source(size)],
                'mul': lambda: [to, source(size), source(size)], 'axpy': lambda: [to, k(), source(size)],
                'scan': lambda: [to, source(size)], 'sum': lambda: [to, source(some, False)],
                'dot': lambda: [to, source(some, False), source(some, False)], 'max': lambda: [to, source(some, False)],
                'stencil': lambda: [to, k(), k(), k(), source(size + 2, False)],
                'spmv': lambda: [to, source(size + 1, False), source(some, False), source(some, False), source(rng.choice([1, 2]), False)],
            }[op]()
            if None not in words:
                self.say(op, *words)
                return 1
        return 0

    def strike(self):
        rng = self.rng
        path, kinds, parts, items, env = rng.choice(self.domains)
        if not kinds or not parts:
            return
        part = rng.choice(parts)
        names = []
        values = {}
        for piece in path:
            if isinstance(piece, tuple):
                base, variable = piece
                start, turns = env.get(variable, (0, 1))
                values[variable] = start + rng.randrange(turns)
                names.append(f'{base}:{self.number(values[variable])}' if rng.random() < 0.5 else f'{base}{values[variable]}')
            else:
                names.append(piece)
        index = part.low.number + sum(times * values.get(variable, 0) for variable, times in part.low.parts.items())
        index += rng.randrange(part.size)
        words = ['strike', '/'.join(names), self.number(rng.choice([1, 1, 2, 3, 0, TOP - 1])), self.number(rng.randrange(items + 1)),
                 rng.choice(sorted(kinds)), f'{self.region_name(part.name)}[{self.number(index)}]', self.number(some_word(rng))]
        if rng.random() < 0.15:
            self.say('for', 'a', 'in', '1..3')
            words[2] = rng.choice(['a', 'a*2', 'a+1-1'])
            self.say(*words)
            self.say('end')
        else:
            self.say(*words)


# ---- texts -------------------------------------------------------------------------------------------------------------

def blanks(rng, least):
    if rng.random() < 0.85:
        return ' ' * least
    return ''.join(rng.choice(' \t\r ') for _ in range(least + rng.randrange(4)))


def text(rng, lines):
    if rng.random() < 0.5:
        return ('\n'.join(' '.join(words) for words in lines) + '\n').encode('latin-1')
    out = []
    for words in lines:
        while rng.random() < 0.08:
            out.append(rng.choice([blanks(rng, 0), '# ' + rng.choice(['a comment', 'end', '\xff\x00', ''])]))
        line = blanks(rng, 0) if rng.random() < 0.2 else ''
        for at, word in enumerate(words):
            line += (blanks(rng, 1) if at else '') + word
        if rng.random() < 0.08:
            line += rng.choice([' # why', '#', '#end', '\t#\xe9'])
        out.append(line + (blanks(rng, 0) if rng.random() < 0.2 else ''))
    whole = rng.choice(['\n', '\n', '\n', '\r\n']).join(out)
    if rng.random() < 0.8:
        whole += '\n'
    if rng.random() < 0.08:
        whole += '\n \n#'
    return whole.encode('latin-1')
