"""Changes that make a document wrong, and documents that are made wrong by them."""

import random
import re

from making import TOP, Maker, text


# ---- changes that make a document wrong --------------------------------------------------------------------------------

VOCABULARY = ['cd', '1', '2', 'kind', 'halt', 'none', 'region', 'const', 'iota', 'mix', 'domain', 'retry', 'detects', 'flip', 'lost', 'link',
              'node', 'preserve', 'copy', 'refer', 'regen', 'fill', 'add', 'sub', 'mul', 'axpy', 'scan', 'sum', 'dot', 'max', 'stencil',
              'spmv', 'group', 'end', 'faults', 'strike', 'for', 'in', '0..1', '0..2', 'a', '0', '7', str(TOP), 'x[0]', 'x[0..1]', 'x:1', 'A',
              'x'  * 32, 'x' * 33, 'root', 'root/a', '1-2', '1+', '*', '..', '0..', '[', ']', ':', ',', '/', 'flip,', 'flip,lost', '1..2..3']
BYTES = b' \t\r\n#abcz019_:[].,*+-/AZ\x00\x0b\x0c\x7f\x80\xff'
LARGE = [str(TOP), str(TOP + 1), '0' * 30 + str(TOP), str(TOP - 1), '9' * 20, '9' * 40, f'{2 ** 32}*{2 ** 32}', f'{TOP - 1}+1', f'0*{TOP}',
         '1-2', '0-1', '1-2+5', f'{2 ** 32}*{2 ** 31}', f'0*{2 ** 32}*{2 ** 32}+1', '0*1-1', f'{TOP - 1}*1+0']
NUMBER = re.compile('[0-9]+')
# A range whose bounds have a variable.
SLICE = re.compile(r'\[[^\]]*[a-z][^\]]*\.\.')


def numbers_of(lines):
    return [(k, part, found.span()) for k, words in enumerate(lines) for part, word in enumerate(words) if part
            for found in NUMBER.finditer(word)]


def put(lines, k, part, span, text):
    word = lines[k][part]
    lines[k][part] = word[:span[0]] + text + word[span[1]:]


def of_word(lines, *words):
    return [k for k, line in enumerate(lines) if line and line[0] in words]


CHANGES = []


def change(weight=1):
    def keep(function):
        CHANGES.extend([function] * weight)
        return function
    return keep


@change()
def drop_line(rng, lines):
    del lines[rng.randrange(len(lines))]


@change()
def double_line(rng, lines):
    k = rng.randrange(len(lines))
    lines.insert(rng.choice([k, k, rng.randrange(len(lines) + 1)]), list(lines[k]))


@change()
def swap_lines(rng, lines):
    k = rng.randrange(len(lines))
    m = rng.choice([min(k + 1, len(lines) - 1), rng.randrange(len(lines))])
    lines[k], lines[m] = lines[m], lines[k]


@change()
def drop_token(rng, lines):
    k = rng.randrange(len(lines))
    if lines[k]:
        del lines[k][rng.randrange(len(lines[k]))]


@change()
def double_token(rng, lines):
    k = rng.randrange(len(lines))
    part = rng.randrange(len(lines[k]) or 1)
    lines[k][part:part] = lines[k][part:part + 1]


@change(2)
def other_token(rng, lines):
    k = rng.randrange(len(lines))
    if lines[k]:
        lines[k][rng.randrange(len(lines[k]))] = rng.choice(VOCABULARY + [word for words in lines for word in words])


@change()
def more_token(rng, lines):
    k = rng.randrange(len(lines))
    lines[k].insert(rng.randrange(len(lines[k]) + 1), rng.choice(VOCABULARY))


@change(4)
def other_number(rng, lines):
    places = numbers_of(lines)
    if places:
        k, part, span = rng.choice(places)
        value = int(lines[k][part][span[0]:span[1]])
        put(lines, k, part, span, str(rng.choice([value + 1, max(0, value - 1), value * 2, 0, 1, value + 2, 300, TOP - 1])))


@change(2)
def large_number(rng, lines):
    places = numbers_of(lines)
    if places:
        k, part, span = rng.choice(places)
        put(lines, k, part, span, rng.choice(LARGE))


@change()
def long_name(rng, lines):
    places = of_word(lines, 'region', 'domain', 'kind', 'for')
    if places:
        k = rng.choice(places)
        if len(lines[k]) > 1:
            base = 'q' * rng.choice([31, 32, 33, 32, 33])
            lines[k][1] = rng.choice([base, base[:-1] + ':7', base[:-1] + ':10'])


@change()
def other_names(rng, lines):
    k = rng.randrange(len(lines))
    if len(lines[k]) > 1:
        part = rng.randrange(1, len(lines[k]))
        word = lines[k][part]
        lines[k][part] = rng.choice([word.upper(), word + 'x', 'x' + word, word[:-1] or 'x', word.replace('[', '[['), word.replace('..', '.'),
                                     word + ':', word + ':1', word.replace(':', '')])


@change(2)
def taken(rng, lines):
    places = of_word(lines, 'region', 'domain', 'kind', 'for')
    if len(places) > 1:
        k, m = rng.sample(places, 2)
        if len(lines[k]) > 1 and len(lines[m]) > 1:
            lines[k][1] = lines[m][1]


@change(2)
def other_region(rng, lines):
    names = [lines[k][1] for k in of_word(lines, 'region') if len(lines[k]) > 1] + ['nowhere']
    places = of_word(lines, 'preserve', 'fill', 'copy', 'add', 'sub', 'mul', 'axpy', 'scan', 'sum', 'dot', 'max', 'stencil', 'spmv', 'strike')
    if places:
        k = rng.choice(places)
        if len(lines[k]) > 2:
            part = 5 if lines[k][0] == 'strike' and len(lines[k]) > 5 else rng.randrange(1, len(lines[k]))
            _, bracket, rest = lines[k][part].partition('[')
            lines[k][part] = rng.choice(names) + rng.choice([bracket + rest, bracket + rest, '', '[0]', '[0..1]', '[1..1]', '[2..1]'])


@change(2)
def other_shape(rng, lines):
    places = of_word(lines, 'copy', 'add', 'sub', 'mul', 'axpy', 'scan', 'sum', 'dot', 'max', 'stencil', 'spmv')
    names = [(lines[k][1], lines[k][2]) for k in of_word(lines, 'region') if len(lines[k]) > 2]
    if places and names:
        k = rng.choice(places)
        part = rng.randrange(1, len(lines[k]))
        name, _ = rng.choice(names)
        lines[k][part] = rng.choice([name, f'{name}[0..1]', f'{name}[0]', f'{name}[1]', f'{name}[0..2]', f'{name}[1..3]', lines[k][1]])


@change(2)
def drop_preserve(rng, lines):
    places = of_word(lines, 'preserve')
    if places:
        del lines[rng.choice(places)]


@change(3)
def other_how(rng, lines):
    places = of_word(lines, 'preserve')
    for k in rng.sample(places, min(len(places), rng.choice([1, 2, len(places)]))):
        lines[k][2:] = rng.choice([['refer'], ['refer'], ['copy'], ['regen', 'mix', '1']])


@change(3)
def early_write(rng, lines):
    """A write in front of a domain or a group, where a referring member follows."""
    places = of_word(lines, 'domain', 'group')[1:]
    names = [lines[k][1] for k in of_word(lines, 'region') if len(lines[k]) > 1]
    if places and names:
        k = rng.choice(places)
        lines.insert(k, ['fill', rng.choice(names) + rng.choice(['', '', '[0]', '[1]']), '1'])


@change(3)
def strike_wrong(rng, lines):
    places = of_word(lines, 'strike')
    if places:
        k = rng.choice(places)
        if len(lines[k]) == 7:
            part = rng.choice([1, 1, 3, 4, 4, 5])
            lines[k][part] = {1: rng.choice([lines[k][1] + '/x', lines[k][1] + ':1', 'root', lines[k][1].rpartition('/')[0] or 'x']),
                              3: rng.choice(['1', '4', '99', str(TOP - 1)]),
                              4: rng.choice(['flip', 'lost', 'link', 'node'] + [words[1] for words in lines if words[:1] == ['kind'] and len(words) > 1]),
                              5: lines[k][5].replace('[', '[1+', 1) if rng.random() < 0.5 else
                              rng.choice([words[1] for words in lines if words[:1] == ['region'] and len(words) > 1] or ['x']) + '[0]'}[part]


@change()
def strike_outside(rng, lines):
    """A strike at a word of another region, which may be one that no domain knows."""
    places = of_word(lines, 'strike')
    names = [lines[k][1] for k in of_word(lines, 'region') if len(lines[k]) > 1]
    if places and names:
        k = rng.choice(places)
        name = rng.choice(names)
        if rng.random() < 0.5:
            name = 'unseen'
            lines.insert(of_word(lines, 'region')[0], ['region', name, '3', 'const', '1'])
            k += 1
        if len(lines[k]) == 7:
            lines[k][5] = f'{name}[{rng.choice(["0", "1", "2"])}]'


@change(2)
def kinds_wrong(rng, lines):
    places = of_word(lines, 'domain')
    if places:
        k = rng.choice(places)
        if len(lines[k]) > 5:
            lines[k][5] = rng.choice(['none', 'none', 'flip', 'lost', 'node', 'flip,lost', lines[k][5] + ',flip', lines[k][5] + ',none', 'none,none'])


@change(2)
def overlap(rng, lines):
    """Slices that are wider than they are apart."""
    wide = [k for k, words in enumerate(lines) if words and words[0] in ('preserve', 'fill', 'copy', 'scan') and '..' in ' '.join(words)]
    turned = [k for k in wide if SLICE.search(' '.join(lines[k][1:]))]
    if wide:
        k = rng.choice(turned or wide)
        for part, word in enumerate(lines[k]):
            if '..' in word:
                lines[k][part] = word.replace(']', '+1]')


@change(2)
def same_member(rng, lines):
    """A member of a group again, by another name."""
    places = of_word(lines, 'domain')[1:]
    if places:
        k = rng.choice(places)
        depth, m = 0, k
        while m < len(lines):
            if lines[m] and lines[m][0] in ('domain', 'group', 'for'):
                depth += 1
            if lines[m] == ['end']:
                depth -= 1
                if depth == 0:
                    break
            m += 1
        again = [list(words) for words in lines[k:m + 1]]
        if len(again[0]) > 1:
            again[0][1] = 'again' + again[0][1].partition(':')[1] + again[0][1].partition(':')[2]
        lines[k:k] = again


def changed(rng, lines):
    lines = [list(words) for words in lines]
    if rng.random() < 0.12:
        whole = bytearray(text(rng, lines))
        for _ in range(rng.choice([1, 1, 2])):
            at = rng.randrange(len(whole))
            byte = rng.choice(BYTES)
            way = rng.random()
            if way < 0.4:
                whole[at] = byte
            elif way < 0.7:
                whole.insert(at, byte)
            else:
                del whole[at]
        return bytes(whole)
    for _ in range(rng.choice([1, 1, 1, 1, 2, 3])):
        rng.choice(CHANGES)(rng, lines)
        lines = lines or [['cd', '1']]
    return text(rng, lines)


def made(seed, number):
    rng = random.Random(f'{seed} {number}')
    lines = Maker(rng).make()
    return text(rng, lines) if number % 3 == 0 else changed(rng, lines)


AIMS = [('accepted', None), ('E2', None), ('E3', other_region), ('E4', other_region), ('E5', taken), ('E6', other_shape), ('E7', large_number),
        ('E8', long_name), ('E8', other_number), ('E9', overlap), ('E9', same_member), ('E10', drop_preserve), ('E11', other_how),
        ('E12', early_write), ('E13', strike_wrong), ('E14', strike_wrong), ('E15', strike_outside), ('E16', strike_wrong), ('E16', kinds_wrong)]


def aimed(seed, number, answer):
    """A document with the wanted answer, the first of up to 60 tries that has it, else the last."""
    rng = random.Random(f'aimed {seed} {number}')
    aim, function = AIMS[number % len(AIMS)]
    whole = b''
    for _ in range(60):
        lines = Maker(rng).make()
        if function is None:
            whole = text(rng, lines) if aim == 'accepted' else changed(rng, lines)
        else:
            function(rng, lines)
            whole = text(rng, lines)
        status, said = answer(whole)
        if aim == ('accepted' if status == 0 else said.split()[1]):
            break
    return whole
