"""Command lines: each sentence about them right and wrong, and lines of a few words at random."""

import random

KEPT = 'cd 1\nregion y 4 mix 3\ndomain root retry 2 detects flip\npreserve y copy\nscan y y\nend\n'
ONE = KEPT + 'faults\nstrike root 1 1 flip y[2] 5\n'
SPENT = ONE + 'strike root 2 0 flip y[0] 1\n'
TWO = KEPT.replace('scan y y\n', 'domain a retry 1 detects lost\npreserve y refer\nscan y y\nend\n')
WRONG = KEPT.replace('scan y y', 'scan y z')
DOCUMENTS = {'one domain': ONE, 'an exhausted one': SPENT, 'two domains': TWO, 'a refused one': WRONG, 'nothing': ''}

ACTIONS = ['check', 'read', 'run', 'make', 'lift']

SENTENCES = [
    # One action, and nothing else.
    '', *ACTIONS, *(f'{action} {action}' for action in ACTIONS), 'check read', 'run make', 'run x', 'x', 'x run', 'audit', 'twin', 'Run', 'RUN', 'ru', 'runs', 'make,run', 'check|read', 'help',
    "''", "'' run", "run ''", "'run '", "' run'", "'run\n'", "'run\t'", "'\trun'", "'run --record'", '-', '- run', 'run -',
    # Options before and behind the action, with their value as the next word or in the same.
    'run --workers 3', '--workers 3 run', 'run --workers=3', '--workers=3 run', 'make --size 2', '--size 2 make', 'make --size=2', '--size=2 make', 'run --record', '--record run',
    '--record run --workers 3', '--workers 3 --record run', '--workers 3 run --record', 'run --record --workers=3', '--workers run run', '--workers run', '--size make make', '--size make',
    # No next word, or one with a hyphen.
    'run --workers', 'make --size', '--workers', '--size', '--record', 'run --workers --record', 'run --workers -1', 'run --workers -', 'run --workers --', 'make --size --', 'make --size -2',
    'make --size --size', 'run --workers --workers 3', 'run --workers --workers=3', '--workers -- run', 'run --workers -- 3', "run --workers ''", "make --size ''",
    # A first `--` is dropped, and all behind it is positional.
    '-- run', 'run --', '--', '-- --', '-- run --', '-- -- run', 'run -- --record', '-- --record', '-- --workers 3', 'run --workers 3 --', '--record -- run', '-- run run', '-- make --size 2',
    '--workers 3 -- run', '--size=2 -- make', '--size=2 -- -- make', '-- -', "-- ''", "-- '' run", '-- check', '-- lift', 'check -- lift',
    # Other words with a hyphen.
    'run -x', '-x', '-x run', 'run -r', 'run -w 3', 'run -w3', 'make -s 2', 'run -', 'run ---', 'run ---record', 'run -record', 'run -workers 3', 'run --Record', 'run --RECORD', '--help', '-h', '--version',
    '-V', 'run --help', 'run -h', 'help run', 'run --quiet', 'run --no-record', 'run -é', 'run é', '-é', 'é', 'run --é', '--é=1 run', 'run -1', 'run --1', 'run –record',
    # Names of options in full, with no value where they have none.
    'run --rec', 'run --recor', 'run --records', 'run --worker 3', 'run --work 3', 'run --w 3', 'run --workerss 3', 'make --siz 2', 'make --s 2', 'make --sizes 2', 'run --record=', 'run --record=1',
    'run --record=true', 'run --record 1', 'run --record true', 'run --=3', 'run --workers:3', "run '--workers 3'", "run '--record '", "run '--workers =3'",
    # Twice.
    'run --record --record', 'run --workers 3 --workers 3', 'run --workers=3 --workers 4', 'run --workers 3 --workers=3', 'make --size 2 --size 2', 'make --size=2 --size=2', '--record run --record',
    '--workers=3 run --workers=3', 'run --record --workers 3 --record',
    # Values: one to three digits, in range.
    *(f'run --workers {value}' for value in ('0', '1', '01', '001', '0001', '00', '000', '9', '63', '64', '064', '65', '0064', '099', '100', '127', '128', '129', '255', '256', '257', '320', '999', '1000')),
    *(f'make --size {value}' for value in ('0', '01', '001', '0001', '013', '14', '014', '15', '0014', '16', '17', '015', '99', '128', '255', '256', '257', '260', '999', '1000')),
    *(f"run '--workers={value}'" for value in ('', '0', '1', '064', '65', '0001', '=3', '3=', '+3', '-3', '3.0', '3 ', ' 3', '0x3', '1e1', 'three', '3,4', '٣', '３', '²', '_3', '3_', '18446744073709551617')),
    *(f"make '--size={value}'" for value in ('', '0', '1', '014', '15', '0001', '=2', '2=', '+2', '-2', '2.0', '2 ', '0x2', '1e0', 'two', '2;3', '２', '256', '258', '4294967298')),
    *(f"run --workers '{value}'" for value in ('+3', '3x', 'x', '=3', '3.', ' 3', '3-', '0b1', '1-1', '٣')),
    *(f"make --size '{value}'" for value in ('+2', '2x', 'x', '=2', '2.', ' 2', '2-', '1+1')),
    # Each option with each action.
    *(f'{action} {option}' for action in ACTIONS for option in ('--record', '--workers 2', '--workers=64', '--size 4', '--size=1', '--workers 2 --record', '--size 4 --record', '--workers=2 --size=4')),
    *(f'{option} {action}' for action in ACTIONS for option in ('--record', '--workers 2', '--size 4')),
    # The defaults, and each size.
    'make --size 4', *(f'make --size {size}' for size in range(1, 15)), 'run --workers 2', 'run --mirror 2', 'run --mirror=2', 'run --mirror',
]

# Words that are no text, as lists of bytes.
NO_TEXT = [[b'\xff'], [b'run', b'\xff'], [b'\xff', b'run'], [b'--', b'\xff'], [b'-\xff'], [b'run', b'--workers', b'\xff'], [b'run', b'--workers=\xff'], [b'r\xfcn'], [b'run\x80'], [b'\xed\xa0\x80'], [b'\xc0\xaf', b'run']]

SMALL = ['run', 'run', 'make', 'check', 'read', 'lift', '--record', '--record', '--workers', '--workers', '--size', '--size', '--workers=4', '--workers=064', '--workers=', '--workers=65', '--size=3', '--size=014',
         '--size=', '--size=15', '3', '1', '014', '64', '0', '15', '0001', '-', '--', '', '-x', '--help', '--record=', '--rec', 'runs']


def split(line):
    """The words of a sentence, in which quotes stand round a word as in a shell."""
    words, word, quoted = [], None, False
    for letter in line:
        if letter == "'":
            quoted, word = not quoted, word or ''
        elif letter == ' ' and not quoted:
            if word is not None:
                words.append(word)
            word = None
        else:
            word = (word or '') + letter
    return words if word is None else words + [word]


def right(rng):
    """A line that gives a command, more often than not."""
    action = rng.choice(ACTIONS + ['run', 'run', 'make', 'make'])
    parts = [[action]]
    if action == 'run' or rng.random() < 0.1:
        value = rng.choice(['1', '2', '7', '09', '064', '64', '65', '0', '008'])
        parts += [part for part in ([rng.choice([['--workers', value], [f'--workers={value}']])] + [['--record']]) if rng.random() < 0.6]
    if action == 'make' or rng.random() < 0.1:
        value = rng.choice(['1', '2', '7', '09', '014', '14', '15', '0', '008'])
        parts += [part for part in [rng.choice([['--size', value], [f'--size={value}']])] if rng.random() < 0.8]
    rng.shuffle(parts)
    if parts[-1] == [action] and rng.random() < 0.3:
        parts.insert(-1, ['--'])
    elif rng.random() < 0.1:
        parts.append(['--'])
    return [word for part in parts for word in part]


def at_random(rng):
    if rng.random() < 0.3:
        return [rng.choice(SMALL) for _ in range(rng.choice([1, 2, 2, 3, 3, 4, 5]))]
    words = right(rng)
    if rng.random() < 0.3:
        k = rng.randrange(len(words))
        rng.choice([lambda: words.insert(k, rng.choice(SMALL)), lambda: words.pop(k), lambda: words.insert(k, words[k]), lambda: words.reverse()])()
    return words


def command_lines(seed, least):
    """Pairs of words and the name of a document: all sentences, and as many lines at random as make this number, 100 at the least."""
    lines = [split(sentence) for sentence in SENTENCES] + NO_TEXT
    rng = random.Random(f'words {seed}')
    lines += [at_random(rng) for _ in range(max(100, least - len(lines)))]
    names = list(DOCUMENTS)
    return [(words, names[k % len(names)] if k % 3 else names[0]) for k, words in enumerate(lines)]
