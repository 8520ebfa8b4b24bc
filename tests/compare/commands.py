#!/usr/bin/env python3
"""Compares the program with a reference program on documents, each through several actions, and on command lines.

    commands.py REFERENCE [--program PATH] [--seed N] [--count N] [--large] [--lines N] [--only NAME] [--jobs N]

REFERENCE is the path of the reference program, whose folder has its parts. PATH is the program, as the test of the repository
has built it if none is given. COUNT documents are made at random, two of three made wrong by changes; half as many are aimed at
one refusal each, have statements put in whose parts are right or wrong, are small programs for the checks, or have one domain;
four times as many are nested programs with scripts; the examples and documents at each limit and at each choice of the language
are added, and with --large those that take long. Each goes through `check`, and every other one through `read`, the others through `lift`;
canonical texts are read again. Each that is accepted is run twice, with its record and without, by 1 to 64 workers in turn; each
that is refused, once. Then come command lines and ends that fail. Statuses and bytes have to agree.

What accepted documents have and what their runs show is counted; where all is compared with the usual numbers, each thing has to
be found often enough. A document is determined by the seed and its name alone, and --only NAME tries the one with this name, or
those whose names begin with it. The document of each difference that is shown is kept in a file. The last line is `N passed,
M failed`, and the status is 1 where one failed.
"""

import argparse
import collections
import concurrent.futures
import functools
import os
import re
import subprocess
import sys
import tempfile

from changes import aimed, made
from chosen import choices, examples, generated, large, limits
from counting import features, wanting
from mixing import mixed, tangled
from nested import nested
from reference import WANTED_TEXT, WRITE_FAULT, Reference
from single import at_limits, put_wrong, single
from words import DOCUMENTS, KEPT, ONE, SPENT, TWO, WRONG, command_lines

TOP = os.path.dirname(os.path.dirname(os.path.dirname(os.path.abspath(__file__))))
LIMIT = 1048576
SECONDS = 120
# How many cases with differences are shown.
SHOWN = 60
# The usual number of random documents.
COUNT = 800
# The numbers of workers that runs are given in turn.
WORKERS = (1, 2, 3, 4, 8, 5, 64)
# What is counted of what accepted documents show.
FOUND = 'accepted documents with'
# The large documents that are quick all the same.
QUICK = ('need_', 'lines_', 'two_regions', 'two_entries', 'two_members', 'two_depth', 'two_nesting', 'two_kinds', 'two_faults', 'text_over', 'text_full', 'text_digits', 'text_token', 'text_kinds')

# A file that can be opened, and where each read from its start fails; a device where each write fails.
UNREADABLE = '/proc/self/mem'
FULL = '/dev/full'


Given = collections.namedtuple('Given', 'reference program seed count lines large only jobs')


# ---- the cases ---------------------------------------------------------------------------------------------------------

def as_bytes(document):
    return document if isinstance(document, bytes) else document.encode('latin-1')


@functools.cache
def chosen(with_slow):
    """Documents by their names, which no seed determines."""
    quick = {name: document for name, document in large().items() if with_slow or name.startswith(QUICK)}
    return {**examples(), **limits(), **choices(), **at_limits(), **put_wrong(), **{f'generated_{n}': generated(n) for n in range(1, 15)}, **quick}


@functools.cache
def lines_of(given):
    return command_lines(given.seed, given.lines)


def cases(given):
    """What is compared, as the name of a kind, a number or a name, and for command lines all that they are."""
    half = given.count // 2
    yield from (('chosen', name) for name in chosen(given.large))
    for kind, count in (('random', given.count), ('aimed', half), ('mixed', half), ('tangled', half), ('single', half), ('nested', 4 * given.count)):
        yield from ((kind, number) for number in range(1, count + 1))
    yield from (('words', number) for number in range(len(lines_of(given))))
    yield from (('ends', number) for number in range(len(failing_ends())))


def asked(given):
    return [(kind, number) for kind, number in cases(given) if f'{kind} {number}'.startswith(given.only)]


def document_of(given, reference, kind, number):
    def said(data):
        status, text = reference.answer(['check'], data)
        return status, text.decode()
    if kind == 'chosen':
        return as_bytes(chosen(given.large)[number])
    if kind == 'aimed':
        return aimed(given.seed, number, said)
    return {'random': made, 'mixed': mixed, 'tangled': tangled, 'single': single, 'nested': nested}[kind](given.seed, number)


# ---- the program -------------------------------------------------------------------------------------------------------

def run(given, words, data, ends=()):
    """The status and what was written; nothing is seen of what a full output was given."""
    command = [os.path.abspath(given.program), *words]
    source = {'input': data}
    if 'closed input' in ends:
        command, source = ['/bin/sh', '-c', 'exec "$@" <&-', 'sh', *command], {}
    with open(FULL, 'wb') as full, open(UNREADABLE, 'rb') as unreadable:
        out = full if 'full output' in ends else subprocess.PIPE
        if 'unreadable input' in ends:
            source = {'stdin': unreadable}
        try:
            done = subprocess.run(command, stdout=out, stderr=subprocess.DEVNULL, timeout=SECONDS, check=False, **source)
        except subprocess.TimeoutExpired:
            return f'none after {SECONDS} seconds', b''
    return done.returncode, done.stdout or b''


def difference(action, wanted, found):
    """What differs, in a line or two; None where nothing does."""
    if wanted == found:
        return None
    ours, theirs = found[1].split(b'\n'), wanted[1].split(b'\n')
    k = next((k for k, (one, other) in enumerate(zip(ours, theirs)) if one != other), min(len(ours), len(theirs)))

    def shown(lines):
        return repr(lines[k][:200]) if k < len(lines) else 'the end'
    texts = '' if wanted[1] == found[1] else f'; line {k + 1} of the output: wanted {shown(theirs)}, found {shown(ours)}'
    return f'{action}: wanted status {wanted[0]}, found {found[0]}{texts}'


# ---- one case ----------------------------------------------------------------------------------------------------------

class Found:
    """What became of a case."""

    def __init__(self, name):
        self.name = name
        self.differences = []
        self.tally = collections.Counter()
        self.data = None

    def count(self, group, what):
        self.tally[group, what] += 1

    def put(self, said):
        if said:
            self.differences.append(said)


def runs(turn, is_accepted):
    """The command lines of a document's runs: some numbers of workers in turn, and others for the run without its record."""
    with_record = ['run', '--record', '--workers', str(WORKERS[turn % len(WORKERS)])]
    without = [f'--workers={WORKERS[turn * 3 % len(WORKERS)]}', 'run'] if turn % len(WORKERS) else ['run']
    return [with_record, without] if is_accepted else [[with_record, without][turn % 2]]


def compare_document(given, reference, kind, number):
    found = Found(f'{kind} {number}')
    found.data = data = document_of(given, reference, kind, number)
    turn = number if isinstance(number, int) else sum(number.encode())
    answers = {}

    def compare_with(words):
        wanted = reference.answer(words, data)
        answers[words[0]] = got = run(given, words, data)
        found.count('run' if 'run' in words else words[0], wanted[0])
        found.put(difference(' '.join(words), wanted, got))
        return wanted[0], wanted[1].decode()
    status, checked = compare_with(['check'])
    found.count('documents', checked.split()[1])
    compare_with(['read' if turn % 2 else 'lift'])
    reports = [compare_with(words) for words in runs(turn, status == 0)]
    if status == 0:
        for said in features(checked.partition('\n')[2], reports[0][1]):
            found.count(FOUND, said)
    if answers['check'][0] == 0:
        read_again(given, found, answers)
    return found


def read_again(given, found, answers):
    """The canonical texts that were written are read again, and give themselves."""
    status, checked = answers['check']
    head, _, canonical = checked.partition(b'\n')
    if len(canonical) <= LIMIT:
        found.put(difference('check of the canonical text', (status, checked), run(given, ['check'], canonical)))
    lifted = answers.get('lift', (1, b''))
    if lifted[0] == 0 and len(lifted[1]) <= LIMIT:
        found.put(difference('check of the lifted text', (0, head + b'\n' + lifted[1]), run(given, ['check'], lifted[1])))
        found.put(difference('lift of the lifted text', lifted, run(given, ['lift'], lifted[1])))


def compare_words(given, reference, number):
    words, name = lines_of(given)[number]
    found = Found(f'words {number}')
    found.data = DOCUMENTS[name].encode()
    wanted = reference.answer(words, found.data)
    found.count('command lines', wanted[0])
    found.put(difference(f'{words} with {name}', wanted, run(given, words, found.data)))
    return found


def failing_ends():
    """Words, a document, and ends that fail."""
    out = []
    for words in (['check'], ['read'], ['lift'], ['run'], ['run', '--record'], ['make', '--size', '1'], [], ['run', '--workers', '0'], [b'\xff']):
        out += [(words, ONE, (end,)) for end in ('closed input', 'unreadable input')]
        out += [(words, document, ('full output',)) for document in (ONE, SPENT, TWO, WRONG, '')]
        out += [(words, '', ('closed input', 'full output'))]
    return out + [(['check'], KEPT + ' ' * LIMIT, ('full output',))]


def compare_ends(given, reference, number):
    words, document, ends = failing_ends()[number]
    found = Found(f'ends {number}')
    found.data = document.encode()
    status, text = reference.answer(words, found.data if ends == ('full output',) else None)
    if 'full output' in ends:
        status, text = WRITE_FAULT if status in WANTED_TEXT else status, b''
    found.count('failing ends', status)
    found.put(difference(f'{words} with {" and ".join(ends)}', (status, text), run(given, words, found.data, ends)))
    return found


# What a process has for all its cases.
GIVEN = REFERENCE = None


def begin(given):
    global GIVEN, REFERENCE
    GIVEN = given
    sys.setrecursionlimit(100000)
    REFERENCE = Reference(given.reference)


def compare(case):
    kind, number = case
    if kind == 'words':
        return compare_words(GIVEN, REFERENCE, number)
    if kind == 'ends':
        return compare_ends(GIVEN, REFERENCE, number)
    return compare_document(GIVEN, REFERENCE, kind, number)


# ---- all of them -------------------------------------------------------------------------------------------------------

def show(found, folder, number):
    """Prints the differences of a case, and keeps its document."""
    path = os.path.join(folder, f'{number}_' + re.sub('[^a-z0-9]+', '_', found.name.lower())[:80] + '.cd')
    with open(path, 'wb') as kept:
        kept.write(found.data)
    for said in found.differences:
        print(f'{found.name}: {said}')
    print(f'    its document: {path}')


def main():
    parser = argparse.ArgumentParser(description='Compares the program with a reference program.')
    parser.add_argument('reference')
    parser.add_argument('--program', default=os.path.join(TOP, 'crates', 'cd', 'out', 'cd'))
    parser.add_argument('--seed', type=int, default=1)
    parser.add_argument('--count', type=int, default=COUNT, help='how many random documents; of each other kind half as many')
    parser.add_argument('--lines', type=int, default=500, help='how many command lines at the least')
    parser.add_argument('--large', action='store_true')
    parser.add_argument('--only', default='', help='the name of the one case to try, or the front of some names')
    parser.add_argument('--jobs', type=int, default=4)
    given = Given(**vars(parser.parse_args()))
    if not os.access(given.program, os.X_OK):
        print(f'the program {given.program} is not there')
        print('0 passed, 1 failed')
        return 1
    passed = failed = 0
    tally = collections.Counter()
    folder = None
    with concurrent.futures.ProcessPoolExecutor(given.jobs, initializer=begin, initargs=(given,)) as pool:
        for found in pool.map(compare, asked(given), chunksize=4):
            tally += found.tally
            passed, failed = passed + (not found.differences), failed + bool(found.differences)
            if found.differences and failed <= SHOWN:
                folder = folder or tempfile.mkdtemp(prefix='compare-')
                show(found, folder, failed)
    if failed > SHOWN:
        print(f'{failed - SHOWN} more are not shown')
    if given.count >= COUNT and not given.only:
        lacking = wanting({said: count for (group, said), count in tally.items() if group == FOUND})
        failed += len(lacking)
        for said in lacking:
            print(f'too few documents: {said}')
    for group in dict.fromkeys(group for group, _ in tally):
        counts = sorted((len(str(what)), str(what), count) for (other, what), count in tally.items() if other == group)
        print(f'{group}: ' + ', '.join(f'{what} {count}' for _, what, count in counts))
    print(f'{passed} passed, {failed} failed')
    return 1 if failed else 0


if __name__ == '__main__':
    sys.exit(main())
