#!/usr/bin/env python3
"""What domains cost: for each word that is preserved, put back or handed to a member, beside a plain copy of as many words.

    domains.py [--program PATH] [--runs N] [--workers N] [--only NAME]

Each row is the least time of `cd run` on a document that does much of one thing, less that on a document that does little of it and
is alike in all else. With one worker it is processor time, with more it is the time that passes. The plain copy moves, by one call of
memmove, as many words as one try handles, as often as there are tries. Run by hand; the program is built first where that is due.

A piece is 64 words. `preserved`: members keep copies of a region of 1, 64 and 4,096 pieces, in each of the root's hundred tries.
`refilled`: a domain puts its copies back in 99 tries. `carved`: members refer to a region, so each gets a part of the machine
with its words, and a hold on each of its pieces. `levels`: 16 domains inside each other keep 65,536 words each, copied or referred to,
less one domain alone. `domains`: 2,048 domains with a piece each, begun once and ten times, less the root alone.
"""

import argparse
import collections
import ctypes
import os
import subprocess
import sys
import tempfile
import time

TOP = os.path.dirname(os.path.dirname(os.path.abspath(__file__)))
PIECE = 64
WORD = 8

# A row: its name, the two documents, by how many words they differ in all, and in one try.
Row = collections.namedtuple('Row', 'name many few words at_once')


# ---- documents ---------------------------------------------------------------------------------------------------------

def program(words, entries, items, body, tries=1, head='domain root', kind='node', point=None):
    """A root with these entries of the whole region; where it has several tries, all but the last are struck at a point."""
    whole = f'cd 1\nregion y {words} const 1\n{head} retry {tries} detects {kind}\n' + 'preserve y copy\n' * entries + body + 'end\n'
    if tries == 1:
        return whole
    return whole + f'faults\nfor b in 1..{tries}\nstrike root b {items if point is None else point} {kind} y[0] 0\nend\n'


def group(name, count, entry, entries=1):
    """A group of domains with entries alone."""
    return f'group\nfor i in 0..{count}\ndomain {name}:i retry 1 detects none\n' + f'preserve {entry}\n' * entries + 'end\nend\nend\n'


def preserved(pieces, members, many, few):
    words, tries = pieces * PIECE, 100
    documents = [program(words, 1, 1, group('m', members, 'y copy', entries), tries) for entries in (many, few)]
    at_once = (many - few) * members * words
    return Row(f'preserved, {pieces} pieces', *documents, at_once * tries, at_once)


def refilled(pieces, many, few):
    words, tries = pieces * PIECE, 100
    documents = [program(words, entries, 0, '', tries, point=0) for entries in (many, few)]
    at_once = (many - few) * words
    # What the first try preserves of these entries counts as if it were put back once more.
    return Row(f'refilled, {pieces} pieces', *documents, at_once * tries, at_once)


def carved(pieces, groups, members):
    words, tries = pieces * PIECE, 100
    documents = [program(words, 1, groups, ''.join(group(f'm{k}_', members, 'y refer', entries) for k in range(groups)), tries)
                 for entries in (1, 0)]
    at_once = groups * members * words
    return Row(f'carved, {pieces} pieces', *documents, at_once * tries, at_once)


def levels(how):
    words = 65536
    inner = ''.join(f'domain d{k} retry 1 detects none\npreserve y {how}\n' for k in range(15)) + 'end\n' * 15
    return Row(f'16 levels, {how}', program(words, 1, 1, inner), program(words, 1, 0, ''), 15 * words, 15 * words)


def domains(tries):
    """2,048 domains in groups of 256, or of 255, each with a piece of its own which it keeps and fills."""
    words, body = 2048 * PIECE, ''
    for k in range(8):
        low, count = k * 256, 256 if k < 7 else 255
        mine = f'y[{low * PIECE}+{PIECE}*i..{low * PIECE}+{PIECE}*i+{PIECE}]'
        body += f'group\nfor i in 0..{count}\ndomain m{k}_:i retry 1 detects none\npreserve {mine} refer\nfill {mine} 7\nend\nend\nend\n'
    at_once = 2047 * PIECE
    return Row(f'2048 domains, {tries} tries', program(words, 1, 8, body, tries), program(words, 1, 0, '', tries), at_once * tries, at_once)


def rows():
    yield preserved(1, 100, 64, 32)
    yield preserved(64, 2, 64, 32)
    yield preserved(4096, 1, 3, 1)
    yield refilled(1, 64, 1)
    yield refilled(64, 64, 32)
    yield refilled(4096, 3, 1)
    yield carved(1, 8, 250)
    yield carved(64, 1, 20)
    yield carved(4096, 1, 2)
    yield levels('copy')
    yield levels('refer')
    yield domains(1)
    yield domains(10)


# ---- times -------------------------------------------------------------------------------------------------------------

def once(given, path):
    """The seconds of one run."""
    with open(path, 'rb') as document:
        began = time.perf_counter()
        process = subprocess.Popen([given.program, 'run', '--workers', str(given.workers)], stdin=document, stdout=subprocess.DEVNULL)
        _, status, used = os.wait4(process.pid, 0)
        passed = time.perf_counter() - began
        process.returncode = os.waitstatus_to_exitcode(status)
    if process.returncode != 0:
        raise SystemExit(f'the program ended with status {process.returncode} on {path}')
    return used.ru_utime + used.ru_stime if given.workers == 1 else passed


def difference(given, row):
    """The seconds that the document with much takes more than that with little, of the least times of each, measured in turn."""
    least = [float('inf')] * 2
    with tempfile.TemporaryDirectory() as folder:
        paths = [os.path.join(folder, name) for name in ('many', 'few')]
        for path, document in zip(paths, (row.many, row.few)):
            with open(path, 'w', encoding='ascii') as kept:
                kept.write(document)
        for _ in range(given.runs):
            least = [min(best, once(given, path)) for best, path in zip(least, paths)]
    return least[0] - least[1]


def plain(words, runs):
    """The seconds of one plain copy of some words."""
    size = words * WORD
    source, target = ctypes.create_string_buffer(b'\1' * size, size), ctypes.create_string_buffer(size)
    best = float('inf')
    for _ in range(max(runs, 3)):
        began = time.perf_counter()
        ctypes.memmove(target, source, size)
        best = min(best, time.perf_counter() - began)
    return best


def main():
    parser = argparse.ArgumentParser(description='What domains cost.')
    parser.add_argument('--program')
    parser.add_argument('--runs', type=int, default=15)
    parser.add_argument('--workers', type=int, default=1)
    parser.add_argument('--only', default='', help='the front of the names of some rows')
    given = parser.parse_args()
    if given.program is None:
        given.program = os.path.join(TOP, 'crates', 'cd', 'out', 'cd')
        subprocess.run([os.path.join(TOP, 'bin', 'cd'), 'check'], stdin=subprocess.DEVNULL, stdout=subprocess.DEVNULL, check=False)
    print(f'{"":<24} {"words":>11} {"ms":>9} {"ns a word":>10} {"plain copy":>11} {"ratio":>7}')
    for row in rows():
        if not row.name.startswith(given.only):
            continue
        took = difference(given, row) * 1e9 / row.words
        copy = plain(row.at_once, given.runs) * 1e9 / row.at_once
        print(f'{row.name:<24} {row.words:>11} {took * row.words / 1e6:>9.2f} {took:>10.2f} {copy:>11.2f} {took / copy:>7.1f}', flush=True)
    return 0


if __name__ == '__main__':
    sys.exit(main())
