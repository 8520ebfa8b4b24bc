#!/usr/bin/env python3
"""Refuses each allocation of some short calls of the program in turn: each may end as without, or for want of memory.

    allocations.py [--program PATH] [--jobs N]

PATH is the program, as the test of the repository has built it if none is given. Each call is made once with memory, and then
once for each of its calls of malloc, realloc or calloc, which is refused, by the library of `refusing.c`. The status and the text
have to be those with memory, or the status is that of want of memory and the text a front of that with memory. Where two threads run, which
call is refused under a number differs from run to run, and what has to hold does not. The last line is
`N passed, M failed`, and the status is 1 where one failed. Where there is no C compiler, nothing is tried.
"""

import argparse
import concurrent.futures
import os
import shutil
import subprocess
import sys
import tempfile

HERE = os.path.dirname(os.path.abspath(__file__))
TOP = os.path.dirname(os.path.dirname(HERE))
NO_MEMORY = 6
SECONDS = 60
# How many failures are shown.
SHOWN = 40

RUNNING = 'cd 1\nregion y 4 mix 3\ndomain root retry 2 detects flip\npreserve y copy\nscan y y\nend\nfaults\nstrike root 1 1 flip y[2] 5\n'
EXHAUSTED = RUNNING + 'strike root 2 0 flip y[0] 1\n'
GROUPS = ('cd 1\nregion y 8 iota 0 1\ndomain root retry 2 detects node\npreserve y copy\ngroup\nfor i in 0..2\ndomain half:i retry 2 detects flip\n'
          'preserve y[4*i..4*i+4] refer\nfill y[4*i..4*i+4] 7\nend\nend\nend\nend\nfaults\nstrike root/half1 1 0 flip y[5] 2\n')
# A group in a group, with a copy of words that were written, a reference and a pattern that does not give its words. A worker is struck
# in its own try, and the half around the others by a note that a worker hands up.
NESTED = ('cd 1\nregion y 130 iota 0 1\nregion z 2 const 5\ndomain root retry 2 detects node\npreserve y copy\npreserve z copy\nfill z 6\ngroup\n'
          'for i in 0..2\ndomain half:i retry 2 detects lost\npreserve y[65*i..65*i+65] refer\npreserve z regen const 5\ngroup\nfor j in 0..2\n'
          'domain part:j retry 2 detects flip\npreserve y[65*i+32*j..65*i+32*j+32] refer\npreserve z copy\nadd y[65*i+32*j..65*i+32*j+2] y[65*i+32*j..65*i+32*j+2] z\n'
          'end\nend\nend\nend\nend\nend\nend\nfaults\nstrike root/half0/part1 1 1 flip y[40] 2\nstrike root/half1/part0 1 0 lost y[70] 4\n')
# Both tries of a worker are struck in each try of its half and of the root, so that all tries are used up.
SPENT = NESTED + 'for b in 3..9\nstrike root/half0/part1 b 1 flip y[40] b\nend\nstrike root/half0/part1 2 1 flip y[41] 1\n'
INTERFERES = GROUPS.replace('fill y[4*i..4*i+4] 7', 'fill y[0..2] 7')
NO_FORM = RUNNING.replace('scan y y', 'scan y z')

# The words of each call, the document on its standard input, and the status that it ends with where there is memory.
CALLS = [
    (['check'], RUNNING, 0),
    (['check'], GROUPS, 0),
    (['check'], INTERFERES, 3),
    (['check'], NO_FORM, 3),
    (['check'], '', 3),
    (['read'], RUNNING, 0),
    (['read'], GROUPS, 0),
    (['read'], EXHAUSTED, 0),
    (['lift'], GROUPS, 0),
    (['run'], RUNNING, 0),
    (['run'], EXHAUSTED, 1),
    (['run', '--record', '--workers', '3'], RUNNING, 0),
    (['--record', 'run'], EXHAUSTED, 1),
    (['run', '--workers', '2'], GROUPS, 0),
    (['run', '--workers', '2'], NESTED, 0),
    (['run', '--workers', '2', '--record'], NESTED, 0),
    (['run', '--workers', '1', '--record'], NESTED, 0),
    (['run', '--workers', '2', '--record'], SPENT, 1),
    (['make', '--size=1'], '', 0),
    (['run', '--workers', '0'], '', 2),
    ([], '', 2),
]


def built(folder):
    """The path of the library; None where there is no C compiler."""
    compiler = shutil.which('cc')
    if compiler is None:
        return None
    library = os.path.join(folder, 'refusing.so')
    subprocess.run([compiler, '-shared', '-fPIC', '-O1', '-fno-builtin', '-o', library, os.path.join(HERE, 'refusing.c')], check=True)
    return library


def call(program, words, document, **environment):
    """The status, what was written, and what was told on standard error."""
    try:
        done = subprocess.run([program, *words], input=document.encode(), capture_output=True, timeout=SECONDS, check=False, env=environment)
    except subprocess.TimeoutExpired:
        return f'none after {SECONDS} seconds', b'', b''
    return done.returncode, done.stdout, done.stderr


def refuse(program, library, words, document, wanted, number):
    """What is wrong with the call where this allocation is refused; None where nothing is."""
    status, text, _ = call(program, words, document, LD_PRELOAD=library, REFUSED_CALL=str(number))
    if (status, text) == wanted or (status == NO_MEMORY and wanted[1].startswith(text)):
        return None
    return f'{words}, allocation {number}: status {status} and {len(text)} bytes, and with memory {wanted[0]} and {len(wanted[1])}'


def attempts(program, library):
    """For each call what is wrong with it where there is memory, and the calls with one allocation refused."""
    for words, document, status in CALLS:
        wanted = call(program, words, document)[:2]
        *counted, told = call(program, words, document, LD_PRELOAD=library, REFUSED_CALL='0')
        wrong = None
        if wanted[0] != status or tuple(counted) != wanted or set(told) - set(b'.'):
            wrong = f'{words} with memory: wanted status {status}, found {wanted[0]}, and {counted[0]} where allocations are counted; told {told[:200]!r}'
        elif not told:
            wrong = f'{words}: no allocation was seen'
        yield wrong, [(words, document, wanted, number) for number in range(1, len(told) + 1)]


def main():
    parser = argparse.ArgumentParser(description='Refuses each allocation of some calls of the program in turn.')
    parser.add_argument('--program', default=os.path.join(TOP, 'crates', 'cd', 'out', 'cd'))
    parser.add_argument('--jobs', type=int, default=os.cpu_count() or 1)
    given = parser.parse_args()
    program = os.path.abspath(given.program)
    if not os.access(program, os.X_OK):
        print(f'the program {program} is not there')
        print('0 passed, 1 failed')
        return 1
    with tempfile.TemporaryDirectory() as folder:
        library = built(folder)
        if library is None:
            print('skipped: there is no C compiler')
            print('0 passed, 0 failed')
            return 0
        found = list(attempts(program, library))
        with concurrent.futures.ThreadPoolExecutor(given.jobs) as pool:
            refused = list(pool.map(lambda one: refuse(program, library, *one), (one for _, ones in found for one in ones)))
    said = [wrong for wrong, _ in found] + refused
    failures = [wrong for wrong in said if wrong]
    for wrong in failures[:SHOWN]:
        print(wrong)
    print(f'allocations refused: {len(refused)} in {len(found)} calls')
    print(f'{len(said) - len(failures)} passed, {len(failures)} failed')
    return 1 if failures else 0


if __name__ == '__main__':
    sys.exit(main())
