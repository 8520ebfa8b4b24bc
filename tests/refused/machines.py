#!/usr/bin/env python3
"""Refuses allocations of the tests of a crate, one in each run: a test may then fail for want of memory, and no run may fault or hang.

    machines.py [--crate NAME] [--modules NAME..] [--first N] [--step N] [--jobs N] [--try N..]

The tests are those of machines in cd_parts_tests if nothing else is given: they take each growth of a record, of its list of parts and of flags, and each
room for a copy of words that are shared. Of another crate they are all, or those of some modules. `rt test` has built them. Of each test the first 1,000 allocations (or those
of `--first`) are refused, and from there on each 50th (or those of `--step`), by the library of `refusing.c`. A run has to end as a
test that failed. `--try` goes through these numbers with `rt try --test --fail-alloc`, which also looks at each access, and builds the
tests anew each time. Run by hand. The last line is `N passed, M failed`, and the status is 1 where one failed.
"""

import argparse
import concurrent.futures
import os
import subprocess
import sys
import tempfile

from allocations import SECONDS, SHOWN, TOP, built, call

# The modules of cd_parts_tests whose tests are of machines.
OF_MACHINES = ['machine_calls', 'trials']
# The status of a test that failed, and what `rt try` ends with where one did.
FAILED = 101
FAULTED = (2, 3, 4, 5, 6)


def names(program, modules):
    """The tests of the program in these modules, or all where none is named."""
    listed = subprocess.run([program, '--list'], capture_output=True, text=True, timeout=SECONDS, check=True).stdout
    found = [line.removesuffix(': test') for line in listed.splitlines() if line.endswith(': test')]
    return [name for name in found if not modules or set(modules) & set(name.split('::')[:-1])]


def numbers(count, first, step):
    """The allocations of so many that are refused, from 1; the last is one of them."""
    return sorted({*range(1, min(first, count) + 1), *range(first, count + 1, step), count} - {0})


def refuse(program, library, name, number):
    """What is wrong with the test where this allocation is refused; None where nothing is."""
    status, _, told = call(program, [name], '', LD_PRELOAD=library, REFUSED_CALL=str(number))
    if status == FAILED:
        return None
    return f'{name}, allocation {number}: status {status}, told {told[-200:]!r}'


def tried(crate, number):
    """What is wrong with the tests by `rt try`, where this allocation is refused; None where nothing is."""
    words = ['rt', 'try', crate, '--test', '--fail-alloc', str(number)]
    done = subprocess.run(words, cwd=TOP, capture_output=True, text=True, check=False)
    if done.returncode not in FAULTED:
        return None
    return f'rt try, allocation {number}: status {done.returncode}, {done.stdout[-300:]}{done.stderr[-300:]}'


def main():
    parser = argparse.ArgumentParser(description='Refuses allocations of the tests of a crate in turn.')
    parser.add_argument('--crate', default='cd_parts_tests')
    parser.add_argument('--modules', nargs='*')
    parser.add_argument('--first', type=int, default=1000)
    parser.add_argument('--step', type=int, default=50)
    parser.add_argument('--jobs', type=int, default=os.cpu_count() or 1)
    parser.add_argument('--try', dest='tries', type=int, nargs='*', default=[])
    given = parser.parse_args()
    if given.modules is None:
        given.modules = OF_MACHINES if given.crate == 'cd_parts_tests' else []
    program = os.path.join(TOP, 'crates', given.crate, 'out', given.crate + '_tests')
    if not os.access(program, os.X_OK):
        print(f'the tests are not built: rt test {given.crate}')
        print('0 passed, 1 failed')
        return 1
    with tempfile.TemporaryDirectory() as folder:
        library = built(folder)
        if library is None:
            print('skipped: there is no C compiler')
            print('0 passed, 0 failed')
            return 0
        runs = []
        for name in names(program, given.modules):
            status, _, told = call(program, [name], '', LD_PRELOAD=library, REFUSED_CALL='0')
            count = told.count(b'.') if status == 0 else 0
            print(f'{name}: {count} allocations')
            runs += [(name, number) for number in numbers(count, given.first, given.step)]
        with concurrent.futures.ThreadPoolExecutor(given.jobs) as pool:
            said = list(pool.map(lambda run: refuse(program, library, *run), runs))
    said += [tried(given.crate, number) for number in given.tries]
    failures = [wrong for wrong in said if wrong]
    for wrong in failures[:SHOWN]:
        print(wrong)
    print(f'{len(said) - len(failures)} passed, {len(failures)} failed')
    return 1 if failures else 0


if __name__ == '__main__':
    sys.exit(main())
