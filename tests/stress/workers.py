#!/usr/bin/env python3
"""Runs small documents many times over, by 1 to 64 workers: each run ends, and writes the same bytes as that by one worker.

    workers.py [--program PATH] [--seed N] [--runs N] [--seconds N] [--jobs N]

PATH is the program, as the test of the repository has built it if none is given. The documents are the examples and nested programs
with scripts, which the seed determines. RUNS runs are made with their records, by numbers of workers that go round from 1 to 64, some at a
time, so that threads are often kept from their processors. A run that has not ended after a minute has hung. After SECONDS no further
run is begun. The last line is `N passed, M failed`, and the status is 1 where one failed.
"""

import argparse
import concurrent.futures
import os
import subprocess
import sys
import time

HERE = os.path.dirname(os.path.abspath(__file__))
TOP = os.path.dirname(os.path.dirname(HERE))
sys.path.insert(0, os.path.join(TOP, 'tests', 'compare'))

from chosen import examples
from nested import nested

# How many nested programs are made, and how many failures are shown.
NESTED = 60
SHOWN = 20
HANGS = 60
MOST_WORKERS = 64


def documents(seed):
    """Documents by their names."""
    made = {name: document for name, document in examples().items()}
    made.update((f'nested_{number}', nested(seed, number)) for number in range(NESTED))
    return {name: document if isinstance(document, bytes) else document.encode('latin-1') for name, document in made.items()}


def run(program, document, workers):
    """The status and the bytes of a run, or None where it has hung."""
    try:
        ended = subprocess.run([program, 'run', '--record', '--workers', str(workers)], input=document, capture_output=True, timeout=HANGS)
    except subprocess.TimeoutExpired:
        return None
    return ended.returncode, ended.stdout, ended.stderr


def main():
    parser = argparse.ArgumentParser(description=__doc__.split('\n')[0])
    parser.add_argument('--program', default=os.path.join(TOP, 'crates', 'cd', 'out', 'cd'))
    parser.add_argument('--seed', type=int, default=1)
    parser.add_argument('--runs', type=int, default=2000)
    parser.add_argument('--seconds', type=int, default=100)
    parser.add_argument('--jobs', type=int, default=2 * (os.cpu_count() or 2))
    given = parser.parse_args()
    chosen = documents(given.seed)
    names = sorted(chosen)
    alone = {name: run(given.program, chosen[name], 1) for name in names}
    ends = time.monotonic() + given.seconds

    def try_one(number):
        if time.monotonic() > ends:
            return None
        name, workers = names[number % len(names)], number % MOST_WORKERS + 1
        came = run(given.program, chosen[name], workers)
        if came is None:
            return f'{name}, {workers} workers: no end after {HANGS} seconds'
        return '' if came == alone[name] else f'{name}, {workers} workers: status {came[0]}, and not what one worker writes'

    with concurrent.futures.ThreadPoolExecutor(given.jobs) as pool:
        told = [it for it in pool.map(try_one, range(given.runs)) if it is not None]
    failed = [it for it in told if it] + [f'{name}, 1 worker: no end after {HANGS} seconds' for name in names if alone[name] is None]
    for line in failed[:SHOWN]:
        print(line)
    if len(told) < given.runs:
        print(f'{given.runs - len(told)} runs were not begun: the time was over')
    print(f'{len(told) - sum(1 for it in told if it)} passed, {len(failed)} failed')
    return 1 if failed else 0


if __name__ == '__main__':
    sys.exit(main())
