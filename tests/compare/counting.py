"""What accepted documents have and what their runs show, told from canonical texts and records; and how many of each are needed."""

import collections

# In how many accepted documents of a comparison with its usual numbers each of these has to be found.
LEAST = {
    'accepted': 4000,
    'several domains': 2800,
    'a group of two or more': 2400,
    'five domains inside each other': 180,
    'references': 2200,
    'regenerated words': 2200,
    'words that fell': 1300,
    'a leak': 700,
    'a try that a halting kind ended': 500,
    'a member that escalated': 1000,
    'two members of one group that escalated': 150,
    'an escalation, and committed all the same': 400,
    'completed, and begun again': 1400,
    'exhausted': 1500,
    'exhausted, and another than the root blamed': 450,
    'a record of 200 events': 450,
}

Domain = collections.namedtuple('Domain', 'path parent group depth detects')


class Program:
    """The domains of a canonical text in its order, the ways in which they preserve, and the strikes."""

    def __init__(self, canonical):
        self.domains = []
        self.ways = set()
        self.strikes = collections.defaultdict(set)
        opened, groups = [], 0
        for words in map(str.split, canonical.splitlines()):
            if words[0] == 'end':
                opened.pop()
            elif words[0] == 'group':
                groups += 1
                opened.append(groups)
            elif words[0] == 'domain':
                groups += 1
                opened.append(self.domain(words[1], words[5], opened, groups))
            elif words[0] == 'preserve':
                self.ways.add(words[2])
            elif words[0] == 'strike':
                self.strikes[words[1], int(words[2]), int(words[3])].add(words[4])

    def domain(self, name, kinds, opened, groups):
        """Puts a domain; what is open is a domain, or the number of a group."""
        above = next((one for one in reversed(opened) if isinstance(one, Domain)), None)
        group = opened[-1] if opened and opened[-1] is not above else groups
        self.domains.append(Domain(f'{above.path}/{name}' if above else name, above, group, above.depth + 1 if above else 1, set(kinds.split(','))))
        return self.domains[-1]


def in_program(program):
    """What a program has."""
    found = {'accepted'}
    if len(program.domains) > 1:
        found.add('several domains')
    if max(collections.Counter(domain.group for domain in program.domains).values()) > 1:
        found.add('a group of two or more')
    if max(domain.depth for domain in program.domains) > 4:
        found.add('five domains inside each other')
    return found | {said for how, said in (('refer', 'references'), ('regen', 'regenerated words')) if how in program.ways}


def in_record(program, events):
    """What the events of a run show, one after another."""
    begins, notes, completed, escalated = {}, collections.defaultdict(set), set(), collections.Counter()
    for name, number, *more in map(str.split, events):
        domain = program.domains[int(number)]
        above = domain.parent and domain.parent.path
        if name == 'begin':
            begins[domain.path], notes[domain.path] = int(more[0]), set()
            if domain.path in completed:
                yield 'completed, and begun again'
        elif name == 'reached':
            notes[domain.path] |= program.strikes.get((domain.path, begins[domain.path], int(more[0])), set())
        elif name == 'fell':
            yield 'words that fell'
        elif name == 'halted':
            yield 'a try that a halting kind ended'
        elif name == 'complete' and above:
            completed.add(domain.path)
            leaked = notes[domain.path] - domain.detects
            notes[above] |= leaked
            if leaked:
                yield 'a leak'
        elif name == 'escalate' and above:
            yield 'a member that escalated'
            escalated[domain.group, begins[above]] += 1
            if escalated[domain.group, begins[above]] == 2:
                yield 'two members of one group that escalated'


def features(canonical, report):
    """What an accepted document has, and what the report of its run with its record shows."""
    program = Program(canonical)
    head, _, record = report.partition('\nrecord\n')
    events = record.splitlines()
    found = in_program(program) | set(in_record(program, events))
    outcome = head.split('\n')[0].split()
    if outcome[0] == 'exhausted':
        found.add('exhausted')
        if outcome[1] != program.domains[0].path:
            found.add('exhausted, and another than the root blamed')
    elif 'a member that escalated' in found:
        found.add('an escalation, and committed all the same')
    if len(events) >= 200:
        found.add('a record of 200 events')
    return found


def wanting(counts):
    """What was found in too few documents, a line each."""
    return [f'{said}: {counts.get(said, 0)}, and {least} are wanted' for said, least in LEAST.items() if counts.get(said, 0) < least]
