"""Seeded cases to merge, and how often they reach each outcome.

Written from document 01 and the settled points of docs/DECISIONS.md, without
the proved definitions and code.

    cases.py [--seed S] [--count N]     prints the tally

Case number i of a seed is the same however many are asked for.
"""
import argparse
import random
import re
import sys
from collections import Counter, namedtuple

import faults
import merge
import sheet as sheets
import texts
import worlds

COUNT = 5000
Case = namedtuple('Case', 'label manifest sheet')


def put_in(r, fault, world, first):
    """Whether a fault found its place; a later one may find disorder instead."""
    try:
        return fault(r, world) is not False
    except (AttributeError, TypeError, IndexError):
        if first:
            raise
        return False


def broken(r, count):
    """A case with `count` faults, put in where each one works."""
    world = worlds.common(r, True)
    chosen = []
    while len(chosen) < count:
        fault = r.choice(faults.ALL)
        if fault in faults.ON_TEXT and set(chosen) & set(faults.ON_TEXT):
            # What one of these leaves need not be a manifest.
            continue
        if fault not in faults.ON_WORLD or put_in(r, fault, world, not chosen):
            chosen.append(fault)
    listed = world.records()
    for fault in chosen:
        if fault in faults.ON_RECORDS:
            fault(r, listed)
    manifest, sheet = worlds.manifest_bytes(r, world), worlds.sheet_bytes(listed)
    for fault in chosen:
        if fault in faults.ON_TEXT and manifest:
            manifest = fault(r, manifest)
        if fault in faults.ON_SHEET and sheet:
            sheet = fault(r, sheet) or sheet
    return Case('+'.join(fault.__name__ for fault in chosen), manifest, sheet)


def mutated(r):
    """A fitting case with a byte or two changed."""
    label, world = worlds.make(r)
    manifest, sheet = worlds.manifest_bytes(r, world), worlds.sheet_bytes(world.records())
    for _ in range(r.choice((1, 2))):
        if r.random() < .5 and manifest:
            manifest = r.choice(texts.CHANGES + texts.GENTLE)(r, manifest)
        elif sheet:
            sheet = r.choice((texts.flipped, texts.replaced, texts.removed, texts.doubled))(r, sheet)
    return Case(f'{label} changed', manifest, sheet)


def case(seed, number):
    r = random.Random(f'case {seed} {number}')
    kind = r.random()
    if kind < .3:
        return broken(r, 1)
    if kind < .4:
        return broken(r, r.choice((2, 2, 3)))
    if kind < .5:
        return mutated(r)
    label, world = worlds.make(r)
    return Case(label, worlds.manifest_bytes(r, world), worlds.sheet_bytes(world.records()))


def cases(seed=1, count=COUNT):
    for number in range(count):
        yield case(seed, number)


# The tally.

REFUSALS = [f'refused {number}' for number in range(1, 38)]
DROPS = [f'dropped {number}' for number in (1, 2, 3)]
GRAPHS = [f'graph {number}' for number in (1, 2, 3)]
FEATURES = [
    'accepted', 'no manifest', 'no file', 'trace is a private clock', 'offset 2^63-1', 'offset -(2^63-1)',
    '32 machines', '32 files', '32 sources', '250 snapshots or more', '300 events or more', 'split file',
    'pinned file', 'container', 'unnamed id', 'equal readings in a list', '0 steps', '2 to 5 steps',
    '6 to 99 steps', '100 steps or more',
]
WANTED = REFUSALS + DROPS + GRAPHS + FEATURES
ANSWER = re.compile(rb'\d+ (?:(dropped \d)|at \d+ (graph \d) steps (\d+))')


def steps_class(steps):
    if steps in (0, 1):
        return f'{steps} step' + ('s' if steps == 0 else '')
    return '2 to 5 steps' if steps < 6 else '6 to 99 steps' if steps < 100 else '100 steps or more'


def features(each, lines):
    """What an accepted case has."""
    sheet = sheets.read(each.sheet)
    said = merge.manifests.read(each.manifest)
    world = merge.World(said, sheet)
    offsets = [entry.relation.offset for entry in said.entries if entry.relation]
    trace = world.trace_time()
    pairs = Counter((a, x, b) for a, x, b, _ in world.correspondences()) if sheet.files else {}
    told = {
        'accepted': True, 'no manifest': not each.manifest, 'no file': not sheet.files,
        'trace is a private clock': trace is not None and trace >= merge.PRIVATE,
        'offset 2^63-1': merge.HIGH in offsets, 'offset -(2^63-1)': -merge.HIGH in offsets,
        '32 machines': len(world.machine) == 32, '32 files': len(sheet.files) == 32,
        '32 sources': len(sheet.sources) == 32, '250 snapshots or more': len(sheet.snapshots) >= 250,
        '300 events or more': len(sheet.events) >= 300,
        'split file': any(entry and entry.machines is not None for entry in world.entry),
        'pinned file': any(map(world.pinned, range(len(sheet.files)))),
        'container': any(file.c for file in sheet.files),
        'unnamed id': any(isinstance(key, int) for key in world.machine),
        'equal readings in a list': any(count > 1 for count in pairs.values()),
    }
    return [name for name, holds in told.items() if holds]


def tally(listed):
    """How often each outcome is reached; events count one by one."""
    counts = Counter({name: 0 for name in WANTED})
    for each in listed:
        lines = merge.merge(each.manifest, each.sheet).lines
        first, *rest = lines.split(b'\n')[:-1]
        if first.startswith(b'refused'):
            counts[first.decode()] += 1
            continue
        counts.update(features(each, lines))
        for line in rest:
            drop, graph, steps = ANSWER.fullmatch(line).groups()
            counts[(drop or graph).decode()] += 1
            if steps:
                counts[steps_class(int(steps))] += 1
    return counts


def missing(counts):
    return [name for name in WANTED if not counts[name]]


def shown(counts):
    """The tally in lines of several outcomes."""
    told = [f'{name}: {counts[name]}' for name in WANTED]
    return '\n'.join('  ' + '; '.join(told[at:at + 8]) for at in range(0, len(told), 8))


def main():
    words = argparse.ArgumentParser(description='how often cases reach each outcome')
    words.add_argument('--seed', type=int, default=1)
    words.add_argument('--count', type=int, default=COUNT)
    said = words.parse_args()
    counts = tally(cases(said.seed, said.count))
    print(shown(counts))
    print('missing:', ', '.join(missing(counts)) or 'none')
    return 1 if missing(counts) else 0


if __name__ == '__main__':
    sys.exit(main())
