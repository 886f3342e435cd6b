"""The whole of document 01 as a plain second merge.

Written from document 01 and the settled points of docs/DECISIONS.md, without
the proved definitions and code. Sums are Python's whole numbers, so no range
plays a part but where document 01 names it.

    merge.py [FOLDER]     merges FOLDER/manifest.json and FOLDER/sheet.bits
"""
import os
import sys
from collections import namedtuple

import manifest as manifests
import sheet as sheets
from manifest import HOST, Refused

MACHINES = 32
PRIVATE = 192
REALTIME = 1
LOW, HIGH = -(1 << 63), (1 << 63) - 1

Merged = namedtuple('Merged', 'lines machines')


class World:
    """An accepted manifest beside an accepted sheet: 32 to 37, machines, clocks."""

    def __init__(self, manifest, sheet):
        self.manifest, self.sheet = manifest, sheet
        self.file_of = {file.path: number for number, file in enumerate(sheet.files)}
        listed = {entry.path: entry for entry in manifest.entries}
        self.entry = [listed.get(file.path) for file in sheet.files]
        self.sources_of = [[source for source in sheet.sources if source.file == number]
                           for number in range(len(sheet.files))]
        self.check()
        self.number_machines()

    def pinned(self, file):
        """`clocks` without `clock`."""
        entry = self.entry[file]
        return bool(entry and entry.relation and entry.relation.clock == 0)

    def check(self):
        """32 to 36, in order."""
        files = range(len(self.sheet.files))
        sources = self.sheet.sources
        entry = self.entry
        if files and any(e.path not in self.file_of for e in self.manifest.entries):
            raise Refused(32)
        if any(self.sheet.files[f].c and entry[f] and entry[f].relation for f in files):
            raise Refused(33)
        for source in sources:
            said = entry[source.file]
            if said and said.machines is not None and source.id not in said.machines:
                raise Refused(34)
        if any(entry[f] and entry[f].machine is not None and len(self.sources_of[f]) > 1
               for f in files):
            raise Refused(35)
        if any(self.pinned(sources[shot.source].file) for shot in self.sheet.snapshots):
            raise Refused(36)

    def machine_key(self, source):
        """A source's machine: the host, a name (bytes) or an unnamed id (int)."""
        entry = self.entry[source.file]
        if entry and entry.machine is not None:
            return entry.machine
        if entry and entry.machines is not None:
            return entry.machines[source.id]
        if len(self.sources_of[source.file]) == 1 or source.id == 0:
            return HOST
        return source.id

    def number_machines(self):
        """The host, then names as they are declared, then unnamed ids; 37."""
        keys = [HOST]
        for entry in self.manifest.entries:
            if entry.machine is not None:
                keys.append(entry.machine)
            keys += (entry.machines or {}).values()
        keys += map(self.machine_key, self.sheet.sources)
        self.machine = {key: number for number, key in enumerate(dict.fromkeys(keys))}
        if len(self.machine) > MACHINES:
            raise Refused(37)
        self.machines = [self.machine[self.machine_key(source)]
                         for source in self.sheet.sources]

    def base(self, file):
        entry = self.entry[file]
        if entry is None:
            return 0
        return self.machine[entry.machine or (entry.machines or {}).get(0, HOST)]

    def trace_time(self):
        """The number of the trace-time clock, or None without files."""
        if not self.sheet.files:
            return None
        said = self.manifest.trace_time
        if said:
            return clock(self.machine[said.machine], said.clock)
        for number, file in enumerate(self.sheet.files):
            if file.claim and not file.c and not self.pinned(number):
                return clock(self.base(number), file.claim)
        return PRIVATE + 0

    def event_clock(self, event):
        file = self.sheet.sources[event.source].file
        if event.clock == 0 or self.pinned(file):
            return PRIVATE + file
        return clock(self.machines[event.source], event.clock)

    def correspondences(self):
        """Yields (clock, reading, clock, reading), entries before snapshots."""
        for entry in self.manifest.entries:
            said = entry.relation
            if said:
                source = PRIVATE + self.file_of[entry.path]
                if said.clock:
                    source = clock(self.machine[said.machine], said.clock)
                there = PRIVATE + self.file_of[said.file]
                if said.file_clock:
                    there = clock(self.machine[said.file_machine], said.file_clock)
                yield source, 0, there, said.offset
        for shot in self.sheet.snapshots:
            machine = self.machines[shot.source]
            yield (clock(machine, shot.clock), shot.reading,
                   clock(machine, shot.clock2), shot.reading2)


def clock(machine, domain):
    return 6 * machine + domain - 1


class Graphs:
    """The lists of correspondences, and the three graphs over them."""

    def __init__(self, world, goal):
        self.lists = {}
        for a, x, b, y in world.correspondences():
            self.lists.setdefault((a, b), []).append((x, y))
            self.lists.setdefault((b, a), []).append((y, x))
        machines = range(len(world.machine))
        first = set(self.lists)
        second = first | across(machines, [REALTIME])
        third = second | across(machines, range(1, 7))
        for file in range(len(world.sheet.files)):
            if not world.pinned(file) and PRIVATE + file != goal:
                third |= {(goal, PRIVATE + file), (PRIVATE + file, goal)}
        self.goal = goal
        self.pairs = [first, second, third]
        self.searched = []
        self.ways = {}

    def way(self, start):
        """The graph's number and the clocks of the path, or (0, None)."""
        if start not in self.ways:
            self.ways[start] = self.find(start)
        return self.ways[start]

    def find(self, start):
        for number in (1, 2, 3):
            if len(self.searched) < number:
                self.searched.append(distances(self.pairs[number - 1], self.goal))
            far, near = self.searched[number - 1]
            if start in far:
                path = [start]
                while path[-1] != self.goal:
                    here = path[-1]
                    path.append(min(c for c in near[here] if far[c] == far[here] - 1))
                return number, path
        return 0, None

    def convert(self, a, b, t):
        """The reading of b where a reads t."""
        points = self.lists.get((a, b))
        if points is None:
            return t
        below = [x for x, _ in points if x <= t]
        x = max(below) if below else min(x for x, _ in points)
        y = next(y for other, y in points if other == x)
        return t + y - x


def across(machines, domains):
    """Pairs of equal domains of any two machines."""
    return {(clock(m, d), clock(n, d)) for d in domains
            for m in machines for n in machines if m != n}


def distances(pairs, goal):
    """How many pairs each clock is from the goal, and each clock's neighbours."""
    near = {}
    for a, b in pairs:
        near.setdefault(a, []).append(b)
    far, edge = {goal: 0}, [goal]
    for here in edge:
        for there in near.get(here, []):
            if there not in far:
                far[there] = far[here] + 1
                edge.append(there)
    return far, near


def answer(graphs, start, t):
    """What is said of an event on clock `start` that reads t."""
    graph, path = graphs.way(start)
    if path is None:
        return 'dropped 1'
    for a, b in zip(path, path[1:]):
        t = graphs.convert(a, b, t)
        if not LOW <= t <= HIGH:
            return 'dropped 2'
    if t < 0:
        return 'dropped 3'
    return f'at {t} graph {graph} steps {len(path) - 1}'


def merge(manifest, sheet):
    """The lines that the program writes, and the machine of each source."""
    try:
        said = manifests.read(manifest)
        world = World(said, sheets.read(sheet))
    except (Refused, sheets.Fault) as refused:
        return Merged(b'refused %d\n' % refused.number, None)
    goal = world.trace_time()
    lines = ['ok files %d machines %d trace %s' % (
        len(world.sheet.files), len(world.machine), '-' if goal is None else goal)]
    graphs = Graphs(world, goal) if world.sheet.events else None
    for number, event in enumerate(world.sheet.events):
        told = answer(graphs, world.event_clock(event), event.reading)
        lines.append(f'{number} {told}')
    return Merged(''.join(line + '\n' for line in lines).encode(), world.machines)


def content(path):
    """A file's bytes, none if it is absent."""
    if not os.path.exists(path):
        return b''
    with open(path, 'rb') as file:
        return file.read()


if __name__ == '__main__':
    folder = sys.argv[1] if len(sys.argv) > 1 else '.'
    merged = merge(content(os.path.join(folder, 'manifest.json')),
                   content(os.path.join(folder, 'sheet.bits')))
    sys.stdout.buffer.write(merged.lines)
