"""Seeded worlds to merge: a manifest and a sheet that fit each other.

Written from document 01 and the settled points of docs/DECISIONS.md, without
the proved definitions and code. A world is mostly accepted; what it really is
the merges decide. Faults are put in by faults.py.
"""
from manifest import CLOCKS, KNOWN
from sheet import End, Event, File, Snapshot, Source, bits_of, packed

EDGE = (1 << 63) - 1
DOMAINS = [name.decode() for name in CLOCKS]
NAMES = [
    'phone', 'watch', 'host', 'vm', 'a', 'Phone', 'x y', '\u00e4\u20ac\U0001f600', 'n' * 64, '\u00e9' * 32,
    't\t"\\/', '\0', '\x7f',
]
PATHS = [
    'a.log', 'b', 'phone.pftrace', 'dir/c.json', '\u00fc.json', '\U0001f600', 'p' * 255, 'p' * 254 + 'q', 'x\\y',
    '"', ' ', 'A.LOG', '\0', '\u20ac' * 85,
]
UNLISTED = [b'\xff\x00', b'\x80' * 255, b'\xc3', b'\xed\xa0\x80']
IDS = [0, 0, 1, 2, 7, 1234, 4294967295]
# Members that no place knows, and some that only another place knows.
FOREIGN = [
    ('notes', None), ('Version', 2), ('', []), ('offset_ns', 'x'), ('sync_to', 5), ('files', {'path': 1}),
    ('clock', 'X'), ('id', -1), ('name', ''), ('version', 3), ('path', ''), ('machines', 1), ('file', 'nowhere'),
    ('x', {'version': 2, 'offset_ns': 'y', 'a': [[], {}]}), ('machine ', 1), ('trace_time', []), ('clock\0', 1),
    ('Files', 1), ('PATH', 1), ('Name', 5), ('Clock', 1), ('FILE', 2), ('Id', 'x'),
]


class Obj(list):
    """A JSON object: its members [name, value] in order."""

    def get(self, name):
        return next((value for key, value in self if key == name), None)

    def has(self, name):
        return any(key == name for key, _ in self)

    def put(self, name, value):
        for member in self:
            if member[0] == name:
                member[1] = value
                return
        self.append([name, value])

    def drop(self, name):
        self[:] = [member for member in self if member[0] != name]


class Raw(bytes):
    """A JSON value as it is to be written."""


class World:
    """What a case is made of; `outer` is the outermost object, or None.

    `few` are the domains that it mostly speaks of, so that clocks meet.
    """

    def __init__(self):
        self.outer = None
        self.few = [6]
        self.files, self.sources, self.snapshots, self.events = [], [], [], []

    def manifest(self):
        return self.outer[0][1] if self.outer else None

    def entries(self):
        manifest = self.manifest()
        return (manifest.get('files') or []) if isinstance(manifest, Obj) else []

    def related(self):
        """Entries with clocks."""
        return [entry for entry in self.entries() if entry.has('clocks')]

    def records(self):
        return [*self.files, *self.sources, *self.snapshots, *self.events, End()]


# Writing.

def quoted(r, text, loose):
    """A JSON string, some characters as escapes if `loose`."""
    out = '"'
    for c in text:
        units = c.encode('utf-16-be')
        if c in '"\\' and r.random() < .8:
            out += '\\' + c
        elif c < ' ' or c in '"\\' or loose and r.random() < .1:
            for at in range(0, len(units), 2):
                out += r.choice(('\\u%04x', '\\u%04X')) % int.from_bytes(units[at:at + 2], 'big')
        elif c == '/' and loose:
            out += r.choice(('/', '\\/'))
        else:
            out += c
    return (out + '"').encode()


def text_of(r, value, loose):
    """A JSON value as bytes; `loose` adds whitespace and escapes."""
    def gap():
        if not loose or r.random() < .7:
            return b''
        return r.choice((b' ', b'\n', b'\t', b'\r\n', b'  '))
    if isinstance(value, Raw):
        return bytes(value)
    if value is None or isinstance(value, bool):
        return {None: b'null', True: b'true', False: b'false'}[value]
    if isinstance(value, int):
        return b'-0' if value == 0 and loose and r.random() < .2 else b'%d' % value
    if isinstance(value, str):
        return quoted(r, value, loose)
    if isinstance(value, dict):
        value = Obj(map(list, value.items()))
    if isinstance(value, Obj):
        parts = [gap() + quoted(r, name, loose) + gap() + b':' + gap() + text_of(r, member, loose) + gap()
                 for name, member in value]
        return b'{' + b','.join(parts) + b'}'
    return b'[' + b','.join(gap() + text_of(r, item, loose) + gap() for item in value) + b']'


def manifest_bytes(r, world):
    if world.outer is None:
        return b''
    loose = r.random() < .5
    first, *rest = world.outer
    out = r.choice((b'', b'', b'', b' ', b'\n\t\r ')) + b'{"perfetto_manifest":' + text_of(r, first[1], loose)
    for name, value in rest:
        out += b',' + quoted(r, name, False) + b':' + text_of(r, value, loose)
    return out + b'}' + r.choice((b'', b'', b'\n', b' \r\n\t'))


def sheet_bytes(listed):
    """Records as bytes; a record may be a string of bits."""
    return packed(''.join(each if isinstance(each, str) else bits_of(each) for each in listed))


# Making.

def reading(r):
    """Small ones often, so that equal ones meet; and the edges."""
    kind = r.random()
    if kind < .6:
        return r.randrange(-5, 30) * r.choice((1, 10, 10))
    if kind < .8:
        return r.randrange(0, 10 ** 10)
    if kind < .9:
        return r.choice((EDGE, -EDGE - 1, EDGE - 1, -EDGE, 0, 1 << 62, -(1 << 62)))
    return r.randrange(-EDGE - 1, EDGE + 1)


def offset(r):
    return max(-EDGE, reading(r))


def placed(r, place, members):
    """An object of a place: sometimes shuffled, and with members unknown there."""
    made = Obj([name, value] for name, value in members if value is not None)
    if r.random() < .3:
        r.shuffle(made)
    if r.random() < .12:
        known = {name.decode() for name in KNOWN[place]}
        for name, value in r.sample(FOREIGN, 2):
            if name not in known:
                for _ in range(r.choice((1, 1, 2))):
                    made.insert(r.randrange(len(made) + 1), [name, value])
    return made


def declared(entry):
    if entry.has('machine'):
        return [entry.get('machine').get('name')]
    return [item.get('name') for item in entry.get('machines') or []]


def cited(r, entry, needed):
    """A machine to cite for a file: None for none; False if none can be."""
    names = declared(entry)
    if entry.has('machines') and needed:
        return r.choice(names) if names else False
    return r.choice(names) if names and r.random() < .4 else None


def domain(r, world):
    return r.choice(world.few) if r.random() < .85 else r.randrange(1, 7)


def domain_name(r, world):
    return DOMAINS[domain(r, world) - 1]


def make_files(r, world, count):
    paths = r.sample(PATHS, min(count, len(PATHS))) + [f'f{number}' for number in range(count - len(PATHS))]
    for path in paths:
        world.files.append(File(int(r.random() < .1), domain(r, world) if r.random() < .6 else 0, path.encode()))
    return paths


def make_entry(r, path, names, rich):
    kind = r.choice(('machine', 'machine', 'machines', 'plain', 'plain'))
    machine = machines = None
    if kind == 'machine':
        machine = placed(r, 'machine', [('name', r.choice(names))])
    if kind == 'machines':
        count = r.choice((1, 2, 2, 3)) if rich else r.choice((0, 1, 2, 2, 3, 5))
        ids = r.sample(sorted(set(IDS)), count) if count < 7 else []
        if ids and r.random() < .5 and 0 not in ids:
            ids[-1] = 0
        machines = [placed(r, 'item', [('id', each), ('name', r.choice(names))]) for each in ids]
    return placed(r, 'entry', [('path', path), ('machine', machine), ('machines', machines)])


def make_clocks(r, world, entry, entries):
    """Relates an entry to another, if both can be named."""
    there = r.choice(entries)
    clock = domain_name(r, world) if r.random() < .6 else None
    machine, there_machine = cited(r, entry, True), cited(r, there, True)
    if machine is False or there_machine is False or there is entry and r.random() < .8:
        return
    there_clock = domain_name(r, world) if r.random() < .75 else None
    if clock and clock == there_clock and r.random() < .6:
        # Else many would relate a clock to itself.
        there_clock = None
    sync = placed(r, 'sync_to', [('file', there.get('path')), ('machine', there_machine), ('clock', there_clock)])
    entry.put('clocks', placed(r, 'clocks', [
        ('clock', clock), ('machine', machine), ('sync_to', sync),
        ('offset_ns', offset(r) if r.random() < .8 else None)]))


def make_trace_time(r, world, entries):
    if r.random() < .5:
        return None
    file = machine = None
    if entries and r.random() < .6:
        entry = r.choice(entries)
        file, machine = entry.get('path'), cited(r, entry, False)
    return placed(r, 'trace_time', [('clock', domain_name(r, world)), ('file', file), ('machine', machine)])


def make_manifest(r, world, paths, rich):
    names = r.sample(NAMES, r.choice((1, 2, 3, 5)))
    listed = [path for path in paths if rich or r.random() < .7]
    if not paths and r.random() < .5:
        listed = ['gone', 'lost']
    r.shuffle(listed)
    entries = [make_entry(r, path, names, rich) for path in listed]
    containers = {file.path for file in world.files if file.c}
    for entry in entries:
        if entry.get('path').encode() not in containers and r.random() < .5:
            make_clocks(r, world, entry, entries)
    manifest = placed(r, 'manifest', [('version', 1), ('trace_time', make_trace_time(r, world, entries)),
                                      ('files', entries if entries or r.random() < .5 else None)])
    world.outer = [['perfetto_manifest', manifest]]


def make_sources(r, world):
    listed = {entry.get('path').encode(): entry for entry in world.entries()}
    for number, file in enumerate(world.files):
        entry, room = listed.get(file.path), 32 - len(world.sources)
        if file.c:
            continue
        if entry and entry.has('machine'):
            ids = [r.choice(IDS)] if r.random() < .9 else []
        elif entry and entry.has('machines'):
            ids = [item.get('id') for item in entry.get('machines') if r.random() < .8]
        else:
            ids = r.sample(sorted(set(IDS)), r.choice((0, 1, 1, 1, 2, 3, 4)))
        world.sources += [Source(number, each) for each in ids[:room]]
    r.shuffle(world.sources)


def free_sources(world):
    """Sources whose files are not pinned."""
    pinned = {entry.get('path').encode() for entry in world.related() if not entry.get('clocks').has('clock')}
    return [number for number, source in enumerate(world.sources[:32]) if world.files[source.file].path not in pinned]


def make_snapshots(r, world, count):
    free = free_sources(world)
    if not free:
        return
    for _ in range(count):
        clock, clock2 = r.sample(world.few if len(world.few) > 1 and r.random() < .85 else range(1, 7), 2)
        world.snapshots.append(Snapshot(r.choice(free), clock, reading(r), clock2, reading(r)))


def near(r, readings):
    """A reading at or beside one that some snapshot has."""
    if not readings or r.random() < .4:
        return reading(r)
    return max(-EDGE - 1, min(EDGE, r.choice(readings) + r.choice((-1, 0, 0, 1))))


def make_events(r, world, count):
    readings = [each for shot in world.snapshots for each in (shot.reading, shot.reading2)]
    for _ in range(count if world.sources else 0):
        world.events.append(Event(r.randrange(len(world.sources)), domain(r, world) if r.random() < .85 else 0,
                                  near(r, readings)))


def common(r, rich=False):
    """A world like many; `rich` ones have what most faults need."""
    world = World()
    world.few = r.sample(range(1, 7), r.choice((1, 2, 2, 3, 4, 6)))
    count = r.choice((3, 4, 5)) if rich else r.choice((0, 1, 1, 2, 2, 3, 3, 4, 5, 6, 9))
    paths = make_files(r, world, count)
    if rich or r.random() < .88:
        make_manifest(r, world, paths, rich)
    for path in UNLISTED:
        if not rich and world.files and r.random() < .08:
            world.files.insert(r.randrange(len(world.files) + 1), File(0, r.randrange(7), path))
    make_sources(r, world)
    make_snapshots(r, world, r.choice((0, 0, 1, 2, 3, 4, 6, 10)) if r.random() < .95 else r.choice((40, 100, 250)))
    make_events(r, world, r.choice((1, 2, 4, 8, 12)) if r.random() < .97 else r.choice((60, 300)))
    return world


def chain(r):
    """A long path: file to file by entries, clock to clock by snapshots."""
    world = World()
    count = r.choice((4, 8, 16, 32))
    private, wild = r.random() < .3, r.random() < .2
    entries = []

    def far():
        return reading(r) if wild else r.randrange(1000)
    for number in range(count):
        last = number == count - 1
        world.files.append(File(0, 6 if last else 0, b'f%d' % number))
        members = [('path', f'f{number}')]
        if number:
            members.append(('machine', placed(r, 'machine', [('name', f'm{number}')])))
        if not last:
            sync = [('file', f'f{number + 1}')] + ([] if private else [('clock', DOMAINS[0])])
            members.append(('clocks', placed(r, 'clocks', ([] if private else [('clock', DOMAINS[5])]) + [
                ('sync_to', placed(r, 'sync_to', sync)), ('offset_ns', r.choice((0, 1, -1, 1000)))])))
        entries.append(placed(r, 'entry', members))
        world.sources.append(Source(number, number))
        for each in range(1, 6) if not private or last else ():
            if r.random() < .995:
                world.snapshots.append(Snapshot(number, each, far(), each + 1, far()))
    if r.random() < .5:
        r.shuffle(entries)
    world.outer = [['perfetto_manifest', placed(r, 'manifest', [('version', 1), ('files', entries)])]]
    r.shuffle(world.snapshots)
    for number in r.sample(range(count), 4):
        world.events += [Event(number, r.choice((0, 1, 6)), r.randrange(10 ** 9)), Event(0, r.randrange(7), far())]
    return world


def crowd(r):
    """About as many machines as there may be: by names, ids or both."""
    world = World()
    named, ids = r.choice(((31, 0), (32, 0), (0, 31), (0, 32), (16, 15), (16, 16), (20, 5), (30, 1), (31, 1)))
    items = [placed(r, 'item', [('id', number), ('name', f'm{number}')]) for number in range(min(named, 32))]
    world.files.append(File(0, r.randrange(7), b'named'))
    world.files.append(File(0, r.randrange(7), b'ids'))
    if named:
        world.outer = [['perfetto_manifest', placed(r, 'manifest',
                                                    [('version', 1),
                                                     ('files', [placed(r, 'entry',
                                                             [('path', 'named'), ('machines', items)])])])]]
    listed = [Source(0, number) for number in range(named)] + [Source(1, number) for number in range(1, ids + 1)]
    r.shuffle(listed)
    kept = listed[:32] if r.random() < .5 else [source for source in listed if source.file == 1][:32]
    world.sources += kept or [Source(0, 0)]
    world.few = r.sample(range(1, 7), 3)
    make_snapshots(r, world, r.choice((0, 5, 20)))
    make_events(r, world, 10)
    return world


def ladder(r):
    """One pair of clocks with many correspondences, equal readings among them."""
    world = World()
    world.files.append(File(0, 6, b'a'))
    world.files.append(File(0, 0, b'b'))
    world.sources += [Source(0, 0), Source(1, 3)]
    if r.random() < .5:
        sync = placed(r, 'sync_to', [('file', 'a'), ('clock', 'BOOTTIME')])
        clocks = placed(r, 'clocks', [('clock', 'MONOTONIC'), ('sync_to', sync), ('offset_ns', r.randrange(-9, 10))])
        files = [placed(r, 'entry', [('path', 'a')]), placed(r, 'entry', [('path', 'b'), ('clocks', clocks)])]
        world.outer = [['perfetto_manifest', placed(r, 'manifest', [('version', 1), ('files', files)])]]
    for _ in range(r.choice((2, 3, 5, 10, 30))):
        pair = r.choice(((3, 6), (6, 3)))
        world.snapshots.append(Snapshot(r.randrange(2), pair[0], r.randrange(8), pair[1], r.randrange(8)))
    for _ in range(20):
        world.events.append(Event(r.randrange(2), r.choice((3, 3, 3, 6, 0)), r.randrange(-3, 12)))
    return world


def rivals(r):
    """Several entries that relate the same clocks, in either direction."""
    world = World()
    count = r.choice((2, 3, 5))
    machine = placed(r, 'machine', [('name', 'm')]) if r.random() < .5 else None
    entries, domains, private = [], r.sample(DOMAINS, 2), r.random() < .3
    for number in range(count):
        world.files.append(File(0, r.randrange(7), b'f%d' % number))
        world.sources.append(Source(number, number))
        clock, there = domains if r.random() < .7 else domains[::-1]
        file = f'f{r.randrange(count)}'
        if private:
            clock, there, file = domains[0], None, 'f0'
        sync = placed(r, 'sync_to', [('file', file), ('clock', there)])
        clocks = placed(r, 'clocks', [('clock', clock), ('sync_to', sync),
                                      ('offset_ns', r.choice((0, 1, 5, -5, 1000)))])
        entries.append(placed(r, 'entry', [('path', f'f{number}'), ('machine', machine), ('clocks', clocks)]))
    r.shuffle(entries)
    time = placed(r, 'trace_time', [('clock', domains[0]), ('file', 'f0')])
    world.outer = [['perfetto_manifest', placed(r, 'manifest', [('version', 1), ('trace_time', time),
            ('files', entries)])]]
    world.few = [DOMAINS.index(name) + 1 for name in domains]
    make_snapshots(r, world, r.choice((0, 0, 2, 5)))
    make_events(r, world, 10)
    return world


def full(r):
    """As many files, sources and snapshots as there may be."""
    world = World()
    world.few = r.sample(range(1, 7), r.choice((2, 3, 6)))
    paths = make_files(r, world, 32)
    world.files = [file._replace(c=0) for file in world.files]
    if r.random() < .6:
        make_manifest(r, world, paths, False)
    split = [entry.get('path').encode() for entry in world.entries() if entry.has('machines')]
    for number, file in enumerate(world.files):
        if file.path not in split:
            world.sources.append(Source(number, r.choice(IDS)))
    make_snapshots(r, world, r.choice((250, 255, 256)))
    make_events(r, world, r.choice((5, 30)))
    return world


def make(r):
    kind = r.random()
    if kind < .03:
        return 'chain', chain(r)
    if kind < .05:
        return 'crowd', crowd(r)
    if kind < .1:
        return 'ladder', ladder(r)
    if kind < .11:
        return 'full', full(r)
    if kind < .14:
        return 'rivals', rivals(r)
    return 'common', common(r)
