"""Faults for worlds, some for each refusal of document 01.

Written from document 01 and the settled points of docs/DECISIONS.md, without
the proved definitions and code. A fault tries to reach the number it is
listed under; what a case really is, the merges decide. It gives False where a
world has no place for it.
"""
from sheet import Event, File, Snapshot, Source
from worlds import Obj, Raw, free_sources, placed

WORDS = [None, True, 'x', 7, -1, [], ['x'], Obj(), Obj([['name', 'x']]), Raw(b'1.5'), Raw(b'1e3'), '']
LONG_PATH, LONG_NAME = ['p' * 256, '\u00e9' * 128, '\U0001f600' * 64], ['n' * 65, '\u00e9' * 33, 'x' * 300]


def objects(world):
    """The known objects of a world with their places."""
    manifest = world.manifest()
    if not isinstance(manifest, Obj):
        return []
    found = [('manifest', manifest)]
    if isinstance(manifest.get('trace_time'), Obj):
        found.append(('trace_time', manifest.get('trace_time')))
    for entry in world.entries():
        found.append(('entry', entry))
        found += [('machine', entry.get('machine'))] if entry.has('machine') else []
        found += [('item', item) for item in entry.get('machines') or []]
        if entry.has('clocks'):
            found.append(('clocks', entry.get('clocks')))
            found.append(('sync_to', entry.get('clocks').get('sync_to')))
    return [(place, each) for place, each in found if isinstance(each, Obj)]


MEMBERS = {'manifest': ['version', 'trace_time', 'files'], 'trace_time': ['clock', 'file', 'machine'],
           'entry': ['path', 'machine', 'machines', 'clocks'], 'machine': ['name'], 'item': ['id', 'name'],
           'clocks': ['clock', 'machine', 'sync_to', 'offset_ns'], 'sync_to': ['file', 'machine', 'clock']}
NEEDED = [('trace_time', 'clock'), ('entry', 'path'), ('machine', 'name'), ('item', 'id'), ('item', 'name')]


def holding(world, *wanted):
    """The objects that have one of the wanted (place, member), with the member."""
    return [(each, name) for place, each in objects(world) for where, name in wanted
            if place == where and each.has(name)]


def setting(r, world, wanted, values):
    """Gives some wanted member another value."""
    found = holding(world, *wanted)
    if not found:
        return False
    each, name = r.choice(found)
    each.put(name, r.choice(values))
    return True


# The manifest.

def f5(r, world):
    if r.random() < .6:
        world.outer.append([r.choice(('x', 'version', 'perfetto_manifest', '')), r.choice(WORDS)])
    else:
        world.outer[0][1] = r.choice(([], None, 1, 'x', True, [Obj()]))


def f6(r, world):
    world.manifest().drop('version')


def f7(r, world):
    values = [2, 0, -1, 10 ** 30, '1', None, True, [1], Raw(b'1.0'), Raw(b'1e0'), Raw(b'-0'), Raw(b'-1'), Raw(b'11'),
              Raw(b'1.5')]
    if r.random() < .3:
        world.manifest().insert(r.randrange(len(world.manifest()) + 1), ['version', r.choice(values)])
    else:
        world.manifest().put('version', r.choice(values))


def f8(r, world):
    found = holding(world, *[(place, name) for place in MEMBERS for name in MEMBERS[place]])
    each, name = r.choice(found)
    again = r.choice((each.get(name), r.choice(WORDS)))
    each.insert(r.randrange(len(each) + 1), [name, again])


def f9(r, world):
    kind = r.random()
    if kind < .5:
        place, each = r.choice(objects(world))
        name = r.choice(MEMBERS[place])
        each.put(name, r.choice(WORDS))
        return True
    if kind < .75:
        found = holding(world, *NEEDED)
        if not found:
            return False
        each, name = r.choice(found)
        each.drop(name)
        return True
    lists = [entries for entries in [world.entries()] if entries]
    lists += [entry.get('machines') for entry in world.entries() if entry.has('machines')]
    if not lists:
        return False
    chosen = r.choice(lists)
    chosen.insert(r.randrange(len(chosen) + 1), r.choice(([], 'x', None, 1)))
    return True


def f10(r, world):
    kind = r.randrange(6)
    if kind == 0:
        entries = world.entries()
        entries += [placed(r, 'entry', [('path', f'more{n}')]) for n in range(33 - len(entries))]
        return True
    if kind == 1:
        split = [entry.get('machines') for entry in world.entries() if entry.has('machines')]
        for items in split[:1]:
            items += [placed(r, 'item', [('id', 100 + n), ('name', 'z')]) for n in range(33 - len(items))]
        return bool(split)
    if kind == 2:
        return setting(r, world, [('entry', 'path')], ['', '', *LONG_PATH])
    if kind == 3:
        return setting(r, world, [('sync_to', 'file'), ('trace_time', 'file')], ['', '', *LONG_PATH])
    if kind == 4:
        citing = [each for place, each in objects(world) if place in ('clocks', 'sync_to', 'trace_time')]
        for each in r.sample(citing, min(1, len(citing))):
            each.put('machine', r.choice(['', '', '', *LONG_NAME]))
        return bool(citing)
    return setting(r, world, [('machine', 'name'), ('item', 'name')], LONG_NAME)


def f11(r, world):
    return setting(r, world, [('trace_time', 'clock'), ('clocks', 'clock'), ('sync_to', 'clock')], [
        'boottime', '', 'BOOTTIME ', 'TAI', 'REALTIME\0', 'MONOTONIC_RA', 'REALTIME_COARSER', 'MONOTONIC_', 'B' * 300])


def f12(r, world):
    found = [entry for entry in world.entries() if entry.has('machine') or entry.has('machines')]
    if not found:
        return False
    entry = r.choice(found)
    if entry.has('machine'):
        entry.put('machines', r.choice(([], [placed(r, 'item', [('id', 0), ('name', 'a')])])))
    else:
        entry.put('machine', placed(r, 'machine', [('name', 'a')]))
    return True


def f13(r, world):
    return setting(r, world, [('machine', 'name'), ('item', 'name')], [''])


def f14(r, world):
    return setting(r, world, [('item', 'id')], [-1, 4294967296, 4294967295, 10 ** 40, -10 ** 40, 1 << 64,
                                                Raw(b'9' * 5000)])


def f15(r, world):
    entries = world.entries()
    if r.random() < .5 and len(entries) > 1:
        first, second = r.sample(entries, 2)
        first.put('path', second.get('path'))
        return True
    items = [entry.get('machines') for entry in entries if entry.has('machines') and entry.get('machines')]
    if not items:
        return False
    chosen = r.choice(items)
    chosen.append(placed(r, 'item', [('id', chosen[0].get('id')), ('name', 'again')]))
    return True


def f16(r, world):
    found = holding(world, ('clocks', 'sync_to'))
    if not found:
        return False
    r.choice(found)[0].drop('sync_to')
    return True


def f17(r, world):
    found = [each for place, each in objects(world) if place in ('sync_to', 'trace_time')]
    if not found:
        return False
    each = r.choice(found)
    each.drop('file')
    each.put('machine', 'phone')
    return True


def f18(r, world):
    found = holding(world, ('sync_to', 'file'))
    if not found:
        return False
    each = r.choice(found)[0]
    each.drop('file')
    each.drop('machine')
    return True


def f19(r, world):
    return setting(r, world, [('sync_to', 'file'), ('trace_time', 'file')],
                   ['nowhere', 'A.log', 'phone.pftrace ', 'f0\0'])


def f20(r, world):
    """Splits a file that clocks or a sync_to speak of, or leaves the machine out."""
    found = world.related()
    if not found:
        return False
    entry = r.choice(found)
    if r.random() < .5:
        entry.get('clocks').drop('machine')
    else:
        there = entry.get('clocks').get('sync_to').get('file')
        entry.get('clocks').get('sync_to').drop('machine')
        entry = next((each for each in world.entries() if each.get('path') == there), entry)
    if not entry.has('machines'):
        entry.drop('machine')
        entry.put('machines', r.choice(([], [placed(r, 'item', [('id', 0), ('name', 'a')])])))
    return True


def f21(r, world):
    names = ['nobody', 'host', 'phone', 'PHONE', 'n' * 64]
    places = [each for place, each in objects(world)
              if place in ('clocks', 'sync_to') or place == 'trace_time' and each.has('file')]
    if not places:
        return False
    r.choice(places).put('machine', r.choice(names))
    return True


def f22(r, world):
    found = [entry.get('clocks') for entry in world.related()]
    if not found:
        return False
    r.choice(found).put('offset_ns', r.choice(('1', None, True, [], Obj(), Raw(b'1.5'), Raw(b'1e3'), Raw(b'1.0'),
                                               Raw(b'-0.0'), Raw(b'0E0'))))
    return True


def f23(r, world):
    found = [entry.get('clocks') for entry in world.related()]
    if not found:
        return False
    edge = 1 << 63
    r.choice(found).put('offset_ns', r.choice((edge, -edge, edge - 1, 1 - edge, edge + 1, -edge - 1, 1 << 64,
                                               10 ** 40, -10 ** 40, Raw(b'-' + b'9' * 5000))))
    return True


def f24(r, world):
    found = world.related()
    if not found:
        return False
    entry = r.choice(found)
    clocks = entry.get('clocks')
    sync = clocks.get('sync_to')
    sync.put('file', entry.get('path'))
    sync.drop('machine')
    sync.drop('clock')
    if clocks.has('machine'):
        sync.put('machine', clocks.get('machine'))
    if clocks.has('clock'):
        sync.put('clock', clocks.get('clock'))
    return True


# The manifest's bytes.

def f1(r, text):
    return text + b' ' * (r.choice((65536, 65537, 65537, 66000)) - len(text))


def f2(r, text):
    start = text.index(b'{')
    return r.choice((b'{}', b'[]', b'null', b' \n', b'{', b'x', b'{"perfetto_manifest', b'{"perfetto_metadata":{}}',
                     text[:start] + b'{ ' + text[start + 1:], b'\xef\xbb\xbf' + text, b'\f' + text, text[start + 1:],
                     text.replace(b'perfetto_manifest', b'perfetto_m\\u0061nifest', 1),
                     text.replace(b'perfetto_manifest', b'Perfetto_manifest', 1)))


def f3(r, text):
    at = r.randrange(text.index(b'{') + 20, len(text))
    if r.random() < .5:
        quote = text.find(b'"', at)
        piece = r.choice((
            rb'\udc00', rb'\uDFFF', rb'\ud800', rb'\ud800\ud800', rb'\ud800\udc00', rb'\ud800\u0041', b'\xed\xa0\x80',
            b'\xc0\x80', b'\xf4\x90\x80\x80'))
        return text[:quote] + piece + text[quote:]
    bad = r.choice((b'\xff', b'\x80', b'x', b'"', b'{', b'}', b',', b'\\', b'\0', b':', b'"\\ud800"', b'\xed\xa0\x80'))
    return r.choice((text[:at], text[:at] + bad + text[at:], text[:at] + text[at + 1:], text[:at] + bad + text[at + 1:],
                     text + r.choice((b'x', b'{}', b'\0', b'\f'))))


def f4(r, text):
    """Levels around 16 in a member that is skipped, perhaps with a fault near by."""
    at = text.index(b'{', text.index(b'{') + 1) + 1 if text.count(b'{') > 1 else len(text)
    levels = r.choice((13, 14, 15, 15, 16, 30))
    value = b'[' * levels + b']' * levels if r.random() < .5 else b'{"a":' * levels + b'1' + b'}' * levels
    value = r.choice((value, value, value, b'[' * levels, value[:-1] + b'x'))
    text = text[:at] + b'"skip":' + value + r.choice((b',', b',', b',', b'')) + text[at:]
    return text[:-1] if r.random() < .15 else text


# The sheet.

def f25(r, sheet):
    return r.choice((b'', b'', sheet + b'\0' * (r.choice((65536, 65537)) - len(sheet))))


def f26(r, sheet):
    return sheet[:r.randrange(1, len(sheet))] if len(sheet) > 1 else False


def f27(r, listed):
    at = r.randrange(len(listed))
    if r.random() < .5:
        listed.insert(at, r.choice(('101', '110', '111')))
    else:
        other = r.randrange(len(listed))
        listed[at], listed[other] = listed[other], listed[at]


def f28(r, listed):
    """Breaks some record in one of the ways of 28."""
    kinds = {type(each) for each in listed} & {File, Source, Snapshot, Event}
    if not kinds:
        return False
    kind = r.choice(sorted(kinds, key=str))
    at = r.choice([at for at, each in enumerate(listed) if type(each) is kind])
    listed[at] = misfit(r, listed[at], listed)
    return True


def misfit(r, each, listed):
    """A record to which 28 applies, as a rule."""
    if isinstance(each, File):
        return r.choice((each._replace(claim=7), each._replace(path=b''), each._replace(c=1)))
    if isinstance(each, Source):
        files = sum(isinstance(other, File) for other in listed)
        return each._replace(file=r.choice((31, files % 32)))
    if isinstance(each, Event):
        sources = sum(isinstance(other, Source) for other in listed)
        return r.choice((each._replace(clock=7), each._replace(source=sources % 32)))
    return r.choice((each._replace(clock=0), each._replace(clock2=0), each._replace(clock=7), each._replace(clock2=7),
                     each._replace(clock=each.clock2), each._replace(clock2=each.clock), each._replace(source=31)))


def f29(r, sheet):
    if r.random() < .5:
        return sheet + r.choice((b'\0', b'\0', b'\0', b'\1', b'\0\0\0'))
    return sheet[:-1] + bytes([sheet[-1] | 1 << r.randrange(5)])


def f30(r, world):
    kind = r.randrange(3)
    if kind == 0:
        world.files += [File(0, 0, b'more%d' % n) for n in range(r.choice((32, 33, 33, 34)) - len(world.files))]
    elif kind == 1 and world.files:
        world.files = [file._replace(c=0) for file in world.files]
        more = r.choice((32, 33, 33, 34)) - len(world.sources)
        world.sources += [Source(r.randrange(min(32, len(world.files))), 1000 + n) for n in range(more)]
    else:
        free = free_sources(world)
        if not free:
            return False
        more = r.choice((256, 257, 257)) - len(world.snapshots)
        world.snapshots += [Snapshot(free[0], 3, n, 6, n) for n in range(more)]
    if r.random() < .3:
        # The record that is one too many, or the last that is not, is broken too.
        last = (world.files, world.sources, world.snapshots)[kind]
        last[-1:] = [misfit(r, each, world.records()) for each in last[-1:]]
    return True


def f31(r, world):
    if r.random() < .5 and world.sources:
        world.sources.append(r.choice(world.sources))
    elif world.files:
        world.files.append(r.choice(world.files)._replace(c=r.randrange(2), claim=r.randrange(7)))
    else:
        return False
    return True


def f32(r, world):
    if not world.files or not world.entries():
        return False
    if r.random() < .5:
        world.entries().append(placed(r, 'entry', [('path', 'not there')]))
    else:
        number = r.randrange(len(world.files))
        world.files[number] = world.files[number]._replace(path=world.files[number].path[:200] + b'~')
    return True


def f33(r, world):
    """A file with clocks becomes a container, and loses its sources."""
    paths = [entry.get('path').encode() for entry in world.related()]
    found = [number for number, file in enumerate(world.files) if file.path in paths]
    if not found:
        return False
    number = r.choice(found)
    world.files[number] = world.files[number]._replace(c=1)
    world.sources = [source for source in world.sources if source.file != number]
    world.snapshots, world.events = [], world.events[:1] if world.sources else []
    world.events = [event._replace(source=0) for event in world.events]
    return True


def listed_with(world, member):
    paths = [entry.get('path').encode() for entry in world.entries() if entry.has(member)]
    return [number for number, file in enumerate(world.files[:32]) if file.path in paths and not file.c]


def f34(r, world):
    found = listed_with(world, 'machines')
    if not found:
        return False
    number = r.choice(found)
    if r.random() < .5:
        for entry in world.entries():
            if entry.get('path').encode() == world.files[number].path:
                entry.put('machines', [])
    world.sources.append(Source(number, r.choice((5, 1 << 31, 0, 4294967294))))
    return True


def f35(r, world):
    found = listed_with(world, 'machine')
    if not found:
        return False
    number = r.choice(found)
    world.sources += [Source(number, 500 + n) for n in range(r.choice((1, 2)))]
    return True


def f36(r, world):
    free = free_sources(world)
    pinned = [number for number in range(min(32, len(world.sources))) if number not in free]
    if not pinned:
        return False
    world.snapshots.insert(r.randrange(len(world.snapshots) + 1), Snapshot(r.choice(pinned), 1, 5, 6, 5))
    return True


def f37(r, world):
    """More names than there may be machines, in one entry or in several."""
    found = [entry for entry in world.entries() if entry.has('machines')]
    if not found or len(found[0].get('machines')) > 5:
        return False
    count = r.choice((26, 27, 28, 29, 30, 31, 32))
    items = found[0].get('machines')
    items += [placed(r, 'item', [('id', 10000 + n), ('name', f'm{n}')]) for n in range(count - len(items))]
    return True


# By what they change: the world, the list of records, or the bytes.
ON_WORLD = [f5, f6, f7, f8, f9, f10, f11, f12, f13, f14, f15, f16, f17, f18, f19, f20, f21, f22, f23, f24, f30, f31,
            f32, f33, f34, f35, f36, f37]
ON_RECORDS = [f27, f28]
ON_TEXT = [f1, f2, f3, f4]
ON_SHEET = [f25, f26, f29]
ALL = ON_WORLD + ON_RECORDS + ON_TEXT + ON_SHEET
