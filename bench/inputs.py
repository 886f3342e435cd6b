"""The inputs of the timings, the same in every run.

    inputs.py FOLDER          writes NAME.json (absent: no manifest), NAME.bits and the list of names
    inputs.py table < TIMES   prints the table of the lines that `time input` printed
    inputs.py page KIND CODE < SECTION    writes docs/TIMINGS.md, with this section of a kind of machine and those of other kinds as they were; one that was
                                          measured on other code than CODE says so

Sheets are written by tests/second/sheet.py.
"""
import json
import math
import os
import pathlib
import random
import re
import sys

HERE = os.path.dirname(os.path.abspath(__file__))
sys.path.insert(0, os.path.join(HERE, '..', 'tests', 'second'))
from sheet import End, Event, File, Snapshot, Source, bits_of, packed  # noqa: E402

LONGEST = 65536
EVENTS = 6900
REALTIME, REALTIME_COARSE, MONOTONIC, MONOTONIC_COARSE, MONOTONIC_RAW, BOOTTIME = range(1, 7)
SECOND = 10 ** 9
# The clocks from an event to trace time.
WAYS = {1: [MONOTONIC, BOOTTIME], 2: [MONOTONIC, REALTIME, BOOTTIME], 3: [MONOTONIC, REALTIME, REALTIME_COARSE, BOOTTIME]}


def sheet(listed, events):
    """Bytes of the records and of as many of the events as there is room for."""
    start = ''.join(map(bits_of, listed))
    room = (8 * LONGEST - 3 - len(start)) // 75
    return packed(start + ''.join(map(bits_of, events[:room])) + bits_of(End()))


# Events.

def readings(r, order, count, span):
    """Readings within a span, as a recording has them (rising) or as a worst one could (random)."""
    found = [r.randrange(span) for _ in range(count)]
    return sorted(found) if order == 'rising' else found


def paired(pairs, snapshots, order):
    """One file whose events go along so many pairs, which share the snapshots."""
    r = random.Random(f'paired {pairs} {snapshots} {order}')
    way, span = WAYS[pairs], 3600 * SECOND
    listed = [File(0, BOOTTIME, b'trace.pftrace'), Source(0, 0)]
    for number in range(snapshots):
        step = number % pairs
        x = number * span // snapshots
        # A clock gains a little on the next one, in a way that no line describes.
        listed.append(Snapshot(0, way[step], x, way[step + 1], x + 5 * SECOND + r.randrange(1000)))
    return b'', sheet(listed, [Event(0, way[0], t) for t in readings(r, order, EVENTS, span)])


# Manifests.

def manifest(said, escapes=True):
    """A manifest's bytes. What is not ASCII is escaped, or stands there as UTF-8."""
    return json.dumps({'perfetto_manifest': said}, ensure_ascii=escapes, separators=(',', ':')).encode()


def filled(said, holders, size, text):
    """The manifest with comments in the holders, as long as `size` bytes."""
    for holder in holders:
        holder['comment'] = ''
    missing = size - len(manifest(said))
    for number, holder in enumerate(holders):
        share = missing // len(holders) + (number < missing % len(holders))
        holder['comment'] = (text * (share // len(text) + 1))[:share]
    assert len(manifest(said)) == size
    return manifest(said)


PROSE = 'Recorded on the bench beside the window; the watch had been charged overnight, and its clock was set by the phone. '


def few_files():
    """Document 000's example and a relay's file: what a manifest mostly is."""
    return {'version': 1, 'trace_time': {'clock': 'BOOTTIME', 'file': 'phone.pftrace'}, 'files': [
        {'path': 'phone.pftrace', 'machine': {'name': 'phone'}},
        {'path': 'watch.pftrace', 'machine': {'name': 'watch'}},
        {'path': 'relay.pftrace', 'machines': [{'id': 0, 'name': 'host'}, {'id': 1234, 'name': 'vm'}]},
        {'path': 'app_log.json', 'clocks': {'sync_to': {'file': 'phone.pftrace', 'clock': 'BOOTTIME'}, 'offset_ns': 250000000}}]}


def few_sheet(events):
    r = random.Random('few')
    listed = [File(0, BOOTTIME, name) for name in (b'phone.pftrace', b'watch.pftrace', b'relay.pftrace')] + [File(0, 0, b'app_log.json')]
    listed += [Source(0, 0), Source(1, 0), Source(2, 0), Source(2, 1234), Source(3, 0)]
    for number in range(8):
        listed.append(Snapshot(number % 4, MONOTONIC, number * SECOND, BOOTTIME, number * SECOND + 77))
        listed.append(Snapshot(number % 4, REALTIME, number * SECOND, BOOTTIME, number * SECOND + 777))
    return sheet(listed, [Event(r.randrange(5), r.choice((0, MONOTONIC, BOOTTIME)), r.randrange(9 * SECOND)) for _ in range(events)])


def commented(size):
    said = few_files()
    return filled(said, [said, *said['files']], size, PROSE), few_sheet(100)


def many_items():
    """32 entries with 32 items each, which all name the same 31 machines."""
    files = [{'path': f'device-{i:02}/trace.pftrace', 'machines': [{'id': k, 'name': f'machine-{k % 31:02}'} for k in range(32)]}
             for i in range(32)]
    said = {'version': 1, 'files': files}
    listed = [File(0, BOOTTIME, entry['path'].encode()) for entry in files] + [Source(i, i) for i in range(32)]
    events = [Event(i, BOOTTIME, SECOND) for i in range(32)]
    return filled(said, files, LONGEST, PROSE), sheet(listed, events)


def crammed(front, begin, part, end):
    """Few files, and behind the text `front` as many equal parts as there is room for, between a beginning and an end."""
    text = manifest(few_files())
    at = text.index(front) + len(front)
    count = (LONGEST - len(text) - len(begin) - len(end)) // len(part)
    return text[:at] + begin + part * count + end + text[at:], few_sheet(100)


def related_files(path, escapes=True, name=lambda i: f'm{i % 31}'):
    """32 files, each on a machine of its own but one, and each related to the one before."""
    entries = [{'path': path(i), 'machine': {'name': name(i)}} for i in range(32)]
    for before, entry in zip(entries, entries[1:]):
        there = {'file': before['path'], 'machine': before['machine']['name'], 'clock': 'MONOTONIC'}
        entry['clocks'] = {'clock': 'BOOTTIME', 'machine': entry['machine']['name'], 'sync_to': there, 'offset_ns': 250000000}
    listed = [File(0, BOOTTIME, entry['path'].encode()) for entry in entries] + [Source(i, 0) for i in range(32)]
    return manifest({'version': 1, 'files': entries}, escapes), sheet(listed, [Event(i, BOOTTIME, SECOND) for i in range(32)])


def two_ways():
    """The same with paths that stand in `path` as escapes of a letter, and are cited with escapes of a number."""
    text, bits = related_files(lambda i: '\t' * 200 + f'{i:02}')
    return re.sub(rb'("file":")((?:\\t)+)', lambda m: m[1] + m[2].replace(b'\\t', b'\\u0009'), text), bits


def split_files(name, splits, citing=0):
    """Split files, each with 31 items of the same names, every other one in the reverse order; and files that are related to the last item of one of them."""
    items = [{'id': k, 'name': name(k)} for k in range(31)]
    turned = [{'id': k, 'name': name(30 - k)} for k in range(31)]
    entries = [{'path': f'{i:02}', 'machines': turned if i % 2 else items} for i in range(splits)]
    for i in range(splits, splits + citing):
        there = {'file': f'{i % splits:02}', 'machine': entries[i % splits]['machines'][30]['name'], 'clock': 'MONOTONIC'}
        entries.append({'path': f'{i:02}', 'clocks': {'clock': 'BOOTTIME', 'sync_to': there, 'offset_ns': 250000000}})
    listed = [File(0, BOOTTIME, entry['path'].encode()) for entry in entries] + [Source(i % len(entries), i // len(entries)) for i in range(32)]
    return manifest({'version': 1, 'files': entries}), sheet(listed, [Event(i, BOOTTIME, SECOND) for i in range(32)])


def escaped_clocks():
    """32 related files, whose clocks' names are written with escapes."""
    text, bits = related_files(lambda i: f'{i:02}')
    name = ''.join(f'\\u{ord(letter):04x}' for letter in 'MONOTONIC_RAW').encode()
    return text.replace(b'"BOOTTIME"', b'"' + name + b'"').replace(b'"MONOTONIC"', b'"' + name + b'"'), bits


def few_events():
    """No manifest, and as many snapshots as there may be, shared by 32 files, for one event of each."""
    listed = [File(0, BOOTTIME, f'{i:02}'.encode()) for i in range(32)] + [Source(i, 0) for i in range(32)]
    listed += [Snapshot(i % 32, MONOTONIC, i * SECOND, BOOTTIME, i * SECOND + 77) for i in range(256)]
    return b'', sheet(listed, [Event(i, MONOTONIC, SECOND) for i in range(32)])


# The worst that was found.

def chain(first, count):
    """Files whose machines follow each other, and a sheet's records: all events go through the six clocks of each machine."""
    r = random.Random(f'chain {first} {count}')
    entries, files, snapshots = [], [], []
    for m in range(count):
        entry = {'path': f'{first + m}'}
        if m:
            entry['machine'] = {'name': f'm{m}'}
        if m < count - 1:
            entry['clocks'] = {'clock': 'BOOTTIME', 'sync_to': {'file': f'{first + m + 1}', 'clock': 'REALTIME'}, 'offset_ns': 1}
        entries.append(entry)
        files.append(File(0, 0 if m < count - 1 else BOOTTIME, entry['path'].encode()))
    for number in range(256):
        # One snapshot for each two clocks of a machine, then a second one for as many as there are.
        at = number % (5 * count)
        x = r.randrange(SECOND)
        snapshots.append(Snapshot(at // 5, at % 5 + 1, x, at % 5 + 2, x + r.randrange(3)))
    sources = [Source(first + m, 0) for m in range(count)]
    return entries, files, sources + snapshots, [Event(0, REALTIME, r.randrange(SECOND)) for _ in range(EVENTS)]


def long_ways():
    entries, files, rest, events = chain(0, 32)
    return manifest({'version': 1, 'files': entries}), sheet(files + rest, events)


def worst():
    """Paths of 185 pairs, and all the room in the manifest filled where it is passed over most often."""
    entries, files, rest, events = chain(1, 31)
    items = [{'id': k, 'name': 'm1'} for k in range(32)]
    said = {'version': 1, 'files': [{'path': '0', 'machines': items}, *entries]}
    items[0] = {'comment': [''], **items[0]}
    items[0]['comment'] *= (LONGEST - len(manifest(said))) // 3 + 1
    return manifest(said), sheet([File(0, 0, b'0')] + files + rest, events)


INPUTS = {}
for snapshots in (1, 100, 250):
    for order in ('rising', 'random'):
        what = f'one pair, {snapshots} snapshot{"s" * (snapshots > 1)}, {order}'
        INPUTS[f'pair-{snapshots}-{order}'] = (what, lambda s=snapshots, o=order: paired(1, s, o))
for pairs, word in ((2, 'two'), (3, 'three')):
    for order in ('rising', 'random'):
        INPUTS[f'pairs-{pairs}-{order}'] = (f'{word} pairs, 250 snapshots, {order}', lambda p=pairs, o=order: paired(p, 250, o))
INPUTS['manifest-1k'] = ('manifest of 1 KiB', lambda: commented(1024))
INPUTS['manifest-64k'] = ('manifest of 64 KiB, long comments', lambda: commented(LONGEST))
INPUTS['manifest-items'] = ('manifest of 64 KiB, 32 entries with 32 items', many_items)
INPUTS['manifest-wide'] = ('manifest of 64 KiB, a text of two-byte characters', lambda: crammed(b'"version":1,', b'"comment":"', 'é'.encode(), b'",'))
INPUTS['manifest-short'] = ('manifest of 64 KiB, short texts of two-byte characters', lambda: crammed(b'"version":1,', b'"comment":["",', '"é",'.encode(), b'""],'))
INPUTS['manifest-near'] = ('manifest of 64 KiB, names that begin as known ones do', lambda: crammed(b'"sync_to":{', b'', b'"m":0,', b''))
INPUTS['manifest-escaped'] = ('manifest of 64 KiB, unknown names of escapes', lambda: crammed(b'"path":"phone.pftrace",', b'', b'"m\\u0061":0,', b''))
INPUTS['files-short'] = ('32 related files, short paths', lambda: related_files(lambda i: f'{i:02}.pftrace'))
INPUTS['files-long'] = ('32 related files, paths of 250 bytes', lambda: related_files(lambda i: 'lab/' * 60 + f'{i:02}.pftrace'))
INPUTS['files-wide'] = ('32 related files, paths of two-byte characters', lambda: related_files(lambda i: 'é' * 126 + f'{i:02}', False))
INPUTS['files-escaped'] = ('32 related files, paths of escapes', lambda: related_files(lambda i: '\t' * 252 + f'{i:02}'))
INPUTS['files-numbered'] = ('32 related files, paths of long escapes', lambda: related_files(lambda i: 'é' * 126 + f'{i:02}'))
INPUTS['files-two-ways'] = ('32 related files, paths escaped in two ways', two_ways)
INPUTS['names-escaped'] = ('32 related files, machine names of escapes', lambda: related_files(lambda i: f'{i:02}', name=lambda i: '\t' * 62 + f'{i % 31:02}'))
INPUTS['names-numbered'] = ('32 related files, machine names of long escapes', lambda: related_files(lambda i: f'{i:02}', name=lambda i: '\x01' * 62 + f'{i % 31:02}'))
INPUTS['names-split'] = ('two split files that 30 others cite, names of long escapes', lambda: split_files(lambda k: '\x01' * 62 + f'{k:02}', 2, 30))
INPUTS['names-shared'] = ('five split files with the same names of long escapes', lambda: split_files(lambda k: 'é' * 31 + f'{k:02}', 5))
INPUTS['clocks-escaped'] = ('32 related files, clock names of escapes', escaped_clocks)
INPUTS['snapshots'] = ('256 snapshots of 32 files, 32 events', few_events)
INPUTS['long-ways'] = ('paths of 191 pairs', long_ways)
INPUTS['worst'] = ('the worst found: paths of 185 pairs, manifest of 64 KiB', worst)


def write(folder):
    os.makedirs(folder, exist_ok=True)
    for name, (_, make) in INPUTS.items():
        for ending, content in zip(('json', 'bits'), make()):
            assert len(content) <= LONGEST
            if content:
                with open(os.path.join(folder, f'{name}.{ending}'), 'wb') as file:
                    file.write(content)
    with open(os.path.join(folder, 'list'), 'w', encoding='ascii') as file:
        file.write(''.join(name + '\n' for name in INPUTS))


# The table.

def number(x):
    """Three digits are enough."""
    return f'{x:.3g}' if x < 1000 else f'{round(x, -int(math.log10(x)) + 2):,.0f}'


def cells(name, events, proved, plain):
    events, proved, plain = int(events), float(proved), float(plain)
    speeds = [number(events / t * 1e9) if events > 1000 else '' for t in (proved, plain)]
    return [INPUTS[name][0], f'{events:,}', number(proved / 1000), number(plain / 1000), *speeds, f'{proved / plain:.2f}']


def table(lines):
    rows = [['Input', 'Events', 'Proved, µs', 'Plain, µs', 'Proved, events/s', 'Plain, events/s', 'Ratio']]
    rows += [cells(*line.split()) for line in lines if len(line.split()) == 4]
    widths = [max(len(row[i]) for row in rows) for i in range(7)]
    rows.insert(1, [('-' * width if i == 0 else '-' * (width - 1) + ':') for i, width in enumerate(widths)])
    for row in rows:
        padded = [cell.ljust(width) if i == 0 else cell.rjust(width) for i, (cell, width) in enumerate(zip(row, widths))]
        print('| ' + ' | '.join(padded) + ' |')


OLDER = '**Measured on older code than the newest section here.**\n'


def dated(section, code):
    """A section as it was measured, with a line more if that was on other code."""
    told = section.replace(OLDER, '').strip()
    return told if f'code {code}' in told.split('\n', 1)[0] else OLDER + told


def page(kind, code, section):
    frame = pathlib.Path(HERE, 'TIMINGS.in').read_text(encoding='utf-8')
    path = pathlib.Path(HERE, '..', 'docs', 'TIMINGS.md')
    sections = dict(part.split('\n', 1) for part in path.read_text(encoding='utf-8').split('\n## ')[1:])
    sections[kind] = section
    text = '\n\n'.join(f'## {name}\n\n{dated(sections[name], code)}' for name in sorted(sections))
    path.write_text(frame.replace('@SECTIONS@', text), encoding='utf-8')


if __name__ == '__main__':
    if sys.argv[1] == 'table':
        table(sys.stdin)
    elif sys.argv[1] == 'page':
        page(sys.argv[2], sys.argv[3], sys.stdin.read())
    else:
        write(sys.argv[1])
