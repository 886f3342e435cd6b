"""The manifest: refusals 1 to 24, and what an accepted one says.

Written from document 01, the settled points of docs/DECISIONS.md and the
RFCs, without the proved definitions and code.

The rules are asked in the order of their numbers. Where one is asked, no
smaller number applies, so it may rely on all that those would have refused.
"""
import re
from collections import namedtuple

import reader

LONGEST = 65536
START = b'{"perfetto_manifest"'
ENTRIES = ITEMS = 32
PATH, NAME = 255, 64
CLOCKS = {b'REALTIME': 1, b'REALTIME_COARSE': 2, b'MONOTONIC': 3,
          b'MONOTONIC_COARSE': 4, b'MONOTONIC_RAW': 5, b'BOOTTIME': 6}
HOST = None

# The known members of each place with what they must be: a JSON kind, a place
# (an object there) or a list of a place (an array of such objects). 'any' is
# judged by a rule of its own.
KNOWN = {
    'manifest': {b'version': 'any', b'trace_time': 'trace_time', b'files': ['entry']},
    'trace_time': {b'clock': 'string', b'file': 'string', b'machine': 'string'},
    'entry': {b'path': 'string', b'machine': 'machine', b'machines': ['item'],
              b'clocks': 'clocks'},
    'machine': {b'name': 'string'},
    'item': {b'id': 'integer', b'name': 'string'},
    'clocks': {b'clock': 'string', b'machine': 'string', b'sync_to': 'sync_to',
               b'offset_ns': 'any'},
    'sync_to': {b'file': 'string', b'machine': 'string', b'clock': 'string'},
}
REQUIRED = {'manifest': [], 'trace_time': [b'clock'], 'entry': [b'path'],
            'machine': [b'name'], 'item': [b'id', b'name'],
            'clocks': [], 'sync_to': []}

# What an accepted manifest says. A clock is a domain 1 to 6 or 0, private.
Manifest = namedtuple('Manifest', 'trace_time entries')
TraceTime = namedtuple('TraceTime', 'clock machine')
Entry = namedtuple('Entry', 'path machine machines relation')
Relation = namedtuple('Relation', 'clock machine file file_clock file_machine offset')
NOTHING = Manifest(None, [])


class Refused(Exception):
    def __init__(self, number):
        super().__init__(number)
        self.number = number


def integer(value):
    """The whole number that a JSON value is, or None."""
    kind, text = value
    if kind != 'number' or not re.fullmatch(rb'-?[0-9]+', text):
        return None
    # A longer one is out of every range; Python reads only some thousand digits.
    return int(text[:40])


def walk(place, value, found, wrong):
    """Lists the known objects from a place down, and what has a wrong type."""
    kind, members = value
    if kind != 'object':
        wrong.append((place, kind))
        return
    found.append((place, members))
    for name, member in members:
        wanted = KNOWN[place].get(name, 'any')
        if isinstance(wanted, list):
            if member[0] != 'array':
                wrong.append((place, name))
                continue
            for item in member[1]:
                walk(wanted[0], item, found, wrong)
        elif wanted in KNOWN:
            walk(wanted, member, found, wrong)
        elif wanted == 'integer':
            if integer(member) is None:
                wrong.append((place, name))
        elif wanted not in ('any', member[0]):
            wrong.append((place, name))


def known_twice(found):
    for place, members in found:
        names = [name for name, _ in members if name in KNOWN[place]]
        if len(set(names)) < len(names):
            return True
    return False


def absent(found):
    return any(name not in dict(members)
               for place, members in found for name in REQUIRED[place])


def check_bytes(text):
    """1 to 4; gives the tree."""
    if len(text) > LONGEST:
        raise Refused(1)
    if not text.lstrip(b' \t\n\r').startswith(START):
        raise Refused(2)
    try:
        return reader.tree(text)
    except reader.Bad:
        raise Refused(3) from None
    except reader.Deep:
        raise Refused(4) from None


def check_shape(root):
    """5 to 9; gives the manifest object with unique members of right types."""
    members = root[1]
    if len(members) != 1 or members[0][1][0] != 'object':
        raise Refused(5)
    top = members[0][1]
    versions = [value for name, value in top[1] if name == b'version']
    if not versions:
        raise Refused(6)
    if any(integer(version) != 1 for version in versions):
        raise Refused(7)
    found, wrong = [], []
    walk('manifest', top, found, wrong)
    if known_twice(found):
        raise Refused(8)
    if wrong or absent(found):
        raise Refused(9)
    return plain('manifest', top)


def plain(place, value):
    """Known members as a dict of Python values; offset_ns stays as it is."""
    said = {}
    for name, member in value[1]:
        wanted = KNOWN[place].get(name)
        key = name.decode('utf-8')
        if wanted is None:
            continue
        if isinstance(wanted, list):
            said[key] = [plain(wanted[0], item) for item in member[1]]
        elif wanted in KNOWN:
            said[key] = plain(wanted, member)
        elif wanted == 'integer':
            said[key] = integer(member)
        else:
            said[key] = member if wanted == 'any' else member[1]
    return said


class Rules:
    """10 to 24, a method each; `said` is the manifest object."""

    def __init__(self, said):
        self.entries = said.get('files', [])
        self.trace_time = said.get('trace_time')
        self.related = [(entry, entry['clocks']) for entry in self.entries
                        if 'clocks' in entry]
        self.syncs = [clocks['sync_to'] for _, clocks in self.related
                      if 'sync_to' in clocks]
        # What may cite a file: each sync_to, and trace_time.
        self.citing = self.syncs + ([self.trace_time] if self.trace_time else [])
        self.names = []
        for entry in self.entries:
            self.names += [entry['machine']['name']] if 'machine' in entry else []
            self.names += [item['name'] for item in entry.get('machines', [])]

    def entry(self, path):
        """The entry of a path, or None."""
        return next((entry for entry in self.entries if entry['path'] == path), None)

    def rule_10(self):
        paths = [entry['path'] for entry in self.entries]
        paths += [place['file'] for place in self.citing if 'file' in place]
        cited = [place['machine'] for place in self.citing if 'machine' in place]
        cited += [clocks['machine'] for _, clocks in self.related if 'machine' in clocks]
        return (len(self.entries) > ENTRIES
                or any(len(entry.get('machines', [])) > ITEMS for entry in self.entries)
                or any(not 1 <= len(path) <= PATH for path in paths)
                or any(not 1 <= len(name) <= NAME for name in cited)
                or any(len(name) > NAME for name in self.names))

    def rule_11(self):
        places = self.citing + [clocks for _, clocks in self.related]
        return any(place['clock'] not in CLOCKS for place in places if 'clock' in place)

    def rule_12(self):
        return any('machine' in entry and 'machines' in entry for entry in self.entries)

    def rule_13(self):
        return b'' in self.names

    def rule_14(self):
        return any(not 0 <= item['id'] <= 4294967295
                   for entry in self.entries for item in entry.get('machines', []))

    def rule_15(self):
        lists = [[entry['path'] for entry in self.entries]]
        lists += [[item['id'] for item in entry.get('machines', [])]
                  for entry in self.entries]
        return any(len(set(listed)) < len(listed) for listed in lists)

    def rule_16(self):
        return any('sync_to' not in clocks for _, clocks in self.related)

    def rule_17(self):
        return any('machine' in place and 'file' not in place for place in self.citing)

    def rule_18(self):
        return any('file' not in sync for sync in self.syncs)

    def rule_19(self):
        return any(self.entry(place['file']) is None
                   for place in self.citing if 'file' in place)

    def rule_20(self):
        return (any('machines' in entry and 'machine' not in clocks
                    for entry, clocks in self.related)
                or any('machines' in self.entry(sync['file']) and 'machine' not in sync
                       for sync in self.syncs))

    def rule_21(self):
        cited = [(entry, clocks['machine']) for entry, clocks in self.related
                 if 'machine' in clocks]
        cited += [(self.entry(place['file']), place['machine'])
                  for place in self.citing if 'machine' in place]
        return any(name not in declared(entry) for entry, name in cited)

    def rule_22(self):
        return any(integer(clocks['offset_ns']) is None
                   for _, clocks in self.related if 'offset_ns' in clocks)

    def rule_23(self):
        return any(abs(offset(clocks)) > (1 << 63) - 1 for _, clocks in self.related)

    def rule_24(self):
        return any(self.ends(entry)[0] == self.ends(entry)[1]
                   for entry, _ in self.related)

    def ends(self, entry):
        """The source and the reference clock of an entry's `clocks`."""
        clocks = entry['clocks']
        sync = clocks['sync_to']
        return clock_of(entry, clocks), clock_of(self.entry(sync['file']), sync)


def declared(entry):
    """The machine names that an entry's file declares."""
    if 'machine' in entry:
        return [entry['machine']['name']]
    return [item['name'] for item in entry.get('machines', [])]


def base(entry):
    """The base machine of an entry's file: a name, or the host."""
    if 'machine' in entry:
        return entry['machine']['name']
    return next((item['name'] for item in entry.get('machines', [])
                 if item['id'] == 0), HOST)


def clock_of(entry, place):
    """The clock that `clocks` or `sync_to` names in an entry's file."""
    if 'clock' not in place:
        return ('private', entry['path'])
    return (place.get('machine', base(entry)), CLOCKS[place['clock']])


def offset(clocks):
    return integer(clocks.get('offset_ns', ('number', b'0')))


def relation(rules, entry):
    if 'clocks' not in entry:
        return None
    clocks = entry['clocks']
    sync = clocks['sync_to']
    there = rules.entry(sync['file'])
    return Relation(CLOCKS.get(clocks.get('clock'), 0), clocks.get('machine', base(entry)),
                    sync['file'], CLOCKS.get(sync.get('clock'), 0),
                    sync.get('machine', base(there)), offset(clocks))


def meaning(rules):
    """What a manifest says to which no refusal applies."""
    entries = []
    for entry in rules.entries:
        machine = entry['machine']['name'] if 'machine' in entry else None
        machines = None
        if 'machines' in entry:
            machines = {item['id']: item['name'] for item in entry['machines']}
        entries.append(Entry(entry['path'], machine, machines, relation(rules, entry)))
    time = rules.trace_time
    if time is not None:
        there = rules.entry(time['file']) if 'file' in time else None
        machine = time.get('machine', base(there) if there else HOST)
        time = TraceTime(CLOCKS[time['clock']], machine)
    return Manifest(time, entries)


def read(text):
    """The Manifest that the bytes are; raises Refused with 1 to 24."""
    if not text:
        return NOTHING
    rules = Rules(check_shape(check_bytes(text)))
    for number in range(10, 25):
        if getattr(rules, f'rule_{number}')():
            raise Refused(number)
    return meaning(rules)
