"""Sheets as bits and as lines of text, both ways.

Written from document 01 and the settled points of docs/DECISIONS.md, without
the proved definitions and code.

    sheet.py make lines.txt sheet.bits     writes the sheet that the lines say
    sheet.py make --anyway ...             also one that would be refused
    sheet.py show sheet.bits               prints the lines of a sheet

A line is one record, `end` the last one:

    file c=0 claim=3 path=a.log
    source file=0 id=7
    snapshot source=0 clock=3 reading=100 clock2=6 reading2=1000
    event source=0 clock=6 reading=5
    end

A path with other bytes than visible ASCII stands in quotes: "a b\\x00\\"\\\\".
Empty lines and those that start with # are passed over.
"""
import re
import signal
import sys
from collections import namedtuple

LONGEST = 65536
MOST = {'file': 32, 'source': 32, 'snapshot': 256}

# Kinds in the order of their numbers; the fields with their bits.
KINDS = ['end', 'file', 'source', 'snapshot', 'event']
FIELDS = {
    'file': [('c', 1), ('claim', 3), ('length', 8)],
    'source': [('file', 5), ('id', 32)],
    'snapshot': [('source', 5), ('clock', 3), ('reading', 64),
                 ('clock2', 3), ('reading2', 64)],
    'event': [('source', 5), ('clock', 3), ('reading', 64)],
    'end': [],
}

File = namedtuple('File', 'c claim path')
Source = namedtuple('Source', 'file id')
Snapshot = namedtuple('Snapshot', 'source clock reading clock2 reading2')
Event = namedtuple('Event', 'source clock reading')
End = namedtuple('End', '')
TYPES = {'file': File, 'source': Source, 'snapshot': Snapshot, 'event': Event,
         'end': End}
NAMES = {kind: name for name, kind in TYPES.items()}
Sheet = namedtuple('Sheet', 'files sources snapshots events')


class Fault(Exception):
    """A refusal of a sheet: its number, the reason, record and bit."""

    def __init__(self, number, reason, record=None, bit=None):
        super().__init__(reason)
        self.number, self.reason = number, reason
        self.record, self.bit = record, bit

    def __str__(self):
        place = ''
        if self.record is not None:
            place = f' in record {self.record}, which starts at bit {self.bit}'
        return f'refused {self.number}{place}: {self.reason}'


class Unwritable(Exception):
    """Lines that no sheet can hold."""


# From bits.

def field(sheet, at, width):
    """The unsigned number in `width` bits from bit `at` on."""
    last = (at + width + 7) // 8
    number = int.from_bytes(sheet[at // 8:last], 'big')
    return number >> (last * 8 - at - width) & ((1 << width) - 1)


def signed(number):
    return number - (1 << 64) if number >> 63 else number


def take(sheet, at, name):
    """The fields of a record that start at bit `at`, and the bit after."""
    values, bits = {}, 8 * len(sheet)
    for key, width in FIELDS[name]:
        if at + width > bits:
            raise Fault(26, f'the {name} is cut off in its field {key}')
        values[key] = field(sheet, at, width)
        if key.startswith('reading'):
            values[key] = signed(values[key])
        at += width
    if name == 'file':
        length = values.pop('length')
        if at + 8 * length > bits:
            raise Fault(26, 'the file is cut off in its path')
        values['path'] = field(sheet, at, 8 * length).to_bytes(length, 'big')
        at += 8 * length
    return TYPES[name](**values), at


def wrong(name, record, before):
    """Why 28 applies to a whole record after those in `before`, or None."""
    if name == 'file':
        if not record.path:
            return 'the path length is 0'
        return 'the claimed clock is 7' if record.claim == 7 else None
    if name == 'source':
        if record.file >= len(before['file']):
            return f'file {record.file} is not listed yet'
        if before['file'][record.file].c:
            return f'file {record.file} is a container'
        return None
    if record.source >= len(before['source']):
        return f'source {record.source} is not listed yet'
    clocks = [record.clock]
    if name == 'snapshot':
        clocks.append(record.clock2)
        if 0 in clocks:
            return 'a snapshot has clock 0'
        if clocks[0] == clocks[1]:
            return f'a snapshot has clock {clocks[0]} twice'
    return 'a clock is 7' if 7 in clocks else None


def ending(sheet, at):
    """29: after the end's kind, the byte's rest is zeros and the last."""
    rest = 8 * len(sheet) - at
    if rest >= 8:
        raise Fault(29, 'a byte follows the end')
    if rest and field(sheet, at, rest):
        raise Fault(29, 'a bit is set after the end')


def records(sheet):
    """Yields each record, the end too; raises a Fault of 25 to 30."""
    if not sheet:
        raise Fault(25, 'the sheet is empty')
    if len(sheet) > LONGEST:
        raise Fault(25, f'the sheet has {len(sheet)} bytes')
    before = {name: [] for name in KINDS}
    at, number, last = 0, 0, 1
    while True:
        try:
            record, after, last = step(sheet, at, before, last)
        except Fault as fault:
            fault.record, fault.bit = number, at
            raise
        yield record
        if isinstance(record, End):
            return
        at, number = after, number + 1


def step(sheet, at, before, last):
    """One record: it, the bit after it and its kind; 26 to 30 in order."""
    if at + 3 > 8 * len(sheet):
        raise Fault(26, 'a kind must come, and fewer than 3 bits are left')
    kind = field(sheet, at, 3)
    if kind >= len(KINDS):
        raise Fault(27, f'there is no kind {kind}')
    name = KINDS[kind]
    record, after = take(sheet, at + 3, name)
    if name == 'end':
        ending(sheet, after)
        return record, after, kind
    if kind < last:
        raise Fault(27, f'a {name} after a {KINDS[last]}')
    reason = wrong(name, record, before)
    if reason:
        raise Fault(28, reason)
    if len(before[name]) == MOST.get(name):
        raise Fault(30, f'more than {MOST[name]} {name}s')
    before[name].append(record)
    return record, after, kind


def twice(files, sources):
    """Raises the Fault 31."""
    paths = [file.path for file in files]
    for path in paths:
        if paths.count(path) > 1:
            raise Fault(31, f'the path {quoted(path)} stands twice')
    if len(set(sources)) < len(sources):
        raise Fault(31, 'a file and id stand twice')


def read(sheet):
    """The Sheet that the bytes are; raises a Fault of 25 to 31."""
    found = {kind: [] for kind in NAMES}
    for record in records(sheet):
        found[type(record)].append(record)
    twice(found[File], found[Source])
    return Sheet(found[File], found[Source], found[Snapshot], found[Event])


# To bits.

def bits_of(record):
    """The record as a string of 0 and 1."""
    name = NAMES[type(record)]
    text = format(KINDS.index(name), '03b')
    for key, width in FIELDS[name]:
        value = len(record.path) if key == 'length' else getattr(record, key)
        low = -(1 << 63) if key.startswith('reading') else 0
        high = (1 << 63 if key.startswith('reading') else 1 << width) - 1
        if not low <= value <= high:
            what = 'the path has' if key == 'length' else f'{key}='
            what += f' {value} bytes' if key == 'length' else str(value)
            raise Unwritable(f'{what}, not {low} to {high}')
        text += format(value % (1 << width), f'0{width}b')
    if name == 'file':
        text += ''.join(format(byte, '08b') for byte in record.path)
    return text


def packed(bits):
    """Bytes of a string of 0 and 1, zeros to the byte's end."""
    bits += '0' * (-len(bits) % 8)
    return int('0' + bits, 2).to_bytes(len(bits) // 8, 'big')


def write(listed):
    """The bytes of a list of records, the end among them."""
    return packed(''.join(map(bits_of, listed)))


# Lines.

WORD = re.compile(r'\s*(?:(\w+)=("(?:[^"\\]|\\.)*"|[^\s"]\S*)|(\S+))')
ESCAPE = re.compile(r'\\(x[0-9A-Fa-f]{2}|.)')


def quoted(path):
    """A path as it stands in a line."""
    if path and all(0x21 <= byte <= 0x7e and byte not in b'"\\' for byte in path):
        return path.decode()
    text = ''
    for byte in path:
        if byte in b'"\\':
            text += '\\' + chr(byte)
        else:
            text += chr(byte) if 0x20 <= byte <= 0x7e else f'\\x{byte:02x}'
    return f'"{text}"'


def unquoted(word):
    if not word.startswith('"'):
        return word.encode()
    path, at, word = b'', 0, word[1:-1]
    for escape in ESCAPE.finditer(word):
        path += word[at:escape.start()].encode()
        what, at = escape[1], escape.end()
        if len(what) == 3:
            path += bytes([int(what[1:], 16)])
        elif what in '"\\':
            path += what.encode()
        else:
            raise Unwritable(f'unknown escape \\{what} in a path')
    return path + word[at:].encode()


def record_of(line):
    """The record that a line says."""
    name, *rest = line.split(None, 1)
    if name not in TYPES:
        raise Unwritable(f'unknown record {name!r}: one of {", ".join(TYPES)}')
    values = {}
    for key, value, other in WORD.findall(rest[0].rstrip() if rest else ''):
        if other:
            raise Unwritable(f'{other!r} is not of the form key=value')
        if key not in TYPES[name]._fields:
            raise Unwritable(f'a {name} has no {key}')
        if key in values:
            raise Unwritable(f'{key} stands twice')
        if key == 'path':
            values[key] = unquoted(value)
        elif re.fullmatch('-?[0-9]{1,30}', value):
            values[key] = int(value)
        else:
            raise Unwritable(f'{key}={value} is no whole number')
    missing = [key for key in TYPES[name]._fields if key not in values]
    if missing:
        raise Unwritable(f'{missing[0]} is missing')
    return TYPES[name](**values)


def line_of(record):
    name = NAMES[type(record)]
    words = [name]
    for key in record._fields:
        value = getattr(record, key)
        words.append(f'{key}={quoted(value) if key == "path" else value}')
    return ' '.join(words)


def lines_to_records(text):
    """The records of a text and the line number of each."""
    listed, where = [], []
    for number, line in enumerate(text.split('\n'), 1):
        if not line.strip() or line.startswith('#'):
            continue
        try:
            if listed and isinstance(listed[-1], End):
                raise Unwritable('nothing may follow the end')
            listed.append(record_of(line))
            bits_of(listed[-1])
        except Unwritable as error:
            raise Unwritable(f'line {number}: {error}') from None
        where.append(number)
    if not listed or not isinstance(listed[-1], End):
        last = len(text.split('\n'))
        raise Unwritable(f'line {last}: the last record must be `end`')
    return listed, where


def make(text, anyway=False):
    """The bytes of the sheet that a text's lines say."""
    listed, where = lines_to_records(text)
    sheet = write(listed)
    try:
        read(sheet)
    except Fault as fault:
        if not anyway:
            place = '' if fault.record is None else f'line {where[fault.record]}: '
            raise Unwritable(f'{place}would be refused {fault.number}: {fault.reason}') from None
    return sheet


def show(sheet):
    """The lines of a sheet up to the fault, and the fault or None."""
    lines = []
    try:
        for record in records(sheet):
            lines.append(line_of(record))
        read(sheet)
    except Fault as fault:
        return lines, fault
    return lines, None


def main(words):
    anyway = '--anyway' in words
    words = [word for word in words if word != '--anyway']
    if len(words) == 3 and words[0] == 'make':
        with open(words[1], encoding='utf-8') as file:
            text = file.read()
        try:
            sheet = make(text, anyway)
        except Unwritable as error:
            print(f'{words[1]}: {error}', file=sys.stderr)
            return 1
        with open(words[2], 'wb') as file:
            file.write(sheet)
        return 0
    if len(words) == 2 and words[0] == 'show':
        with open(words[1], 'rb') as file:
            lines, fault = show(file.read())
        print('\n'.join(lines + ([str(fault)] if fault else [])))
        return 1 if fault else 0
    print(__doc__, file=sys.stderr)
    return 2


if __name__ == '__main__':
    # Whoever reads the lines may stop early, as head does.
    signal.signal(signal.SIGPIPE, signal.SIG_DFL)
    sys.exit(main(sys.argv[1:]))
