"""Cases and texts whose answers were decided by hand from document 01.

Written from document 01, the settled points of docs/DECISIONS.md and the
RFCs, without the proved definitions and code. An answer that is a number is a
refusal; other answers are the lines, without the last line feed.
"""
from sheet import make, packed
from texts import EXAMPLE

BAD = 'bad'
EDGE = (1 << 63) - 1


def lines(*said):
    """A sheet by its lines; the end is added, and faults are let through."""
    return make('\n'.join([*said, 'end']), True)


def bits(text):
    """A sheet by its bits, zeros to the byte's end."""
    return packed(text.replace(' ', ''))


def m(body=''):
    """A manifest of version 1 with more members."""
    return ('{"perfetto_manifest":{"version":1' + (',' + body if body else '') + '}}').encode()


def files(*entries):
    return m('"files":[' + ','.join(entries) + ']')


def nested(levels):
    """A manifest with a skipped member that reaches a level, from 3 on."""
    return m('"x":' + '[' * (levels - 2) + ']' * (levels - 2))


NONE = b''
NO_FILE = bytes([0])
OK = 'ok files 0 machines 1 trace -'
OK2 = 'ok files 0 machines 2 trace -'
OK3 = 'ok files 0 machines 3 trace -'
PROGRAM = bytes.fromhex('2C02C28000000001018000000000000001 40'.replace(' ', ''))
NAMED = '{"path":"a","machine":{"name":"x"}}'
A, B = '{"path":"a"}', '{"path":"b"}'
SPLIT = '{"path":"s","machines":[{"id":0,"name":"x"},{"id":9,"name":"y"}]}'
FILE_A, FILE_B, FILE_S = 'file c=0 claim=0 path=a', 'file c=0 claim=0 path=b', 'file c=0 claim=0 path=s'


def clocks(body, path='a'):
    return '{"path":"%s","clocks":{%s}}' % (path, body)


def to(body, more=''):
    """An entry a that is pinned, or related if `more` says so, to what body says."""
    return clocks(more + '"sync_to":{' + body + '}')


PIN = to('"file":"b"')


def related(machine):
    """An entry a of machine x whose BOOTTIME is related to a machine's in the split file."""
    sync = '{"file":"s","machine":"%s","clock":"BOOTTIME"}' % machine
    return '{"path":"a","machine":{"name":"x"},"clocks":{"clock":"BOOTTIME","sync_to":%s}}' % sync


def items(count, name='n%d'):
    """The items of a `machines`: ids from 0 on, all names different or all the same."""
    return ','.join('{"id":%d,"name":"%s"}' % (n, name % n if '%' in name else name) for n in range(count))


def split(path, count, name='n%d'):
    return '{"path":"%s","machines":[%s]}' % (path, items(count, name))


def time(body):
    """A member `trace_time` on BOOTTIME."""
    return '"trace_time":{"clock":"BOOTTIME"%s}' % body


MANIFEST = [
    # 1
    (OK, m() + b' ' * (65536 - len(m()))),
    (1, m() + b' ' * (65537 - len(m()))),
    (1, b'x' * 65537),
    # 2
    (OK, NONE),
    (OK, b' \t\r\n' + m()),
    (2, b' '),
    (2, b'\xef\xbb\xbf' + m()),
    (2, b'\f' + m()),
    (2, b'{ "perfetto_manifest":{"version":1}}'),
    (2, b'{"perfetto_manifest'),
    (2, EXAMPLE.replace(b'{', b'{\n', 1)),
    (2, m().replace(b'perfetto_manif', b'perfetto_m\\u0061nif')),
    (2, b'[' * 99),
    (2, b'{}'),
    # 3 and 4: the earlier byte
    (3, b'{"perfetto_manifest"'),
    (3, b'{"perfetto_manifest"x'),
    (3, m()[:-1]),
    (3, m() + b'x'),
    (3, m() + m()),
    (3, m('"x":"\\ud800"')),
    (3, m('"x":"\\udc00"')),
    (3, m('"x":01')),
    (3, m('"x":"').replace(b'"}}', b'"\xff"}}')),
    (3, m('"x":nul')),
    (3, m('"x":[,]')),
    (OK, m('"x":"\\ud800\\udc00"')),
    (OK, nested(16)),
    (4, nested(17)),
    (4, nested(17)[:-1]),
    (4, nested(17)[:-1] + b'x'),
    (3, nested(16) + b'['),
    (3, m('"x":[1').replace(b'[1', b'[1' + b'[' * 20)),
    (3, m('"y":01,"x":' + '[' * 20 + ']' * 20)),
    (4, m('"x":' + '[' * 20 + ']' * 20 + ',"y":01')),
    (4, m('"x":' + '{"a":' * 15)),
    (OK, m('"x":"' + '[' * 40 + '"')),
    # 5
    (5, b'{"perfetto_manifest":{"version":1},"x":1}'),
    (5, b'{"perfetto_manifest":{"version":1},"perfetto_manifest":{"version":1}}'),
    (5, b'{"perfetto_manifest":[]}'),
    (5, b'{"perfetto_manifest":1}'),
    (5, b'{"perfetto_manifest":null,"x":1}'),
    (5, b'{"perfetto_manifest":{},"x":1}'),
    # 6, 7
    (6, b'{"perfetto_manifest":{}}'),
    (6, b'{"perfetto_manifest":{"Version":1,"files":5}}'),
    (6, b'{"perfetto_manifest":{"x":{"version":1}}}'),
    (OK, b'{"perfetto_manifest":{"v\\u0065rsion":1}}'),
    *[(7, b'{"perfetto_manifest":{"version":%s}}' % value) for value in (
        b'2', b'0', b'-0', b'-1', b'1.0', b'1e0', b'10e-1', b'"1"', b'null', b'true', b'[1]', b'{}', b'1' * 5000)],
    (7, b'{"perfetto_manifest":{"version":1,"version":2}}'),
    (7, b'{"perfetto_manifest":{"version":"1","version":1}}'),
    (8, b'{"perfetto_manifest":{"version":1,"version":1}}'),
    # 8
    (8, m('"files":[],"files":[]')),
    (8, m('"files":5,"f\\u0069les":[]')),
    (8, m(time(',"clock":5'))),
    (8, files('{"path":"a","path":"a"}')),
    (8, files('{"machine":{"name":"x","name":"x"}}')),
    (8, files('{"machines":[5,{"id":1,"id":1}]}')),
    (8, files('5', '{"clocks":{"offset_ns":0,"offset_ns":0}}')),
    (8, files('{"clocks":{"sync_to":{"file":"b","file":"b"}}}')),
    (OK, m('"x":1,"x":2')),
    (OK, m('"x":{"version":1,"version":2}')),
    (OK, files('{"path":"a","version":1,"version":2}')),
    # Nothing is looked at below a wrong place.
    (9, files('{"path":"a","machine":[{"name":"x","name":"x"}]}')),
    (9, m('"files":{"path":"a","path":"a"}')),
    (9, m('"trace_time":{"clock":"BOOTTIME","machine":{"name":1,"name":2}}')),
    # 9
    (9, m('"trace_time":[]')),
    (9, m('"trace_time":null')),
    (9, m('"trace_time":{}')),
    (9, m('"trace_time":{"clock":6}')),
    (9, m(time(',"file":1'))),
    (9, m('"files":null')),
    (9, files('null')),
    (9, files('[]')),
    (9, files('{}')),
    (9, files('{"path":1}')),
    (9, files('{"path":"a","machine":"x"}')),
    (9, files('{"path":"a","machine":{}}')),
    (9, files('{"path":"a","machine":{"name":null}}')),
    (9, files('{"path":"a","machines":{}}')),
    (9, files('{"path":"a","machines":[1]}')),
    (9, files('{"path":"a","machines":[{"id":1}]}')),
    (9, files('{"path":"a","machines":[{"name":"x"}]}')),
    *[(9, files('{"path":"a","machines":[{"id":%s,"name":"x"}]}' % value)) for value in (
        '1.0', '1e3', '"1"', 'null', '[]', '4294967296.0')],
    (9, files('{"path":"a","clocks":[]}')),
    (9, files(clocks('"sync_to":null'))),
    (9, files(to('"file":1'))),
    (9, files(to('"file":null'))),
    (9, files(to('"file":"b","clock":1'), B)),
    (9, files(to('"file":"b","machine":{}'), B)),
    (9, files(to('"file":"b"', '"clock":null,'), B)),
    (9, files(to('"file":"b"', '"machine":0,'), B)),
    # 10: sizes in bytes after unescaping
    ('ok files 0 machines 32 trace -', files(split('a', 31))),
    (OK, files(*['{"path":"p%d"}' % n for n in range(32)])),
    (10, files(*['{"path":"p%d"}' % n for n in range(33)])),
    (10, files(split('a', 33, 'x'))),
    (OK2, files(split('a', 32, 'x'))),
    (10, files('{"path":""}')),
    (OK, files('{"path":"%s"}' % ('p' * 255))),
    (10, files('{"path":"%s"}' % ('p' * 256))),
    (10, files('{"path":"%s"}' % ('\u00e9' * 128))),
    (OK, files('{"path":"%s"}' % ('\\u0061' * 255))),
    (OK, files('{"path":"%s"}' % ('\\u00e9' * 127))),
    (10, files('{"path":"%s"}' % ('\\u00e9' * 128))),
    (10, files('{"path":"%s"}' % ('\\ud83d\\ude00' * 64))),
    (OK, files('{"path":"%s"}' % ('\\ud83d\\ude00' * 63))),
    (OK2, files('{"path":"a","machine":{"name":"%s"}}' % ('n' * 64))),
    (10, files('{"path":"a","machine":{"name":"%s"}}' % ('n' * 65))),
    (10, files('{"path":"a","machines":[{"id":0,"name":"%s"}]}' % ('n' * 65))),
    (10, files(to('"file":""'))),
    (10, files(to('"file":"%s"' % ('p' * 256)))),
    (10, m(time(',"file":""'))),
    (10, m('"trace_time":{"clock":"X","machine":""}')),
    (10, files(to('"machine":"%s"' % ('n' * 65)))),
    (10, files(to('', '"machine":"",'))),
    (11, m('"trace_time":{"clock":"%s"}' % ('X' * 300))),
    # 11
    (11, m('"trace_time":{"clock":"boottime"}')),
    (11, m('"trace_time":{"clock":""}')),
    (11, m('"trace_time":{"clock":"BOOTTIME\\u0000"}')),
    (OK, m('"trace_time":{"clock":"BOOT\\u0054IME"}')),
    (11, files(to('"file":"b"', '"clock":"X",'), B)),
    (11, files(to('"file":"b","clock":"REALTIME_"'), B)),
    (11, files(to('"clock":"X"'))),
    *[(OK, m('"trace_time":{"clock":"%s"}' % name)) for name in (
        'REALTIME', 'REALTIME_COARSE', 'MONOTONIC', 'MONOTONIC_COARSE', 'MONOTONIC_RAW', 'BOOTTIME')],
    # 12, 13
    (12, files('{"path":"a","machine":{"name":"x"},"machines":[]}')),
    (12, files('{"path":"a","machine":{"name":""},"machines":[{"id":-1,"name":""}]}')),
    (13, files('{"path":"a","machine":{"name":""}}')),
    (13, files('{"path":"a","machines":[{"id":-1,"name":""}]}')),
    # 14
    (OK2, files('{"path":"a","machines":[{"id":4294967295,"name":"x"}]}')),
    (14, files('{"path":"a","machines":[{"id":4294967296,"name":"x"}]}')),
    (14, files('{"path":"a","machines":[{"id":-1,"name":"x"}]}')),
    (14, files('{"path":"a","machines":[{"id":%s,"name":"x"}]}' % ('9' * 5000))),
    (OK2, files('{"path":"a","machines":[{"id":-0,"name":"x"}]}')),
    # 15
    (15, files(A, A)),
    (15, files(A, '{"path":"\\u0061"}')),
    (OK, files(A, '{"path":"A"}')),
    (15, files('{"path":"a","machines":[{"id":0,"name":"x"},{"id":-0,"name":"y"}]}')),
    (OK2, files('{"path":"a","machines":[{"id":0,"name":"x"},{"id":1,"name":"x"}]}')),
    (OK2, files('{"path":"a","machines":[{"id":1,"name":"x"}]}', '{"path":"b","machines":[{"id":1,"name":"x"}]}')),
    (15, files(A, to(''))),
    # 16, 17, 18, 19
    (16, files(clocks(''))),
    (16, files(clocks('"clock":"BOOTTIME","offset_ns":"x"'))),
    (17, files(to('"machine":"x"'))),
    (17, m(time(',"machine":"x"'))),
    (16, m('"trace_time":{"clock":"BOOTTIME","machine":"x"},"files":[%s]' % clocks(''))),
    (18, files(to(''))),
    (18, files(to('"clock":"BOOTTIME"'))),
    (18, files(to('', '"offset_ns":"x",'))),
    (19, files(to('"file":"b"'))),
    (19, m(time(',"file":"b"'))),
    (19, files(to('"file":"b","machine":"x"', '"machine":"x",'))),
    # 20, 21
    (20, files('{"path":"a","machines":[],"clocks":{"sync_to":{"file":"b"}}}', B)),
    (20, files('{"path":"a","machines":[{"id":0,"name":"x"}],'
               '"clocks":{"clock":"BOOTTIME","sync_to":{"file":"b"}}}', B)),
    (20, files(to('"file":"s"'), SPLIT)),
    (20, files(to('"file":"s","clock":"BOOTTIME"'), SPLIT)),
    (OK3, files(to('"file":"s","machine":"y"'), SPLIT)),
    (OK3, m(time(',"file":"s"') + ',"files":[%s]' % SPLIT)),
    (20, files('{"path":"a","machines":[],"clocks":{"sync_to":{"file":"b","machine":"x"}}}', B)),
    (21, files(to('"file":"s","machine":"z"'), SPLIT)),
    (21, files(to('"file":"b","machine":"x"'), B)),
    (21, files(to('"file":"b"', '"machine":"x",'), B)),
    (21, m(time(',"file":"b","machine":"x"') + ',"files":[%s]' % B)),
    (21, files('{"path":"a","machines":[],"clocks":{"machine":"x","sync_to":{"file":"b"}}}', B)),
    (21, m(time(',"file":"s","machine":"X"') + ',"files":[%s]' % SPLIT)),
    (OK3, m(time(',"file":"s","machine":"y"') + ',"files":[%s]' % SPLIT)),
    # 22, 23
    *[(22, files(to('"file":"b"', '"offset_ns":%s,' % value), B)) for value in (
        '1.0', '1e3', '"1"', 'null', 'true', '[]', '{}', '-0.0')],
    (23, files(to('"file":"b"', '"offset_ns":-9223372036854775808,'), B)),
    (OK, files(to('"file":"b"', '"offset_ns":-9223372036854775807,'), B)),
    (OK, files(to('"file":"b"', '"offset_ns":9223372036854775807,'), B)),
    (23, files(to('"file":"b"', '"offset_ns":9223372036854775808,'), B)),
    (23, files(to('"file":"b"', '"offset_ns":-%s,' % ('9' * 5000)), B)),
    (OK, files(to('"file":"b"', '"offset_ns":-0,'), B)),
    (OK, files('{"path":"a","offset_ns":"x",'
               '"clocks":{"x":{"offset_ns":"y"},"sync_to":{"file":"b","offset_ns":1.5}}}', B)),
    (22, files(to('"file":"b"', '"offset_ns":1.5,'),
               clocks('"offset_ns":-9223372036854775808,"sync_to":{"file":"a"}', 'b'))),
    # 24: by the manifest alone
    (24, files(to('"file":"a"'))),
    (24, files(to('"file":"b","clock":"BOOTTIME"', '"clock":"BOOTTIME",'), B)),
    (OK, files(to('"file":"b","clock":"REALTIME"', '"clock":"BOOTTIME",'), B)),
    (OK, files(to('"file":"b"'), clocks('"sync_to":{"file":"a"}', 'b'))),
    (OK, files(to('"file":"a","clock":"BOOTTIME"'))),
    (OK, files(to('"file":"a"', '"clock":"BOOTTIME",'))),
    (OK2, files(to('"file":"b","clock":"BOOTTIME"', '"clock":"BOOTTIME",'), '{"path":"b","machine":{"name":"host"}}')),
    (24, files(related('x'), SPLIT)),
    (OK3, files(related('y'), SPLIT)),
    # A smaller number is found behind a larger one.
    (6, b'{"perfetto_manifest":{"files":[{"path":""}]}}'),
    (9, files('{"path":"a","clocks":{"offset_ns":"x"}}', '{}')),
    (10, m('"trace_time":{"clock":"X"},"files":[%s,{"path":""}]' % to('"machine":"x"'))),
]



def file(container, claim, path):
    return 'file c=%d claim=%d path=%s' % (container, claim, path)


def source(number, each):
    return 'source file=%d id=%d' % (number, each)


def shot(number, clock, reading, clock2, reading2):
    return 'snapshot source=%d clock=%d reading=%d clock2=%d reading2=%d' % (number, clock, reading, clock2, reading2)


def event(number, clock, reading):
    return 'event source=%d clock=%d reading=%d' % (number, clock, reading)


EV = 'event source=0 clock=6 reading=5'
SRC = 'source file=0 id=0'
SHOT = 'snapshot source=0 clock=3 reading=1 clock2=6 reading2=2'
MANY = ['file c=0 claim=0 path=p%d' % n for n in range(32)]

SHEET = [
    # 25, 26
    (25, b''),
    (OK, NO_FILE),
    (29, bytes(65536)),
    (25, bytes(65537)),
    (25, b'\xff' * 65537),
    (26, bits('001 0 000 00000001')),
    (26, bits('001 0 000 00000010 01100001 00')),
    (26, PROGRAM[:-1]),
    (26, PROGRAM[:1]),
    (26, bits('001 0 110 00000001 01100001')[:2]),
    (26, bits('001 1 000 00000001 01100001 0')[:2]),
    (26, bits('001 0 111')),
    (26, bits('010 00000')),
    (26, bits('100 00000 111 0000')),
    # A cut-off record of a lower kind, and fewer than 3 bits left
    (26, bits('001 0 000 00000001 01100001 010 00000' + '0' * 32 + '001 0 000 00001')),
    (26, lines(FILE_A, SRC)[:-1]),
    # 27
    (27, bits('101')),
    (27, bits('110 11111')),
    (27, bits('111')),
    (27, lines(FILE_A, SRC, FILE_B)),
    (27, lines(FILE_A, SRC, EV, SHOT)),
    (27, lines(FILE_A, SRC, EV, SRC)),
    (27, lines(FILE_A, SRC, 'file c=0 claim=7 path=b')),
    (27, bits('101 11111 1111')),
    # 28
    (28, lines('file c=0 claim=0 path=""')),
    (28, lines('file c=0 claim=7 path=a')),
    (28, lines('source file=0 id=0')),
    (28, lines(FILE_A, 'source file=1 id=0')),
    (28, lines('file c=1 claim=0 path=a', SRC)),
    (28, lines(FILE_A, EV)),
    (28, lines(FILE_A, SHOT)),
    (28, lines(FILE_A, SRC, SHOT.replace('clock=3', 'clock=0'))),
    (28, lines(FILE_A, SRC, SHOT.replace('clock2=6', 'clock2=0'))),
    (28, lines(FILE_A, SRC, SHOT.replace('clock=3', 'clock=6'))),
    (28, lines(FILE_A, SRC, SHOT.replace('clock2=6', 'clock2=7'))),
    (28, lines(FILE_A, SRC, EV.replace('clock=6', 'clock=7'))),
    (28, lines(FILE_A, SRC, EV.replace('source=0', 'source=1'))),
    (28, lines(FILE_A, SRC, SHOT.replace('source=0', 'source=1'))),
    (28, bits('001 0 000 00000000 101')),
    # 29, and an earlier record decides
    (29, b'\0\0'),
    (29, b'\1'),
    (29, b'\x10'),
    (29, PROGRAM + b'\0'),
    (29, PROGRAM[:-1] + b'\x41'),
    (28, lines('file c=0 claim=7 path=a', 'file c=0 claim=0 path=a') + b'x'),
    (27, bits('001 0 000 00000001 01100001 111 1')),
    (28, bits('001 0 111 00000001 01100001 111')),
    # 30
    ('ok files 32 machines 1 trace 192', lines(*MANY)),
    (30, lines(*MANY, FILE_A)),
    (28, lines(*MANY, 'file c=0 claim=7 path=a')),
    (30, lines(*MANY, MANY[0], 'source file=0 id=0', FILE_A)),
    (30, lines(FILE_A, *['source file=0 id=%d' % n for n in range(33)])),
    ('ok files 1 machines 32 trace 192', lines(FILE_A, *['source file=0 id=%d' % n for n in range(32)])),
    (30, lines(FILE_A, SRC, *[SHOT] * 257)),
    ('ok files 1 machines 1 trace 192', lines(FILE_A, SRC, *[SHOT] * 256)),
    (28, lines(FILE_A, SRC, *[SHOT] * 256, SHOT.replace('clock=3', 'clock=7'))),
    # 31
    (31, lines(FILE_A, FILE_A)),
    (31, lines(FILE_A, 'file c=1 claim=3 path=a')),
    (31, lines(FILE_A, SRC, SRC)),
    ('ok files 2 machines 1 trace 192', lines(FILE_A, FILE_B, 'source file=0 id=5', 'source file=1 id=5')),
    (28, lines(FILE_A, FILE_A, EV)),
]

BOTH = [
    # A manifest's number is the smaller one.
    (24, files(to('"file":"a"')), b''),
    (1, b'x' * 65537, b''),
    (25, m(), b''),
    # 32
    (32, files(A), lines(FILE_B)),
    (OK, files(A), NO_FILE),
    (31, files(A), lines(FILE_B, FILE_B)),
    ('ok files 1 machines 1 trace 192', files('{"path":"\\u0061"}'), lines(FILE_A)),
    ('ok files 2 machines 1 trace 192', files(B), lines(FILE_A, FILE_B)),
    # 33
    (33, files(PIN, B), lines(file(1, 0, 'a'), FILE_B)),
    (33, files(to('"file":"b","clock":"REALTIME"', '"clock":"BOOTTIME",'), B), lines(file(1, 0, 'a'), FILE_B)),
    (32, files(PIN, B), lines(file(1, 0, 'a'))),
    ('ok files 2 machines 1 trace 192', files(PIN, B), lines(FILE_A, file(1, 0, 'b'))),
    ('ok files 1 machines 2 trace 192', files(NAMED), lines(file(1, 0, 'a'))),
    # 34, 35
    (34, files(SPLIT), lines(FILE_S, source(0, 1))),
    (34, files('{"path":"s","machines":[]}'), lines(FILE_S, source(0, 0))),
    ('ok files 1 machines 3 trace 192', files(SPLIT), lines(FILE_S, source(0, 9), source(0, 0))),
    ('ok files 1 machines 1 trace 192', files('{"path":"s","machines":[]}'), lines(FILE_S)),
    (35, files(NAMED), lines(FILE_A, SRC, source(0, 1))),
    ('ok files 1 machines 2 trace 192', files(NAMED), lines(FILE_A, source(0, 1))),
    (34, files(NAMED, SPLIT), lines(FILE_A, FILE_S, source(0, 0), source(0, 1), source(1, 3))),
    # 36
    (36, files(PIN, B), lines(FILE_A, FILE_B, SRC, SHOT)),
    (36, files(PIN, B), lines(FILE_A, FILE_B, source(1, 0), source(0, 0), SHOT, SHOT.replace('source=0', 'source=1'))),
    ('ok files 2 machines 1 trace 192', files(PIN, B), lines(FILE_A, FILE_B, source(1, 0), SHOT)),
    # 37: all names count, and unnamed ids
    (37, files(split('a', 32)), NO_FILE),
    (37, files(split('b', 31)), lines(FILE_A, FILE_B, SRC, source(0, 7))),
    ('ok files 2 machines 32 trace 192', files(split('b', 31)), lines(FILE_A, FILE_B, source(0, 7))),
    (37, NONE, lines(FILE_A, *['source file=0 id=%d' % n for n in range(1, 33)])),
]

# Document 01's examples.
EX_FILES = ['file c=0 claim=0 path=%s' % path for path in ('phone.pftrace', 'watch.pftrace', 'app_log.json')]
EX_SHEET = lines(*EX_FILES, *['source file=%d id=0' % n for n in range(3)], event(2, 0, 7))
EX_FILE = EXAMPLE.replace(b'{"clock": "BOOTTIME"}', b'{"clock": "BOOTTIME", "file": "phone.pftrace"}', 1)


def listed(points, clock, event, goal):
    """A sheet with one list between clocks 3 and 6, and an event."""
    shots = ['snapshot source=0 clock=3 reading=%d clock2=6 reading2=%d' % point for point in points]
    return lines('file c=0 claim=%d path=a' % goal, SRC, *shots, 'event source=0 clock=%d reading=%d' % (clock, event))


LIST = [(100, 1000), (200, 1110)]
EXAMPLES = [
    (OK, NONE, NO_FILE),
    (25, NONE, b''),
    ('ok files 1 machines 1 trace 5\n0 at 5 graph 1 steps 0', NONE, PROGRAM),
    *[('ok files 1 machines 1 trace 5\n0 at %d graph 1 steps 1' % answer, NONE, listed(LIST, 3, t, 6))
      for t, answer in ((150, 1050), (199, 1099), (200, 1110), (50, 950))],
    ('ok files 1 machines 1 trace 2\n0 at 205 graph 1 steps 1', NONE, listed(LIST, 6, 1105, 3)),
    # -2^63 is no drop 2; it is before the start
    ('ok files 1 machines 1 trace 5\n0 dropped 3', NONE, listed([(EDGE, EDGE)], 3, -EDGE - 1, 6)),
    ('ok files 1 machines 1 trace 5\n0 dropped 2', NONE, listed([(0, 1)], 3, EDGE, 6)),
    ('ok files 1 machines 1 trace 5\n0 at 0 graph 1 steps 1', NONE, listed([(-EDGE - 1, 0)], 3, -EDGE - 1, 6)),
    ('ok files 1 machines 1 trace 5\n0 at %d graph 1 steps 1' % EDGE, NONE, listed([(-1, EDGE - 1)], 3, 0, 6)),
    ('ok files 3 machines 3 trace 5\n0 at 250000007 graph 3 steps 2', EXAMPLE, EX_SHEET),
    ('ok files 3 machines 3 trace 11\n0 at 250000007 graph 1 steps 1', EX_FILE, EX_SHEET),
    ('ok files 3 machines 3 trace 11\n0 dropped 3', EX_FILE.replace(b'250000000', b'-8'), EX_SHEET),
]

MORE = [
    # A list keeps one order: entries before snapshots, the first of equals, in both directions.
    ('ok files 1 machines 1 trace 5\n0 at 15 graph 1 steps 1', NONE, listed([(5, 15), (5, 25)], 3, 5, 6)),
    ('ok files 1 machines 1 trace 2\n0 at 5 graph 1 steps 1', NONE, listed([(5, 15), (9, 15)], 6, 15, 3)),
    ('ok files 1 machines 1 trace 5\n0 at 11 graph 1 steps 1', NONE, listed([(5, 15), (9, 19), (5, 25)], 3, 1, 6)),
    ('ok files 2 machines 1 trace 5\n0 at 7 graph 1 steps 1',
     files(to('"file":"b","clock":"BOOTTIME"', '"clock":"MONOTONIC","offset_ns":7,'), B),
     lines(file(0, 6, 'a'), FILE_B, SRC, shot(0, 3, 0, 6, 100), event(0, 3, 0))),
    # A pinned file's events are on its private clock, which gets no zero offset.
    ('ok files 2 machines 1 trace 5\n0 at 8 graph 1 steps 1\n1 at 9 graph 3 steps 1\n2 at 4 graph 1 steps 0',
     files(to('"file":"b","clock":"BOOTTIME"', '"offset_ns":5,'), B),
     lines(FILE_A, file(0, 6, 'b'), SRC, source(1, 0), event(0, 6, 3), event(1, 0, 9), event(1, 6, 4))),
    ('ok files 2 machines 1 trace 5\n0 at 8 graph 3 steps 2',
     files(PIN.replace('"sync_to"', '"offset_ns":5,"sync_to"'), B),
     lines(FILE_A, file(0, 6, 'b'), SRC, event(0, 6, 3))),
    # REALTIME is tried before equal domains: ids 1 and 2 are machines 1 and 2.
    ('ok files 1 machines 3 trace 5\n0 dropped 1\n1 at 43 graph 3 steps 1', NONE,
     lines(file(0, 6, 'a'), source(0, 1), source(0, 2), event(0, 1, 42), event(1, 6, 43))),
    ('ok files 1 machines 2 trace 5\n0 at 1042 graph 2 steps 3\n1 at 10 graph 3 steps 1', NONE,
     lines(file(0, 6, 'a'), source(0, 0), source(0, 4), shot(0, 1, 0, 6, 1000), shot(1, 3, 5, 1, 5),
           event(1, 3, 42), event(1, 6, 10))),
    # One source is on the host whatever its id; an id is one machine in all files.
    ('ok files 1 machines 1 trace 5\n0 at 3 graph 1 steps 0', NONE,
     lines(file(0, 6, 'a'), source(0, 77), event(0, 6, 3))),
    ('ok files 2 machines 3 trace 5\n0 at 1 graph 3 steps 1', NONE,
     lines(file(0, 6, 'a'), FILE_B, source(1, 5), source(1, 6), source(0, 6), source(0, 0), event(2, 6, 1))),
    # Trace time: the first claim that is neither pinned nor of a container; else file 0.
    ('ok files 3 machines 1 trace 2', files(PIN, B), lines(file(1, 1, 'c'), file(0, 2, 'a'), file(0, 3, 'b'))),
    ('ok files 2 machines 1 trace 192', files(PIN, B), lines(file(0, 6, 'a'), FILE_B)),
    ('ok files 1 machines 1 trace 192', NONE, lines(file(1, 6, 'a'))),
    ('ok files 1 machines 3 trace 11', files(SPLIT), lines(file(0, 6, 's'))),
    ('ok files 1 machines 3 trace 17', m(time(',"file":"s","machine":"y"') + ',"files":[%s]' % SPLIT), lines(FILE_S)),
    ('ok files 1 machines 3 trace 5', m(time('') + ',"files":[%s]' % SPLIT), lines(FILE_S)),
    ('ok files 1 machines 2 trace 5', files('{"path":"s","machines":[{"id":9,"name":"y"}]}'), lines(file(0, 6, 's'))),
    # Of paths equally short, the smaller first differing clock: by 1, not by 3.
    ('ok files 1 machines 1 trace 5\n0 at 11 graph 1 steps 2', NONE,
     lines(file(0, 6, 'a'), SRC, shot(0, 5, 0, 4, 100), shot(0, 4, 0, 6, 0), shot(0, 5, 0, 2, 10),
           shot(0, 2, 0, 6, 0), event(0, 5, 1))),
    # Drop 2 looks at the value after each pair, also if a later pair would bring it back.
    ('ok files 1 machines 1 trace 5\n0 dropped 2', NONE,
     lines(file(0, 6, 'a'), SRC, shot(0, 5, 0, 4, 10), shot(0, 4, 10, 6, 0), event(0, 5, EDGE))),
    ('ok files 1 machines 1 trace 5\n0 dropped 3\n1 at 0 graph 1 steps 0', NONE,
     lines(file(0, 6, 'a'), SRC, event(0, 6, -1), event(0, 6, 0))),
    # A drop in a lower graph does not make a higher one be tried.
    ('ok files 1 machines 2 trace 5\n0 dropped 3', NONE,
     lines(file(0, 6, 'a'), source(0, 0), source(0, 1), shot(0, 6, 5, 1, 500), shot(1, 6, 5, 1, 5), event(1, 6, 5))),
    # A container's private clock stands in graph 3 too.
    ('ok files 2 machines 1 trace 5\n0 at 9 graph 3 steps 2',
     m(time('') + ',"files":[%s,%s]' % (to('"file":"b"', '"offset_ns":4,'), B)),
     lines(file(1, 0, 'b'), FILE_A, source(1, 0), event(0, 0, 5))),
]

# Texts for the reader, with the byte decided by hand.
TEXTS = [
    (b'', BAD, 0),
    (b' ', BAD, 1),
    (b'{}', 'done', 2),
    (b' 1 ', 'done', 3),
    (b'\xef\xbb\xbf{}', BAD, 0),
    (b'\f1', BAD, 0),
    (b'{} x', BAD, 3),
    (b'1 2', BAD, 2),
    (b'01', BAD, 1),
    (b'-', BAD, 1),
    (b'-a', BAD, 1),
    (b'1.', BAD, 2),
    (b'1.e', BAD, 2),
    (b'1e+', BAD, 3),
    (b'1e5', 'done', 3),
    (b'+1', BAD, 0),
    (b'0', 'done', 1),
    (b'-0.0E-0', 'done', 7),
    (b'tru', BAD, 3),
    (b'trux', BAD, 3),
    (b'truee', BAD, 4),
    (b'nul]', BAD, 3),
    (b'NaN', BAD, 0),
    (b'nan', BAD, 1),
    (b'-Infinity', BAD, 1),
    (b'{"a":1,}', BAD, 7),
    (b'{,', BAD, 1),
    (b'{"a"}', BAD, 4),
    (b'{"a":}', BAD, 5),
    (b'{"a":1', BAD, 6),
    (b'{1', BAD, 1),
    (b'[1,]', BAD, 3),
    (b'[,', BAD, 1),
    (b'[1 2]', BAD, 3),
    (b'[}', BAD, 1),
    (b']', BAD, 0),
    (b'{"a" :\t[ ] }', 'done', 12),
    (b'"', BAD, 1),
    (b'"\n"', BAD, 1),
    (b'"\x1f"', BAD, 1),
    (b'"\x7f"', 'done', 3),
    (b'"\\a"', BAD, 2),
    (b'"\\u12g4"', BAD, 5),
    (b'"\\u123"', BAD, 6),
    (b'"\\U', BAD, 2),
    (b'"\\"', BAD, 3),
    (b'"\\', BAD, 2),
    (b'"\\ud800\\udc00"', 'done', 14),
    (b'"\\udc00"', BAD, 4),
    (b'"\\uDF', BAD, 4),
    (b'"\\ud800"', BAD, 7),
    (b'"\\ud800\\n', BAD, 8),
    (b'"\\ud800\\u0', BAD, 9),
    (b'"\\ud800\\ud8', BAD, 10),
    (b'"\\ud800\\udb', BAD, 10),
    (b'"\\ud800\\udc0"', BAD, 12),
    (b'"\\ud7ff\\ue000"', 'done', 14),
    (b'"\\ud800', BAD, 7),
    (b'"\xc3\xa9"', 'done', 4),
    (b'"\xc3"', BAD, 2),
    (b'"\xc0\x80"', BAD, 1),
    (b'"\xc1', BAD, 1),
    (b'"\x80"', BAD, 1),
    (b'"\xe0\x9f\xbf"', BAD, 2),
    (b'"\xe0\xa0\x80"', 'done', 5),
    (b'"\xed\x9f\xbf"', 'done', 5),
    (b'"\xed\xa0\x80"', BAD, 2),
    (b'"\xee\x80\x80"', 'done', 5),
    (b'"\xef\xbf\xbf"', 'done', 5),
    (b'"\xf0\x8f\xbf\xbf"', BAD, 2),
    (b'"\xf0\x90\x80\x80"', 'done', 6),
    (b'"\xf4\x8f\xbf\xbf"', 'done', 6),
    (b'"\xf4\x90\x80\x80"', BAD, 2),
    (b'"\xf5', BAD, 1),
    (b'"\xff"', BAD, 1),
    (b'"\xe2\x82"', BAD, 3),
    (b'"\xf0\x9f\x98', BAD, 4),
    (b'"\xe2\x82', BAD, 3),
    (b'\xc3\xa9', BAD, 0),
    (b'[' * 16 + b']' * 16, 'done', 32),
    (b'[' * 17, 'deep', 16),
    (b'[' * 17 + b']' * 17, 'deep', 16),
    (b'[' * 16, BAD, 16),
    (b'[' * 16 + b'x', BAD, 16),
    (b'{"a":' * 17, 'deep', 80),
    (b'[' * 15 + b'{}' + b']' * 15, 'done', 32),
    (b'[' * 16 + b'{}', 'deep', 16),
    (b'[' * 16 + b'1[', BAD, 17),
    (b'{[', BAD, 1),
    (b'[' * 15 + b'01,[[', BAD, 16),
    (b'[[],' + b'[' * 16, 'deep', 19),
    (b'["' + b'[' * 20 + b'"]', 'done', 24),
    (b'[' * 16 + b']' * 16 + b'[', BAD, 32),
]
TREES = [
    (b'{"a":1,"\\u0061":[true,null,"\\ud83d\\ude00\\n"]}',
     ('object', [(b'a', ('number', b'1')),
                 (b'a', ('array', [('true', None), ('null', None), ('string', b'\xf0\x9f\x98\x80\n')]))])),
    (b'-0.5E+3', ('number', b'-0.5E+3')),
    (b'"\\/\\"\\\\\xc3\xa9\\u00e9"', ('string', b'/"\\\xc3\xa9\xc3\xa9')),
    (b'[]', ('array', [])),
    (b'{}', ('object', [])),
]
