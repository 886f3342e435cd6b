"""Texts for the readers of JSON: made by hand for each clause, then mutations.

Written from RFC 8259, RFC 3629, document 01 and the settled points of
docs/DECISIONS.md, without the proved definitions and code.

`texts(seed, count)` gives the texts by hand and then mutations of manifests;
text number i of a seed is the same however many are asked for.
"""
import random

COUNT = 21000

EXAMPLE = b'''{"perfetto_manifest": {
"version": 1,
"trace_time": {"clock": "BOOTTIME"},
"files": [
{"path": "phone.pftrace", "machine": {"name": "phone"}},
{"path": "watch.pftrace", "machine": {"name": "watch"}},
{
"path": "app_log.json",
"clocks": {
"sync_to": {"file": "phone.pftrace", "clock": "BOOTTIME"},
"offset_ns": 250000000
}
}
]
}
}'''

MANIFESTS = [
    EXAMPLE,
    b'{"perfetto_manifest":{"version":1}}',
    b' \r\n\t{"perfetto_manifest" : { "version" : 1 , "files" : [ ] } } \n',
    b'{"perfetto_manifest":{"version":1,"files":[{"path":"r","machines":['
    b'{"id":0,"name":"host"},{"id":4294967295,"name":"vm"}],"clocks":{"clock":'
    b'"MONOTONIC","machine":"vm","sync_to":{"file":"r","machine":"host","clock":'
    b'"REALTIME"},"offset_ns":-9223372036854775807}}]}}',
    '{"perfetto_manifest":{"version":1,"no\u00ebl":[true,false,null,-0,1.5e-7,0E+1,'
    '"\u20ac\U0001f600"],"files":[{"p\\u0061th":"\\ud83d\\ude00\\/\\b\\f\\n\\r\\t'
    '\\"\\\\"}]}}'.encode(),
    b'{"perfetto_manifest":{"version":1,"x":[[[[[[[[[[[[[[]]]]]]]]]]]]]]}}',
    b'{"perfetto_manifest":{"version":1,"x":{"a":[{"a":[{"a":[{"a":[{"a":[{"a":'
    b'[{"a":[1]}]}]}]}]}]}]}}}',
]

STRUCTURE = [
    b'', b' ', b'\t\n\r ', b'\f{}', b'\v1', b'\xa0 1', b'\xef\xbb\xbf{}', b'\xfe\xff', b'\xff\xfe{\0}\0', b'{}',
    b'[]', b'{ }', b'[ ]', b' {} ', b'{', b'[', b'}', b']', b'{]', b'[}', b'[)', b'{"a"}', b'{"a":}', b'{"a":1',
    b'{"a":1,', b'{"a":1,}', b'{,}', b'{:1}', b'{"a" 1}', b'{"a"=1}', b'{"a"::1}', b'{"a":1 "b":2}',
    b'{"a":1,,"b":2}', b'{1:2}', b'{a:1}', b"{'a':1}", b'{null:1}', b'{"a":1}}', b'{"a":1}]', b'{[]:1}',
    b'{"a":1,"a":2}', b'{"":0}', b'{"a":{"a":{"a":{}}}}', b'{"a" :\n1\t,\r"b": [ ] }', b'[1,]', b'[,1]', b'[1,,2]',
    b'[1 2]', b'[1;2]', b'[1:2]', b'[1', b'[1,', b'[[]', b'[]]', b'[[],{}]', b'[{},[]]', b'[1,"a",null,{}]', b'1',
    b' 1 ', b'"a"', b'null', b'{}{}', b'{} {}', b'[][]', b'1 2', b'1,', b'{},', b'null null', b'{}x', b'{}\0',
    b'\0{}', b'{}//', b'/**/{}', b'#', b'{}\n\n', b'{} \f', b'[1]"', b'""""',
]
LITERALS = [
    b'true', b'false', b'null', b'True', b'TRUE', b'tru', b't', b'f', b'n', b'nul', b'nulL', b'fals', b'truee',
    b'nullx', b'truefalse', b'[true]', b'[true false]', b'[trux]', b'[nul]', b'[fal,]', b'NaN', b'[NaN]', b'nan',
    b'Infinity', b'-Infinity', b'[Infinity]', b'inf', b'undefined', b'None', b'n ull', b'tr\\u0075e', b'yes',
    b'[true,false,null]', b'tRue', b'{"a":true}', b'{true:1}',
]
NUMBERS = [
    b'0', b'-0', b'-', b'+1', b'00', b'01', b'-01', b'-00', b'0.', b'0.0', b'.5', b'-.5', b'1.', b'1.e1', b'1.5',
    b'1..5', b'1.5.5', b'1e', b'1e+', b'1e-', b'1e5', b'1E5', b'1e+05', b'1e-00', b'1e5.5', b'1ee5', b'1e+-5',
    b'0e0', b'0E+0', b'-0e-0', b'0x10', b'1_000', b'1,000', b'1 000', b'--1', b'-+1', b'- 1', b'1-', b'1+', b'1-1',
    b'1a', b'1.a', b'1ea', b'-a', b'12345678901234567890', b'-9223372036854775808', b'9223372036854775807',
    b'1.0000000000000000000000000000001', b'1e999999', b'[-]', b'[1.]', b'[1e]', b'[01]', b'[-0]', b'[0,-0.0e-0]',
    b'{"a":-}', b'{"a":0 }', b'1\xc2\xa0', b'\xd9\xa1', b'1\xd9\xa1', b'1' * 5000, b'-' + b'9' * 5000,
    b'0.' + b'1' * 4000, b'1e' + b'0' * 4000,
]
ESCAPES = [
    rb'"\""', rb'"\\"', rb'"\/"', rb'"\b\f\n\r\t"', rb'"\a"', rb'"\v"', rb'"\0"', rb'"\x41"', rb'"\U0041"',
    rb'"\'"', rb'"\ "', rb'"\"', rb'"\\\"', b'"\\', b'"\\\n"', b'"\\u', rb'"\u"', rb'"\u0"', rb'"\u00"',
    rb'"\u004"', rb'"\u0041"', rb'"\u00e9"', rb'"\u00E9"', rb'"\u20aC"', rb'"\uFFFF"', rb'"\uffff"', rb'"\u0000"',
    rb'"\u004g"', rb'"\u00g1"', rb'"\u0g41"', rb'"\ug041"', rb'"\u 041"', rb'"\u+041"', rb'"\u0x41"', rb'"\u{41}"',
    rb'"\u00411"', rb'"\uu0041"', b'"\\u00\xc3\xa9"', rb'"\u0041', rb'"\u004', rb'{"\u0061":1}', rb'{"\ud800":1}',
    b'"', b'"a', b'a"', b'"a"b', b'""', b'"a" "b"', b"'a'", b'"\n"', b'"\t"', b'"\0"', b'"\x1f"', b'"\x7f"',
    b'"\x20"',
]
SURROGATES = [
    rb'"\ud800\udc00"', rb'"\uD83D\uDE00"', rb'"\udbff\udfff"', rb'"\uDBFF\uDFFF"', rb'"\ud7ff"', rb'"\ue000"',
    rb'"\ud800"', rb'"\udbff"', rb'"\udc00"', rb'"\udfff"', rb'"\uDC00"', rb'"\uDd00"', rb'"\udE00"', rb'"\udFff"',
    rb'"\ud800\ud800"', rb'"\ud800\ud800\udc00"', rb'"\udc00\ud800"', rb'"\ud800\udc00\udc00"',
    rb'"\ud800\udc00\ud800"', rb'"\ud800x"', rb'"\ud800 \udc00"', rb'"\ud800\n"', rb'"\ud800\\udc00"',
    rb'"\ud800\""', rb'"\ud800\/"', rb'"\ud800\u"', rb'"\ud800\ud"', rb'"\ud800\udc"', rb'"\ud800\udc0"',
    rb'"\ud800\udc00', rb'"\ud800\udc0g"', rb'"\ud800\udb00"', rb'"\ud800\ud700"', rb'"\ud800\uc000"',
    rb'"\ud800\ue000"', rb'"\ud800\u0041"', rb'"\ud800\uDBFF"', rb'"\ud80"', rb'"\ud8"', rb'"\ud"', rb'"\ud8',
    rb'"\ud800', b'"\\ud800\\', b'"\\ud800\\u', rb'"\ud800\Udc00"', rb'"\ud8g0"', rb'"\ud80g"', rb'"\udcxx"',
    rb'"\udgxx"', b'"\\ud800\xed\xb0\x80"', b'"\xed\xa0\x80\\udc00"', b'"\\ud800\xc3\xa9"', b'"\\ud800\n"',
    rb'["\ud800",1]', rb'"a\ud800\udc00b\ud834\udd1e"',
]


def utf8():
    """Each edge of RFC 3629's table, whole, cut and with a byte beside it."""
    edges = ['\x7f', '\x80', '\u07ff', '\u0800', '\u0fff', '\u1000', '\ucfff', '\ud7ff', '\ue000',
             '\ufeff', '\ufffd', '\uffff', '\U00010000', '\U0003ffff', '\U00040000',
             '\U000fffff', '\U00100000', '\U0010ffff']
    for edge in edges:
        whole = edge.encode()
        yield b'"%s"' % whole
        yield b'["x%s%s",1]' % (whole, whole)
        yield b'{"%s":1}' % whole
        yield whole
        for cut in range(1, len(whole)):
            yield b'"' + whole[:cut]
            yield b'"' + whole[:cut] + b'"'
            yield b'"' + whole[:cut] + whole + b'"'
            for byte in (0x00, 0x22, 0x41, 0x5c, 0x7f, 0x80, 0x8f, 0x90, 0x9f, 0xa0, 0xbf, 0xc0, 0xc2, 0xff):
                yield b'"' + whole[:cut] + bytes([byte]) + whole[cut + 1:] + b'"'
    for bad in (b'\xc0\x80', b'\xc0\xaf', b'\xc1\xbf', b'\xe0\x80\x80', b'\xe0\x9f\xbf', b'\xed\xa0\x80',
                b'\xed\xaf\xbf', b'\xed\xb0\x80', b'\xed\xbf\xbf', b'\xed\xa0\x80\xed\xb0\x80', b'\xf0\x80\x80\x80',
                b'\xf0\x8f\xbf\xbf', b'\xf4\x90\x80\x80', b'\xf5\x80\x80\x80', b'\xf8\x88\x80\x80\x80',
                b'\xfc\x84\x80\x80\x80\x80', b'\xfe', b'\xff', b'\x80', b'\xbf', b'\xc2\xc2\x80', b'\xef\xbb\xbf'):
        yield b'"%s"' % bad
        yield b'["%s' % bad
        yield bad


def each_byte():
    """Each of the 256 bytes at each kind of place."""
    frames = [(b'', b''), (b'', b'1'), (b'1', b''), (b'-', b'1'), (b'0', b'1'), (b'1.', b'1'), (b'1e', b'1'),
              (b'[', b']'), (b'[1', b'1]'), (b'{', b'}'), (b'{"a"', b'1}'), (b'{"a":', b'}'), (b'{"a":1', b'}'),
              (b'"', b'"'), (b'"\\', b'"'), (b'"\\u', b'041"'), (b'"\\ud', b'00"'), (b'"\\ud800', b'udc00"'),
              (b'"\\ud800\\', b'dc00"'), (b'"\\ud800\\u', b'c00"'), (b'"\\ud800\\ud', b'00"'),
              (b'"\\ud800\\udc0', b'"'),
              (b'"\xe2\x82', b'"'), (b'"', b'\x80"'), (b'"', b'\xa0\x80"'), (b'"', b'\x90\x80\x80"'), (b'tr', b'e')]
    for before, after in frames:
        for byte in range(256):
            yield before + bytes([byte]) + after


def depth():
    """Around the 16th level: arrays, objects, both, and faults near by."""
    for levels in (1, 2, 15, 16, 17, 18, 30, 200):
        yield b'[' * levels + b']' * levels
        yield b'{"a":' * levels + b'1' + b'}' * levels
        yield b'[{"a":' * levels + b'1' + b'}]' * levels
        yield b'[' * levels
        yield b'{"a":' * levels
        yield b'[' * (levels - 1) + b'{}' + b']' * (levels - 1)
        yield b'[' * levels + b'x' + b']' * levels
        yield b'[' * (levels - 1) + b'1,[' + b']' * levels
        yield b'[' * (levels - 1) + b'1[' + b']' * levels
        yield b'[' * levels + b']' * (levels + 1)
        yield b'[' * levels + b']' * levels + b','
        yield b'[' + b'[],' * 20 + b'[' * levels + b']' * levels + b']'
        yield b'{"' + b'[' * levels + b'":"' + b'{' * levels + b'"}'
        yield b' [ ' * levels + b' ] ' * levels
        yield b'[' * (levels - 1) + b'"\xff",[' + b']' * levels
        yield b'{"perfetto_manifest":' + b'[' * (levels - 1) + b']' * (levels - 1) + b'}'


def after():
    """Text after the document, for each kind of document."""
    for value in (b'{}', b'[1]', b'"a"', b'1', b'-1.5e3', b'true', b'null'):
        for tail in (b' ', b'\n\t\r ', b' 1', b'\n{}', b',', b':', b'"', b'}', b']', b'\0', b' \0', b'\x0b',
                     b'\xef\xbb\xbf', b'\xc2\x85', b'e', b'.'):
            yield value + tail
            yield b'\r' + value + tail


def cuts():
    """Each manifest cut at each byte."""
    for whole in MANIFESTS:
        for end in range(len(whole)):
            yield whole[:end]


def by_hand():
    """All texts that are made by hand."""
    for part in (MANIFESTS, STRUCTURE, LITERALS, NUMBERS, ESCAPES, SURROGATES):
        yield from part
    for part in (utf8, each_byte, depth, after, cuts):
        yield from part()
    yield b'"' + b'a' * 20000 + b'"'
    yield b'[' + b'1,' * 8000 + b'1]'
    yield b' ' * 30000 + b'{}' + b' ' * 30000


PIECES = [
    b'{', b'}', b'[', b']', b',', b':', b'"', b'\\', b' ', b'\t', b'\r\n', b'0', b'-', b'.', b'e', b'E+', b'\\u',
    b'\\ud83d', b'\\ude00', b'\\uD83D\\uDE00', b'\\u00', b'\\u0061', b'\\n', b'\\/', b'\\"', b'\\\\', b'\xc3\xa9',
    b'\xe2\x82\xac', b'\xf0\x9f\x98\x80', b'\xed\x9f\xbf', b'\xed\xa0\x80', b'\xee\x80\x80', b'\xf4\x8f\xbf\xbf',
    b'\xf4\x90\x80\x80', b'\xe0\x9f\xbf', b'\xc1\xbf', b'\x80', b'\xff', b'\0', b'\x1f', b'\x7f', b'true', b'null',
    b'NaN', b'1e5', b'-0', b'"":', b'[]', b'{}', b'"a":1,', b'\xef\xbb\xbf', b'[[[[[[[[', b']]]]]]]]',
]


def flipped(r, text):
    at = r.randrange(len(text))
    return text[:at] + bytes([text[at] ^ 1 << r.randrange(8)]) + text[at + 1:]


def replaced(r, text):
    at = r.randrange(len(text))
    return text[:at] + bytes([r.randrange(256)]) + text[at + 1:]


def span(r, text):
    start = r.randrange(len(text))
    return start, min(len(text), start + r.choice((1, 1, 1, 2, 3, 8, 40)))


def removed(r, text):
    start, end = span(r, text)
    return text[:start] + text[end:]


def doubled(r, text):
    start, end = span(r, text)
    return text[:end] + text[start:]


def swapped(r, text):
    start, end = span(r, text)
    other, last = sorted((r.randrange(end, len(text) + 1), r.randrange(end, len(text) + 1)))
    return text[:start] + text[other:last] + text[end:other] + text[start:end] + text[last:]


def inserted(r, text):
    at = r.randrange(len(text) + 1)
    return text[:at] + r.choice(PIECES) + text[at:]


def in_string(r, text):
    """A piece just after some quote: escapes, surrogates and UTF-8 edges."""
    quotes = [at for at, byte in enumerate(text) if byte == ord('"')]
    if not quotes:
        return inserted(r, text)
    at = r.choice(quotes) + 1
    return text[:at] + r.choice(PIECES[16:41]) + text[at:]


def cut(r, text):
    return text[:r.randrange(len(text))]


def nested(r, text):
    """A value becomes one that reaches level 15 to 18, or nearly."""
    places = [at for at, byte in enumerate(text) if byte in b':[,']
    if not places:
        return inserted(r, text)
    at = r.choice(places) + 1
    opened = sum(text[:at].count(b) for b in (b'{', b'[')) - sum(text[:at].count(b) for b in (b'}', b']'))
    more = max(1, r.randrange(15, 19) - opened)
    kinds = [r.random() < .5 for _ in range(more)]
    start = b''.join(b'{"x":' if kind else b'[' for kind in kinds)
    end = b''.join(b'}' if kind else b']' for kind in reversed(kinds))
    return text[:at] + start + b'0' + end + r.choice((b'', b',', b' ,')) + text[at:]


def spaced(r, text):
    """Whitespace beside a structural character, as a rule."""
    places = [at for at, byte in enumerate(text) if byte in b'{}[],:']
    at = r.choice(places) + r.randrange(2) if places else len(text)
    return text[:at] + r.choice((b' ', b'\t', b'\n', b'\r\n', b'   ')) + text[at:]


def escaped(r, text):
    """A letter as its escape: allowed in strings, and nowhere else."""
    letters = [at for at, byte in enumerate(text) if 0x61 <= byte <= 0x7a]
    if not letters:
        return spaced(r, text)
    at = r.choice(letters)
    return text[:at] + (b'\\u%04x' % text[at] if r.random() < .5 else b'\\u%04X' % text[at]) + text[at + 1:]


def worded(r, text):
    """A whole character after a letter: allowed in strings, and nowhere else."""
    letters = [at for at, byte in enumerate(text) if 0x61 <= byte <= 0x7a]
    at = r.choice(letters) + 1 if letters else 0
    edge = r.choice(('\x80', '\u07ff', '\u0800', '\ud7ff', '\ue000', '\uffff', '\U00010000', '\U0010ffff')).encode()
    return text[:at] + r.choice((edge, rb'\ud83d\ude00', rb'\/', rb'\t', b'\x7f')) + text[at:]


GENTLE = [spaced, escaped, worded]
CHANGES = [
    flipped, replaced, removed, doubled, swapped, inserted, inserted, in_string, in_string, cut, nested, nested,
]


def mutated(r):
    text = r.choice(MANIFESTS)
    for _ in range(r.choice((0, 0, 1, 2, 5))):
        text = r.choice(GENTLE)(r, text)
    for _ in range(r.choice((0, 0, 1, 1, 1, 1, 2, 2, 3))):
        if text:
            text = r.choice(CHANGES)(r, text)
    return text


def texts(seed=1, count=COUNT):
    """Yields `count` texts, those by hand first."""
    made = 0
    for text in by_hand():
        if made == count:
            return
        yield text
        made += 1
    for number in range(made, count):
        yield mutated(random.Random(f'text {seed} {number}'))
