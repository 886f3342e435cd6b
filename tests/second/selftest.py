"""The second program by itself: what was decided by hand, round trips, the tally.

    selftest.py [--seed S] [--count N]

Written from document 01, the settled points of docs/DECISIONS.md and the
RFCs, without the proved definitions and code.
"""
import argparse
import contextlib
import io
import os
import sys
import tempfile

import cases
import compare
import frames
import known
import manifest
import merge
import reader
import sheet
import texts


class Checks:
    def __init__(self):
        self.passed = self.failed = 0

    def same(self, what, got, wanted):
        if got == wanted:
            self.passed += 1
            return
        self.failed += 1
        print(f'{what[:200]}: {str(got)[:300]!r}, not {str(wanted)[:300]!r}')


def said(answer):
    """An answer of known.py as the program's lines."""
    return b'refused %d\n' % answer if isinstance(answer, int) else answer.encode() + b'\n'


def by_hand(checks):
    """All cases of known.py; together they reach each refusal."""
    listed = [(answer, text, known.NO_FILE) for answer, text in known.MANIFEST]
    listed += [(answer, known.NONE, bits) for answer, bits in known.SHEET]
    listed += known.BOTH + known.EXAMPLES + known.MORE
    for answer, text, bits in listed:
        what = f'{text!r} {bits.hex()}'
        checks.same(what, merge.merge(text, bits).lines, said(answer))
    reached = {answer for answer, _, _ in listed if isinstance(answer, int)}
    checks.same('refusals by hand', sorted(reached), list(range(1, 38)))


def path_of_example(checks):
    """The clocks on document 000's path, and who has which machine."""
    world = merge.World(manifest.read(texts.EXAMPLE), sheet.read(known.EX_SHEET))
    checks.same('path', merge.Graphs(world, world.trace_time()).way(194), (3, [194, 11, 5]))
    checks.same('machines', merge.merge(texts.EXAMPLE, known.EX_SHEET).machines, [1, 2, 0])
    split = known.lines(known.FILE_S, known.FILE_A, 'source file=0 id=9', 'source file=1 id=8',
                        'source file=1 id=0', 'source file=1 id=7', 'source file=0 id=0')
    checks.same('machines', merge.merge(known.files(known.SPLIT), split).machines, [2, 3, 0, 4, 1])


def conversion(checks):
    """Document 01's -2^63, whose first difference leaves 64 bits."""
    bits = known.listed([(known.EDGE, known.EDGE)], 3, 0, 6)
    graphs = merge.Graphs(merge.World(manifest.NOTHING, sheet.read(bits)), 5)
    checks.same('conversion', graphs.convert(2, 5, -known.EDGE - 1), -known.EDGE - 1)


def reading(checks):
    for text, kind, at in known.TEXTS:
        checks.same(repr(text), reader.read(text), (kind, at))
    for text, tree in known.TREES:
        checks.same(repr(text), reader.tree(text), tree)


def first_bad(checks):
    """The first bad byte from its meaning: what comes before it still had a hope.

    Of a bad text, no prefix up to the byte is bad before its own end, and
    whatever follows the byte changes nothing.
    """
    for text in texts.texts(7, 400):
        kind, at = reader.read(text)
        if kind == 'done':
            checks.same(repr(text), at, len(text))
            continue
        hope = all(reader.read(text[:end]) in (('bad', end), ('done', end)) for end in range(at + 1))
        checks.same(repr(text), hope, True)
        for tail in (b'', b'"}]', b'\xff'):
            again = text[:at + 1] + tail
            if at < len(text):
                checks.same(repr(again), reader.read(again), (kind, at))


LINES = [
    ('file c=0 claim=3 path=a.log\nend', None),
    ('# a comment\n\nfile c=1 claim=6 path="a b\\x00\\xff\\"\\\\"\nend\n', None),
    ('file c=0 claim=3 path=\u00e4\nsource file=0 id=4294967295\n'
     'event source=0 clock=6 reading=-9223372036854775808\nend', None),
    ('', 'line 1: the last record must be `end`'),
    ('file c=0 claim=3 path=a', 'line 1: the last record must be `end`'),
    ('end\nend', 'line 2: nothing may follow the end'),
    ('fil c=0\nend', "line 1: unknown record 'fil': one of file, source, snapshot, event, end"),
    ('\nfile c=2 claim=3 path=a\nend', 'line 2: c=2, not 0 to 1'),
    ('file c=0 claim=8 path=a\nend', 'line 1: claim=8, not 0 to 7'),
    ('file c=0 path=a\nend', 'line 1: claim is missing'),
    ('file c=0 claim=0 path=a x=1\nend', 'line 1: a file has no x'),
    ('file c=0 c=0 claim=0 path=a\nend', 'line 1: c stands twice'),
    ('file c=0 claim=0 path="a\\q"\nend', 'line 1: unknown escape \\q in a path'),
    ('file c=x claim=0 path=a\nend', 'line 1: c=x is no whole number'),
    ('file c=0 claim=0 path="a\nend', "line 1: 'path=\"a' is not of the form key=value"),
    ('file c=0 claim=0 path=%s\nend' % ('a' * 256), 'line 1: the path has 256 bytes, not 0 to 255'),
    ('file c=0 claim=0 path=a\nsource file=0 id=4294967296\nend', 'line 2: id=4294967296, not 0 to 4294967295'),
    ('file c=0 claim=0 path=a\nsource file=0 id=0\nevent source=0 clock=0 reading=9223372036854775808\nend',
     'line 3: reading=9223372036854775808, not -9223372036854775808 to 9223372036854775807'),
    ('file c=0 claim=7 path=a\nend', 'line 1: would be refused 28: the claimed clock is 7'),
    ('file c=0 claim=0 path=a\nfile c=0 claim=0 path=a\nend', 'would be refused 31: the path a stands twice'),
    ('file c=0 claim=0 path=a\n\nsource file=1 id=0\nend', 'line 3: would be refused 28: file 1 is not listed yet'),
]
SHOWN = [
    (known.PROGRAM, 'file c=0 claim=6 path=a\nsource file=0 id=0\nevent source=0 clock=6 reading=5\nend'),
    (b'', 'refused 25: the sheet is empty'),
    (known.PROGRAM + b'\0', 'file c=0 claim=6 path=a\nsource file=0 id=0\nevent source=0 clock=6 reading=5\n'
     'refused 29 in record 3, which starts at bit 138: a byte follows the end'),
    (known.PROGRAM[:4],
     'file c=0 claim=6 path=a\nrefused 26 in record 1, which starts at bit 23: the source is cut off in its field id'),
    (known.lines(known.FILE_A, known.SRC, known.FILE_B), 'file c=0 claim=0 path=a\nsource file=0 id=0\n'
     'refused 27 in record 2, which starts at bit 63: a file after a source'),
    (known.lines(known.FILE_A, known.FILE_A),
     'file c=0 claim=0 path=a\nfile c=0 claim=0 path=a\nend\nrefused 31: the path a stands twice'),
]


def made(text):
    """The fault of a text of lines, or None."""
    try:
        sheet.make(text)
        return None
    except sheet.Unwritable as error:
        return str(error)


def sheets(checks, listed):
    """Lines, faults of lines, and there and back again."""
    for text, fault in LINES:
        checks.same(text, made(text), fault)
    for bits, text in SHOWN:
        lines, fault = sheet.show(bits)
        checks.same(bits.hex(), '\n'.join(lines + ([str(fault)] if fault else [])), text)
    for bits in listed:
        lines, fault = sheet.show(bits)
        if fault is None:
            checks.same(bits.hex(), sheet.make('\n'.join(lines)), bits)
    every = bytes(range(256))
    for path in (every[:255], every[1:], b' ', b'"', b'\\', b'#', b'=', b'"x', b'\\x41', b'\n'):
        bits = sheet.write([sheet.File(0, 0, path), sheet.End()])
        checks.same(repr(path), sheet.make('\n'.join(sheet.show(bits)[0])), bits)
    with tempfile.TemporaryDirectory() as folder:
        lines, bits = os.path.join(folder, 'lines.txt'), os.path.join(folder, 'sheet.bits')
        with open(lines, 'w', encoding='utf-8') as file:
            file.write(SHOWN[0][1] + '\n')
        out = io.StringIO()
        with contextlib.redirect_stdout(out):
            checks.same('make', sheet.main(['make', lines, bits]), 0)
            checks.same('show', sheet.main(['show', bits]), 0)
        checks.same('command line', out.getvalue(), SHOWN[0][1] + '\n')


def comparing(checks):
    """A comparison sees silence, wrong answers, extra output and a failed run."""
    checks.same('frames', frames.of_texts([b'ab', b'']), b'\2\0\0\0ab\0\0\0\0')
    checks.same('answers', frames.answers(b'a\nb\n.\n.\nc\nd'), ([b'a\nb\n', b''], b'c\nd'))
    programs = [('', 5), ('print("bad 0\\n" * 5, end="")', 5), ('import sys; sys.exit(3)', 6)]
    right = 'print("%s", end="")' % ''.join('%s %d\\n' % reader.read(text) for text in texts.texts(1, 5))
    programs += [(right, 0), (right + '; print("more")', 1), (right + '; import sys; sys.exit(3)', 1)]
    for program, failed in programs:
        report = compare.Report()
        with contextlib.redirect_stdout(io.StringIO()):
            compare.SHOWN = 0
            compare.compare_texts([sys.executable, '-c', program], 1, 5, report)
        checks.same(program, report.failed, failed)
    few = [merge.merge(case.manifest, case.sheet).lines.decode() for case in cases.cases(1, 5)]
    right = 'print(%r, end="")' % ''.join(lines + '.\n' for lines in few)
    wrong = right.replace('.\\n', '\\n.\\n', 1)
    for program, failed in ((right, 0), (wrong, 1), (right + '; print("more")', 1), ('', 5)):
        report = compare.Report()
        with contextlib.redirect_stdout(io.StringIO()):
            compare.compare_merges([sys.executable, '-c', program], 1, 5, report)
        checks.same(program, report.failed, failed)


def main():
    words = argparse.ArgumentParser(description='the second program by itself')
    words.add_argument('--seed', type=int, default=1)
    words.add_argument('--count', type=int, default=cases.COUNT)
    given = words.parse_args()
    checks = Checks()
    by_hand(checks)
    path_of_example(checks)
    conversion(checks)
    reading(checks)
    first_bad(checks)
    made_cases = list(cases.cases(given.seed, given.count))
    sheets(checks, [case.sheet for case in made_cases[:600]])
    comparing(checks)
    counts = cases.tally(made_cases)
    print(f'{given.count} cases reach:')
    print(cases.shown(counts))
    for name in cases.WANTED:
        checks.same(f'cases with {name}', counts[name] > 0, True)
    print(f'{checks.passed} passed, {checks.failed} failed')
    return 1 if checks.failed else 0


if __name__ == '__main__':
    sys.exit(main())
