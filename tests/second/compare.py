"""Compares the proved programs with the second program.

    compare.py texts  [--seed S] [--count N] [--room BYTES] [--program WORD...]
    compare.py merges [--seed S] [--count N] [--room BYTES] [--program WORD...]
    compare.py command texts|batch

`texts` asks where texts stop being JSON, `merges` asks the whole merge. The
program is a command of one or more words; without it, the one that a check of
the repository has built (its command is what `command` prints). A text or
case on which the two differ is printed and left in a folder that is named.
Missing output, other output and a program that fails are failures too. The
room is how many bytes of input one run of the program is given at most.
"""
import os
import subprocess
import sys
import tempfile

import frames
import merge
import programs
import reader
from cases import cases
from texts import COUNT, texts

# `texts` reads 65,536 bytes and no more; a case may have twice that by itself.
ROOM = {'texts': 65536, 'merges': 200000}
COUNTS = {'texts': COUNT, 'merges': 5000}
BUILT = {'texts': 'texts', 'merges': 'batch'}
SHOWN = 10
LONGEST_RUN = 120


class Report:
    """Counts, and tells the first differences in full."""

    def __init__(self):
        self.passed = self.failed = 0

    def same(self):
        self.passed += 1

    def differs(self, what, files, said, expected):
        self.failed += 1
        if self.failed > SHOWN:
            return
        folder = tempfile.mkdtemp(prefix='narguvesh-')
        for name, content in files.items():
            with open(os.path.join(folder, name), 'wb') as file:
                file.write(content)
        print(f'{what}: differs, see {folder}')
        for name, content in files.items():
            print(f'  {name}: {short(content)}')
        print(f'  the proved program: {short(said)}')
        print(f'  the second program: {short(expected)}')

    def broken(self, what):
        self.failed += 1
        print(what)


def short(content):
    text = repr(content)
    return text if len(text) <= 2000 else f'{text[:2000]}... ({len(content)} bytes)'


def run(command, given, report):
    """What a program writes on a given input; a failed run is reported."""
    # An emulator must not take its options from the environment.
    around = {name: value for name, value in os.environ.items() if not name.startswith('QEMU_')}
    ended = subprocess.run(command, input=given, capture_output=True, timeout=LONGEST_RUN, check=False, env=around)
    if ended.returncode:
        report.broken(f'the program ended with status {ended.returncode}: {ended.stderr[-500:]!r}')
    return ended.stdout


def chunks(framed, room):
    """Parts of the (item, frame) in a list whose frames fit the room together."""
    part, size = [], 0
    for item, frame in framed:
        if part and size + len(frame) > room:
            yield part
            part, size = [], 0
        part.append((item, frame))
        size += len(frame)
    if part:
        yield part


def joined(part):
    return [item for item, _ in part], b''.join(frame for _, frame in part)


def compare_texts(command, seed, count, report, room=ROOM['texts']):
    number = 0
    framed = ((text, frames.of_texts([text])) for text in texts(seed, count))
    for part, given in map(joined, chunks(framed, room)):
        *said, rest = run(command, given, report).split(b'\n')
        if rest or len(said) > len(part):
            report.broken(f'after the last answer there is {short(said[len(part):])} {short(rest)}')
        for place, text in enumerate(part):
            expected = b'%s %d' % (reader.read(text)[0].encode(), reader.read(text)[1])
            answer = said[place] if place < len(said) else None
            if answer == expected:
                report.same()
            else:
                report.differs(f'text {number + place}', {'text': text}, answer, expected)
        number += len(part)


def compare_merges(command, seed, count, report, room=ROOM['merges']):
    number = 0
    framed = ((case, frames.of_cases([(case.manifest, case.sheet)])) for case in cases(seed, count))
    for part, given in map(joined, chunks(framed, room)):
        said, rest = frames.answers(run(command, given, report))
        if rest or len(said) > len(part):
            report.broken(f'after the last answer there is {short(said[len(part):])} {short(rest)}')
        for place, case in enumerate(part):
            answer = said[place] if place < len(said) else None
            expected = merge.merge(case.manifest, case.sheet).lines
            if answer == expected:
                report.same()
            else:
                files = {'manifest.json': case.manifest, 'sheet.bits': case.sheet}
                report.differs(f'case {number + place} ({case.label})', files, answer, expected)
        number += len(part)


def words_of(words):
    """The options; the words of a program go on to the next of our options."""
    said, key = {'--seed': ['1'], '--count': [None], '--room': [None], '--program': []}, None
    for word in words:
        if word in said:
            key = word
            said[key] = []
        elif key is None:
            raise SystemExit(f'{word}: not understood\n{__doc__}')
        else:
            said[key].append(word)
    return said


def main(words):
    if len(words) == 2 and words[0] == 'command':
        print(' '.join(programs.command(words[1])))
        return 0
    if not words or words[0] not in ROOM:
        raise SystemExit(__doc__)
    which, said = words[0], words_of(words[1:])
    report = Report()
    compare = compare_texts if which == 'texts' else compare_merges
    try:
        compare(said['--program'] or programs.command(BUILT[which]), int(said['--seed'][0]),
                int(said['--count'][0] or COUNTS[which]), report, int(said['--room'][0] or ROOM[which]))
    except (OSError, subprocess.TimeoutExpired) as error:
        # No other run would do better.
        report.broken(f'the program does not run: {str(error)[:500]}')
    if report.failed > SHOWN:
        print(f'(the first {SHOWN} differences are shown)')
    print(f'{report.passed} passed, {report.failed} failed')
    return 1 if report.failed or not report.passed else 0


if __name__ == '__main__':
    sys.exit(main(sys.argv[1:]))
