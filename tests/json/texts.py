#!/usr/bin/env python3
"""The texts of texts.txt: compared with the second reader, and written as the program `texts` takes them.

texts.py check DIR   the second reader says what texts.txt says, and DIR/stdin and DIR/stdout hold these texts and answers
texts.py write DIR   writes DIR/stdin and DIR/stdout
"""
import ast
import pathlib
import struct
import sys

HERE = pathlib.Path(__file__).parent
sys.path.insert(0, str(HERE.parent / 'second'))
from reader import read  # noqa: E402


def listed():
    for line in (HERE / 'texts.txt').read_text().splitlines():
        if line and not line.startswith('#'):
            answer, position, literal = line.split(' ', 2)
            yield answer, int(position), ast.literal_eval(literal)


def main(what, folder):
    folder = pathlib.Path(folder)
    texts = list(listed())
    stdin = b''.join(struct.pack('<I', len(text)) + text for _, _, text in texts)
    stdout = ''.join(f'{answer} {position}\n' for answer, position, _ in texts).encode()
    if what == 'write':
        (folder / 'stdin').write_bytes(stdin)
        (folder / 'stdout').write_bytes(stdout)
        return 0
    passed = failed = 0
    for answer, position, text in texts:
        if read(text) == (answer, position):
            passed += 1
        else:
            failed += 1
            print(f'{text!r}: {answer} {position} is listed, the second reader says {read(text)}')
    for name, bytes_ in (('stdin', stdin), ('stdout', stdout)):
        if (folder / name).read_bytes() == bytes_:
            passed += 1
        else:
            failed += 1
            print(f'{folder / name} does not hold the texts of texts.txt')
    print(f'{passed} passed, {failed} failed')
    return failed != 0


if __name__ == '__main__':
    sys.exit(main(sys.argv[1], sys.argv[2]))
