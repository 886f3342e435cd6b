#!/usr/bin/env python3
"""The links of docs/TRUST.md: [`NAME`](../FILE#Ln) leads to the line of FILE that says what NAME is.

lines.py         each link does
lines.py write   sets the line of each link
"""
import pathlib
import re
import sys

ROOT = pathlib.Path(__file__).resolve().parents[2]
PAGE = ROOT / 'docs' / 'TRUST.md'
LINK = re.compile(r'\[`([^`]+)`\]\(\.\./([^)#]+)#L(\d+)\)')


def place(file, name):
    """The line on which a definition, a theorem or a function of that name begins; 0 if there is none."""
    begins = re.compile(r'^ *(?:unfoldable |abbrev )?(?:pub )?(?:data |record |fn |extern "C" fn )?(?:pub extern "C" fn )?' + re.escape(name) + r'(?=[ (<:])')
    for number, line in enumerate((ROOT / file).read_text().splitlines(), 1):
        if begins.match(line):
            return number
    return 0


def main(write):
    page = PAGE.read_text()
    passed = failed = 0
    for name, file, line in LINK.findall(page):
        found = place(file, name) if (ROOT / file).exists() else 0
        if found == 0 or (found != int(line) and not write):
            failed += 1
            print(f'docs/TRUST.md: {name} is said to stand at {file}:{line}, and ' + (f'stands at line {found}' if found else 'does not'))
        else:
            passed += 1
    if write:
        PAGE.write_text(LINK.sub(lambda m: f'[`{m[1]}`](../{m[2]}#L{place(m[2], m[1]) if (ROOT / m[2]).exists() else 0})', page))
    print(f'{passed} passed, {failed} failed')
    return failed != 0


if __name__ == '__main__':
    sys.exit(main(sys.argv[1:] == ['write']))
