"""Python's own `json` as a third opinion on which texts are documents.

Written from RFC 8259, RFC 3629 and the manual of Python's `json`, without the
proved definitions and code. Only accepting and refusing is compared. Where
the two differ there must be a known reason; each is counted and printed, and
a difference without one is a failure.

    third.py [--seed S] [--count N]
"""
import argparse
import json
import sys

import reader
from texts import COUNT, texts


class Notes:
    """What Python's json met in a text that RFC 8259 would refuse."""

    def __init__(self):
        self.constant = False
        self.surrogate = False

    def on_constant(self, word):
        self.constant = True

    def look(self, value):
        if isinstance(value, str):
            self.surrogate |= any('\ud800' <= c <= '\udfff' for c in value)
        elif isinstance(value, (list, tuple)):
            for item in value:
                self.look(item)


def python(text):
    """Whether Python's json accepts a text, what it met, and its value.

    Numbers stay text: their size is no matter of grammar. Members stay lists,
    so that repeated names are not lost.
    """
    notes = Notes()
    try:
        value = json.loads(text, parse_int=str, parse_float=str,
                           parse_constant=notes.on_constant,
                           object_pairs_hook=list)
        notes.look(value)
        return True, notes
    except (ValueError, RecursionError):
        return False, notes


def is_utf8(text):
    try:
        text.decode('utf-8')
        return True
    except UnicodeDecodeError:
        return False


def reason(text, ours, accepted, notes):
    """Why the two differ, or None."""
    if ours == 'deep':
        return 'a 17th level: Python has no such limit'
    if json.detect_encoding(text) not in ('utf-8', 'utf-8-sig'):
        return 'Python takes the text for UTF-16 or UTF-32'
    if ours == 'done' or not accepted:
        return None
    if text.startswith(b'\xef\xbb\xbf'):
        return 'Python passes over a byte order mark'
    if notes.constant:
        return 'Python accepts NaN and Infinity'
    if notes.surrogate and is_utf8(text):
        return 'Python accepts a lone surrogate escape'
    if notes.surrogate:
        return 'Python accepts surrogates in UTF-8'
    return None


def compare(listed, out=sys.stdout):
    """Compares, prints the reasons, gives (passed, failed)."""
    passed, failed, counts = 0, 0, {'both accept': 0, 'both refuse': 0}
    for text in listed:
        ours = reader.read(text)[0]
        accepted, notes = python(text)
        if (ours == 'done') == accepted and ours != 'deep':
            why = 'both accept' if accepted else 'both refuse'
        else:
            why = reason(text, ours, accepted, notes)
        if why is None:
            failed += 1
            print(f'unexplained: {text[:300]!r}: {ours}, Python '
                  f'{"accepts" if accepted else "refuses"}', file=out)
        else:
            passed += 1
            counts[why] = counts.get(why, 0) + 1
    for why, count in sorted(counts.items(), key=lambda item: -item[1]):
        print(f'{count:7} {why}', file=out)
    return passed, failed


def main():
    words = argparse.ArgumentParser(description='Python\'s json as a third opinion')
    words.add_argument('--seed', type=int, default=1)
    words.add_argument('--count', type=int, default=COUNT)
    said = words.parse_args()
    passed, failed = compare(texts(said.seed, said.count))
    print(f'{passed} passed, {failed} failed')
    return failed > 0


if __name__ == '__main__':
    sys.exit(main())
