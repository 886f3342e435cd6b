"""A second reader of JSON, over bytes: a plain recursive descent.

Written from document 01, the settled points of docs/DECISIONS.md, RFC 8259
and RFC 3629, without the proved definitions and code.

A parser never looks past the byte it stands on, and goes on only while the
text so far could still become a document. So the place where it stops is the
first byte after which no well-formed text is possible, or the text's end.
"""
import re

LEVELS = 16

SPACE = re.compile(rb'[ \t\n\r]*')
PLAIN = re.compile(rb'[\x20\x21\x23-\x5b\x5d-\x7f]*')
DIGITS = re.compile(rb'[0-9]*')
HEX = b'0123456789abcdefABCDEF'
SHORT = {ord('"'): b'"', ord('\\'): b'\\', ord('/'): b'/', ord('b'): b'\b',
         ord('f'): b'\f', ord('n'): b'\n', ord('r'): b'\r', ord('t'): b'\t'}
TAIL = (0x80, 0xBF)
# RFC 3629, section 4: first byte from, to, and the ranges of those after it.
UTF8 = [(0xC2, 0xDF, [TAIL]),
        (0xE0, 0xE0, [(0xA0, 0xBF), TAIL]),
        (0xE1, 0xEC, [TAIL, TAIL]),
        (0xED, 0xED, [(0x80, 0x9F), TAIL]),
        (0xEE, 0xEF, [TAIL, TAIL]),
        (0xF0, 0xF0, [(0x90, 0xBF), TAIL, TAIL]),
        (0xF1, 0xF3, [TAIL, TAIL, TAIL]),
        (0xF4, 0xF4, [(0x80, 0x8F), TAIL, TAIL])]


class Bad(Exception):
    """No well-formed text goes on like this; `at` is the byte."""

    def __init__(self, at):
        super().__init__(at)
        self.at = at


class Deep(Exception):
    """A bracket opens one level too many; `at` is the bracket."""

    def __init__(self, at):
        super().__init__(at)
        self.at = at


class Parser:
    """Reads one text; `at` is the next byte."""

    def __init__(self, text):
        self.text = text
        self.at = 0

    def peek(self):
        """The next byte, or -1 at the end."""
        return self.text[self.at] if self.at < len(self.text) else -1

    def need(self, wanted):
        """Takes the next byte, which must be one of `wanted`."""
        byte = self.peek()
        if byte < 0 or byte not in wanted:
            raise Bad(self.at)
        self.at += 1
        return byte

    def space(self):
        self.at = SPACE.match(self.text, self.at).end()

    def document(self):
        self.space()
        value = self.value(0)
        self.space()
        if self.at < len(self.text):
            raise Bad(self.at)
        return value

    def value(self, level):
        """The value that starts here, `level` brackets being open."""
        byte = self.peek()
        if byte == ord('{') or byte == ord('['):
            if level == LEVELS:
                raise Deep(self.at)
            self.at += 1
            self.space()
            if byte == ord('{'):
                return ('object', self.members(level + 1))
            return ('array', self.items(level + 1))
        if byte == ord('"'):
            return ('string', self.string())
        for word in (b'true', b'false', b'null'):
            if byte == word[0]:
                for letter in word:
                    self.need(bytes([letter]))
                return (word.decode(), None)
        return ('number', self.number())

    def members(self, level):
        found = []
        if self.peek() == ord('}'):
            self.at += 1
            return found
        while True:
            name = self.string()
            self.space()
            self.need(b':')
            self.space()
            found.append((name, self.value(level)))
            self.space()
            if self.need(b',}') == ord('}'):
                return found
            self.space()

    def items(self, level):
        found = []
        if self.peek() == ord(']'):
            self.at += 1
            return found
        while True:
            found.append(self.value(level))
            self.space()
            if self.need(b',]') == ord(']'):
                return found
            self.space()

    def digits(self):
        self.need(b'0123456789')
        self.at = DIGITS.match(self.text, self.at).end()

    def number(self):
        start = self.at
        if self.peek() == ord('-'):
            self.at += 1
        if self.peek() == ord('0'):
            self.at += 1
        else:
            self.digits()
        if self.peek() == ord('.'):
            self.at += 1
            self.digits()
        if self.peek() in (ord('e'), ord('E')):
            self.at += 1
            if self.peek() in (ord('+'), ord('-')):
                self.at += 1
            self.digits()
        return self.text[start:self.at]

    def string(self):
        self.need(b'"')
        parts = []
        while True:
            end = PLAIN.match(self.text, self.at).end()
            parts.append(self.text[self.at:end])
            self.at = end
            byte = self.peek()
            if byte == ord('"'):
                self.at += 1
                return b''.join(parts)
            if byte == ord('\\'):
                self.at += 1
                parts.append(self.escape())
            else:
                parts.append(self.wide())

    def wide(self):
        """One character of two to four bytes."""
        start, first = self.at, self.peek()
        for low, high, rest in UTF8:
            if low <= first <= high:
                self.at += 1
                for least, most in rest:
                    if not least <= self.peek() <= most:
                        raise Bad(self.at)
                    self.at += 1
                return self.text[start:self.at]
        raise Bad(self.at)

    def escape(self):
        byte = self.peek()
        if byte in SHORT:
            self.at += 1
            return SHORT[byte]
        self.need(b'u')
        unit = self.unit(False)
        if 0xD800 <= unit <= 0xDBFF:
            self.need(b'\\')
            self.need(b'u')
            low = self.unit(True)
            unit = 0x10000 + (unit - 0xD800) * 0x400 + (low - 0xDC00)
        return chr(unit).encode('utf-8')

    def unit(self, low):
        """Four hexadecimal digits: a low surrogate if `low`, else none."""
        first = self.need(b'dD' if low else HEX)
        if low:
            second = self.need(b'cdefCDEF')
        elif first in b'dD':
            second = self.need(b'0123456789abAB')
        else:
            second = self.need(HEX)
        return int(bytes([first, second, self.need(HEX), self.need(HEX)]), 16)


def tree(text):
    """The document as (kind, content); raises Bad or Deep.

    An object's content is its members (name, value) in order, repeated ones
    too; a string's is its UTF-8 after unescaping, a number's is its text.
    """
    return Parser(text).document()


def read(text):
    """('done', length), ('bad', first bad byte) or ('deep', bracket)."""
    try:
        tree(text)
    except Bad as stop:
        return ('bad', stop.at)
    except Deep as stop:
        return ('deep', stop.at)
    return ('done', len(text))
