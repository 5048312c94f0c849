#!/usr/bin/env python3
"""Make the recordings from their texts.

    make.py                       write NAME.bin beside each NAME.txt of this folder
    make.py --check               write nothing; fail where a NAME.bin is missing, differs or has no text
    make.py [--check] A.txt ..    the same for the texts named

README.md describes the text format. Nothing beyond the standard library is needed.
"""
import os
import sys

RECORD = 32
KINDS = {'g711a': 1, 'g711u': 2, 'g7231': 3, 'h261': 4, 't120': 5}


class Fault(Exception):
    """What is wrong with one line."""


def number(word, what, top):
    if not (word.isascii() and word.isdigit()):
        raise Fault('%s must be a decimal number, not "%s"' % (what, word))
    value = int(word)
    if value > top:
        raise Fault('%s is %d, but the field holds 0 to %d' % (what, value, top))
    return value


def field(value, octets):
    return value.to_bytes(octets, 'big')


def record(tag, *fields):
    return b''.join((field(tag, 1),) + fields).ljust(RECORD, b'\0')


def exactly(words, names):
    """The words after the first one, which must be as many as the names."""
    if len(words) - 1 != len(names):
        wanted = ' '.join(names) if names else 'nothing'
        raise Fault('"%s" is followed by %s' % (words[0], wanted))
    return words[1:]


def capability(words):
    """Kind, p and q from the words that describe a capability or a proposal."""
    if not words:
        raise Fault('the kind is missing')
    if words[0] == 'kind':
        if len(words) < 2:
            raise Fault('the kind is missing')
        kind, rest = words[1], words[2:]
    else:
        kind, rest = words[0], words[1:]
        if kind not in KINDS:
            raise Fault('"%s" is not a kind; write "kind" and a code, or one of %s' % (kind, ', '.join(KINDS)))
    code = KINDS[kind] if kind in KINDS else number(kind, 'kind', 255)

    if len(rest) % 2:
        raise Fault('"%s" has no value' % rest[-1])
    given = {}
    for name, value in zip(rest[::2], rest[1::2]):
        if name not in ('p', 'q', 'cif', 'qcif', 'rate'):
            raise Fault('"%s" is not a field of a capability' % name)
        if name in given:
            raise Fault('"%s" is given twice' % name)
        given[name] = number(value, name, 15 if name in ('cif', 'qcif') else 0xffffffff)

    if 'p' in given or 'q' in given:
        if not set(given) <= {'p', 'q'}:
            raise Fault('p and q do not stand together with cif, qcif or rate')
        if 'p' not in given:
            raise Fault('p is missing')
        return code, given['p'], given.get('q', 0)
    if code != KINDS['h261']:
        raise Fault('p is missing' if not given else 'cif, qcif and rate belong to h261')
    if 'rate' not in given:
        raise Fault('the rate is missing')
    return code, 16 * given.get('cif', 0) + given.get('qcif', 0), given['rate']


def numbered(tag, what):
    """Entry and open: kind, a number, p, q."""
    def build(words):
        if len(words) < 2:
            raise Fault('the %s is missing' % what)
        place = number(words[1], what, 65535)
        kind, p, q = capability(words[2:])
        return record(tag, field(kind, 1), field(place, 2), field(p, 4), field(q, 4))
    return build


def element(words):
    kind, p, q = capability(words[1:])
    return record(8, field(kind, 1), field(0, 2), field(p, 4), field(q, 4))


def octet(tag, what):
    """Set begin and descriptor: a number in octet 1."""
    def build(words):
        word, = exactly(words, [what])
        return record(tag, field(number(word, what, 255), 1))
    return build


def pair(tag, what):
    """Entry removed and close: a number in octets 2 and 3."""
    def build(words):
        word, = exactly(words, [what])
        return record(tag, field(0, 1), field(number(word, what, 65535), 2))
    return build


def bare(tag):
    """Set end and mode: the tag alone."""
    def build(words):
        exactly(words, [])
        return record(tag)
    return build


def alternatives(words):
    members = [field(number(word, 'member', 65535), 2) for word in words[1:]]
    if not 1 <= len(members) <= 15:
        raise Fault('an alternative set has 1 to 15 members, not %d' % len(members))
    return record(5, field(len(members), 1), *members)


def octets(words):
    """Octets as they stand; a last word ".." fills the record with zeros."""
    hexes, fill = words[1:], False
    if hexes and hexes[-1] == '..':
        hexes, fill = hexes[:-1], True
    for word in hexes:
        if len(word) != 2 or any(c not in '0123456789abcdefABCDEF' for c in word):
            raise Fault('an octet is two hexadecimal digits, not "%s"' % word)
    if not 1 <= len(hexes) <= RECORD:
        raise Fault('a line gives 1 to %d octets, not %d' % (RECORD, len(hexes)))
    given = bytes(int(word, 16) for word in hexes)
    return given.ljust(RECORD, b'\0') if fill else given


LINES = {
    'set': octet(1, 'sequence'),
    'entry': numbered(2, 'entry'),
    'remove': pair(3, 'entry'),
    'descriptor': octet(4, 'descriptor'),
    'alternatives': alternatives,
    'end': bare(6),
    'mode': bare(7),
    'element': element,
    'open': numbered(9, 'channel'),
    'close': pair(10, 'channel'),
    'octets': octets,
}


def translate(path):
    """The octets that a text stands for."""
    with open(path, encoding='utf-8') as text:
        lines = text.read().splitlines()
    out = bytearray()
    for at, line in enumerate(lines, 1):
        words = line.split('#', 1)[0].split()
        if not words:
            continue
        try:
            if words[0] not in LINES:
                raise Fault('"%s" is not a record; the records are %s' % (words[0], ', '.join(LINES)))
            if len(out) % RECORD:
                raise Fault('a rest under %d octets stands before this line and must be the last' % RECORD)
            out += LINES[words[0]](words)
        except Fault as fault:
            raise Fault('%s:%d: %s' % (os.path.basename(path), at, fault))
    return bytes(out)


def stored(path):
    try:
        with open(path, 'rb') as file:
            return file.read()
    except FileNotFoundError:
        return None


def main(arguments):
    check = '--check' in arguments
    named = [word for word in arguments if word != '--check']
    for word in named:
        if not word.endswith('.txt'):
            sys.exit(__doc__.rstrip() + '\n\n"%s" is not a text' % word)
    texts, strays = named, []
    if not named:
        folder = os.path.dirname(os.path.abspath(__file__))
        names = sorted(os.listdir(folder))
        texts = [os.path.join(folder, name) for name in names if name.endswith('.txt')]
        strays = [name for name in names if name.endswith('.bin') and name[:-4] + '.txt' not in names]

    faults = 0
    for path in texts:
        target = path[:-4] + '.bin'
        name = os.path.basename(target)
        try:
            made = translate(path)
        except (Fault, OSError, UnicodeDecodeError) as fault:
            print(fault, file=sys.stderr)
            faults += 1
            continue
        if check:
            found = stored(target)
            if found != made:
                print('%s: %s' % (name, 'missing' if found is None else 'not what its text says'), file=sys.stderr)
                faults += 1
        else:
            with open(target, 'wb') as file:
                file.write(made)
            rest = len(made) % RECORD
            print('%s: %d records%s' % (name, len(made) // RECORD, ' and a rest of %d octets' % rest if rest else ''))
    if check:
        for name in strays:
            print('%s: has no text' % name, file=sys.stderr)
            faults += 1
        if not faults:
            print('%d recordings are up to date' % len(texts))
    return 1 if faults else 0


if __name__ == '__main__':
    sys.exit(main(sys.argv[1:]))
