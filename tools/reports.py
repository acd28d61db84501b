"""Reports of `girths` read back, for the tools beside this file. Fields are found by the names of the head line."""
import os
import re
import struct
import sys

HEAD = ('section', 'rows', 'bits', 'hundredths', 'side')
HEADS = (HEAD, HEAD[:-1])  # a report of an earlier season may have no sides, and no total
TOTAL = re.compile(r'total (0|[1-9][0-9]{0,12}) (0|[1-9][0-9]{0,12})')
ROUNDING = {-1: 'rounded down', 0: 'not rounded', 1: 'rounded up'}
FORMS = {
    'section': (re.compile(r'[0-9]{1,10}'), int),
    'rows': (re.compile(r'[0-9]{1,10}'), int),
    'bits': (re.compile(r'(?![7F]FF)[0-9A-F]{16}'), lambda w: int(w, 16)),  # an exponent field of all ones is no finite double
    'hundredths': (re.compile(r'-?[0-9]{1,10}'), int),
    'side': (re.compile(r'-1|0|1'), int),
}


class Bad(Exception):
    """What is wrong with a report, in words."""


class Refused(int):
    """A refusal's number in place of a field."""


class Report:
    """A report: the sections with their fields by name and the total, if it has one, or the refusal of the whole file."""

    def __init__(self, name, sections, names=(), total=None, refused=None):
        self.name, self.sections, self.total, self.refused = name, sections, total, refused
        self.has_sides = 'side' in names


def field(name, word):
    form, read = FORMS[name]
    if not form.fullmatch(word):
        raise Bad(f'{word!r} is not what the field {name} holds')
    return read(word)


def fields(names, line):
    """The fields of a line; `refused N` stands for its field and all later ones."""
    words, found = line.split(' '), {}
    for i, name in enumerate(names):
        if words[i:i + 1] == ['refused']:
            if len(words) != i + 2 or name not in ('bits', 'hundredths') or not words[i + 1].isdecimal():
                raise Bad('`refused` and a number end a line, in place of the sum or the mill figure')
            return found | {left: Refused(words[i + 1]) for left in names[i:]}
        if i >= len(words):
            raise Bad(f'the field {name} is missing')
        found[name] = field(name, words[i])
    if len(words) > len(names):
        raise Bad(f'there are {len(words)} fields in place of {len(names)}')
    return found


def enter(sections, found):
    if sections and found['section'] <= max(sections):
        raise Bad('the sections do not rise')
    sections[found['section']] = found


def total_of(line, sections, is_last):
    """The numbers of a total, which have to be those of the lines above it."""
    words = TOTAL.fullmatch(line)
    if not words:
        raise Bad('`total` and two numbers, of sections and of rows, make the last line')
    if not is_last:
        raise Bad('something follows the total')
    said = {'section': int(words[1]), 'row': int(words[2])}
    counted = {'section': len(sections), 'row': sum(s['rows'] for s in sections.values())}
    for word in said:
        if said[word] != counted[word]:
            raise Bad(f'the total says {many(said[word], word)}, and the lines above it have {counted[word]}: the report was cut or changed')
    return said


def parse(name, text):
    lines = text.split('\n')
    if lines.pop() != '' or not lines:
        raise Bad(f'{name} is not a report: it does not end with a line feed')
    whole = re.fullmatch(r'refused ([0-9]+)', lines[0])
    if whole and len(lines) > 1:
        raise Bad(f'{name} is not a report: something follows the refusal of the file')
    if whole:
        return Report(name, {}, refused=Refused(whole[1]))
    names = tuple(lines[0].split(' '))
    if names not in HEADS:
        raise Bad(f'{name} is not a report: its first line is neither "{" ".join(HEAD)}" nor a refusal')
    sections, total = {}, None
    for number, line in enumerate(lines[1:], 2):
        try:
            if line.startswith('total'):
                total = total_of(line, sections, number == len(lines))
            else:
                enter(sections, fields(names, line))
        except Bad as e:
            raise Bad(f'{name}, line {number}: {e}') from None
    return Report(name, sections, names, total)


def load(name):
    """The report in a file, or on standard input where the name is -."""
    shown = 'standard input' if name == '-' else name
    try:
        if name == '-':
            if sys.stdin is None:
                raise Bad('standard input is closed')
            data = sys.stdin.buffer.read()
        else:
            with open(name, 'rb') as f:
                data = f.read()
    except OSError as e:
        raise Bad(f'{shown}: {e.strerror}') from None
    try:
        return parse(shown, data.decode('ascii'))
    except UnicodeDecodeError:
        raise Bad(f'{shown} is not a report: it is not text') from None


def write(text):
    """Writes a text to standard output, whole or with a reason."""
    if sys.stdout is None:
        raise Bad('standard output is closed')
    try:
        sys.stdout.buffer.write(text.encode())
        sys.stdout.buffer.flush()
    except OSError as e:
        os.dup2(os.open(os.devnull, os.O_WRONLY), sys.stdout.fileno())  # nothing is left to flush at the end
        raise Bad(f'standard output: {e.strerror}') from None


# ---- words and numbers

def many(n, word):
    return f'{n} {word}' if n == 1 else f'{n} {word}s'


def double(bits):
    return struct.unpack('<d', struct.pack('<Q', bits))[0]


def place(bits):
    """The place of a finite double among all doubles: neighbours differ by 1."""
    return -(bits & 2 ** 63 - 1) if bits >> 63 else bits


def rounding(section):
    """In words which way a section's sum was rounded; nothing where the section has no side."""
    side = section.get('side')
    return None if isinstance(side, Refused) else ROUNDING.get(side)


def millimetres(hundredths):
    """A mill figure as millimetres, exactly."""
    whole, part = divmod(abs(hundredths), 100)
    return f'{"-" if hundredths < 0 else ""}{whole}.{part:02}'


def differing(a, b):
    """The names of the fields in which two sections differ, of those that both have; None stands for a section that is missing."""
    if a is None or b is None:
        return [] if a is b else ['section']
    return [name for name in a if name in b and (a[name], isinstance(a[name], Refused)) != (b[name], isinstance(b[name], Refused))]
