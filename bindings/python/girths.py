"""The calls of the proved library for reproducible grouped summation, on bytes.

    >>> import girths, pathlib
    >>> file = pathlib.Path('samples/two-sections.patch').read_bytes()
    >>> columns = girths.read(file)
    >>> table = bytearray(64 * 64)
    >>> g = girths.add(table, 0, columns.keys, columns.values, columns.width)
    >>> girths.sum(table, g, 1), girths.figure(table, g, 1)
    (Sum(sum=1.5, side=0), 150)
    >>> girths.line(table, g, 2)
    Line(section=2, rows=1, sum=0.125, figure=13, side=0)
    >>> girths.exact(table, g, 1)
    True
    >>> girths.totals(table, g)
    Totals(sections=2, rows=3)
    >>> girths.sum(table, g, 5)
    Traceback (most recent call last):
    girths.Refused: refused 13: the section has no row
    >>> girths.write(columns.keys, columns.values) == file
    True
    >>> girths.add(table, g, columns.keys, columns.values, columns.width), girths.totals(table, g)
    (2, Totals(sections=2, rows=6))
    >>> girths.remove(table, g, columns.keys, columns.values, columns.width), girths.totals(table, g)
    (2, Totals(sections=2, rows=3))
    >>> saved = girths.save(table, g)
    >>> other = bytearray(64 * 64)
    >>> girths.load(saved, other), other == table
    (2, True)
    >>> short = girths.read(pathlib.Path('samples/two-sections-short.patch').read_bytes())
    >>> same = bytearray(64 * 64)
    >>> short.width, girths.add(same, 0, short.keys, short.values, short.width), same == table
    (4, 2, True)

A table is a writable buffer, 64 bytes a section, with a group count g that the caller holds; it starts at 0. As long as no row is removed,
what a table holds depends on the multiset of its rows alone. A value has a width of 8 bytes, a double, or of 4, a short float (binary32), which counts as the double of equal value. A call that is refused raises Refused and changes no byte of a table. docs/FORMATS.md has the bytes, docs/RULES.md
the rules and the refusals.

The library is target/staticlib/libexports.a of the repository that this file lies in, linked to target/girths.so by `cc` when it is first
used; where there is no archive yet, `bindings/build` proves and builds it. GIRTHS_ARCHIVE names another archive. NotBuilt says what is missing.
"""
import ctypes
import os
import pathlib
import shutil
import struct
import subprocess
import tempfile
from typing import NamedTuple

__all__ = ['Columns', 'Line', 'NotBuilt', 'Refused', 'Sum', 'Totals', 'add', 'bits', 'exact', 'figure', 'line', 'load', 'merge', 'read', 'remove', 'report', 'save', 'sum', 'totals', 'write']

ROOT = pathlib.Path(__file__).resolve().parents[2]
LONGEST_FILE = 65536
LONGEST_REPORT = 4096

# 16 can only come from load: this module lends outputs itself, and they are long enough
GROUNDS = {
    1: 'the file is longer than 65,536 bytes',
    2: 'the file is shorter than 16 bytes',
    3: 'the last four bytes are not a mark of such a file',
    4: 'the key column does not lie between the front of the file and the trailer',
    5: 'the value column does not lie between the front of the file and the trailer',
    6: 'the two columns share a byte',
    7: 'the table is not sound',
    8: 'the work buffer is shorter than the table',
    9: 'the lengths of the two columns fit no row count for the width of the values',
    10: 'a row is infinite or not a number',
    11: 'a section would have more than 4,294,967,295 rows',
    12: 'the table has no room for all keys',
    13: 'the section has no row',
    14: 'the sum is too large for a double',
    15: 'the mill figure does not fit',
    16: 'the output, or the table that a file is loaded into, is too short',
    17: 'a patch file would have more than 5,460 rows',
    18: 'a saved table would have more than 1,023 groups',
    19: 'the length, the distance or the zero field of a saved table is wrong',
    20: 'a section is absent or has fewer rows than are to be removed',
    21: 'the top of the rows to be removed exceeds that of their section',
    22: 'a remaining total would be larger in size than the remaining rows allow',
}


class Refused(Exception):
    """A refused call; number is 1 to 22, as docs/RULES.md lists it."""

    def __init__(self, number):
        super().__init__(f'refused {number}: {GROUNDS[number]}')
        self.number = number


class NotBuilt(Exception):
    """The library is missing, and could not be built."""


class Columns(NamedTuple):
    """The two columns of a patch file, as parts of it, and how many bytes a value has: 8 for a double, 4 for a short float."""
    rows: int
    keys: memoryview
    values: memoryview
    width: int


class Sum(NamedTuple):
    """A section's sum; its side is -1, 0 or 1 as it is below, equal to or above the kept value. A sum of side 0 was not rounded."""
    sum: float
    side: int


class Line(NamedTuple):
    """A finished section; its side is that of its sum."""
    section: int
    rows: int
    sum: float
    figure: int
    side: int


class Totals(NamedTuple):
    """How many sections a table has, and how many rows they have: the row counts of its records added up."""
    sections: int
    rows: int


# ---- the library

def _run(command, what, *programs):
    """Runs a command in the repository, which runs further programs, and tells by NotBuilt what failed."""
    for name in (*programs, command[0]):
        if shutil.which(name) is None:
            raise NotBuilt(f'{what}: {name} is not on the path')
    done = subprocess.run(command, cwd=ROOT, stdin=subprocess.DEVNULL, stdout=subprocess.PIPE, stderr=subprocess.STDOUT, text=True)
    if done.returncode != 0:
        raise NotBuilt(f'{what}: {" ".join(map(str, command))} failed:\n' + '\n'.join(done.stdout.splitlines()[-20:]))


def _archive():
    named = os.environ.get('GIRTHS_ARCHIVE')
    archive = pathlib.Path(named).absolute() if named else ROOT / 'target' / 'staticlib' / 'libexports.a'
    if named and not archive.is_file():
        raise NotBuilt(f'GIRTHS_ARCHIVE names {archive}, which is not there')
    if not archive.is_file():
        if not (ROOT / 'crates.txt').is_file():
            raise NotBuilt(f'{archive} is missing, and {ROOT} is not the repository that it is built from: name an archive in GIRTHS_ARCHIVE')
        _run(['bash', ROOT / 'bindings' / 'build'], f'{archive} is missing and cannot be built', 'rt')
    return archive


def _link(archive, shared):
    """Links the archive to a shared library, which appears whole or not at all."""
    shared.parent.mkdir(parents=True, exist_ok=True)
    with tempfile.TemporaryDirectory(dir=shared.parent) as folder:
        made = pathlib.Path(folder) / shared.name
        _run(['cc', '-shared', '-o', made, '-Wl,--whole-archive', archive, '-Wl,--no-whole-archive', '-Wl,-z,defs'], f'{shared} cannot be linked')
        os.replace(made, shared)


_BYTES, _LENGTH, _NUMBER = ctypes.c_void_p, ctypes.c_size_t, ctypes.c_uint64
_OUT, _SIGNED_OUT = ctypes.POINTER(ctypes.c_uint64), ctypes.POINTER(ctypes.c_int64)
_TABLE = [_BYTES, _LENGTH, _NUMBER]
_TYPES = {
    'girth_read': [_BYTES, _LENGTH, _OUT, _OUT, _OUT],
    'girth_write': 3 * [_BYTES, _LENGTH],
    'girth_add': _TABLE + 2 * [_BYTES, _LENGTH] + [_NUMBER, _BYTES, _LENGTH],
    'girth_remove': _TABLE + 2 * [_BYTES, _LENGTH] + [_NUMBER, _BYTES, _LENGTH],
    'girth_merge': _TABLE + _TABLE,
    'girth_sum': _TABLE + [ctypes.c_uint32, _OUT, _SIGNED_OUT],
    'girth_figure': _TABLE + [ctypes.c_uint32, _SIGNED_OUT],
    'girth_line': _TABLE + [ctypes.c_uint32, _OUT, _OUT, _SIGNED_OUT, _SIGNED_OUT],
    'girth_exact': _TABLE + [ctypes.c_uint32],
    'girth_totals': _TABLE + [_OUT, _OUT],
    'girth_save': _TABLE + [_BYTES, _LENGTH],
    'girth_load': 2 * [_BYTES, _LENGTH],
    'girth_report': 2 * [_BYTES, _LENGTH],
}
_loaded = None


def _library():
    global _loaded
    if _loaded is None:
        archive = _archive()
        shared = (archive.parent if os.environ.get('GIRTHS_ARCHIVE') else ROOT / 'target') / 'girths.so'
        if not shared.is_file() or shared.stat().st_mtime_ns < archive.stat().st_mtime_ns:
            _link(archive, shared)
        found = ctypes.CDLL(str(shared))
        for name, types in _TYPES.items():
            call = getattr(found, name)
            call.argtypes, call.restype = types, ctypes.c_int64
        _loaded = found
    return _loaded


# ---- what is lent

class _Lent:
    """A buffer with its address and length in bytes; it is held as long as this object lives."""

    def __init__(self, what, data, writable=False):
        try:
            view = memoryview(data)
        except TypeError:
            raise TypeError(f'{what} is bytes, a bytearray or a memoryview, not {type(data).__name__}') from None
        if not view.contiguous or view.itemsize != 1:
            raise TypeError(f'{what} is a contiguous buffer of bytes')
        if writable and view.readonly:
            raise TypeError(f'{what} is written to: it has to be a bytearray or a writable memoryview')
        self.what, self.length = what, view.nbytes
        # a call takes no null pointer, and an empty buffer may have no address
        if self.length == 0:
            self.held = ctypes.create_string_buffer(1)
        elif view.readonly:
            self.held = ctypes.create_string_buffer(bytes(view), self.length)
        else:
            self.held = (ctypes.c_ubyte * self.length).from_buffer(view.cast('B'))
        self.address = ctypes.addressof(self.held)

    def shares_a_byte(self, other):
        ends = self.address + self.length, other.address + other.length
        return self.length > 0 and other.length > 0 and self.address < ends[1] and other.address < ends[0]

    @property
    def words(self):
        return self.address, self.length


def _apart(written, *others):
    for other in others:
        if written.shares_a_byte(other):
            raise ValueError(f'{written.what} and {other.what} share memory')


def _whole(what, n, width):
    if not isinstance(n, int) or isinstance(n, bool):
        raise TypeError(f'{what} is a whole number, not {type(n).__name__}')
    if not 0 <= n < 2 ** width:
        raise ValueError(f'{what} lies between 0 and {2 ** width - 1}')
    return n


def _answer(n):
    if n < 0 and -n in GROUNDS:
        raise Refused(-n)
    if n < 0:
        raise RuntimeError(f'the library gave the answer {n}, which has no meaning')
    return n


def _groups(n, table):
    if _answer(n) > table.length // 64:
        raise RuntimeError('the library gave more groups than the table has room for')
    return n


def _front(n, out):
    """The first n bytes of an output."""
    if not 0 <= n <= out.length:
        raise RuntimeError(f'the library gave a length of {n} bytes, and the output has {out.length}')
    return bytes(out.held[:n])


def _double(n):
    return struct.unpack('<d', struct.pack('<Q', n))[0]


def bits(x):
    """The 64 bits of a double as 16 hexadecimal digits, as the report shows them."""
    return f'{struct.unpack("<Q", struct.pack("<d", x))[0]:016X}'


# ---- the calls

def read(file):
    """The columns of a patch file of doubles or of short floats, and the width of its values, or refusals 1 to 6."""
    lent = _Lent('a file', file)
    outs = ctypes.c_uint64(), ctypes.c_uint64(), ctypes.c_uint64()
    n = _answer(_library().girth_read(*lent.words, *map(ctypes.byref, outs)))
    keys, values, width = (out.value for out in outs)
    if width not in (4, 8):
        raise RuntimeError(f'the library gave the width {width}, which has no meaning')
    if keys + 4 * n > lent.length or values + width * n > lent.length:
        raise RuntimeError('the library gave a column that does not lie within the file')
    view = memoryview(file).cast('B')
    return Columns(n, view[keys:keys + 4 * n], view[values:values + width * n], width)


def write(keys, values):
    """A patch file of two columns, the second one of doubles, as bytes: keys, values and trailer, without notes. Or refusals 9 and 17.

    Values are not looked at: infinite ones are written as they stand."""
    columns = _Lent('a key column', keys), _Lent('a value column', values)
    out = _Lent('a file', bytearray(LONGEST_FILE), writable=True)
    file = _front(_answer(_library().girth_write(*columns[0].words, *columns[1].words, *out.words)), out)
    if len(file) != columns[0].length + columns[1].length + 16:
        raise RuntimeError('the library gave a file that is not its columns and a trailer')
    return file


def _change(name, table, g, keys, values, width, work):
    """An add or a removal of the rows of two columns: the new group count."""
    into = _Lent('a table', table, writable=True)
    space = _Lent('a work buffer', bytearray(into.length) if work is None else work, writable=True)
    columns = _Lent('a key column', keys), _Lent('a value column', values)
    _apart(into, space, *columns)
    _apart(space, *columns)
    g, width = _whole('a group count', g, 64), _whole('a width', width, 64)
    return _groups(getattr(_library(), name)(*into.words, g, *columns[0].words, *columns[1].words, width, *space.words), into)


def add(table, g, keys, values, width, work=None):
    """Adds the rows of two columns to a table of g records: the new group count, or refusals 7 to 12.

    The width is that of a value, as read gives it: 8 for doubles, 4 for short floats. Both may go into one table; another width is refused with 9.
    The work buffer is at least as long as the table and holds only zeros afterwards; without one, one is made."""
    return _change('girth_add', table, g, keys, values, width, work)


def remove(table, g, keys, values, width, work=None):
    """Removes the rows of two columns from a table of g records, all of them or none: the new group count. Or refusals 7 to 10 and 20 to 22, the first that holds.

    Each section loses the row count and the totals of its rows, and keeps its top and its finest power; one that is left without rows leaves the table, later records move
    down, and the bytes vacated at the end become zero. The width and the work buffer are as in add. Right after an accepted add of the same columns, with equal lent lengths, the former
    records and group count are back, provided that the add raised no held top and lowered no held finest power. Remove only rows that the table has: not all others are refused."""
    n = _change('girth_remove', table, g, keys, values, width, work)
    if n > g:
        raise RuntimeError('the library gave more groups than the table had')
    return n


def merge(first, g1, second, g2):
    """Merges the second table into the first: the first's new group count, or refusals 7, 11 and 12."""
    into, other = _Lent('the first table', first, writable=True), _Lent('the second table', second)
    _apart(into, other)
    g1, g2 = _whole('a group count', g1, 64), _whole('a group count', g2, 64)
    return _groups(_library().girth_merge(*into.words, g1, *other.words, g2), into)


def sum(table, g, key):
    """A section's sum as a float, with its side, or refusals 7, 13 and 14."""
    lent, outs = _Lent('a table', table), (ctypes.c_uint64(), ctypes.c_int64())
    g, key = _whole('a group count', g, 64), _whole('a section', key, 32)
    _answer(_library().girth_sum(*lent.words, g, key, *map(ctypes.byref, outs)))
    return Sum(_double(outs[0].value), outs[1].value)


def figure(table, g, key):
    """A section's mill figure, or refusals 7 and 13 to 15."""
    lent, out = _Lent('a table', table), ctypes.c_int64()
    g, key = _whole('a group count', g, 64), _whole('a section', key, 32)
    _answer(_library().girth_figure(*lent.words, g, key, ctypes.byref(out)))
    return out.value


def line(table, g, key):
    """A section's finished line, or refusals 7 and 13 to 15."""
    lent, outs = _Lent('a table', table), (ctypes.c_uint64(), ctypes.c_uint64(), ctypes.c_int64(), ctypes.c_int64())
    g, key = _whole('a group count', g, 64), _whole('a section', key, 32)
    _answer(_library().girth_line(*lent.words, g, key, *map(ctypes.byref, outs)))
    return Line(key, outs[0].value, _double(outs[1].value), outs[2].value, outs[3].value)


def exact(table, g, key):
    """Whether a section's kept value is known to be the exact sum of its rows, or refusals 7 and 13.

    A table is grown from empty where adds and merges made it from an empty one, and every table merged into it was grown from empty too; saving and
    loading on the way changes nothing of that, nor does a removal of rows that the table has. In such a table True says that nothing was dropped of any row. False says that something may have been
    dropped, and need not have been; it is also the answer for a section with a top above 2 that a file of an older version brought."""
    lent = _Lent('a table', table)
    g, key = _whole('a group count', g, 64), _whole('a section', key, 32)
    n = _answer(_library().girth_exact(*lent.words, g, key))
    if n > 1:
        raise RuntimeError(f'the library gave the answer {n}, which has no meaning')
    return n == 1


def totals(table, g):
    """How many sections and rows a table of g records has, or refusal 7."""
    lent, outs = _Lent('a table', table), (ctypes.c_uint64(), ctypes.c_uint64())
    g = _whole('a group count', g, 64)
    _answer(_library().girth_totals(*lent.words, g, *map(ctypes.byref, outs)))
    if outs[0].value != g:
        raise RuntimeError('the library gave another number of sections than the table has records')
    return Totals(outs[0].value, outs[1].value)


def save(table, g):
    """A saved table of g records, as bytes: the records and a trailer. Or refusals 7 and 18."""
    lent, out = _Lent('a table', table), _Lent('a file', bytearray(LONGEST_FILE), writable=True)
    g = _whole('a group count', g, 64)
    file = _front(_answer(_library().girth_save(*lent.words, g, *out.words)), out)
    if len(file) != 64 * g + 16:
        raise RuntimeError('the library gave a file that is not the records and a trailer')
    return file


def load(file, table):
    """Reads a saved table into a table: its group count. Or refusals 1, 2, 3, 19, 16 and 7, the first that holds in this order.

    What the table held before is given up, save its bytes after the records that are loaded, which stay as they were."""
    lent, into = _Lent('a file', file), _Lent('a table', table, writable=True)
    _apart(into, lent)
    g = _groups(_library().girth_load(*lent.words, *into.words), into)
    if 64 * g + 16 != lent.length:
        raise RuntimeError('the library gave another group count than the file has')
    return g


def report(file):
    """The report of a patch file, as bytes. A refused file has a report too: `refused` and the number."""
    lent, out = _Lent('a file', file), _Lent('a text', bytearray(LONGEST_REPORT), writable=True)
    return _front(_library().girth_report(*lent.words, *out.words), out)
