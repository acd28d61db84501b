"""The Python module of bindings/python: its calls, its refusals, and what it checks before a pointer is passed."""
import ctypes
import doctest
import itertools
import math
import os
import pathlib
import random
import re
import struct
import subprocess
import sys
import tempfile
from collections import Counter
from fractions import Fraction

ROOT = pathlib.Path(__file__).resolve().parent.parent
MODULE = ROOT / 'bindings' / 'python'
sys.dont_write_bytecode = True
sys.path.insert(0, str(MODULE))
import girths  # noqa: E402

HEAD = 'section rows bits hundredths side\n'


LETTERS = {8: 'd', 4: 'f'}
MARKS = {8: b'LAST', 4: b'LAS4'}


def pack(rows, width=8):
    """Two columns, and the width of their values, which are floats that have it."""
    return struct.pack(f'<{len(rows)}I', *(k for k, _ in rows)), struct.pack(f'<{len(rows)}{LETTERS[width]}', *(x for _, x in rows)), width


def unpack(columns):
    return list(zip(struct.unpack(f'<{columns.rows}I', columns.keys), struct.unpack(f'<{columns.rows}{LETTERS[columns.width]}', columns.values)))


def trailer(n, k, v, mark=b'LAST'):
    return struct.pack('<III', n, k, v) + mark


def table_of(rows, groups=64, width=8):
    table = bytearray(64 * groups)
    return table, girths.add(table, 0, *pack(rows, width))


def raises(kind, call, *args, **more):
    try:
        call(*args, **more)
    except kind as e:
        return e
    raise AssertionError(f'{call.__name__}{args} raised no {kind.__name__}')


def refused(number, call, *args):
    e = raises(girths.Refused, call, *args)
    assert e.number == number, f'refused {e.number}, expected {number}'
    assert str(e).startswith(f'refused {number}: ')


def record_line(table, g, key):
    """A line of the report, from the calls on a table."""
    start = f'{key} {struct.unpack_from("<I", table, 64 * keys_of(table, g).index(key) + 4)[0]} '
    try:
        total, side = girths.sum(table, g, key)
    except girths.Refused as e:
        return start + f'refused {e.number}\n'
    try:
        line = girths.line(table, g, key)
    except girths.Refused as e:
        return start + f'{girths.bits(total)} refused {e.number}\n'
    assert (girths.bits(line.sum), line.side, line.figure) == (girths.bits(total), side, girths.figure(table, g, key))
    return f'{line.section} {line.rows} {girths.bits(line.sum)} {line.figure} {line.side}\n'


def keys_of(table, g):
    return [struct.unpack_from('<I', table, 64 * i)[0] for i in range(g)]


def report_by_calls(file):
    try:
        columns = girths.read(file)
        table, work = bytearray(64 * 64), bytearray(b'\xff' * 64 * 64)
        g = girths.add(table, 0, columns.keys, columns.values, columns.width, work)
        assert not any(work)
    except girths.Refused as e:
        return f'refused {e.number}\n'
    keys = [key for key, in struct.iter_unpack('<I', columns.keys)]
    assert girths.totals(table, g) == (len(set(keys)), len(keys))
    return HEAD + ''.join(record_line(table, g, key) for key in keys_of(table, g)) + f'total {len(set(keys))} {len(keys)}\n'


def test_example():
    os.chdir(ROOT)
    failed, tried = doctest.testmod(girths)
    assert failed == 0 and tried >= 6


def test_samples():
    files = sorted((ROOT / 'samples').glob('*.patch'))
    assert len(files) >= 31
    for path in files:
        data, expected = path.read_bytes(), path.with_suffix('.report').read_text()
        assert girths.report(data).decode() == expected, path
        assert report_by_calls(data) == expected, path
        assert girths.report(memoryview(bytearray(data))).decode() == expected, path


def made(rows, *words):
    """The file that tools/mkpatch makes of rows as text."""
    text = ''.join(f'{key} {x!r}\n' for key, x in rows)
    return subprocess.run([sys.executable, ROOT / 'tools' / 'mkpatch', *words], input=text.encode(), capture_output=True, check=True).stdout


def test_rewritten_samples():
    """Every sample of doubles that the reader accepts keeps its rows and its report, and is written as tools/mkpatch writes its rows."""
    files = {}
    for path in sorted((ROOT / 'samples').glob('*.patch')):
        data = path.read_bytes()
        try:
            columns = girths.read(data)
        except girths.Refused:
            continue
        if columns.width == 4:
            refused(9, girths.write, columns.keys, columns.values)
            continue
        n, file = columns.rows, girths.write(columns.keys, columns.values)
        again = girths.read(file)
        assert again == columns and girths.write(again.keys, again.values) == file, path
        assert girths.report(file) == girths.report(data), path
        rows = unpack(columns)
        if path.stem != 'refused-10-infinite':  # mkpatch takes no infinite length
            assert made(rows) == file, path
        without_notes = len(data) == 12 * n + 16 and data.endswith(trailer(n, 12 * n + 16, 8 * n + 16))
        assert (file == data) == without_notes, path
        files[path.stem] = data, file
    changed = {name for name, (data, file) in files.items() if file != data}
    assert {'notes-and-values-first', 'recut'} <= changed and len(files) - len(changed) >= 10
    assert files['notes-and-values-first'][1] == files['rewritten'][0]


def test_write():
    keys, values = map(bytearray, pack([(1, 1.0), (2, -0.0), (1, 5e-324)])[:2])
    before = bytes(keys), bytes(values)
    file = girths.write(keys, values)
    assert type(file) is bytes and file == before[0] + before[1] + trailer(3, 52, 40)
    refused(9, girths.write, keys, memoryview(values)[:16])
    assert (keys, values) == before
    assert girths.write(b'', b'') == trailer(0, 16, 16)
    odd = struct.pack('<3Q', 0x7FF0000000000000, 0xFFF8000000000001, 0x7FF0000000000001)
    assert girths.write(before[0], odd) == before[0] + odd + trailer(3, 52, 40)
    r = random.Random(2)
    many = r.randbytes(4 * 5462), r.randbytes(8 * 5462)
    columns = girths.read(girths.write(many[0][:4 * 5460], many[1][:8 * 5460]))
    assert columns == (5460, many[0][:4 * 5460], many[1][:8 * 5460], 8)
    refused(17, girths.write, many[0][:4 * 5461], many[1][:8 * 5461])
    refused(17, girths.write, *many)
    refused(9, girths.write, many[0], many[1][:8 * 5460])
    refused(9, girths.write, many[0][:4 * 5460], many[1])
    refused(9, girths.write, bytes(5), bytes(8))
    refused(9, girths.write, bytes(4), bytes(9))


def test_output_of_write():
    """Outputs of any length, which the call of the module makes itself."""
    keys, values, _ = pack([(1, 1.0), (2, -0.0)])
    file = girths.write(keys, values)
    for room, answer in (0, -16), (39, -16), (40, 40), (41, 40), (70000, 40):
        out = bytearray(b'\xa5' * room)
        lent = girths._Lent('', keys), girths._Lent('', values), girths._Lent('', out, writable=True)
        assert girths._library().girth_write(*lent[0].words, *lent[1].words, *lent[2].words) == answer
        assert out == (file + b'\xa5' * (room - 40) if answer > 0 else b'\xa5' * room)


def test_refusals():
    one = struct.pack('<d', 1.0)
    key = struct.pack('<I', 1)
    refused(1, girths.read, bytes(65537))
    refused(2, girths.read, b'')
    refused(7, girths.add, bytearray(), 1, b'', b'', 8)
    refused(8, girths.add, bytearray(64), 0, b'', b'', 8, bytearray(63))
    refused(9, girths.add, bytearray(64), 0, bytes(8), bytes(8), 8)
    refused(9, girths.add, bytearray(64), 0, bytes(8), bytes(16), 4)
    refused(10, girths.add, bytearray(64), 0, key, struct.pack('<d', float('nan')), 8)
    refused(10, girths.add, bytearray(64), 0, key, struct.pack('<f', float('nan')), 4)
    full, g = table_of([(1, 1.0)])
    full[4:8] = b'\xff' * 4
    before = bytes(full)
    refused(11, girths.add, full, g, key, one, 8)
    refused(11, girths.merge, full, g, bytes(full), g)
    refused(12, girths.add, bytearray(64), 0, key + struct.pack('<I', 2), one + one, 8)
    assert full == before
    refused(13, girths.sum, full, g, 5)
    refused(13, girths.figure, full, 0, 1)
    refused(13, girths.line, full, g, 5)
    refused(14, girths.sum, *table_of([(1, 1.7976931348623157e308)] * 2), 1)
    refused(15, girths.line, *table_of([(1, 21474836.5)]), 1)
    refused(7, girths.merge, full, g, b'', 1)
    refused(7, girths.totals, full, g + 1)
    refused(7, girths.totals, b'', 1)
    refused(20, girths.remove, full, g, *pack([(5, 1.0)]))
    refused(21, girths.remove, full, g, *pack([(1, 32.0)]))
    refused(22, girths.remove, *table_of([(1, 1.0)]), *pack([(1, 0.0)]))
    refused(13, girths.exact, full, g, 5)
    refused(13, girths.exact, b'', 0, 0)
    refused(7, girths.exact, full, g + 1, 1)
    refused(7, girths.exact, full, g + 1, 5)


def kept(record):
    """What a record keeps, as an exact number."""
    top = struct.unpack_from('<I', record, 8)[0]
    totals = [c * 2 ** 50 + s for s, c in struct.iter_unpack('<Qq', record[16:])]
    return sum(t * Fraction(2) ** (40 * (top - i) - 1074) for i, t in enumerate(totals))


def finest(values):
    """The finest power of doubles: what divides every one of them in units of 2^-1074 is divided by 2 as long as it is even."""
    common = math.gcd(*(int(Fraction(x) * 2 ** 1074) for x in values))
    z = 0 if common else 2098
    while common and common % 2 == 0:
        common, z = common // 2, z + 1
    return z


def field_of(record):
    return struct.unpack_from('<I', record, 12)[0]


def test_finest_powers():
    """Every power of two that a double can be, of both signs, alone and in an odd number with as many digits as there may be; and zeros."""
    r = random.Random(17)
    for z in range(2098):
        digits = min(53, 2098 - z)
        # one that is subnormal, where there is one
        for odd in 1, 2 ** digits - 1, r.getrandbits(digits) | 1, 2 ** max(52 - z, 1) - 1:
            x = r.choice((1, -1)) * math.ldexp(odd, z - 1074)
            table, _ = table_of([(5, x)], groups=1)
            assert field_of(table) == z == finest([x]), (odd, z)
    for zeros in [0.0], [-0.0], [0.0, -0.0]:
        assert field_of(table_of([(5, x) for x in zeros])[0]) == 2098 == finest(zeros)
        assert field_of(table_of([(5, x) for x in zeros + [2.0 ** 1023]])[0]) == 2097


def test_exact():
    """The edge at each top, and random rows beside exact fractions: a section that is answered exact keeps their sum."""
    for top in range(53):
        edge = 40 * (top - 2)
        for z, known in (max(edge, 0), True), (max(edge - 1, 0), top <= 2):
            table, g = table_of([(5, math.ldexp(1, max(40 * top - 1, 0) - 1074)), (5, -math.ldexp(1, z - 1074))])
            assert struct.unpack_from('<II', table, 8) == (top, z) and girths.exact(table, g, 5) is known, (top, z)
    r, seen = random.Random(18), Counter()
    for _ in range(3000):
        low = r.choice((-114, -115, -113, -100, -120, -1074))
        values = [math.ldexp(r.choice((1, -1)) * r.getrandbits(r.randrange(1, 54)), low + r.randrange(3)) for _ in range(r.randrange(1, 6))] + [r.choice((1.0, 1e-40, 0.0))]
        values += [-x for x in values] if r.random() < 0.1 else []
        table, g = table_of([(5, x) for x in values])
        top, z = struct.unpack_from('<II', table, 8)
        assert z == min(finest([x]) for x in values) == finest(values)
        found, whole = girths.exact(table, g, 5), kept(bytes(table[:64])) == sum(map(Fraction, values))
        assert found is (top <= 2 or z >= 40 * (top - 2)) and (whole or not found), values
        seen[found, whole, top > 2] += 1
    assert set(seen) == {(True, True, True), (True, True, False), (False, True, True), (False, False, True)} and min(seen.values()) > 50, seen
    # lengths that a double with all its digits may have; at either end of their range one step beyond is too far
    for _ in range(300):
        values = [0.0] + [r.choice((1, -1)) * math.ldexp(1 + r.getrandbits(52) * 2.0 ** -52, r.randrange(-22, 45)) for _ in range(r.randrange(1, 9))]
        assert girths.exact(*table_of([(5, x) for x in values]), 5), values
    last = math.ldexp(2 ** 53 - 1, -74 - 1)
    for values, known in ([2.0 ** 44, 2 * last], True), ([2.0 ** 44, last], False), ([2.0 ** 45, 2 * last], False):
        assert girths.exact(*table_of([(5, x) for x in values]), 5) is known, values


def test_smaller_finest_powers():
    """An add and a merge keep the smaller one, whichever has the larger top."""
    for a, b in [(x, y) for x in (0, 39, 40, 1074, 2097, 2098) for y in (0, 39, 40, 1074, 2097, 2098)]:
        rows = [(5, 0.0 if z == 2098 else math.ldexp(1, z - 1074)) for z in (a, b)]
        merged, second = (table_of([row], groups=1)[0] for row in rows)
        added = bytearray(merged)
        assert girths.add(added, 1, *pack(rows[1:])) == girths.merge(merged, 1, second, 1) == 1
        assert field_of(merged) == field_of(added) == min(a, b) and merged == added


def older(records):
    """Records as an older version wrote them: 0 in place of each finest power."""
    return b''.join(records[i:i + 12] + bytes(4) + records[i + 16:i + 64] for i in range(0, len(records), 64))


def test_tables_of_an_older_version():
    """All but finest powers and exactness is as with the file that has them; a section of the older file keeps 0, and is answered exact for tops up to 2 alone."""
    r, seen = random.Random(19), Counter()
    for _ in range(150):
        lows = r.choice(((-1074,), (-116, 0), (0,)))
        new, g = table_of([(r.randrange(6), math.ldexp(r.randrange(-4000, 4000), r.choice(lows))) for _ in range(r.randrange(1, 7))])
        file = girths.save(new, g)
        old = bytearray(r.randbytes(4096))
        assert girths.load(older(file[:-16]) + file[-16:], old) == g
        from_file = keys_of(old, g)
        for step in range(4):
            used = 64 * g
            assert older(old[:used]) == older(new[:used]) and girths.totals(old, g) == girths.totals(new, g)
            for i, key in enumerate(keys_of(old, g)):
                assert record_line(old, g, key) == record_line(new, g, key)
                known = girths.exact(old, g, key), girths.exact(new, g, key)
                top, z = struct.unpack_from('<II', old, 64 * i + 8)
                if key in from_file:
                    assert z == 0 and known[0] is (top <= 2), key
                else:
                    assert old[64 * i:64 * i + 64] == new[64 * i:64 * i + 64], key
                seen[(key in from_file, *known)] += 1
            rows = [(r.randrange(9), math.ldexp(r.randrange(-4000, 4000), r.choice(lows))) for _ in range(r.randrange(1, 4))]
            other, many = table_of(rows)
            if step % 2:
                after = girths.add(new, g, *pack(rows)), girths.add(old, g, *pack(rows))
            elif r.random() < 0.5:
                after = girths.merge(new, g, other, many), girths.merge(old, g, other, many)
            else:
                same = bytearray(other)
                after = girths.merge(other, many, new, g), girths.merge(same, many, old, g)
                new, old = other, same
            assert after[0] == after[1]
            g = after[0]
    # from the file or not, answered exact in the older table, answered exact in the other
    assert set(seen) == {(True, True, True), (True, False, True), (True, False, False), (False, True, True), (False, False, False)} and min(seen.values()) > 20, seen


def test_unsound_finest_powers():
    """2,099 and more at any place of a table: every call on it answers 7. Smaller ones are sound, whatever the record says."""
    for z in 2099, 2 ** 16, 2 ** 31, 2 ** 32 - 1, 2098, 2097, 1, 0:
        for at in range(3):
            table = bytearray(many_records(3))
            table[64 * at + 12:64 * at + 16] = struct.pack('<I', z)
            answers = []
            for call, *args in (
                    (girths.add, bytearray(table), 3, b'', b'', 8), (girths.remove, bytearray(table), 3, b'', b'', 8), (girths.merge, bytearray(table), 3, b'', 0), (girths.merge, bytearray(192), 0, table, 3), (girths.totals, table, 3),
                    (girths.save, table, 3), (girths.load, saved(bytes(table)), bytearray(192)), *((call, table, 3, 1) for call in (girths.sum, girths.exact)),
                    *((call, table, 3, 2) for call in (girths.sum, girths.figure, girths.line, girths.exact))):
                try:
                    call(*args)
                    answers.append(0)
                except girths.Refused as e:
                    answers.append(e.number)
            assert answers == ([7] * 13 if z > 2098 else [0] * 9 + [13] * 4), (z, at, answers)
            assert check_load(saved(bytes(table)), b'\xa5' * 192) == (-7 if z > 2098 else 3)


def test_sides():
    """Sums beside the float that Python rounds an exact fraction to, and each side for each sign of sums and of lines."""
    r, seen = random.Random(3), Counter()
    for i in range(3000):
        sign, scale = r.choice((1, -1)), 2.0 ** r.choice((0, 0, 20, -30, -900, 900, -1022))
        last = r.choice((1, -1)) * r.choice((2.0 ** -53, 2.0 ** -53, 2.0 ** -54, 3 * 2.0 ** -54, 2.0 ** -80, 0.0, r.random() * 2.0 ** -50))
        first = r.choice((1.0, 1 + 2.0 ** -52, 2 - 2.0 ** -52, 2 - 2.0 ** -51, 1 + r.random(), r.randrange(10, 30) / 10))
        table, g = table_of([(5, sign * scale * first), (5, sign * scale * last)])
        exact = kept(bytes(table[:64]))
        found, nearest = girths.sum(table, g, 5), float(exact)
        assert type(found) is girths.Sum and girths.bits(found.sum) == girths.bits(nearest)
        assert found.side == (nearest > exact) - (nearest < exact), (scale, first, last)
        seen['sum', sign, found.side] += 1
        try:
            line = girths.line(table, g, 5)
        except girths.Refused as e:
            assert e.number == 15
            seen['refused', sign, found.side] += 1
            continue
        assert line == (5, 2, found.sum, girths.figure(table, g, 5), found.side)
        seen['line', sign, found.side] += 1
    assert len(seen) == 18 and min(seen.values()) > 20, seen


def test_figures():
    """Mill figures beside exact fractions, an exact half going away from zero; a sum and its negative have opposite figures or the same refusal."""
    r, seen = random.Random(16), Counter()
    for _ in range(3000):
        half, last = r.randrange(1, r.choice((999, 171798692)), 2) / 8, r.choice((-1, 1)) * 2.0 ** -60
        x = r.choice((half, half * (1 + 2 ** 8 * last), r.uniform(0, 300), 21474836.475 + r.randrange(-4, 5) * 2.0 ** -28, 5e-324, 1e300))
        exact = 100 * Fraction(x)
        size = int(exact + Fraction(1, 2))
        for sign in 1, -1:
            table, g = table_of([(5, sign * x), (5, sign * last), (5, -sign * last)])
            if size > 2147483647:
                refused(15, girths.figure, table, g, 5)
                refused(15, girths.line, table, g, 5)
            else:
                assert girths.figure(table, g, 5) == girths.line(table, g, 5).figure == sign * size, x
        seen['refused' if size > 2147483647 else 'half' if exact.denominator == 2 else 'nothing' if size == 0 else 'other'] += 1
    assert len(seen) == 4 and min(seen.values()) > 100, seen


def test_zeros_of_refused_calls():
    """What a refused call gives by its pointers, which the calls of the module do not show."""
    rounded, huge = table_of([(1, 21474836.5), (1, 2.0 ** -30)]), table_of([(1, 1.7976931348623157e308)] * 2)
    assert girths.sum(*rounded, 1) == (21474836.5, -1)
    for (table, g), key, number in (rounded, 2, 13), (huge, 1, 14), (rounded, 1, 15), ((rounded[0], 65), 1, 7):
        for name, kinds in ('girth_sum', 'Qq'), ('girth_line', 'QQqq'):
            if (name, number) == ('girth_sum', 15):
                continue
            assert given(name, kinds, table, g, key) == (-number, [0] * len(kinds)), (name, number)
    assert given('girth_totals', 'QQ', rounded[0], 65) == (-7, [0, 0])


def given(name, kinds, table, *words):
    """The answer of a call on a table, and the numbers that it gives by pointers, each of them 9 before."""
    outs = [{'Q': ctypes.c_uint64, 'q': ctypes.c_int64}[kind](9) for kind in kinds]
    answer = getattr(girths._library(), name)(*girths._Lent('', table).words, *words, *map(ctypes.byref, outs))
    return answer, [out.value for out in outs]


def test_totals():
    """After adds and merges in any order the totals are those of the rows; a refused call brings none."""
    r, refusals = random.Random(4), Counter()
    for _ in range(200):
        tables = [(bytearray(r.randbytes(64 * r.randrange(1, 9) + r.randrange(64))), 0, []) for _ in range(3)]
        for _ in range(12):
            i = r.randrange(3)
            table, g, held = tables[i]
            second, g2, brought = tables[i - r.randrange(1, 3)]
            width, huge = r.choice(((8, 2.0 ** 900), (4, 2.0 ** 100)))
            rows = [(r.randrange(7), r.choice((1.5, -0.1 if width == 8 else -0.125, huge, float('inf') if r.random() < 0.1 else 0.0))) for _ in range(r.randrange(6))]
            try:
                if r.random() < 0.5:
                    tables[i] = table, girths.add(table, g, *pack(rows, width)), held + rows
                else:
                    tables[i] = table, girths.merge(table, g, second, g2), held + brought
            except girths.Refused as e:
                refusals[e.number] += 1
            for table, g, held in tables:
                before = bytes(table)
                found = girths.totals(table, g)
                assert type(found) is girths.Totals and found == (len({key for key, _ in held}), len(held))
                assert table == before
    assert set(refusals) == {10, 12} and min(refusals.values()) > 20, refusals


def test_totals_of_lent_tables():
    full = b''.join(struct.pack('<II', key, 4294967295) + bytes(56) for key in range(1024))
    for g, rows in (0, 0), (1, 4294967295), (1023, 4393751542785), (1024, 4398046510080):
        assert girths.totals(full[:64 * g], g) == girths.totals(bytearray(full + full), g) == (g, rows)
    refused(7, girths.totals, full + full, 1025)
    refused(7, girths.totals, full[:-1], 1024)
    refused(7, girths.totals, full, 2 ** 32 + 1)
    refused(7, girths.totals, full, 2 ** 64 - 1)
    # a key that does not rise, a row count of 0, a top of 53, a finest power, a residue, a level's total, and a level below 0
    for at, changed in (0, bytes(4)), (4, bytes(4)), (8, b'\x35'), (12, struct.pack('<I', 2099)), (16, struct.pack('<Qq', 2 ** 50, -1)), (24, struct.pack('<q', 2 ** 22)), (32, b'\1'):
        for record in 1, 500, 1023:
            table = bytearray(full)
            table[64 * record + at:64 * record + at + len(changed)] = changed
            refused(7, girths.totals, table, 1024)
            assert girths.totals(table, record) == (record, record * 4294967295)


def is_sound(records):
    """Whether records make a sound table, by document 01's list of conditions, with Card 7's range for the finest power."""
    last = -1
    for at in range(0, len(records), 64):
        key, count, top, finest, *words = struct.unpack_from('<IIIIQqQqQq', records, at)
        totals = [c * 2 ** 50 + s for s, c in zip(words[::2], words[1::2])]
        if key <= last or count == 0 or top > 52 or finest > 2098 or any(s >= 2 ** 50 for s in words[::2]):
            return False
        if any(abs(t) > count * 2 ** 39 or t != 0 and top < i for i, t in enumerate(totals)):
            return False
        last = key
    return True


def saved(records, mark=b'TABL'):
    g = len(records) // 64
    return records + struct.pack('<III', g, 64 * g + 16, 0) + mark


def loaded(file, table):
    """What a load has to answer, and the bytes that it has to leave in a table."""
    if len(file) > 65536 or len(file) < 16 or file[-4:] != b'TABL':
        return (-1 if len(file) > 65536 else -2 if len(file) < 16 else -3), table
    g, distance, zero = struct.unpack('<III', file[-16:-4])
    if (len(file), distance, zero) != (64 * g + 16, 64 * g + 16, 0):
        return -19, table
    if len(table) < 64 * g or not is_sound(file[:-16]):
        return (-16 if len(table) < 64 * g else -7), table
    return g, file[:-16] + table[64 * g:]


def check_load(file, table):
    """The answer of a load, after a look at every byte of the table."""
    before, into = bytes(file), bytearray(table)
    answer, left = loaded(before, bytes(table))
    try:
        found = girths.load(file, into)
    except girths.Refused as e:
        found = -e.number
    assert (found, into, bytes(file)) == (answer, left, before), (found, answer)
    return found


def many_records(n):
    return b''.join(struct.pack('<IIIIQqQqQq', 5 * i + 1, 4294967295 - i, 1 + i % 52, 2098 - i, i, -1, 7, 0, 0, 0) for i in range(n))


def test_save():
    r = random.Random(5)
    full = many_records(1026)
    for g in 0, 1, 2, 1022, 1023:
        for table in full[:64 * g], bytearray(full[:64 * g] + r.randbytes(99)), full:
            before = bytes(table)
            file = girths.save(table, g)
            assert type(file) is bytes and file == saved(full[:64 * g]) and table == before
            assert check_load(file, r.randbytes(64 * g)) == check_load(file, r.randbytes(70000)) == g
    refused(18, girths.save, full, 1024)
    refused(18, girths.save, full[:65536], 1024)
    for g in 1025, 1026, 2 ** 32, 2 ** 32 + 1, 2 ** 58, 2 ** 58 + 1, 2 ** 63, 2 ** 64 - 1:
        refused(7, girths.save, full, g)
    refused(7, girths.save, full[:65535], 1024)
    refused(7, girths.save, b'', 1)
    unsound = bytearray(full)
    unsound[64 * 1023 + 14] = 1
    refused(7, girths.save, unsound, 1024)
    assert girths.save(unsound, 1023) == saved(full[:64 * 1023])


def test_output_of_save():
    """Outputs of any length, which the call of the module makes itself: 7, then 18, then 16."""
    full = many_records(1024)
    unsound = full[:-64] + bytes(64)
    for table, g, room, answer in (
            (full, 2, 0, -16), (full, 2, 143, -16), (full, 2, 144, 144), (full, 2, 145, 144), (full, 2, 70000, 144), (full, 0, 15, -16), (full, 0, 16, 16),
            (full, 1023, 65487, -16), (full, 1023, 65488, 65488), (full, 1023, 65489, 65488), (full, 1024, 0, -18), (full, 1024, 65551, -18), (full, 1024, 70000, -18),
            (unsound, 1024, 0, -7), (unsound, 1024, 70000, -7), (full, 2 ** 58, 0, -7), (full, 2 ** 64 - 1, 0, -7)):
        out = bytearray(b'\xa5' * room)
        lent = girths._Lent('', table), girths._Lent('', out, writable=True)
        assert girths._library().girth_save(*lent[0].words, g, *lent[1].words) == answer, (g, room)
        assert out == (saved(table[:64 * g]) + b'\xa5' * (room - answer) if answer > 0 else b'\xa5' * room), (g, room)


def test_damaged_saves():
    """Every byte of a small saved table changed to several values, and the file cut and made longer at either end."""
    r, seen = random.Random(6), Counter()
    records = many_records(2)
    file = saved(records)
    for at in range(len(file)):
        for value in {file[at] ^ 1, file[at] ^ 128, file[at] ^ 255, file[at] + 1 & 255, file[at] - 1 & 255, 0, 255, r.randrange(256)} - {file[at]}:
            damaged = file[:at] + bytes([value]) + file[at + 1:]
            seen[check_load(damaged, b'\xa5' * r.choice((128, 128, 129, 300)))] += 1
            seen[check_load(damaged, b'\xa5' * 127)] += 1
    for n in range(1, len(file) + 1):
        more = r.randbytes(n)
        for damaged in file[n:], file[:-n], more + file, file + more, file[:n] + file:
            seen[check_load(bytearray(damaged), b'\xa5' * 400)] += 1
    assert set(seen) == {2, -2, -3, -7, -16, -19} and min(seen.values()) > 10, seen


def test_full_table_in_two_parts():
    """A table of 1,024 groups, which is too many for one file, saved as its first records and its last ones, loaded, merged and added to."""
    rows = [(key * 4000000, x) for key in range(1024) for x in (0.1 * key, -96.0)]
    whole, g = table_of(rows, groups=1024)
    refused(18, girths.save, whole, g)
    for cut in 1, 512, 1023:
        files = girths.save(whole, cut), girths.save(whole[64 * cut:], g - cut)
        parts = bytearray(b'\xa5' * 65536), bytearray(b'\xa5' * 64 * (g - cut))
        counts = [girths.load(file, part) for file, part in zip(files, parts)]
        assert girths.merge(parts[0], counts[0], parts[1], counts[1]) == g and parts[0] == whole
        more = [(4000000, 1e-30), (0, 2.0 ** 70)]
        never = bytearray(whole)
        assert girths.add(parts[0], g, *pack(more)) == girths.add(never, g, *pack(more)) == g and parts[0] == never != whole


def test_order_of_loading():
    """A saved table with any of its faults: the first one in the card's order is told, and the table keeps its bytes, sound or not."""
    for faults in range(64):
        mark, length, distance, zero, short, unsound = (faults >> i & 1 for i in range(6))
        file = many_records(1) + (bytes(64) if unsound else many_records(2)[64:])
        file += struct.pack('<III', 2 + length, 144 - distance, zero << 31) + (b'LAST' if mark else b'TABL')
        answer = -3 if mark else -19 if length or distance or zero else -16 if short else -7 if unsound else 2
        for fill in b'\xa5' * 256, many_records(6)[128:]:
            assert check_load(file, fill[:127] if short else fill) == answer, faults
    assert check_load(saved(many_records(1024)), b'\xa5' * 70000) == -1
    assert check_load(b'\xa5' * 65537, b'') == -1 and check_load(b'\xa5' * 65536, b'') == -3
    assert check_load(bytes(49) + saved(many_records(1023)), b'\xa5' * 70000) == -1
    assert check_load(bytes(48) + saved(many_records(1023)), b'\xa5' * 70000) == -19
    assert check_load(b'TABL', b'') == check_load(saved(b'')[1:], b'\xa5' * 64) == -2
    refused(16, girths.load, saved(many_records(3)), bytearray(191))


def test_saved_samples():
    """Every saved table of samples/ gives the refusal of its name, or the table of the patch file beside it, or that as an older version saved it."""
    files = sorted((ROOT / 'samples').glob('*.table'))
    kept = [path for path in files if not path.name.startswith('refused-')]
    assert len(kept) >= 6 and len(files) - len(kept) >= 6
    for path in files:
        data = path.read_bytes()
        answer = check_load(data, b'\xa5' * 4096)
        assert girths.report(data) == (b'refused 5\n' if answer == -3 else b'refused 3\n'), path
        if path not in kept:
            assert answer == -int(path.name.split('-')[1]), path
            continue
        if path.name.startswith('older-'):
            newer = path.with_name(path.name.removeprefix('older-')).read_bytes()
            assert data != newer and data == older(newer[:-16]) + newer[-16:], path
            continue
        patch, table = path.with_suffix('.patch').read_bytes(), bytearray(4096)
        columns = girths.read(patch)
        assert girths.add(table, 0, *columns[1:]) == answer and girths.save(table, answer) == data, path
        assert check_load(patch, b'\xa5' * 4096) == -3
        other = bytearray(b'\xa5' * 4096)
        g = girths.load(data, other)
        lines = ''.join(record_line(other, g, key) for key in keys_of(table, answer))
        assert HEAD + lines + 'total {} {}\n'.format(*girths.totals(other, g)) == path.with_suffix('.report').read_text(), path


def test_interrupted_tables():
    """Adds, merges, saves and loads in any order: a loaded table has the rows of the saved one, and goes on as the table that lived on."""
    r, seen = random.Random(7), Counter()
    for _ in range(60):
        tables = [(bytearray(r.randbytes(64 * n)), 0, []) for n in (2, 8, r.randrange(1, 9))]
        shelf = [(b'', [])]
        for _ in range(40):
            i, kind = r.randrange(3), r.choice(('add', 'add', 'merge', 'save', 'load'))
            table, g, held = tables[i]
            second, g2, brought = tables[i - r.randrange(1, 3)]
            width = r.choice((4, 8))
            rows = [(r.randrange(7), r.choice((1.5, -0.1, 2.0 ** 900, r.random()) if width == 8 else (1.5, -0.125, 2.0 ** -149, r.getrandbits(24) * 2.0 ** 100))) for _ in range(r.randrange(4))]
            try:
                if kind == 'add':
                    tables[i] = table, girths.add(table, g, *pack(rows, width)), held + rows
                    seen[width] += len(rows) > 0
                elif kind == 'merge':
                    tables[i] = table, girths.merge(table, g, second, g2), held + brought
                elif kind == 'save':
                    shelf.append((girths.save(table, g), held))
                else:
                    file, rows = r.choice(shelf)
                    tables[i] = table, girths.load(file, table), rows
                seen[kind] += 1
            except girths.Refused as e:
                seen[kind, e.number] += 1
            table, g, held = tables[i]
            never, many = table_of(held)
            assert many == g and never[:64 * g] == table[:64 * g] and girths.totals(table, g) == (len({key for key, _ in held}), len(held))
            assert [record_line(table, g, key) for key in keys_of(table, g)] == [record_line(never, g, key) for key in keys_of(never, g)]
    assert set(seen) == {4, 8, 'add', 'merge', 'save', 'load', ('add', 12), ('merge', 12), ('load', 2), ('load', 16)} and min(seen.values()) > 10, seen


def short_value(bits):
    """A short float's value as an exact number, by its fields; nothing where it is infinite or not a number."""
    field, fraction = bits >> 23 & 255, bits & 2 ** 23 - 1
    if field == 255:
        return None
    size = Fraction(fraction if field == 0 else 2 ** 23 + fraction) * Fraction(2) ** (max(field, 1) - 150)
    return -size if bits >> 31 else size


def short_column(patterns):
    return struct.pack(f'<{len(patterns)}I', *patterns)


def double_column(patterns):
    """The doubles of equal value, with the signs of zeros; an infinity for what is infinite or not a number."""
    def double(bits):
        x = short_value(bits)
        return math.inf if x is None else math.copysign(float(abs(x)), -1 if bits >> 31 else 1)
    return struct.pack(f'<{len(patterns)}d', *map(double, patterns))


def short_patterns(r, n):
    """Bits of finite short floats: any, subnormal, close together, the largest, with fractions of few digits and of many."""
    def pattern():
        fraction = r.choice((0, 1, 2 ** 23 - 1, 2 ** 22, r.getrandbits(23), r.getrandbits(23) >> r.randrange(23)))
        return r.getrandbits(1) << 31 | r.choice((0, 1, 120 + r.randrange(20), 254, r.randrange(255))) << 23 | fraction
    return [pattern() for _ in range(n)]


def changed(call, table, g, keys, values, width, room):
    """The answer of an add or a removal, what it leaves in a table, and whether the work buffer holds only zeros."""
    after, work = bytearray(table), bytearray(b'\xa5' * room)
    try:
        answer = call(after, g, keys, values, width, work)
    except girths.Refused as e:
        answer = -e.number
    return answer, bytes(after), not any(work)


def added(*lent):
    return changed(girths.add, *lent)


def removed(*lent):
    return changed(girths.remove, *lent)


def test_short_floats():
    """Every exponent field with several fractions and both signs, each alone: the double of equal value, or refusal 10 for the last field."""
    r, seen, key = random.Random(20), Counter(), struct.pack('<I', 5)
    for field in range(256):
        for fraction in 0, 1, 2, 2 ** 22 - 1, 2 ** 22, 2 ** 23 - 2, 2 ** 23 - 1, *(r.getrandbits(23) for _ in range(5)):
            for sign in 0, 1:
                bits, before = sign << 31 | field << 23 | fraction, r.randbytes(64)
                answer, left, clean = short = added(before, 0, key, short_column([bits]), 4, 64)
                assert short == added(before, 0, key, double_column([bits]), 8, 64) and clean, f'{bits:08X}'
                if field == 255:
                    assert (answer, left) == (-10, before), f'{bits:08X}'
                else:
                    assert answer == 1 and kept(left) == Fraction(girths.sum(left, 1, 5).sum) == short_value(bits), f'{bits:08X}'
                seen[field in (0, 255), answer] += 1
    assert seen == {(False, 1): 254 * 24, (True, 1): 24, (True, -10): 24}, seen


def test_short_floats_beside_doubles():
    """Patches of short floats into tables that hold rows, refused ones among them: the answer, every byte and the work buffer are those of the same rows in doubles."""
    r, seen = random.Random(21), Counter()
    for _ in range(3000):
        patterns, groups = short_patterns(r, r.randrange(12)), r.randrange(6)
        if patterns and r.random() < 0.1:
            patterns[r.randrange(len(patterns))] = r.getrandbits(1) << 31 | 255 << 23 | r.choice((0, 1, r.getrandbits(23)))
        table, g = table_of([(r.randrange(6), r.choice((1.5, -0.1, 1e30, 1e-40))) for _ in range(r.randrange(4))])
        g = min(g, groups) if r.random() < 0.95 else groups + 1
        keys = struct.pack(f'<{len(patterns)}I', *(r.randrange(6) for _ in patterns))[r.random() < 0.05:]
        room = 64 * groups - (groups > 0 and r.random() < 0.05)
        short, doubles = (added(table[:64 * groups], g, keys, column(patterns), width, room) for column, width in ((short_column, 4), (double_column, 8)))
        assert short == doubles and short[2], patterns
        if short[0] not in (-7, -8, -9):
            assert (short[0] == -10) == (None in map(short_value, patterns)), patterns
        seen[min(short[0], 0)] += 1
    assert set(seen) == {0, -7, -8, -9, -10, -12} and min(seen.values()) > 20, seen


def test_widths():
    """Widths of no kind: 7, then 8, then 9, whatever the columns are, and the work buffer holds only zeros. Columns that fit the other width alone: 9."""
    sound, r = many_records(2), random.Random(22)
    unsound = sound[:-64] + bytes(64)
    for width in 0, 1, 2, 3, 5, 6, 7, 9, 12, 16, 32, 64, 2 ** 32, 2 ** 32 + 4, 2 ** 32 + 8, 2 ** 63 + 8, 2 ** 64 - 8, 2 ** 64 - 4, 2 ** 64 - 1, r.getrandbits(64) | 1:
        for keys, values in (0, 0), (4, 4), (4, 8), (8, 8), (8, 16), (4, min(width, 99)), (5, 8):
            for fill in 0, 255:
                columns = bytes(keys), bytes([fill]) * values, width
                for call in added, removed:
                    assert call(unsound, 2, *columns, 0) == (-7, unsound, True) and call(sound, 3, *columns, 128) == (-7, sound, True), width
                    assert call(sound, 2, *columns, 127) == (-8, sound, True), width
                    assert call(sound, 2, *columns, 128) == (-9, sound, True), width
    for n in range(1, 9):
        for width, other in (4, 8), (8, 4):
            assert added(bytes(64), 0, bytes(4 * n), bytes(width * n), width, 64)[0] == 1
            assert added(bytes(64), 0, bytes(4 * n), bytes(width * n), other, 64) == (-9, bytes(64), True)
            assert removed(sound, 2, bytes(4 * n), bytes(width * n), other, 128) == (-9, sound, True)
    assert added(bytes(64), 0, b'', b'', 4, 64) == added(bytes(64), 0, b'', b'', 8, 64) == (0, bytes(64), True)
    assert removed(sound, 2, b'', b'', 4, 128) == removed(sound, 2, b'', b'', 8, 128) == (2, sound, True)


def read_by_rule(file):
    """What reading has to answer, and what it has to write out: where the columns start, and the width."""
    if not 16 <= len(file) <= 65536:
        return -1 if len(file) > 65536 else -2, [0, 0, 0]
    n, k, v = struct.unpack('<III', file[-16:-4])
    width = {mark: width for width, mark in MARKS.items()}.get(file[-4:])
    if width is None:
        return -3, [0, 0, 0]
    if not 4 * n + 16 <= k <= len(file):
        return -4, [0, 0, 0]
    if not width * n + 16 <= v <= len(file):
        return -5, [0, 0, 0]
    a, b = len(file) - k, len(file) - v
    if set(range(a, a + 4 * n)) & set(range(b, b + width * n)):
        return -6, [0, 0, 0]
    return n, [a, b, width]


def check_read(file):
    """The answer of reading, after a look at all that it writes out and at what the module makes of it."""
    n, outs = read_by_rule(file)
    lent, written = girths._Lent('', file), [ctypes.c_uint64(9) for _ in range(3)]
    found = girths._library().girth_read(*lent.words, *map(ctypes.byref, written))
    assert (found, [out.value for out in written]) == (n, outs), (found, n, outs)
    if n < 0:
        refused(-n, girths.read, file)
    else:
        keys, values, width = outs
        assert girths.read(file) == (n, file[keys:keys + 4 * n], file[values:values + width * n], width)
    return n


def test_files_of_both_kinds():
    """Files with either mark, and with neither, near every edge: the width is written out, and 0 where the file is refused."""
    r, seen = random.Random(23), Counter()
    others = b'LAS5', b'LASt', b'TABL', b'4SAL', b'LAT4', b'MAS4', b'LBS4', bytes(4)
    for _ in range(20000):
        n, mark = r.randrange(5), r.choice((*MARKS.values(), r.choice(others)))
        width = 4 if mark == b'LAS4' else 8
        length = r.choice(((4 + width) * n, r.randrange(70)))
        k, v = r.choice(((length + 16, width * n + 16), (4 * n + 16, length + 16), (r.randrange(14, 90), r.randrange(14, 90)), (4 * n + 15 + r.randrange(3), length + 15 + r.randrange(3))))
        answer = check_read(r.randbytes(length) + trailer(n, k, v + r.choice((0, 0, -1, 1)), mark))
        seen[mark if mark in MARKS.values() else b'', min(answer, 0)] += 1
    assert set(seen) == {(b'', -3), *((mark, a) for mark in MARKS.values() for a in (0, -4, -5, -6))} and min(seen.values()) > 100, seen
    for at, byte in ((at, byte) for at in range(4) for byte in range(256)):
        for mark in MARKS.values():
            changed = mark[:at] + bytes([byte]) + mark[at + 1:]
            assert check_read(bytes(36) + trailer(3, 52, 40, changed)) == (3 if changed in MARKS.values() else -3), changed


def test_edges_of_both_kinds():
    """The most rows of either kind, and the bounds of v and of the overlap, which follow the width."""
    for width, most in (8, 5460), (4, 8190):
        def file(n, front=0, **other):
            fields = {'k': (4 + width) * n + 16, 'v': width * n + 16, **other}
            return bytes(front + (4 + width) * n) + trailer(n, **fields, mark=MARKS[width])
        assert len(file(most)) == 65536 and check_read(file(most)) == most
        assert check_read(file(most + 1)) == check_read(file(most, front=1)) == -1
        # one row more in a file that is not too long: each column has room alone, and they overlap
        assert check_read(file(most + 1, k=65536)[4 + width:]) == -6
        whole = 3 * (4 + width) + 16
        assert check_read(file(3, v=3 * width + 15)) == check_read(file(3, v=whole + 1)) == -5
        assert check_read(file(3, v=3 * width + 17)) == check_read(file(3, k=whole - 1)) == -6
        assert check_read(file(3, front=5, k=whole + 5, v=3 * width + 21)) == check_read(file(3, k=28, v=whole)) == 3
        assert check_read(file(3, front=5, k=whole + 5, v=3 * width + 22)) == -6
        for cut in range(1, 17):
            assert check_read(file(0)[cut:]) == check_read(file(0)[:-cut]) == -2


def test_files_of_short_floats_through_tables():
    """Files of short floats, with their reports and beside those that mkpatch makes; as doubles, which write takes, they have the same."""
    r = random.Random(24)
    for n in 0, 1, 2, 7, 63, 500, 5460, 8190:
        patterns = short_patterns(r, n)
        keys, short, doubles = struct.pack(f'<{n}I', *(r.randrange(64) for _ in range(n))), short_column(patterns), double_column(patterns)
        notes = b'' if n == 8190 else b'notes'
        file = notes + short + keys + trailer(n, 4 * n + 16, 8 * n + 16, b'LAS4')
        columns = girths.read(file)
        assert columns == (n, keys, short, 4)
        table, same = bytearray(4096), bytearray(4096)
        g = girths.add(table, 0, *columns[1:])
        assert girths.add(same, 0, keys, doubles, 8) == g and same == table
        report = girths.report(file)
        assert report.decode() == report_by_calls(file) and report.endswith(b'total %d %d\n' % (g, n))
        rows = unpack(columns)
        assert made(rows, '--short') == keys + short + trailer(n, 8 * n + 16, 4 * n + 16, b'LAS4')
        assert made(rows, '--short', '--values-first', '--notes', notes.decode()) == file
        if n <= 5460:
            assert girths.report(girths.write(keys, doubles)) == girths.report(made(rows)) == report
        if n > 0:
            refused(9, girths.write, keys, short)


def test_both_kinds_in_one_table():
    """Rows that are short floats in any order and any split, each part as short floats or as doubles, with saves and loads on the way and a merge at the end: the same bytes."""
    r, seen = random.Random(25), Counter()
    for _ in range(300):
        rows = [(r.randrange(9), x) for x in struct.unpack('<30f', short_column(short_patterns(r, 30)))][r.randrange(30):]
        expected, groups = table_of(rows)
        r.shuffle(rows)
        tables, width = [(bytearray(r.randbytes(4096)), 0), (bytearray(r.randbytes(4096)), 0)], 4
        while rows:
            cut, i = r.randrange(1, 9), r.randrange(2)
            table, g = tables[i]
            g = girths.add(table, g, *pack(rows[:cut], width))
            seen[width] += 1
            if r.random() < 0.3:
                file, table = girths.save(table, g), bytearray(r.randbytes(4096))
                assert girths.load(file, table) == g
            tables[i], rows, width = (table, g), rows[cut:], r.choice((4, 8))
        (first, g1), (second, g2) = tables
        assert girths.merge(first, g1, second, g2) == groups and first[:64 * groups] == expected[:64 * groups]
    assert min(seen[4], seen[8]) > 300, seen


def levels(x):
    """A row's top, and what it gives to its top and to each level below."""
    left, given = int(Fraction(x) * 2 ** 1074), {}
    top = next(j for j in range(53) if abs(left) < 2 ** (39 + 40 * j))
    for j in range(top, -1, -1):
        given[j] = round(Fraction(left, 2 ** (40 * j)))  # an exact half goes to the even number
        left -= given[j] * 2 ** (40 * j)
    return top, given


class Held:
    """A section as a record has it."""

    def __init__(self, record):
        self.key, self.count, self.top, self.finest, *words = struct.unpack('<IIIIQqQqQq', record)
        self.totals = [c * 2 ** 50 + s for s, c in zip(words[::2], words[1::2])]

    def remove(self, parts):
        self.count -= len(parts)
        self.totals = [t - sum(given.get(self.top - i, 0) for _, given in parts) for i, t in enumerate(self.totals)]

    def record(self):
        words = [word for t in self.totals for word in (t % 2 ** 50, t // 2 ** 50)]
        return struct.pack('<IIIIQqQqQq', self.key, self.count, self.top, self.finest, *words)


def removed_by_rule(table, g, rows):
    """What a removal of finite rows has to answer, and the bytes that it has to leave in a sound table."""
    held, gone = {}, {}
    for at in range(0, 64 * g, 64):
        section = Held(table[at:at + 64])
        held[section.key] = section
    for key, x in rows:
        gone.setdefault(key, []).append(levels(x))
    if any(key not in held or held[key].count < len(parts) for key, parts in gone.items()):
        return -20, table
    if any(held[key].top < top for key, parts in gone.items() for top, _ in parts):
        return -21, table
    for key, parts in gone.items():
        held[key].remove(parts)
    if any(abs(t) > section.count * 2 ** 39 for section in held.values() for t in section.totals):
        return -22, table
    left = b''.join(section.record() for section in held.values() if section.count)
    return len(left) // 64, left + bytes(64 * g - len(left)) + table[64 * g:]


def check_remove(table, g, rows, width=8):
    """The answer of a removal and what it leaves, after a look at every byte of the table and of the work buffer."""
    found = removed(table, g, *pack(rows, width), len(table) + 5)
    assert found == (*removed_by_rule(table, g, rows), True), (found[0], rows)
    return found[:2]


def some_rows(r, n, width, span):
    """Rows of lengths that come close, of others far from them, and of zeros, which have the width."""
    near, far = (1.5, -1.5, 0.1, 33.0, 2.0 ** -40), (0.0, -0.0, 2.0 ** 60, -2.0 ** 100, 2.0 ** -100)
    values = [r.choice(near if r.random() < 0.7 else far) * r.choice((1, 1, -1, 3)) for _ in range(n)]
    if width == 4:
        values = struct.unpack(f'<{n}f', struct.pack(f'<{n}f', *values))
    return [(r.randrange(span), x) for x in values]


def test_undone_adds():
    """A patch removed right after it was added: the former bytes are back, but for raised tops and lowered finest powers; what the add used beyond them is zero."""
    r, seen = random.Random(26), Counter()
    for _ in range(2500):
        width, span, room = r.choice((4, 8)), r.randrange(1, 7), r.randbytes(64 * r.randrange(6, 9) + r.randrange(64))
        before, rows = some_rows(r, r.randrange(9), 8, span), some_rows(r, r.randrange(5), width, span)
        g, former, _ = added(room, 0, *pack(before), len(room))
        more, table, _ = added(former, g, *pack(rows, width), len(room))
        answer, left = check_remove(table, more, rows, width)
        assert answer == g and left[64 * more:] == room[64 * more:] and not any(left[64 * g:64 * more])
        changes = set()
        for i, key in enumerate(keys_of(former, g)):
            own, records = [x for k, x in rows if k == key], (former[64 * i:64 * i + 64], left[64 * i:64 * i + 64])
            old, new = map(Held, records)
            assert (new.key, new.count) == (key, old.count)
            assert (new.top, new.finest) == (max([old.top, *(levels(x)[0] for x in own)]), min([old.finest, *(finest([x]) for x in own)]))
            changes |= {'raised'} if new.top > old.top else {'lowered'} if new.finest < old.finest else {'as before'} if own else set()
            if new.top == old.top:
                assert records[0][:12] + records[0][16:] == records[1][:12] + records[1][16:]
        for change in changes | ({'new'} if more > g else set()):
            seen[change, width] += 1
    assert len(seen) == 8 and min(seen.values()) > 50, seen


def test_removals():
    """Patches of which most were never added, one after the other, of both widths: each answer beside the rule."""
    r, seen = random.Random(27), Counter()
    for _ in range(1500):
        rows = some_rows(r, r.randrange(1, 12), 8, 4)
        g, table, _ = added(r.randbytes(64 * 5 + 9), 0, *pack(rows), 400)
        for _ in range(4):
            width = r.choice((4, 8))
            patch = some_rows(r, r.randrange(3), width, 4) if width == 4 or r.random() < 0.3 else r.sample(rows, r.randrange(min(len(rows), 4)))
            answer, table = check_remove(table, g, patch, width)
            g = answer if answer >= 0 else g
            seen[width, min(answer, 0)] += 1
    assert set(seen) == {(width, answer) for width in (4, 8) for answer in (0, -20, -21, -22)} and min(seen.values()) > 50, seen


def test_order_of_removing():
    """Every set of the conditions of 7, 8, 9, 10, 20, 21 and 22: the first is told, the table keeps its bytes, and the work buffer holds only zeros."""
    for faults in range(128):
        unsound, short, unfit, infinite, absent, higher, beyond = (faults >> i & 1 for i in range(7))
        g, table, _ = added(b'\xa5' * 200, 0, *pack([(1, 1.0), (2, 1.0), (2, 1.0), (3, 1.0), (3, 0.0)]), 200)
        rows = [(2, 1.0), (9, 1.0), (1, 32.0), (3, 0.0), (3, 0.0), (2, math.inf)]
        rows = [row for row, holds in zip(rows, (1, absent, higher, beyond, beyond, infinite)) if holds]
        if unsound:
            table = table[:128 + 4] + bytes(4) + table[128 + 8:]
        keys, values, width = pack(rows)
        number = next((n for n, holds in zip((7, 8, 9, 10, 20, 21, 22), (unsound, short, unfit, infinite, absent, higher, beyond)) if holds), 0)
        for keys, width in ((keys + b'\0', width), (keys, 4), (keys, 9)) if unfit else ((keys, width),):
            answer, left, clean = removed(table, g, keys, values, width, 199 if short else 200)
            assert clean and answer == (-number or 3) and (left == table) == (number > 0), faults


def test_remaining_totals():
    """A remaining total of exactly (remaining rows) x 2^39 is taken, one more is refused: on each level, of both signs, in each of three sections; with no rows left it has to be 0."""
    for left, level, sign, at, beyond in itertools.product((0, 1, 5, 4294967294), range(3), (1, -1), range(3), (0, 1)):
        sections = [Held(record) for record, in struct.iter_unpack('64s', many_records(3))]
        sections[at].count, sections[at].top = left + 1, 26
        sections[at].totals = [sign * (left * 2 ** 39 + beyond) if i == level else 0 for i in range(3)]
        table = b''.join(section.record() for section in sections) + b'\xa5' * 70
        answer, _ = check_remove(table, 3, [(sections[at].key, 0.0)])
        assert answer == (-22 if beyond else 2 + (left > 0)), (left, level, sign, at)


def test_emptied_sections():
    """Every set of five sections emptied at once: the others move down as they are, the vacated bytes are zero, and those after them stay."""
    # the second row gives a negative number to its lowest level, so that no byte of the last carry is 0
    rows = [(7 * i, x) for i in range(5) for x in (1.5 * i, -2.0 ** -35 - 2.0 ** -87)]
    for spare in 0, 1, 64, 133:
        g, table, _ = added(b'\xa5' * (320 + spare), 0, *pack(rows), 320 + spare)
        for goes in itertools.product((False, True), repeat=5):
            gone = [row for row in rows if goes[row[0] // 7]]
            left = b''.join(table[64 * i:64 * i + 64] for i in range(5) if not goes[i])
            assert check_remove(table, g, gone) == (len(left) // 64, left + bytes(320 - len(left)) + b'\xa5' * spare)


def check_held(record, rows):
    """Whether a section is answered exact, whether it keeps the exact sum, and whether its top is 2 or less, after a look that it holds these rows at the held levels."""
    section, parts, total = Held(record), [levels(x) for x in rows], sum(map(Fraction, rows))
    assert section.count == len(rows) and section.top >= max(top for top, _ in parts) and section.finest <= finest(rows)
    assert section.totals == [sum(given.get(section.top - i, 0) for _, given in parts) for i in range(3)]
    lowest = Fraction(2) ** (40 * max(section.top - 2, 0) - 1074)
    assert abs(kept(record) - total) * 2 <= len(rows) * lowest
    return girths.exact(record, 1, section.key), kept(record) == total, section.top <= 2


def test_tables_with_removals():
    """Adds, removals of rows that are there, merges, saves and loads in any order: the totals are those of the remaining rows at the held tops, and the kept value lies within
    half a lowest unit for each; where that is answered exact, or the top is 2 or less, it is their sum."""
    r, seen = random.Random(28), Counter()
    for _ in range(60):
        tables, shelf = [(bytearray(r.randbytes(64 * n)), 0, []) for n in (2, 8, 8)], [(bytes(16), [])]
        scale = r.choice((1.0, 1.0, 2.0 ** -1000))
        for _ in range(40):
            i, kind = r.randrange(3), r.choice(('add', 'add', 'remove', 'remove', 'remove', 'merge', 'save', 'load'))
            table, g, held = tables[i]
            second, g2, brought = tables[i - r.randrange(1, 3)]
            rows = [(key, x * scale) for key, x in some_rows(r, r.randrange(1, 5), 8, 5)]
            if kind == 'merge' and len(held) + len(brought) >= 60:
                kind = 'remove'
            try:
                if kind == 'add':
                    tables[i] = table, girths.add(table, g, *pack(rows)), held + rows
                elif kind == 'remove':
                    rows = r.sample(held, r.randrange(len(held) + 1))
                    tables[i] = table, girths.remove(table, g, *pack(rows)), list((Counter(held) - Counter(rows)).elements())
                elif kind == 'merge':
                    tables[i] = table, girths.merge(table, g, second, g2), held + brought
                elif kind == 'save':
                    shelf.append((girths.save(table, g), held))
                else:
                    file, rows = r.choice(shelf)
                    tables[i] = table, girths.load(file, table), rows
                seen[kind] += 1
            except girths.Refused as e:
                seen[kind, e.number] += 1
            table, g, held = tables[i]
            assert girths.totals(table, g) == (len({key for key, _ in held}), len(held))
            for at, key in enumerate(keys_of(table, g)):
                seen[check_held(bytes(table[64 * at:64 * at + 64]), [x for k, x in held if k == key])] += 1
    calls = {'add', 'remove', 'merge', 'save', 'load', ('add', 12), ('merge', 12), ('load', 3), ('load', 16)}
    # a section that is answered exact keeps the sum, and so does one with a top of 2 or less, which is answered exact
    sections = {(True, True, True), (True, True, False), (False, True, False), (False, False, False)}
    assert set(seen) == calls | sections and min(seen.values()) > 5, seen


def test_same_words_in_rust():
    text = (ROOT / 'bindings' / 'rust' / 'src' / 'lib.rs').read_text()
    words = re.findall(r'^    "(.*)",$', text[text.index('const GROUNDS'):text.index('];', text.index('const GROUNDS'))], re.M)
    assert len(words) == 22 and girths.GROUNDS == {n: words[n - 1] for n in range(1, 23)}


def test_any_order():
    r = random.Random(1)
    for _ in range(60):
        rows = [(r.randrange(9), r.choice((1, -1)) * r.random() * 2.0 ** r.randrange(-90, 90)) for _ in range(r.randrange(1, 60))]
        expected, g = table_of(rows)
        for _ in range(4):
            r.shuffle(rows)
            cut = r.randrange(len(rows) + 1)
            first, g1 = table_of(rows[:cut])
            second, g2 = table_of(rows[cut:])
            assert girths.merge(first, g1, second, g2) == g and first == expected


def test_checks_of_arguments():
    t = bytearray(128)
    raises(TypeError, girths.read, 'text')
    raises(TypeError, girths.read, None)
    raises(TypeError, girths.read, memoryview(bytes(32))[::2])
    raises(TypeError, girths.read, memoryview(bytes(32)).cast('I'))
    raises(TypeError, girths.write, 'text', b'')
    raises(TypeError, girths.write, b'', None)
    raises(TypeError, girths.write, memoryview(bytes(4)).cast('I'), bytes(8))
    raises(ValueError, girths.sum, t, 0, 2 ** 32)
    raises(ValueError, girths.figure, t, 0, -1)
    raises(TypeError, girths.line, t, 0, '1')
    raises(ValueError, girths.exact, t, 0, 2 ** 32)
    raises(ValueError, girths.exact, t, -1, 0)
    raises(TypeError, girths.exact, 'text', 0, 0)
    raises(TypeError, girths.exact, t, 0, 1.0)
    raises(TypeError, girths.totals, 'text', 0)
    raises(TypeError, girths.totals, t, True)
    raises(ValueError, girths.totals, t, -1)
    raises(ValueError, girths.totals, t, 2 ** 64)
    raises(TypeError, girths.merge, bytes(64), 0, b'', 0)
    raises(ValueError, girths.merge, t, 0, t, 0)
    whole = bytearray(256)
    halves = memoryview(whole)[:128], memoryview(whole)[128:]
    assert girths.merge(halves[0], 0, halves[1], 0) == 0
    assert girths.add(halves[0], 0, *pack([(1, 1.0)]), halves[1]) == 1 and girths.sum(whole, 1, 1) == (1.0, 0)


def test_checks_of_changes():
    """What the module asks of an add it asks of a removal."""
    t, work = bytearray(128), bytearray(128)
    for call in girths.add, girths.remove:
        raises(TypeError, call, bytes(64), 0, b'', b'', 8)
        raises(TypeError, call, t, 0, b'', b'', 8, bytes(128))
        raises(TypeError, call, t, 0.0, b'', b'', 8)
        raises(TypeError, call, t, True, b'', b'', 8)
        raises(ValueError, call, t, -1, b'', b'', 8)
        raises(ValueError, call, t, 2 ** 64, b'', b'', 8)
        refused(7, call, t, 2 ** 64 - 1, b'', b'', 8)
        raises(TypeError, call, t, 0, b'', b'')
        raises(TypeError, call, t, 0, b'', b'', bytearray(128))
        raises(TypeError, call, t, 0, b'', b'', 4.0)
        raises(TypeError, call, t, 0, b'', b'', True)
        raises(TypeError, call, t, 0, b'', b'', None)
        raises(ValueError, call, t, 0, b'', b'', -4)
        raises(ValueError, call, t, 0, b'', b'', 2 ** 64)
        refused(9, call, t, 0, b'', b'', 2 ** 64 - 4)
        raises(ValueError, call, t, 0, b'', b'', 8, t)
        raises(ValueError, call, t, 0, memoryview(t)[:4], bytes(8), 8)
        raises(ValueError, call, t, 0, bytes(4), memoryview(t)[120:], 8)
        raises(ValueError, call, t, 0, memoryview(work)[:4], bytes(8), 8, work)
        raises(ValueError, call, t, 0, bytes(4), memoryview(work)[100:108], 8, work)


def test_checks_of_saving():
    t = bytearray(128)
    raises(TypeError, girths.save, 'text', 0)
    raises(TypeError, girths.save, t, 0.0)
    raises(ValueError, girths.save, t, -1)
    raises(ValueError, girths.save, t, 2 ** 64)
    raises(TypeError, girths.load, 'text', t)
    raises(TypeError, girths.load, b'', bytes(64))
    raises(TypeError, girths.load, memoryview(bytes(64)).cast('I'), t)
    raises(ValueError, girths.load, memoryview(t)[112:], t)
    whole = bytearray(saved(many_records(2)) + b'\xa5' * 128)
    halves = memoryview(whole)[:144], memoryview(whole)[144:]
    assert girths.load(*halves) == 2 and whole == saved(many_records(2)) + many_records(2)


def load(root, **environment):
    """What a fresh process says that loads a copy of the module below another root."""
    folder = pathlib.Path(root) / 'bindings' / 'python'
    folder.mkdir(parents=True, exist_ok=True)
    (folder / 'girths.py').write_bytes((MODULE / 'girths.py').read_bytes())
    code = 'import girths\ntry: print(girths.report(b""))\nexcept girths.NotBuilt as e: print("NotBuilt:", e)'
    env = {**os.environ, 'PYTHONPATH': str(folder), 'PYTHONDONTWRITEBYTECODE': '1', **environment}
    done = subprocess.run([sys.executable, '-c', code], env=env, capture_output=True, text=True)
    assert done.returncode == 0, done.stderr
    return done.stdout


def test_what_is_missing():
    archive = ROOT / 'target' / 'staticlib' / 'libexports.a'
    with tempfile.TemporaryDirectory() as root:
        said = load(root)
        assert said.startswith('NotBuilt: ') and 'is not the repository' in said, said
        pathlib.Path(root, 'crates.txt').write_text('')
        said = load(root, PATH='')
        assert 'rt is not on the path' in said, said
        said = load(root, GIRTHS_ARCHIVE=root + '/none.a')
        assert 'which is not there' in said, said
        own = pathlib.Path(root, 'target', 'staticlib', 'libexports.a')
        own.parent.mkdir(parents=True)
        own.write_bytes(archive.read_bytes())
        said = load(root, PATH='')
        assert 'cc is not on the path' in said, said
        assert load(root) == "b'refused 2\\n'\n"
        own.write_bytes(b'no archive')
        os.utime(own, (2 ** 32, 2 ** 32))
        said = load(root)
        assert 'cannot be linked' in said, said


def main():
    tests = [f for name, f in globals().items() if name.startswith('test_')]
    for test in tests:
        test()
    print(f'python.py: {len(tests)} tests agree')


main()
