"""The tools: mkpatch, compare and plot, on good input and on bad."""
import os
import pathlib
import struct
import subprocess
import sys
import tempfile
import xml.etree.ElementTree

ROOT = pathlib.Path(__file__).resolve().parent.parent
SAMPLES = ROOT / 'samples'
HEAD = 'section rows bits hundredths side\n'
FORMER_HEAD = 'section rows bits hundredths\n'
SVG = '{http://www.w3.org/2000/svg}'


def run(tool, *args, data=b'', **more):
    """Status, output, and what was said, of a tool that is called in the folder of the samples."""
    done = subprocess.run([sys.executable, ROOT / 'tools' / tool, *args], input=data, cwd=SAMPLES, capture_output=True, timeout=60, **more)
    assert b'Traceback' not in done.stderr, done.stderr.decode()
    return done.returncode, done.stdout, done.stderr.decode()


def fails(status, words, tool, *args, also='', **more):
    found, out, said = run(tool, *args, **more)
    assert (found, out) == (status, b''), (tool, args, found, out[:80])
    assert said.splitlines()[-1].startswith(f'{tool}: ') and words in said and also in said, (tool, args, said)


def closed(tool, *args, descriptor, words, status=1):
    """A tool whose standard input or output is closed."""
    fails(status, words, tool, *args, preexec_fn=lambda: os.close(descriptor))


# ---- mkpatch

def trailer(n, k, v, mark=b'LAST'):
    return struct.pack('<III', n, k, v) + mark


def test_mkpatch_files():
    text = b'# two rows\n\n 1 1.5\n4294967295\t-2e-3\n'
    keys, values = struct.pack('<II', 1, 4294967295), struct.pack('<dd', 1.5, -2e-3)
    assert run('mkpatch', data=text) == (0, keys + values + trailer(2, 40, 32), '')
    assert run('mkpatch', '--values-first', data=text) == (0, values + keys + trailer(2, 24, 40), '')
    notes = 'müller, left'
    assert run('mkpatch', '--notes', notes, '-', '-', data=text) == (0, notes.encode() + keys + values + trailer(2, 40, 32), '')
    assert run('mkpatch', data=b'') == (0, trailer(0, 16, 16), '')
    with tempfile.TemporaryDirectory() as folder:
        source, target = pathlib.Path(folder, 'in'), pathlib.Path(folder, 'out')
        source.write_bytes(text)
        assert run('mkpatch', '--values-first', '--notes=x', source, target) == (0, b'', '')
        assert target.read_bytes() == b'x' + values + keys + trailer(2, 24, 40)
        fails(1, 'line 1', 'mkpatch', '-', target, data=b'1')
        assert target.read_bytes()[:1] == b'x', 'a refused text writes nothing'


def test_mkpatch_limits():
    most = b''.join(b'%d 1\n' % (i % 64) for i in range(5460))
    assert len(run('mkpatch', '--notes', '', data=most)[1]) == 65536
    fails(1, 'at most 65,536', 'mkpatch', data=most + b'1 1\n')
    fails(1, '1 bytes of notes', 'mkpatch', '--notes', 'x', data=most)


def test_mkpatch_short_floats():
    text = b'# two rows\n\n 1 1.5\n4294967295\t-0.001953125\n'
    keys, values = struct.pack('<II', 1, 4294967295), struct.pack('<ff', 1.5, -2.0 ** -9)
    keys_first, values_first = trailer(2, 32, 24, b'LAS4'), trailer(2, 24, 32, b'LAS4')
    assert run('mkpatch', '--short', data=text) == (0, keys + values + keys_first, '')
    assert run('mkpatch', '--values-first', '--short', '--notes', 'x', data=text) == (0, b'x' + values + keys + values_first, '')
    assert run('mkpatch', '--short', data=b'') == (0, trailer(0, 16, 16, b'LAS4'), '')
    # both zeros, the smallest and the largest, the largest subnormal and its neighbour, and the nearest to 0.1, in digits that name their doubles
    bits = [0, 1 << 31, 1, (1 << 31) + 1, 0x7F7FFFFF, 0xFF7FFFFF, 0x7FFFFF, 0x800000, 0x3DCCCCCD]
    values = struct.pack(f'<{len(bits)}I', *bits)
    lines = ''.join(f'3 {x!r}\n' for x in struct.unpack(f'<{len(bits)}f', values))
    assert run('mkpatch', '--short', data=lines.encode())[1][4 * len(bits):-16] == values


def test_mkpatch_refuses_what_is_no_short_float():
    for word, words in {
        '0.1': '0.1 is not a short float: the nearest is 0.10000000149011612', '-70.9': 'the nearest is -70.9000015258789', '16777217': 'the nearest is 16777216.0',
        '1e-50': 'the nearest is 0.0', '-1e-50': 'the nearest is -0.0', '1.4e-45': 'the nearest is 1.401298464324817e-45', '3.4028235e38': 'the nearest is 3.4028234663852886e+38',
        '1e39': '1e39 is too large for a short float', '-3.4028236e38': 'too large for a short float', '1e999': 'too large for a double', 'x': "'x' is not a length",
    }.items():
        fails(1, 'line 2: ', 'mkpatch', '--short', data=b'7 7\n1 ' + word.encode(), also=words)
        nearest = words.partition('the nearest is ')[2]
        assert not nearest or run('mkpatch', '--short', data=b'1 ' + nearest.encode())[0] == 0
    most = b''.join(b'%d 1\n' % (i % 64) for i in range(8190))
    assert len(run('mkpatch', '--short', data=most)[1]) == 65536
    fails(1, 'at most 65,536 (8,190 rows of short floats)', 'mkpatch', '--short', data=most + b'1 1\n')
    fails(1, '1 bytes of notes', 'mkpatch', '--short', '--notes', 'x', data=most)
    fails(1, 'at most 65,536 (5,460 rows)', 'mkpatch', data=most)


def test_mkpatch_refuses():
    for line, words in {
        '1': '1 word found', '1 2 3': '3 words found', 'x 1': "'x' is not a section number", '-1 1': 'is not a section number',
        '1.5 1': 'is not a section number', '4294967296 1': 'between 0 and 4294967295', '9' * 5000 + ' 1': 'between 0 and 4294967295',
        '1 x': "'x' is not a length", '1 1,5': 'is not a length', '1 nan': 'is not a length', '1 inf': 'is not a length',
        '1 1_0': 'is not a length', '1 1e999': 'too large', '1 ٣': 'is not a length', '1 0x1': 'is not a length',
    }.items():
        fails(1, 'line 2: ', 'mkpatch', data=b'7 7\n' + line.encode(), also=words)
    fails(1, 'none: No such file', 'mkpatch', 'none')
    fails(1, '.: Is a directory', 'mkpatch', '.')
    fails(1, 'this is not text', 'mkpatch', 'negative.patch')
    fails(1, '/none/x: No such file', 'mkpatch', '-', '/none/x', data=b'1 1')
    fails(2, 'unrecognized', 'mkpatch', '--values', 'x', data=b'1 1')
    fails(2, 'unrecognized', 'mkpatch', '-', '-', '-')
    fails(2, 'expected one argument', 'mkpatch', '--notes')
    closed('mkpatch', descriptor=0, words='standard input is closed')
    closed('mkpatch', descriptor=1, words='standard output is closed')


def test_full_device():
    for status, *args in ((1, 'mkpatch'), (1, 'plot', 'negative.report'), (2, 'compare', 'negative.report', 'negative.report')):
        with open('/dev/full', 'wb') as full:
            done = subprocess.run([sys.executable, ROOT / 'tools' / args[0], *args[1:]], cwd=SAMPLES, stdin=subprocess.DEVNULL, stdout=full, stderr=subprocess.PIPE)
        assert done.returncode == status and done.stderr.decode() == args[0] + ': standard output: No space left on device\n', done.stderr


# ---- compare

def written(folder, name, text):
    path = pathlib.Path(folder, name)
    path.write_text(text)
    return str(path)


def difference(a, b, differ=None):
    with tempfile.TemporaryDirectory() as folder:
        status, out, said = run('compare', written(folder, 'a', a), written(folder, 'b', b))
    lines = out.decode().splitlines()
    assert said == '' and status == (a != b if differ is None else differ), (status, said)
    assert status == 0 or lines.pop(0).startswith('A is ')
    return lines


def with_total(text):
    """A head line and lines of sections, with the total below them."""
    rows = [int(line.split(' ')[1]) for line in text.splitlines()[1:]]
    return text + f'total {len(rows)} {sum(rows)}\n'


def without_total(report):
    """The same report as it was before there were totals."""
    return ''.join(line + '\n' for line in report.splitlines() if not line.startswith('total'))


def without_sides(report):
    """The same report as it was before there were sides: with their head line and fields, and without a total."""
    lines = [line.split(' ') for line in without_total(report).splitlines()]
    return ''.join(' '.join(words if 'refused' in words else words[:-1]) + '\n' for words in lines)


def test_compare_samples():
    for path in SAMPLES.glob('*.report'):
        text = path.read_text()
        agree = f'both are {text.strip()}' if text.startswith('refused') else None
        lines = difference(text, text)
        assert len(lines) == 1 and lines[0].startswith('the reports agree') and (agree or '') in lines[0], lines


def test_compare_words():
    base = HEAD + '1 2 3FF8000000000000 150 0\n2 1 3FC0000000000000 13 1\n'
    def doctored(old, new):
        assert base.count(old) == 1
        return difference(with_total(base), with_total(base.replace(old, new)))
    assert doctored('1 2 ', '1 3 ') == ['section 1: 2 rows in A, 3 in B', 'total: 3 rows in A, 4 in B']
    assert doctored('00 150', '01 150') == [
        'section 1: sum 3FF8000000000000 (1.5 mm, not rounded) in A, 3FF8000000000001 (1.5000000000000002 mm, not rounded) in B, neighbouring doubles']
    assert doctored('00 150', '03 150')[0].endswith(', 3 doubles apart')
    assert doctored(' 13 1', ' 12 1') == ['section 2: mill figure 13 hundredths in A, 12 hundredths in B, -1']
    assert doctored('3FF8000000000000 150 0', 'refused 14') == ['section 1: sum 3FF8000000000000 (1.5 mm, not rounded) in A, refused 14 in B']
    assert doctored(' 150 0', ' refused 15') == ['section 1: mill figure 150 hundredths in A, refused 15 in B']
    assert doctored('00 13 1', '00 refused 15') == ['section 2: mill figure 13 hundredths in A, refused 15 in B']
    assert doctored('150 0', '150 1') == ['section 1: the same sum 3FF8000000000000 is not rounded in A, rounded up in B']
    assert doctored('13 1', '13 -1') == ['section 2: the same sum 3FC0000000000000 is rounded up in A, rounded down in B']
    assert doctored('3FC0000000000000 13 1', 'BFC0000000000001 -13 -1') == [
        'section 2: sum 3FC0000000000000 (0.125 mm, rounded up) in A, BFC0000000000001 (-0.12500000000000003 mm, rounded down) in B; '
        'mill figure 13 hundredths in A, -13 hundredths in B, -26']
    half, above, below = 'BFC0000000000000', 'BFBFFFFFFFFFFFFF', 'BFC0000000000001'
    for bits, x, y, up_in in ((half, -12, -13, 'A'), (half, -13, -12, 'B'), (half, -13, -14, ''), (half, -11, -14, ''), (above, -12, -13, ''),
                              (below, -13, -12, ''), ('3FC0000000000000', 12, 13, '')):
        a, b = (with_total(HEAD + f'4 1 {bits} {z} 0\n') for z in (x, y))
        words = f' (an exact half, which goes up in {up_in})' if up_in else ''
        assert difference(a, b) == [f'section 4: mill figure {x} hundredths in A, {y} hundredths in B, {y - x:+d}{words}']
    assert doctored('00 13 1', '01 refused 15') == [
        'section 2: sum 3FC0000000000000 (0.125 mm, rounded up) in A, 3FC0000000000001 (0.12500000000000003 mm) in B, neighbouring doubles; '
        'mill figure 13 hundredths in A, refused 15 in B']
    assert doctored('1 2 3FF8000000000000 150 0\n', '') == ['section 1: only in A, with 2 rows', 'total: 2 sections in A, 1 in B; 3 rows in A, 1 in B']
    assert doctored('2 1 3FC', '3 1 3FC') == ['section 2: only in A, with 1 row', 'section 3: only in B, with 1 row']
    assert doctored('13 1\n', '13 1\n3 1 0000000000000000 0 0\n') == ['section 3: only in B, with 1 row', 'total: 2 sections in A, 3 in B; 3 rows in A, 4 in B']
    assert doctored('1 2 3FF8000000000000 150 0\n2 1 ', '2 3 ')[-1] == 'total: 2 sections in A, 1 in B'
    assert difference('refused 3\n', 'refused 4\n') == ['A is a refused file: refused 3', 'B is a refused file: refused 4']
    assert difference(with_total(HEAD), 'refused 3\n') == ['B is a refused file: refused 3']
    assert difference(with_total(HEAD), with_total(base))[-1] == 'total: 0 sections in A, 2 in B; 0 rows in A, 3 in B'
    zeros = with_total(HEAD + '1 1 {} 0 0\n')
    assert difference(zeros.format('0000000000000000'), zeros.format('8000000000000000')) != []


NO_TOTAL = 'has no total: it is from an earlier season, or its end was cut off'


def test_compare_without_sides():
    """A report of an earlier season has four fields and no total: it is compared in what it has, and the last lines say so."""
    for path in SAMPLES.glob('*.report'):
        text = path.read_text()
        former = without_sides(text)
        assert difference(former, former)[0].startswith('the reports agree')
        if text.startswith('refused'):
            assert former == text
            continue
        assert difference(former, text, False)[1:] == ['A has no sides, which are not compared', 'A ' + NO_TOTAL], path
        assert difference(text, former, False)[1:] == ['B has no sides, which are not compared', 'B ' + NO_TOTAL], path
        assert difference(former, without_total(text), False)[1:] == ['A has no sides, which are not compared'], path
    base = HEAD + '1 2 3FF8000000000000 150 1\n2 1 refused 14\n3 1 41747AE148000000 refused 15\n'
    former = without_sides(base)
    assert former == FORMER_HEAD + '1 2 3FF8000000000000 150\n2 1 refused 14\n3 1 41747AE148000000 refused 15\n'
    assert difference(former, base.replace('00 150', '01 150')) == [
        'section 1: sum 3FF8000000000000 (1.5 mm) in A, 3FF8000000000001 (1.5000000000000002 mm, rounded up) in B, neighbouring doubles',
        'A has no sides, which are not compared']
    assert difference(with_total(former), with_total(base), False)[1:] == ['A has no sides, which are not compared']
    assert difference(former, former.replace('00 150', '01 150')) == [
        'section 1: sum 3FF8000000000000 (1.5 mm) in A, 3FF8000000000001 (1.5000000000000002 mm) in B, neighbouring doubles']
    assert difference(FORMER_HEAD, 'refused 3\n') == ['B is a refused file: refused 3']


def test_compare_without_total():
    """Where one report has no total, the last line says so; no total is a difference only beside another."""
    for path in SAMPLES.glob('*.report'):
        text = path.read_text()
        former = without_total(text)
        assert difference(former, former) == difference(text, text)
        if text.startswith('refused'):
            assert former == text
            continue
        assert difference(former, text, False)[1:] == ['A ' + NO_TOTAL] and difference(text, former, False)[1:] == ['B ' + NO_TOTAL], path
    base = HEAD + '1 2 3FF8000000000000 150 0\n2 1 3FC0000000000000 13 1\n'
    cut = HEAD + '1 2 3FF8000000000000 150 0\n'
    assert difference(with_total(base), cut) == ['section 2: only in A, with 1 row', 'B ' + NO_TOTAL]
    assert difference(base, cut) == ['section 2: only in A, with 1 row']
    assert difference('refused 3\n', base)[-1] == difference('refused 3\n', with_total(base))[-1] == 'section 2: only in B, with 1 row'


def test_bad_totals():
    """Totals that girths does not print, or that are not those of the lines above them."""
    lines = ['1 2 3FF8000000000000 150 0', '2 1 refused 14', '5 4 41747AE148000000 refused 15']
    form, follows, other = '`total` and two numbers', 'something follows the total', 'the report was cut or changed'
    good, none = [*lines, 'total 3 7'], ['total 0 0']
    bad = [
        ([*lines, 'total'], form), ([*lines, 'total 3'], form), ([*lines, 'total 3 '], form), ([*lines, 'total  3 7'], form), ([*lines, 'total 3  7'], form),
        ([*lines, 'total 3 7 '], form), ([*lines, 'total 3 7 0'], form), ([*lines, 'total 03 7'], form), ([*lines, 'total 3 07'], form), ([*lines, 'total 3 -7'], form),
        ([*lines, 'total +3 7'], form), ([*lines, 'total 3\t7'], form), ([*lines, 'total: 3 7'], form), ([*lines, 'total 3 ' + 5000 * '7'], form),
        (['total 00 0'], form), (['total 0'], form), ([*lines, 'total refused 14'], form), ([*lines, 'totals 3 7'], form),
        ([*lines, 'Total 3 7'], "'Total' is not what the field section holds"), ([*lines, ' total 3 7'], "'' is not what the field section holds"),
        ([*good, 'total 3 7'], follows), ([*good, '6 1 0000000000000000 0 0'], follows), ([*good, ''], follows), ([*none, *lines], follows), ([*none, 'total 0 0'], follows),
        (['total 3 7', *lines], follows), ([*lines[:2], 'total 3 7', lines[2]], follows),
        ([*lines, 'total 3 8'], 'the total says 8 rows, and the lines above it have 7: ' + other),
        ([*lines, 'total 4 7'], 'the total says 4 sections, and the lines above it have 3: ' + other),
        ([*lines, 'total 3 1'], 'the total says 1 row, and the lines above it have 7: ' + other), ([*lines, 'total 7 3'], other), ([*lines, 'total 0 0'], other),
        (['total 0 1'], other), (['total 1 0'], other), ([*lines[1:], 'total 3 7'], other), ([*lines[:2], 'total 3 7'], other), ([lines[0], lines[2], 'total 2 7'], other),
        ([lines[0].replace('1 2', '1 3'), *lines[1:], 'total 3 7'], other), ([*lines, 'total 3 4294967303'], other),
    ]
    with tempfile.TemporaryDirectory() as folder:
        def report(lines):
            return written(folder, 'report', HEAD + ''.join(line + '\n' for line in lines))
        for damaged, words in bad:
            fails(2, words, 'compare', report(damaged), 'negative.report', also='report, line ')
            fails(1, words, 'plot', report(damaged), also='report, line ')
        for whole in good, none:
            assert run('compare', report(whole), report(whole))[0] == run('plot', report(whole))[0] == 0
        fails(2, 'something follows the refusal of the file', 'compare', written(folder, 'refused', 'refused 3\ntotal 0 0\n'), 'negative.report')
        fails(2, 'it does not end with a line feed', 'compare', written(folder, 'cut', HEAD + '\n'.join(good)), 'negative.report')
        fails(2, 'is not a report', 'compare', written(folder, 'only', 'total 0 0\n'), 'negative.report')


BAD = {
    'no line feed': HEAD.strip(), 'empty': '', 'another head': 'section rows bits\n', 'a missing field': HEAD + '1 2 3FF8000000000000\n',
    'one field more': HEAD + '1 2 3FF8000000000000 150 0 1\n', 'two spaces': HEAD + '1  2 3FF8000000000000 150 0\n', 'small digits': HEAD + '1 2 3ff8000000000000 150 0\n',
    'an infinity': HEAD + '1 2 7FF0000000000000 150 0\n', 'no rising keys': HEAD + '2 1 0000000000000000 0 0\n1 1 0000000000000000 0 0\n',
    'a section twice': HEAD + 2 * '1 1 0000000000000000 0 0\n', 'words after a refusal': HEAD + '1 2 refused 14 1\n', 'a refusal of nothing': HEAD + '1 2 refused\n', 'no rows': HEAD + '1 refused 14\n',
    'a refusal and more': 'refused 3\n' + HEAD,
    'a missing side': HEAD + '1 2 3FF8000000000000 150\n', 'no side': HEAD + '1 2 3FF8000000000000 150 2\n', 'a side with a plus': HEAD + '1 2 3FF8000000000000 150 +1\n',
    'a side of minus zero': HEAD + '1 2 3FF8000000000000 150 -0\n', 'a side after a refusal': HEAD + '1 2 41747AE148000000 refused 15 0\n',
    'a refused side': HEAD + '1 2 3FF8000000000000 150 refused 15\n',
    'a side that the head lacks': FORMER_HEAD + '1 2 3FF8000000000000 150 0\n', 'fields in another order': 'section rows bits side hundredths\n1 2 3FF8000000000000 0 150\n',
}


def test_bad_reports():
    with tempfile.TemporaryDirectory() as folder:
        for name, text in BAD.items():
            path = written(folder, name, text)
            fails(2, 'line ' if text.startswith((HEAD, FORMER_HEAD)) else 'is not', 'compare', path, 'negative.report')
        fails(1, name, 'plot', 'negative.report', path)
    fails(2, 'none: No such file', 'compare', 'negative.report', 'none')
    fails(2, '.: Is a directory', 'compare', '.', 'negative.report')
    fails(2, 'is not a report: it is not text', 'compare', 'any-order.patch', 'negative.report')
    fails(2, 'required', 'compare', 'negative.report')
    fails(1, 'none: No such file', 'plot', 'none')
    fails(2, 'required', 'plot')
    fails(2, 'six reports', 'plot', *7 * ['negative.report'])
    closed('plot', 'negative.report', descriptor=1, words='standard output is closed')
    closed('compare', 'negative.report', '-', descriptor=0, words='standard input is closed', status=2)
    closed('compare', 'negative.report', 'negative.report', descriptor=1, words='standard output is closed', status=2)
    assert run('compare', '-', 'negative.report', data=(SAMPLES / 'negative.report').read_bytes())[0] == 0


# ---- plot

def boxes(svg):
    """The line and the reach of each text of a picture, by a width that no letter of its font passes on average."""
    for t in svg.iter(SVG + 'text'):
        x, y, size, wide = float(t.get('x')), float(t.get('y')), float(t.get('font-size')), len(t.text)
        wide *= size * (0.7 if t.get('font-weight') == 'bold' else 0.64)
        start = {'start': x, 'middle': x - wide / 2, 'end': x - wide}[t.get('text-anchor')]
        yield y, size, start, start + wide, t.text


def drawn(*names, data=b''):
    status, out, said = run('plot', *names, data=data)
    assert (status, said) == (0, ''), said
    svg = xml.etree.ElementTree.fromstring(out)
    width, height = float(svg.get('width')), float(svg.get('height'))
    found = sorted(boxes(svg))
    for i, (y, size, start, end, text) in enumerate(found):
        assert 0 <= start and end <= width and size <= y <= height, f'{text} leaves the picture'
        for other in found[i + 1:]:
            if other[0] - y < 0.75 * other[1]:
                assert end <= other[2] or other[3] <= start, f'{text} and {other[4]} overlap'
    return svg, [t for *_, t in found]


def bars(svg):
    return [r for r in svg.iter(SVG + 'rect') if r.find(SVG + 'title') is not None]


def full(change):
    """A report of 64 sections, with some lines changed."""
    rows = {k: f'{k} {k % 9 + 1} {struct.pack(">d", 200 + k / 4).hex().upper()} {20000 + 25 * k} 0' for k in range(1, 65)}
    rows.update(change)
    return with_total(HEAD + ''.join(line + '\n' for _, line in sorted(rows.items()) if line))


CHANGES = {
    7: '7 9 ' + struct.pack('>d', 200 + 7 / 4).hex().upper() + ' 20175 0',
    12: '12 4 ' + struct.pack('>Q', struct.unpack('>Q', struct.pack('>d', 203.0))[0] + 1).hex().upper() + ' 20300 -1',
    20: '20 3 refused 14',
    21: '21 4 41747AE148000000 refused 15',
    30: '',
    41: '41 6 C06A480000000000 -21025 1',
    52: '52 8 ' + struct.pack('>d', 213.0).hex().upper() + ' 21300 -1',
    4294967295: '4294967295 4294967295 41747AE147AE147B 2147483647 1',
}


def test_plot_two():
    with tempfile.TemporaryDirectory() as folder:
        book, recut = written(folder, 'book', full({})), written(folder, 'recut', full(CHANGES))
        svg, texts = drawn(book, recut)
        assert texts.count('≠') == len(CHANGES) and any('8 of 65 sections differ' in t for t in texts)
        assert len(bars(svg)) == 64 + 65 - 3
        for words in ('B: 9 rows, not 8', 'B: other bits, same figure', 'B: other side, same bits', 'B: refused, A is not', 'B: missing', 'B: -420.50 mm', 'B: not in A',
                      'refused 14: sum too large', 'refused 15: mill figure too large', 'no rows'):
            assert words in texts, words
        svg, texts = drawn(recut, recut, book)
        assert texts.count('≠') == len(CHANGES) and 'C: A is refused' in texts
        assert '≠' not in drawn(book, book)[1]
        titles = [r.find(SVG + 'title').text for r in bars(svg)]
        for words in ('4: 5 rows, 4069200000000000, not rounded, 201.00 mm', '41: 6 rows, C06A480000000000, rounded up, -210.25 mm',
                      '52: 8 rows, 406AA00000000000, rounded down, 213.00 mm'):
            assert 'section ' + words in titles, words


def test_plot_without_sides():
    with tempfile.TemporaryDirectory() as folder:
        book = written(folder, 'book', full(CHANGES))
        former = written(folder, 'former', without_sides(full(CHANGES)))
        svg, texts = drawn(former, book)
        assert '≠' not in texts and [t for t in texts if 'without sides' in t] == [t for t in texts if t.startswith('A  ')] != []
        assert 'section 4: 5 rows, 4069200000000000, 201.00 mm' in [r.find(SVG + 'title').text for r in bars(svg)]
        for names in ((former, former), (former,), (book, book)):
            assert not any('without sides' in t for t in drawn(*names)[1])


def test_plot_samples():
    for path in sorted(SAMPLES.glob('*.report')):
        svg, texts = drawn(path.name)
        sections = [line.split() for line in without_total(path.read_text()).splitlines()[1:]]
        assert [t for t in texts if t in {s[0] for s in sections}] != [] or not sections
        assert len(bars(svg)) == sum('refused' not in s for s in sections)
    names = ['two-sections.report', 'both-zeros.report', 'refused-14-sum.report', 'refused-3-no-mark.report', 'negative.report', '-']
    assert any('a refused file: refused 3' in t for t in drawn(*names, data=HEAD.encode())[1])
    assert any('a file is refused' in t for t in drawn('no-rows.report', 'refused-3-no-mark.report')[1])
    with tempfile.TemporaryDirectory() as folder:
        drawn(written(folder, 'a<b>&' + 100 * 'x', HEAD), 'negative.report')


def test_help():
    for tool in ('mkpatch', 'compare', 'plot'):
        status, out, said = run(tool, '--help')
        assert status == 0 and out.startswith(b'usage: ' + tool.encode()) and said == ''


def main():
    tests = [f for name, f in globals().items() if name.startswith('test_')]
    for test in tests:
        test()
    print(f'tools.py: {len(tests)} tests agree')


main()
