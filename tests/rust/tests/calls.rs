//! The library's calls beside the exact model, on documents' figures and on random and damaged input.
mod model;
mod removals;
use calls::Kind;
use model::{Big, Rows, Section};
use removals::remove_both;
use std::collections::{BTreeMap, BTreeSet};

struct Random(u64);

impl Random {
    fn next(&mut self) -> u64 {
        self.0 ^= self.0 << 13;
        self.0 ^= self.0 >> 7;
        self.0 ^= self.0 << 17;
        self.0.wrapping_mul(0x2545F4914F6CDD1D)
    }

    fn below(&mut self, n: u64) -> u64 {
        (self.next() >> 11) % n
    }

    fn chance(&mut self, n: u64) -> bool {
        self.below(n) == 0
    }

    fn bytes(&mut self, n: usize) -> Vec<u8> {
        (0..n).map(|_| self.next() as u8).collect()
    }

    fn shuffle<T>(&mut self, v: &mut [T]) {
        for i in (1..v.len()).rev() {
            v.swap(i, self.below(i as u64 + 1) as usize);
        }
    }

    /// A finite row; fields lie close together around a middle, so that rows meet on the same levels.
    fn row(&mut self, middle: u64) -> u64 {
        let sign = self.below(2) << 63;
        let field = match self.below(8) {
            0 => self.below(2047),
            1 => 0,
            2 => 1 + self.below(80),
            3 => (middle + self.below(200)).min(2046),
            _ => (middle + self.below(60)).min(2046),
        };
        let fraction = match self.below(4) {
            0 => 0,
            1 => self.next() >> 12 << self.below(52) & ((1 << 52) - 1),
            _ => self.next() >> 12,
        };
        sign | field << 52 | fraction
    }

    /// A row that leaves an exact half of a level's unit, or stands at its edge.
    fn half(&mut self) -> u64 {
        let e = 40 * self.below(52) + 39 + self.below(2);
        let odd = self.below(1 << 20) * 2 + self.below(2);
        let b = model::nearest_double(Big::from(odd as i128).shl((e as usize).min(2070)));
        b | self.below(2) << 63
    }

    /// The bits of a finite short float; fields lie close together around a middle, and some are subnormal.
    fn short(&mut self, middle: u64) -> u32 {
        let field = match self.below(8) {
            0 => self.below(255),
            1 => 0,
            2 => (middle + self.below(60)).min(254),
            _ => (middle + self.below(16)).min(254),
        };
        let fraction = match self.below(4) {
            0 => [0, 1, (1 << 23) - 1][self.below(3) as usize],
            1 => self.below(1 << 23) << self.below(23) & ((1 << 23) - 1),
            _ => self.below(1 << 23),
        };
        (self.below(2) << 31 | field << 23 | fraction) as u32
    }

    fn shorts(&mut self, n: usize) -> Vec<u32> {
        let middle = self.below(255);
        let mut rows = Vec::new();
        while rows.len() < n {
            rows.push(self.short(middle));
            if self.chance(4) && rows.len() < n {
                rows.push(rows[rows.len() - 1] ^ 1 << 31);
            }
        }
        rows
    }

    /// Random rows of either kind, in sections below a number: two columns with the width of a value, and the rows as doubles.
    fn patch(&mut self, n: usize, span: u64) -> (Vec<u8>, Vec<u8>, u64, Vec<(u32, u64)>) {
        if self.chance(2) {
            let rows: Vec<(u32, u64)> = self.rows(n).into_iter().map(|b| (self.below(span) as u32, b)).collect();
            let (k, v) = columns(&rows);
            return (k, v, 8, rows);
        }
        let rows: Vec<(u32, u32)> = self.shorts(n).into_iter().map(|b| (self.below(span) as u32, b)).collect();
        let (k, v) = short_columns(&rows);
        (k, v, 4, widened(&rows))
    }

    fn rows(&mut self, n: usize) -> Vec<u64> {
        let middle = self.below(2047);
        let mut rows = Vec::new();
        while rows.len() < n {
            let r = if self.chance(4) { self.half() } else { self.row(middle) };
            rows.push(r);
            if self.chance(4) && rows.len() < n {
                rows.push(r ^ 1 << 63);
            }
        }
        rows
    }
}

fn columns(rows: &[(u32, u64)]) -> (Vec<u8>, Vec<u8>) {
    (rows.iter().flat_map(|r| r.0.to_le_bytes()).collect(), rows.iter().flat_map(|r| r.1.to_le_bytes()).collect())
}

fn short_columns(rows: &[(u32, u32)]) -> (Vec<u8>, Vec<u8>) {
    (rows.iter().flat_map(|r| r.0.to_le_bytes()).collect(), rows.iter().flat_map(|r| r.1.to_le_bytes()).collect())
}

/// The same rows as doubles.
fn widened(rows: &[(u32, u32)]) -> Vec<(u32, u64)> {
    rows.iter().map(|r| (r.0, model::widened(r.1).expect("a finite row"))).collect()
}

fn of_values(rows: &[u64]) -> (Vec<u8>, u64) {
    let mut t = vec![0; 64];
    let (k, v) = columns(&rows.iter().map(|&b| (7, b)).collect::<Vec<_>>());
    let g = calls::add(&mut t, 0, &k, &v, Kind::Double, &mut [0; 64]).unwrap();
    (t, g)
}

/// One add of doubles, compared with the model.
fn add_both(table: &mut Vec<u8>, g: u64, keys: &[u8], values: &[u8], work: &mut [u8]) -> Result<u64, u32> {
    add_both_of(table, g, keys, values, 8, work)
}

/// One add that is told a width, compared with the model.
fn add_both_of(table: &mut Vec<u8>, g: u64, keys: &[u8], values: &[u8], width: u64, work: &mut [u8]) -> Result<u64, u32> {
    let expected = model::add(table, g, keys, values, width, work.len());
    change_both(expected, calls::add_of_width, table, g, keys, values, width, work)
}

type Change = fn(&mut [u8], u64, &[u8], &[u8], u64, &mut [u8]) -> Result<u64, u32>;

/// An add or a removal, compared with what the model expects: the answer, every byte of the table, the work buffer.
fn change_both(
    expected: Result<(u64, Vec<u8>), u32>, call: Change, table: &mut Vec<u8>, g: u64, keys: &[u8], values: &[u8], width: u64, work: &mut [u8],
) -> Result<u64, u32> {
    let before = table.clone();
    let got = call(table, g, keys, values, width, work);
    assert!(work.iter().all(|&x| x == 0), "the work buffer holds zeros");
    match &expected {
        Ok((n, bytes)) => assert!(got == Ok(*n) && table == bytes, "{got:?}, expected {n}"),
        Err(e) => assert!(got == Err(*e) && *table == before, "{got:?}, expected refusal {e}"),
    }
    got
}

fn merge_both(first: &mut Vec<u8>, g1: u64, second: &[u8], g2: u64) -> Result<u64, u32> {
    let expected = model::merge(first, g1, second, g2);
    let before = first.clone();
    let got = calls::merge(first, g1, second, g2);
    match &expected {
        Ok((n, bytes)) => assert!(got == Ok(*n) && first == bytes, "{got:?}, expected {n}"),
        Err(e) => assert!(got == Err(*e) && *first == before, "{got:?}, expected refusal {e}"),
    }
    got
}

fn finish_both(table: &[u8], g: u64, key: u32) -> Result<i64, u32> {
    let s = model::find(table, g, key);
    let sum = s.clone().and_then(|s| Ok(calls::Sum { bits: s.sum()?, side: s.side()? }));
    let figure = s.clone().and_then(|s| s.figure());
    let line = s.and_then(|s| Ok(calls::Line { count: s.count, bits: s.sum()?, figure: s.figure()?, side: s.side()? }));
    assert_eq!(calls::sum(table, g, key), sum);
    assert_eq!(calls::figure(table, g, key), figure);
    assert_eq!(calls::line(table, g, key), line);
    exact_both(table, g, key).ok();
    figure
}

/// Whether a section is answered exact, compared with the model.
fn exact_both(table: &[u8], g: u64, key: u32) -> Result<bool, u32> {
    let before = table.to_vec();
    let got = calls::exact(table, g, key).map(|e| e == calls::Exactness::Exact);
    assert_eq!(got, model::find(table, g, key).map(|s| s.exact()), "section {key} of {g} records");
    assert!(table == before, "the call only reads the table");
    got
}

/// The finest power in the record of section 7, which is the table's only one.
fn finest_of(table: &[u8]) -> u32 {
    u32::from_le_bytes(table[12..16].try_into().unwrap())
}

/// The totals of a table, compared with the model.
fn totals_both(table: &[u8], g: u64) -> Result<(u64, u64), u32> {
    let before = table.to_vec();
    let got = calls::totals(table, g).map(|t| (t.sections, t.rows));
    assert_eq!(got, model::totals(table, g), "{g} records");
    assert!(table == before, "the call only reads the table");
    got
}

fn file(notes: &[u8], keys: &[u8], between: &[u8], values: &[u8], after: &[u8], values_first: bool) -> Vec<u8> {
    let (a, b) = if values_first { (values, keys) } else { (keys, values) };
    let mut f = [notes, a, between, b, after].concat();
    let (first, second) = (f.len() - notes.len() + 16, b.len() + after.len() + 16);
    let (k, v) = if values_first { (second, first) } else { (first, second) };
    for x in [keys.len() / 4, k, v] {
        f.extend((x as u32).to_le_bytes());
    }
    f.extend([0x4C, 0x41, 0x53, 0x54]);
    f
}

/// The same file as one of short floats: its last four bytes are their mark.
fn with_short_mark(mut file: Vec<u8>) -> Vec<u8> {
    let at = file.len() - 4;
    file[at..].copy_from_slice(&[0x4C, 0x41, 0x53, 0x34]);
    file
}

fn read_both(file: &[u8]) -> Result<usize, u32> {
    let got = calls::read(file);
    match model::read(file) {
        Ok((n, k, v, width)) => {
            let c = got.unwrap();
            assert_eq!((c.rows, c.keys, c.values, c.kind.width()), (n, &file[k..k + 4 * n], &file[v..v + width * n], width));
        }
        Err(e) => assert_eq!(got, Err(e)),
    }
    got.map(|c| c.rows)
}

/// One writing, compared with the model: the answer and every byte of the output. What was written is read back.
fn write_both(keys: &[u8], values: &[u8], out: &mut [u8]) -> Result<usize, u32> {
    let (expected, before) = (model::write(keys, values, out), out.to_vec());
    let got = calls::write(keys, values, out);
    match &expected {
        Ok((n, bytes)) => {
            assert!(got == Ok(*n) && out == bytes, "{got:?}, expected {n}");
            assert_eq!(read_both(&out[..*n]), Ok(keys.len() / 4));
            let c = calls::read(&out[..*n]).unwrap();
            assert!(c.keys == keys && c.values == values && c.kind == Kind::Double, "the columns are read as they were lent");
        }
        Err(e) => assert!(got == Err(*e) && out == before, "{got:?}, expected refusal {e}"),
    }
    got
}

/// An accepted file, written again from its two columns.
fn rewritten(file: &[u8]) -> Vec<u8> {
    let (n, k, v, width) = model::read(file).unwrap();
    assert_eq!(width, 8, "a file of doubles");
    let mut out = vec![0xA5; 65536];
    let length = write_both(&file[k..k + 4 * n], &file[v..v + 8 * n], &mut out).unwrap();
    out.truncate(length);
    out
}

/// Random bytes of which none is 0, nor the byte that stands at its place in a file.
fn strange(r: &mut Random, file: &[u8], n: usize) -> Vec<u8> {
    let other = |(i, x): (usize, u8)| (x..=255).chain(1..x).find(|y| *y != 0 && file.get(i) != Some(y)).unwrap();
    r.bytes(n).into_iter().enumerate().map(other).collect()
}

/// One save, compared with the model: the answer and every byte of the output; the table is only read.
fn save_both(table: &[u8], g: u64, out: &mut [u8]) -> Result<usize, u32> {
    let (expected, before, lent) = (model::save(table, g, out), out.to_vec(), table.to_vec());
    let got = calls::save(table, g, out);
    match &expected {
        Ok((n, bytes)) => assert!(got == Ok(*n) && out == bytes, "{got:?}, expected {n}"),
        Err(e) => assert!(got == Err(*e) && out == before, "{got:?}, expected refusal {e}"),
    }
    assert!(table == lent, "the call only reads the table");
    got
}

/// One load, compared with the model: the answer and every byte of the table; the file is only read.
fn load_both(file: &[u8], table: &mut [u8]) -> Result<u64, u32> {
    let (expected, before, lent) = (model::load(file, table), table.to_vec(), file.to_vec());
    let got = calls::load(file, table);
    match &expected {
        Ok((g, bytes)) => assert!(got == Ok(*g) && table == bytes, "{got:?}, expected {g}"),
        Err(e) => assert!(got == Err(*e) && table == before, "{got:?}, expected refusal {e}"),
    }
    assert!(file == lent, "the call only reads the file");
    got
}

/// The file of a table that can be saved.
fn saved(r: &mut Random, table: &[u8], g: u64) -> Vec<u8> {
    let length = 64 * g as usize + 16;
    let room = length + r.below(99) as usize;
    let mut out = strange(r, table, room);
    assert_eq!(save_both(table, g, &mut out), Ok(length));
    out.truncate(length);
    out
}

#[test]
fn bench_book() {
    let one = |b: u64| Section::of_rows(&[b]);
    let section = |rows: &[u64]| {
        let (t, g) = of_values(rows);
        model::find(&t, g, 7).unwrap()
    };
    for (bits, top, finest, totals) in [
        (1f64.to_bits(), 26, 1074, [1 << 34, 0, 0]),
        (32f64.to_bits(), 27, 1079, [0, 1 << 39, 0]),
        (96f64.to_bits(), 27, 1079, [2, -(1 << 39), 0]),
        (1, 0, 0, [1, 0, 0]),
        (0x7FFFFFFFFF, 0, 0, [549755813887, 0, 0]),
        (0x8000000000, 1, 39, [0, 1 << 39, 0]),
    ] {
        assert_eq!(section(&[bits]), Section { count: 1, top, finest, totals });
        assert_eq!(one(bits), section(&[bits]));
    }
    assert_eq!(section(&[31.5f64.to_bits()]).totals[0], 541165879296);
    let (t, _) = of_values(&[(-1f64).to_bits()]);
    assert_eq!(t[16..32], [1125882726973440u64.to_le_bytes(), (-1i64).to_le_bytes()].concat());
    let sum = |rows: &[u64]| {
        let (t, g) = of_values(rows);
        finish_both(&t, g, 7).ok();
        calls::sum(&t, g, 7).map(|s| (s.bits, s.side))
    };
    assert_eq!(sum(&[0, 1 << 63]), Ok((0, 0)));
    let (a, b) = (0x3CB0000000000000, 0x3FEFFFFFFFFFFFFF);
    for order in [[a, b, a], [a, a, b], [b, a, a]] {
        assert_eq!(sum(&order), Ok((0x3FF0000000000002, 1)));
    }
    let big = 2f64.powi(60);
    assert_eq!(sum(&[big.to_bits(), 1f64.to_bits(), (-big).to_bits()]), Ok((1f64.to_bits(), 0)));
    assert_eq!(sum(&[big.to_bits(), 2f64.powi(-35).to_bits(), (-big).to_bits()]), Ok((0, 0)));
    assert_eq!(sum(&[0x7FEFFFFFFFFFFFFF]), Ok((0x7FEFFFFFFFFFFFFF, 0)));
    assert_eq!(sum(&[0x7FEFFFFFFFFFFFFF; 2]), Err(14));
    let figure = |x: f64| {
        let (t, g) = of_values(&[x.to_bits()]);
        finish_both(&t, g, 7)
    };
    assert_eq!((figure(0.125), figure(-0.125), figure(21474836.0)), (Ok(13), Ok(-13), Ok(2147483600)));
    for (n, carry, residue) in [(65535, 0i64, (1u64 << 50) - (1 << 34)), (65536, 1, 0)] {
        let (t, _) = of_values(&vec![1f64.to_bits(); n]);
        assert_eq!(t[16..32], [residue.to_le_bytes(), carry.to_le_bytes()].concat());
    }
}

/// Document 01's small example of each refusal.
#[test]
fn every_refusal() {
    let trailer = |n: u32, k: u32, v: u32| {
        [&n.to_le_bytes()[..], &k.to_le_bytes(), &v.to_le_bytes(), &[0x4C, 0x41, 0x53, 0x54]].concat()
    };
    let short = |n, k, v| with_short_mark(trailer(n, k, v));
    assert_eq!(read_both(&short(0, 15, 16)), Err(4));
    assert_eq!(read_both(&short(0, 16, 17)), Err(5));
    assert_eq!(read_both(&[vec![0; 8], short(1, 24, 19)].concat()), Err(5));
    assert_eq!(read_both(&[vec![0; 7], short(1, 23, 20)].concat()), Err(6));
    assert_eq!(read_both(&[vec![0; 8], short(1, 24, 20)].concat()), Ok(1));
    assert_eq!(add_both_of(&mut vec![5; 64], 0, &[0; 8], &[0; 16], 4, &mut [9; 64]), Err(9));
    assert_eq!(add_both_of(&mut vec![5; 64], 0, &[0; 4], &[0, 0, 0x80, 0x7F], 4, &mut [9; 64]), Err(10));
    assert_eq!(read_both(&vec![0; 65537]), Err(1));
    assert_eq!(read_both(&[]), Err(2));
    assert_eq!(read_both(&[0; 16]), Err(3));
    assert_eq!(read_both(&trailer(0, 15, 16)), Err(4));
    assert_eq!(read_both(&trailer(0, 16, 17)), Err(5));
    assert_eq!(read_both(&[vec![0; 12], trailer(1, 24, 24)].concat()), Err(6));
    let one = 1f64.to_bits().to_le_bytes();
    let key = |k: u32| k.to_le_bytes();
    assert_eq!(add_both(&mut vec![], 1, &[], &[], &mut []), Err(7));
    assert_eq!(add_both(&mut vec![5; 64], 0, &[], &[], &mut [9; 63]), Err(8));
    assert_eq!(add_both(&mut vec![5; 64], 0, &[0; 8], &[0; 8], &mut [9; 64]), Err(9));
    assert_eq!(add_both(&mut vec![5; 64], 0, &key(1), &0x7FF0000000000000u64.to_le_bytes(), &mut [9; 64]), Err(10));
    let mut full = Section { count: 4294967295, top: 26, finest: 1074, totals: [1 << 34, 0, 0] }.bytes(1);
    assert_eq!(add_both(&mut full, 1, &key(1), &one, &mut [9; 64]), Err(11));
    let other = full.clone();
    assert_eq!(merge_both(&mut full, 1, &other, 1), Err(11));
    let two = [key(1), key(2)].concat();
    assert_eq!(add_both(&mut vec![5; 64], 0, &two, &[one, one].concat(), &mut [9; 64]), Err(12));
    assert_eq!(finish_both(&[0; 64], 0, 5), Err(13));
    let (t, g) = of_values(&[0x7FEFFFFFFFFFFFFF; 2]);
    assert_eq!(finish_both(&t, g, 7), Err(14));
    let (t, g) = of_values(&[21474836.5f64.to_bits()]);
    assert_eq!(finish_both(&t, g, 7), Err(15));
    assert_eq!(finish_both(&t, 2, 7), Err(7));
    assert_eq!(totals_both(&[], 1), Err(7));
    assert_eq!(save_both(&records(1024), 1024, &mut vec![5; 65552]), Err(18));
    assert_eq!(save_both(&full, 1, &mut [5; 79]), Err(16));
    assert_eq!(load_both(b"\0\0\0\0\x11\0\0\0\0\0\0\0TABL", &mut []), Err(19));
    let (mut t, g) = of_values(&[1f64.to_bits()]);
    for (key, value, answer) in [(5, 1f64, Err(20)), (7, 32.0, Err(21)), (7, 0.0, Err(22)), (7, 1.0, Ok(0))] {
        let (k, v) = columns(&[(key, value.to_bits())]);
        assert_eq!(remove_both(&mut t, g, &k, &v, 8, &mut [9; 64]), answer);
    }
}

#[test]
fn files() {
    let mut r = Random(1);
    // by the refusal, or 0 for an accepted file, and by whether it ends with the mark of short floats
    let mut seen = BTreeMap::new();
    for turn in 0..60000 {
        let short = r.chance(2);
        let (width, most) = if short { (4, 8191) } else { (8, 5461) };
        let n = r.below(if turn % 50 == 0 { most } else { 12 }) as usize;
        let (a, b, c) = (r.below(9) as usize, r.below(9) as usize, r.below(9) as usize);
        let (k, v) = (r.bytes(4 * n), r.bytes(width * n));
        let mut f = file(&r.bytes(a), &k, &r.bytes(b), &v, &r.bytes(c), r.chance(2));
        if short {
            f = with_short_mark(f);
        }
        for _ in 0..r.below(3) {
            let at = f.len() - 1 - r.below(16) as usize;
            f[at] = if r.chance(2) { r.below(64) as u8 } else { f[at].wrapping_add(r.below(17) as u8).wrapping_sub(8) };
        }
        if r.chance(20) {
            f.truncate(r.below(40) as usize);
        }
        if r.chance(400) {
            f = [vec![0; 65530], f].concat();
        }
        let marked = f.len() >= 16 && f.ends_with(&[0x4C, 0x41, 0x53, 0x34]);
        *seen.entry((read_both(&f).err().unwrap_or(0), marked)).or_insert(0) += 1;
    }
    for kind in [(1, false), (1, true), (2, false), (3, false), (4, false), (4, true), (5, false), (5, true), (6, false), (6, true), (0, false), (0, true)] {
        assert!(seen.get(&kind).is_some_and(|&n| n > 20), "{kind:?}: {seen:?}");
    }
    assert!(seen.len() == 12, "{seen:?}");
}

/// 9, then 17, then 16: each alone, and each where those after it hold too.
#[test]
fn refusals_of_writing() {
    let mut r = Random(7);
    let bytes = r.bytes(8 * 5461 + 7);
    for (keys, values, room, answer) in [
        (8, 8, 99, Err(9)),
        (0, 8, 99, Err(9)),
        (4, 0, 99, Err(9)),
        (4, 16, 99, Err(9)),
        (8, 8, 0, Err(9)),
        (4, 9, 28, Err(9)),
        (7, 8, 27, Err(9)),
        (4 * 5461, 8 * 5460, 70000, Err(9)),
        (4 * 5460, 8 * 5461, 70000, Err(9)),
        (4 * 5461 + 1, 8 * 5461, 70000, Err(9)),
        (4 * 5461, 8 * 5461 + 7, 70000, Err(9)),
        (4 * 5461, 8 * 5460, 65535, Err(9)),
        (4 * 5460, 8 * 5461, 65535, Err(9)),
        (4 * 5461 + 3, 8 * 5461 + 7, 0, Err(9)),
        (4 * 5461, 8 * 5461, 70000, Err(17)),
        (4 * 5461, 8 * 5461, 65548, Err(17)),
        (4 * 5461, 8 * 5461, 65547, Err(17)),
        (4 * 5461, 8 * 5461, 0, Err(17)),
        (4 * 5460, 8 * 5460, 65535, Err(16)),
        (4 * 5460, 8 * 5460, 0, Err(16)),
        (4, 8, 27, Err(16)),
        (0, 0, 15, Err(16)),
        (0, 0, 0, Err(16)),
        (4 * 5460, 8 * 5460, 65536, Ok(65536)),
        (4 * 5460, 8 * 5460, 65537, Ok(65536)),
        (4, 8, 28, Ok(28)),
        (4, 8, 29, Ok(28)),
        (0, 0, 16, Ok(16)),
    ] {
        assert_eq!(write_both(&bytes[..keys], &bytes[..values], &mut r.bytes(room)), answer, "{keys}, {values}, {room}");
    }
}

/// Columns of any bytes, a part of them with lengths that do not fit, and outputs from too short to much longer.
#[test]
fn writings() {
    let mut r = Random(8);
    let mut seen = [0; 18];
    for turn in 0..20000 {
        let n = match turn % 100 {
            0 => 5460,
            1 => 5461,
            2 => 5450 + r.below(20),
            3 => 5461 + r.below(3000),
            _ => r.below(12),
        } as usize;
        let mut lengths = [4 * n, 8 * n];
        if r.chance(6) {
            lengths[0] = (lengths[0] + r.below(9) as usize).saturating_sub(4);
        }
        if r.chance(6) {
            lengths[1] = (lengths[1] + r.below(17) as usize).saturating_sub(8);
        }
        let (k, v) = (r.bytes(lengths[0]), r.bytes(lengths[1]));
        let room = match r.below(6) {
            0 => 12 * n + 15,
            1 => r.below(12 * n as u64 + 16) as usize,
            2 => 12 * n + 16,
            3 => 12 * n + 17,
            _ => 12 * n + 16 + r.below(500) as usize,
        };
        seen[write_both(&k, &v, &mut r.bytes(room)).err().unwrap_or(0) as usize] += 1;
    }
    assert!([0, 9, 16, 17].iter().all(|&i| seen[i] > 100), "{seen:?}");
}

/// Accepted files with notes, with either column first, without rows: written again they keep their rows in order, and written once more their bytes.
#[test]
fn rewritings() {
    let mut r = Random(9);
    let (mut same, mut shorter, mut empty, mut added) = (0, 0, 0, 0);
    for turn in 0..4000 {
        let n = if turn % 50 == 0 { 5460 - r.below(3) } else { r.below(12) } as usize;
        let span = 1 + r.below(16);
        let rows: Vec<(u32, u64)> = r.rows(n).into_iter().map(|b| (r.below(span) as u32, b)).collect();
        let (k, mut v) = columns(&rows);
        if r.chance(8) && n > 0 {
            v[8 * n - 2..].copy_from_slice(&[0xF0 + r.below(16) as u8, 0x7F]);
        }
        let most = if r.chance(4) { 0 } else { ((65520 - 12 * n) / 3).min(9) as u64 };
        let notes: Vec<Vec<u8>> = (0..3).map(|_| r.below(most + 1) as usize).map(|m| vec![0xEE; m]).collect();
        let values_first = r.chance(2);
        let mut f = file(&notes[0], &k, &notes[1], &v, &notes[2], values_first);
        if r.chance(3) {
            // a distance that puts a column, or a part of it, on notes
            let at = f.len() - [12, 8][r.below(2) as usize];
            f[at] = f[at].wrapping_add(r.below(9) as u8);
        }
        let Ok((n, k, v, _)) = model::read(&f) else { continue };
        let (keys, values) = (&f[k..k + 4 * n], &f[v..v + 8 * n]);

        let once = rewritten(&f);
        assert_eq!(once.len(), 12 * n + 16);
        let c = calls::read(&once).unwrap();
        assert_eq!((c.rows, c.keys, c.values), (n, keys, values));
        assert_eq!(rewritten(&once), once);
        assert!(once.len() < f.len() || n == 0 || (once == f) != values_first);
        same += (once == f) as u32;
        shorter += (once.len() < f.len()) as u32;
        empty += (n == 0) as u32;

        // what is read from the rewritten file does what the file's rows do, whole and in two parts
        let groups = r.below(12) as usize;
        let (start, g) = table(&mut r, groups, 16, span);
        let add = |t: &mut Vec<u8>, g, c: calls::Columns| calls::add(t, g, c.keys, c.values, c.kind, &mut [1; 64 * 17]);
        let (mut whole, mut again) = (start.clone(), start.clone());
        let answer = add(&mut whole, g, calls::read(&f).unwrap());
        assert_eq!((add(&mut again, g, c), &again), (answer, &whole));
        let (mut text, mut other) = ([0; 4096], [0; 4096]);
        assert_eq!(calls::report(&f, &mut text), calls::report(&once, &mut other));
        assert_eq!(text, other);
        if answer.is_ok() {
            let cut = r.below(n as u64 + 1) as usize;
            let (mut t, mut groups) = (start, g);
            for (keys, values) in [(&keys[..4 * cut], &values[..8 * cut]), (&keys[4 * cut..], &values[8 * cut..])] {
                let mut part = vec![0xA5; 65536];
                let length = write_both(keys, values, &mut part).unwrap();
                groups = add(&mut t, groups, calls::read(&part[..length]).unwrap()).unwrap();
            }
            assert!(Ok(groups) == answer && t == whole);
            added += 1;
        }
    }
    assert!([same, shorter, empty, added].iter().all(|&n| n > 100), "{same} {shorter} {empty} {added}");
}

/// A sound record with totals of any size that its count allows.
fn record(r: &mut Random) -> Section {
    let count = if r.chance(3) { 4294967295 - r.below(4) } else { 1 + r.below(1000) };
    let top = if r.chance(4) { r.below(3) as u32 } else { r.below(53) as u32 };
    let mut totals = [0; 3];
    for i in 0..3 {
        if top >= i as u32 {
            let most = (count as i128) << 39;
            totals[i] = match r.below(4) {
                0 => most,
                1 => -most,
                2 => 0,
                _ => ((r.next() >> 1) as i128 * (r.next() >> 1) as i128) % (2 * most + 1) - most,
            };
        }
    }
    let finest = match r.below(4) {
        0 => [0, 1, 2097, 2098][r.below(4) as usize],
        1 => (40 * top.saturating_sub(2) + r.below(3) as u32).saturating_sub(1),
        _ => r.below(2099) as u32,
    };
    Section { count, top, finest, totals }
}

fn table(r: &mut Random, groups: usize, room: usize, span: u64) -> (Vec<u8>, u64) {
    let mut map = BTreeMap::new();
    for _ in 0..groups.min(room) {
        map.insert(r.below(span) as u32, record(r));
    }
    let spare = r.below(64) as usize;
    let buffer = r.bytes(64 * room + spare);
    (model::written(&map, &buffer), map.len() as u64)
}

/// Damage that soundness has to see, or that leaves a sound table.
fn damage(r: &mut Random, t: &mut [u8], g: &mut u64) {
    match r.below(8) {
        0 => *g += r.below(3),
        1 if !t.is_empty() => {
            let at = r.below(t.len() as u64) as usize;
            t[at] ^= 1 << r.below(8);
        }
        2 if *g > 0 => {
            let at = 64 * r.below(*g) as usize + 4 * r.below(16) as usize;
            t[at..at + 4].copy_from_slice(&[[0; 4], [255; 4], [53, 0, 0, 0], [0, 0, 4, 0]][r.below(4) as usize]);
        }
        3 if *g > 0 && r.chance(2) => {
            let at = 64 * r.below(*g) as usize + 12;
            t[at..at + 4].copy_from_slice(&(2098 + r.below(2) as u32).to_le_bytes());
        }
        _ => {}
    }
}

#[test]
fn adds() {
    let mut r = Random(2);
    let mut seen = [0; 13];
    for _ in 0..4000 {
        let room = r.below(12) as usize;
        let span = 1 + r.below(16);
        let groups = r.below(12) as usize;
        let (mut t, mut g) = table(&mut r, groups, room, span);
        damage(&mut r, &mut t, &mut g);
        for _ in 0..3 {
            let n = r.below(12) as usize;
            let rows: Vec<(u32, u64)> = r.rows(n).into_iter().map(|b| (r.below(span) as u32, b)).collect();
            let (mut k, mut v) = columns(&rows);
            if r.chance(12) {
                k.truncate(k.len() - r.below(9).min(k.len() as u64) as usize);
            }
            if r.chance(12) && n > 0 {
                let at = 8 * r.below(n as u64) as usize;
                if at + 8 <= v.len() {
                    v[at + 6..at + 8].copy_from_slice(&[0xF0 + r.below(16) as u8, 0x7F | (r.below(2) as u8) << 7]);
                }
            }
            let short = if r.chance(12) { 1 + r.below(64) as usize } else { 0 };
            let longer = r.below(64) as usize;
            let mut work = r.bytes((t.len() + longer).saturating_sub(if short > 0 { short + longer } else { 0 }));
            match add_both(&mut t, g, &k, &v, &mut work) {
                Ok(n) => {
                    g = n;
                    seen[0] += 1;
                }
                Err(e) => seen[e as usize] += 1,
            }
        }
        for key in 0..span as u32 + 1 {
            finish_both(&t, g, key).ok();
        }
        totals_both(&t, g).ok();
    }
    assert!(seen[0] > 100 && seen[7..].iter().all(|&n| n > 0), "{seen:?}");
}

/// Adds that are told a width, random and damaged ones among them. An add of short floats answers and leaves what the add of the same rows in doubles does.
#[test]
fn adds_of_short_floats() {
    let mut r = Random(32);
    let mut seen = [0; 13];
    for _ in 0..4000 {
        let (room, span, groups) = (r.below(12) as usize, 1 + r.below(16), r.below(12) as usize);
        let (mut t, mut g) = table(&mut r, groups, room, span);
        damage(&mut r, &mut t, &mut g);
        for _ in 0..3 {
            let n = r.below(12) as usize;
            let rows: Vec<(u32, u32)> = r.shorts(n).into_iter().map(|b| (r.below(span) as u32, b)).collect();
            let ((mut k, mut v), (_, mut doubles)) = (short_columns(&rows), columns(&widened(&rows)));
            if r.chance(12) {
                k.truncate(k.len() - r.below(9).min(k.len() as u64) as usize);
            }
            if r.chance(12) && n > 0 {
                // any infinite value and any that is not a number, and the infinite double beside it
                let i = r.below(n as u64) as usize;
                let fraction = if r.chance(3) { 0 } else { r.below(1 << 23) } as u32;
                v[4 * i..4 * i + 4].copy_from_slice(&((r.below(2) as u32) << 31 | 255 << 23 | fraction).to_le_bytes());
                doubles[8 * i..8 * i + 8].copy_from_slice(&f64::INFINITY.to_le_bytes());
            }
            let length = (t.len() + r.below(64) as usize).saturating_sub(if r.chance(12) { 64 } else { 0 });
            let (mut same, mut work) = (t.clone(), r.bytes(length));
            let answer = add_both_of(&mut t, g, &k, &v, 4, &mut r.bytes(length));
            assert_eq!(calls::add(&mut same, g, &k, &doubles, Kind::Double, &mut work), answer);
            assert!(same == t && work.iter().all(|&x| x == 0), "the same rows in doubles");
            g = answer.unwrap_or(g);
            seen[answer.err().unwrap_or(0) as usize] += 1;
        }
        for key in 0..span as u32 + 1 {
            finish_both(&t, g, key).ok();
        }
        totals_both(&t, g).ok();
    }
    assert!(seen[0] > 100 && seen[7..].iter().all(|&n| n > 20), "{seen:?}");
}

/// Short floats of every field, of both signs, with the smallest and the largest fraction, a half, and some at random: each alone in a table is the double that the model makes of it,
/// and is refused where the field is the last one.
#[test]
fn short_floats_of_every_field() {
    let mut r = Random(33);
    let (mut finite, mut subnormal, mut refused) = (0, 0, 0);
    for field in 0..256u32 {
        let mut fractions = vec![0, 1, 2, (1 << 22) - 1, 1 << 22, (1 << 23) - 2, (1 << 23) - 1];
        fractions.extend((0..9).map(|_| r.below(1 << 23) as u32 >> r.below(23)));
        for fraction in fractions {
            for sign in [0, 1 << 31] {
                let bits = sign | field << 23 | fraction;
                let (mut t, key) = (r.bytes(64), [7, 0, 0, 0]);
                let answer = add_both_of(&mut t, 0, &key, &bits.to_le_bytes(), 4, &mut [1; 64]);
                assert_eq!(answer, if field == 255 { Err(10) } else { Ok(1) }, "{bits:08X}");
                refused += (field == 255) as u32;
                let Some(double) = model::widened(bits) else { continue };
                assert_eq!(double, f64::from(f32::from_bits(bits)).to_bits(), "{bits:08X}");
                assert_eq!(of_values(&[double]).0, t, "{bits:08X}");
                assert_eq!(finish_both(&t, 1, 7).err().filter(|e| *e != 15), None);
                // a zero of either sign sums to +0
                assert_eq!(calls::sum(&t, 1, 7).unwrap().bits, if bits << 1 == 0 { 0 } else { double });
                (finite, subnormal) = (finite + 1, subnormal + (field == 0) as u32);
            }
        }
    }
    assert_eq!((finite, subnormal, refused), (255 * 32, 32, 32));
}

/// Every subnormal size, with one sign or the other, and many others, each in a section of its own: the table is that of the doubles which the machine's own widening gives.
#[test]
fn short_floats_as_the_machine_widens_them() {
    let mut r = Random(34);
    let keys: Vec<u8> = (0..1024u32).flat_map(u32::to_le_bytes).collect();
    let (mut tables, mut work) = ([vec![0; 65536], vec![0; 65536]], vec![1; 65536]);
    let mut compare = |bits: Vec<u32>| {
        let short: Vec<u8> = bits.iter().flat_map(|b| b.to_le_bytes()).collect();
        let doubles: Vec<u8> = bits.iter().flat_map(|b| f64::from(f32::from_bits(*b)).to_le_bytes()).collect();
        assert_eq!(calls::add(&mut tables[0], 0, &keys, &short, Kind::Single, &mut work), Ok(1024));
        assert_eq!(calls::add(&mut tables[1], 0, &keys, &doubles, Kind::Double, &mut work), Ok(1024));
        assert!(tables[0] == tables[1], "{bits:08X?}");
    };
    for part in 0..8192 {
        compare((0..1024).map(|i| part << 10 | i | (r.below(2) as u32) << 31).collect());
        compare((0..1024).map(|_| r.below(255 << 23) as u32 | (r.below(2) as u32) << 31).collect());
    }
}

/// Widths of no kind, with columns that fit one of the kinds or no row count, of zeros or of what is not a number: 7, then 8, then 9. Only 4 and 8 have a kind, and no
/// number whose lowest bytes alone are theirs.
#[test]
fn widths() {
    let mut r = Random(35);
    let sound = records(2);
    let mut unsound = sound.clone();
    unsound[64 + 4..64 + 8].fill(0);
    let others = [0, 1, 2, 3, 5, 6, 7, 9, 12, 16, 32, 64, 1 << 32, (1 << 32) + 4, (1 << 32) + 8, (1 << 63) + 8, u64::MAX - 7, u64::MAX - 3, u64::MAX];
    for width in others.into_iter().chain((0..40).map(|i| 1 << i | 1 << (i + 20))) {
        for (keys, values) in [(0, 0), (4, 4), (4, 8), (8, 8), (8, 16), (12, 12), (4, 0), (4, 12), (3, 8), (4, width.min(40) as usize), (8, 2 * width.min(40) as usize)] {
            for fill in [0, 0xFF] {
                for (t, room, expected) in [(&unsound, 128, 7), (&unsound, 127, 7), (&sound, 127, 8), (&sound, 0, 8), (&sound, 128, 9), (&sound, 999, 9)] {
                    let (k, v) = (r.bytes(keys), vec![fill; values]);
                    for call in [add_both_of, remove_both] {
                        assert_eq!(call(&mut t.clone(), 2, &k, &v, width, &mut r.bytes(room)), Err(expected), "width {width}, {keys} and {values} bytes");
                    }
                }
            }
        }
    }
}

/// Columns of every small length for either kind: they are taken where some row count fits, so that columns which fit the other kind alone are refused.
#[test]
fn columns_of_either_width() {
    let mut taken = [0; 2];
    for (keys, values) in (0..40).flat_map(|k| (0..72).map(move |v| (k, v))) {
        for width in [4, 8] {
            let answer = add_both_of(&mut vec![0xA5; 640], 0, &vec![0; keys], &vec![0; values], width, &mut [1; 640]);
            let fits = keys % 4 == 0 && values as u64 == width * keys as u64 / 4;
            assert_eq!(answer, if fits { Ok((keys > 0) as u64) } else { Err(9) }, "{keys} and {values} bytes, width {width}");
            taken[(width == 4) as usize] += fits as u32;
        }
    }
    assert_eq!(taken, [9, 10]);
    // what the file of one kind has in its columns is no column of the other
    for n in 1..9 {
        for (width, other) in [(4, 8), (8, 4)] {
            assert_eq!(add_both_of(&mut vec![0; 64], 0, &vec![0; 4 * n], &vec![0; width * n], other, &mut [1; 64]), Err(9));
        }
    }
}

/// Every value of each byte of the mark: a file has one of two marks, and its last byte alone tells which.
#[test]
fn marks() {
    let (k, v) = short_columns(&[(1, 0x3F800000), (2, 0x3E000000)]);
    let short = with_short_mark(file(&[9; 40], &k, &[], &v, &[], false));
    let mut doubles = file(&[9; 32], &k, &[], &[v.clone(), v].concat(), &[], false);
    for (f, own, width, other) in [(short, 0x34, 4, 0x54), (doubles.clone(), 0x54, 8, 0x34)] {
        for (at, byte) in (0..4).flat_map(|at| (0..=255u8).map(move |b| (at, b))) {
            let mut changed = f.clone();
            changed[f.len() - 4 + at] = byte;
            let answer = read_both(&changed);
            let marked = byte == f[f.len() - 4 + at] || at == 3 && byte == other;
            // 8n bytes of values have no room where the column has 4n
            let expected = if !marked { Err(3) } else if byte == 0x54 && width == 4 { Err(5) } else { Ok(2) };
            assert_eq!(answer, expected, "byte {byte:02X} of the mark {own:02X} at {at}");
        }
    }
    // the bytes of a file of doubles, read as short floats: the front of its value column
    doubles = with_short_mark(doubles);
    let c = calls::read(&doubles).unwrap();
    assert_eq!((c.rows, c.values.len(), c.kind), (2, 8, Kind::Single));
}

/// A file of short floats at the edges of 1, 4, 5 and 6: 8,190 rows are accepted in 65,536 bytes, and no more.
#[test]
fn edges_of_short_files() {
    let with = |front: usize, n: u32, k: u32, v: u32| {
        let mut f = vec![0x55; front];
        for x in [n, k, v] {
            f.extend(x.to_le_bytes());
        }
        f.extend([0x4C, 0x41, 0x53, 0x34]);
        f
    };
    for (front, n, k, v, answer) in [
        (65520, 8190, 65536, 32776, Ok(8190)),
        (65520, 8190, 32776, 65536, Ok(8190)),
        (65521, 8190, 65536, 32776, Err(1)),
        (65528, 8191, 65544, 32780, Err(1)),
        (65520, 8191, 65536, 32780, Err(6)),
        (65520, 8191, 65537, 32780, Err(4)),
        (65520, 8191, 65536, 32779, Err(5)),
        (65520, 8191, 65536, 65537, Err(5)),
        (65520, 8190, 65535, 32776, Err(6)),
        (65520, 8190, 65536, 32777, Err(6)),
        (65520, 5461, 65536, 21860, Ok(5461)),
        // one row: a value column of 4 bytes, before the trailer and after the keys
        (8, 1, 24, 20, Ok(1)),
        (8, 1, 20, 24, Ok(1)),
        (8, 1, 24, 19, Err(5)),
        (8, 1, 24, 24, Err(6)),
        (8, 1, 24, 21, Err(6)),
        (8, 1, 23, 20, Err(6)),
        (8, 1, 20, 21, Err(6)),
        (8, 1, 24, 25, Err(5)),
        (8, 1, 19, 24, Err(4)),
        (9, 1, 25, 20, Ok(1)),
        (9, 1, 25, 21, Ok(1)),
        (9, 1, 20, 25, Ok(1)),
        // no row
        (0, 0, 16, 16, Ok(0)),
        (0, 0, 16, 15, Err(5)),
        (0, 0, 15, 16, Err(4)),
        (5, 0, 21, 16, Ok(0)),
        (5, 0, 21, 22, Err(5)),
        // row counts whose bytes are few in 32 bits
        (8, 1 << 30, 24, 20, Err(4)),
        (8, (1 << 30) + 1, 24, 20, Err(4)),
        (8, u32::MAX, 24, 20, Err(4)),
    ] {
        let f = with(front, n, k, v);
        assert_eq!(read_both(&f), answer, "{n} rows, {k}, {v} in {} bytes", f.len());
    }
    // the most rows through a table, beside the same as doubles in two adds
    let mut r = Random(36);
    let rows: Vec<(u32, u32)> = r.shorts(8190).into_iter().map(|b| (r.below(64) as u32, b)).collect();
    let (k, v) = short_columns(&rows);
    let full = with_short_mark(file(&[], &k, &[], &v, &[], false));
    assert_eq!((full.len(), read_both(&full)), (65536, Ok(8190)));
    let c = calls::read(&full).unwrap();
    let (mut short, mut doubles) = (vec![0; 4096], vec![0; 4096]);
    let mut g = 0;
    for part in rows.chunks(5460) {
        let (k, v) = columns(&widened(part));
        g = add_both(&mut doubles, g, &k, &v, &mut [1; 4096]).unwrap();
    }
    assert_eq!(add_both_of(&mut short, 0, c.keys, c.values, 4, &mut [1; 4096]), Ok(g));
    assert!(short == doubles);
    assert_eq!(report_both(&full, 4096).lines().last(), Some("total 64 8190"));
}

/// One multiset of short rows in many orders, splits, merges, saves and loads, every part added as short floats or as doubles.
#[test]
fn same_bytes_of_both_kinds() {
    let mut r = Random(37);
    let mut parts = [0; 2];
    for _ in 0..150 {
        let (n, span) = (1 + r.below(120) as usize, 1 + r.below(20));
        let mut rows: Vec<(u32, u32)> = r.shorts(n).into_iter().map(|b| (r.below(span) as u32, b)).collect();
        let (k, v) = columns(&widened(&rows));
        let mut expected = vec![0; 64 * 24];
        let groups = add_both(&mut expected, 0, &k, &v, &mut [1; 64 * 24]).unwrap();
        for _ in 0..8 {
            r.shuffle(&mut rows);
            let mut tables = vec![(r.bytes(64 * 24), 0u64); 1 + r.below(4) as usize];
            let mut rest = &rows[..];
            while !rest.is_empty() {
                let (now, later) = rest.split_at(1 + r.below(rest.len() as u64) as usize);
                rest = later;
                let short = r.chance(2);
                let (k, v) = if short { short_columns(now) } else { columns(&widened(now)) };
                let which = r.below(tables.len() as u64) as usize;
                let (t, g) = &mut tables[which];
                let kind = if short { Kind::Single } else { Kind::Double };
                *g = calls::add(t, *g, &k, &v, kind, &mut vec![1; 64 * 24]).unwrap();
                parts[short as usize] += 1;
                if r.chance(4) {
                    let file = saved(&mut r, t, *g);
                    *t = strange(&mut r, &file, 64 * 24);
                    assert_eq!(load_both(&file, t), Ok(*g));
                }
            }
            while tables.len() > 1 {
                let from = r.below(tables.len() as u64) as usize;
                let (second, g2) = tables.swap_remove(from);
                let into = r.below(tables.len() as u64) as usize;
                let (first, g1) = &mut tables[into];
                *g1 = calls::merge(first, *g1, &second, g2).unwrap();
            }
            let (t, g) = &tables[0];
            assert!(*g == groups && t[..64 * groups as usize] == expected[..64 * groups as usize]);
            assert_eq!(totals_both(t, *g), Ok(Rows::of(&widened(&rows)).totals()));
        }
    }
    assert!(parts.iter().all(|&n| n > 1000), "{parts:?}");
}

/// Writing stays with doubles: the columns of a file of short floats fit no row count there, and as doubles they make a file with the same report.
#[test]
fn short_floats_are_written_as_doubles() {
    let mut r = Random(38);
    for n in (0..40).chain([5460, 5461, 8190]) {
        let rows: Vec<(u32, u32)> = r.shorts(n).into_iter().map(|b| (r.below(9) as u32, b)).collect();
        let (k, v) = short_columns(&rows);
        assert_eq!(write_both(&k, &v, &mut vec![0xA5; 70000]).err(), if n == 0 { None } else { Some(9) });
        let (k, doubles) = columns(&widened(&rows));
        let mut out = vec![0xA5; 65536];
        let written = write_both(&k, &doubles, &mut out);
        assert_eq!(written.err(), if n > 5460 { Some(17) } else { None });
        if let Ok(length) = written {
            let short = with_short_mark(file(&[], &k, &[], &v, &[], n % 2 == 0));
            assert_eq!(report_both(&short, 4096), report_both(&out[..length], 4096));
        }
    }
}

#[test]
fn merges() {
    let mut r = Random(3);
    let mut seen = [0; 13];
    for _ in 0..8000 {
        let (room, span) = (r.below(14) as usize, 1 + r.below(16));
        let (groups, others, width) = (r.below(10) as usize, r.below(10) as usize, r.below(14) as usize);
        let (mut a, mut g1) = table(&mut r, groups, room, span);
        let (mut b, mut g2) = table(&mut r, others, width, span);
        damage(&mut r, &mut a, &mut g1);
        damage(&mut r, &mut b, &mut g2);
        let answer = merge_both(&mut a, g1, &b, g2);
        totals_both(&a, answer.unwrap_or(g1)).ok();
        seen[answer.err().unwrap_or(0) as usize] += 1;
    }
    assert!([0, 7, 11, 12].iter().all(|&i| seen[i] > 0), "{seen:?}");
}

/// One multiset of rows in many orders, splits and merges.
#[test]
fn same_bytes() {
    let mut r = Random(4);
    for _ in 0..150 {
        let n = 1 + r.below(120) as usize;
        let span = 1 + r.below(20);
        let mut rows: Vec<(u32, u64)> = r.rows(n).into_iter().map(|b| (r.below(span) as u32, b)).collect();
        let mut expected: Option<Vec<u8>> = None;
        for _ in 0..12 {
            r.shuffle(&mut rows);
            let mut tables = vec![(r.bytes(64 * 24), 0u64); 1 + r.below(4) as usize];
            let mut rest = &rows[..];
            while !rest.is_empty() {
                let (now, later) = rest.split_at(1 + r.below(rest.len() as u64) as usize);
                rest = later;
                let (k, v) = columns(now);
                let which = r.below(tables.len() as u64) as usize;
                let (t, g) = &mut tables[which];
                *g = calls::add(t, *g, &k, &v, Kind::Double, &mut vec![1; 64 * 24]).unwrap();
            }
            while tables.len() > 1 {
                let from = r.below(tables.len() as u64) as usize;
                let (second, g2) = tables.swap_remove(from);
                let into = r.below(tables.len() as u64) as usize;
                let (first, g1) = &mut tables[into];
                *g1 = calls::merge(first, *g1, &second, g2).unwrap();
            }
            let (t, g) = &tables[0];
            let used = t[..64 * *g as usize].to_vec();
            assert_eq!(*expected.get_or_insert(used.clone()), used);
            assert_eq!(totals_both(t, *g), Ok(Rows::of(&rows).totals()));
        }
    }
}

/// Tables that start empty.
struct Tables {
    /// Their bytes, group count, and the rows that accepted calls brought.
    all: Vec<(Vec<u8>, u64, Rows)>,
    /// Whether each has had doubles, and short floats.
    kinds: Vec<[bool; 2]>,
    /// How many adds of either kind came to a table that had the other.
    mixed: [u32; 2],
}

impl Tables {
    fn random(r: &mut Random) -> Tables {
        let lengths: Vec<u64> = (0..3).map(|_| 64 * r.below(12) + r.below(64)).collect();
        let all = lengths.into_iter().map(|n| (r.bytes(n as usize), 0, Rows::default())).collect();
        Tables { all, kinds: vec![[false; 2]; 3], mixed: [0; 2] }
    }

    /// An add of rows of either kind, at times with a column, a row, a width or a work buffer that is refused.
    fn add(&mut self, r: &mut Random, i: usize, span: u64) -> Result<u64, u32> {
        let (t, g, held) = &mut self.all[i];
        let n = r.below(6) as usize;
        let (mut k, mut v, mut width, rows) = r.patch(n, span);
        let kind = (width == 4) as usize;
        let mut work = r.bytes(t.len());
        match r.below(16) {
            0 => k.push(0),
            // the upper bytes of a value that is infinite or not a number, of either width
            1 if n > 0 => v[width as usize * n - 2..].copy_from_slice(&[0xF0, 0x7F]),
            2 => work.truncate(t.len().saturating_sub(1)),
            3 if r.chance(4) => width = r.next() >> r.below(64),
            _ => {}
        }
        let answer = add_both_of(t, *g, &k, &v, width, &mut work);
        if let Ok(after) = answer {
            *g = after;
            held.take(&Rows::of(&rows));
            self.kinds[i][kind] |= n > 0;
            self.mixed[kind] += (n > 0 && self.kinds[i][1 - kind]) as u32;
        }
        answer
    }

    fn merge(&mut self, i: usize, j: usize) -> Result<u64, u32> {
        let (second, g2, brought) = self.all[j].clone();
        let (first, g1, held) = &mut self.all[i];
        let answer = merge_both(first, *g1, &second, g2);
        if let Ok(after) = answer {
            *g1 = after;
            held.take(&brought);
            self.kinds[i] = [0, 1].map(|kind| self.kinds[i][kind] || self.kinds[j][kind]);
        }
        answer
    }

    /// The largest number of rows, after a look that every table has those of the calls.
    fn look(&self) -> u64 {
        for (t, g, held) in &self.all {
            assert_eq!(totals_both(t, *g), Ok(held.totals()));
        }
        self.all.iter().map(|t| t.2.totals().1).max().unwrap()
    }
}

/// Lists of adds of both kinds, merges and finishings, refused ones among them, with row counts up to the largest: after every call the totals are those of the
/// rows that the calls brought.
#[test]
fn totals_after_calls() {
    let mut r = Random(13);
    let (mut seen, mut most, mut mixed) = ([0; 13], 0, [0; 2]);
    for _ in 0..60 {
        let span = 1 + r.below(12);
        let mut tables = Tables::random(&mut r);
        assert_eq!(tables.look(), 0);
        for _ in 0..150 {
            let i = r.below(3) as usize;
            let answer = match r.below(8) {
                0 => finish_both(&tables.all[i].0, tables.all[i].1, r.below(span) as u32).map(|_| 0),
                1 | 2 => tables.add(&mut r, i, span),
                _ => tables.merge(i, (i + 1 + r.below(2) as usize) % 3),
            };
            most = most.max(tables.look());
            seen[answer.err().filter(|e| *e < 13).unwrap_or(0) as usize] += 1;
        }
        mixed = [0, 1].map(|kind| mixed[kind] + tables.mixed[kind]);
    }
    assert!([0, 8, 9, 10, 11, 12].iter().all(|&i| seen[i] > 20) && seen[7] == 0, "{seen:?}");
    assert!(most > 2 * 4294967295 && mixed.iter().all(|&n| n > 200), "{most} {mixed:?}");
}

/// Sound tables that no calls made: from no record to as many as there may be, with counts up to the largest, and what stands after them.
#[test]
fn totals_of_lent_tables() {
    let full: Vec<u8> = (0..1026).flat_map(|key| Section { count: 4294967295, top: 0, finest: 2098, totals: [0; 3] }.bytes(key)).collect();
    for (g, rows) in [(0, 0), (1, 4294967295), (2, 8589934590), (1023, 4393751542785), (1024, 4398046510080)] {
        for length in [64 * g, 64 * g + 63, full.len()] {
            assert_eq!(totals_both(&full[..length], g as u64), Ok((g as u64, rows)));
        }
    }
    for (length, g) in [(full.len(), 1025), (full.len(), 1026), (64 * 1024, 1025), (64 * 1024 - 1, 1024), (63, 1), (0, 1)] {
        assert_eq!(totals_both(&full[..length], g), Err(7), "{length} bytes, {g} records");
    }
    let mut r = Random(14);
    for turn in 0..400 {
        let room = if turn % 20 == 0 { 1000 + r.below(26) } else { r.below(12) } as usize;
        let (mut t, g) = table(&mut r, room.min(1024), room, 1 << 32);
        let expected = totals_both(&t, g);
        assert!(expected.is_ok_and(|(sections, rows)| sections == g && rows >= g));
        let (used, after) = t.split_at_mut(64 * g as usize);
        let again = used.to_vec();
        // after the used bytes stand any others, or the same records once more
        after.iter_mut().enumerate().for_each(|(i, x)| *x = if turn % 2 == 0 { r.next() as u8 } else { again.get(i).copied().unwrap_or(0) });
        assert_eq!(totals_both(&t, g), expected);
        // a table's first records are a table
        totals_both(&t, r.below(g + 1)).unwrap();
        for beyond in [t.len() as u64 / 64 + 1, g + (1 << 32), 1 << 63, u64::MAX] {
            assert_eq!(totals_both(&t, beyond), Err(7), "{beyond} records");
        }
    }
}

/// Each condition of soundness broken alone, in every place of a table; after the used bytes it plays no part.
#[test]
fn totals_of_unsound_tables() {
    let sound = Section { count: 3, top: 26, finest: 1000, totals: [1 << 34, -5, 0] };
    let with = |at: usize, words: &[u8]| {
        let mut b = sound.bytes(0);
        b[at..at + words.len()].copy_from_slice(words);
        b
    };
    let record_of = |top: u32, totals: [i128; 3]| Section { count: 3, top, finest: 0, totals }.bytes(0);
    let most = 3 << 39;
    let unsound = [
        Section { count: 0, top: 26, finest: 0, totals: [0; 3] }.bytes(0),
        record_of(53, [0; 3]),
        record_of(u32::MAX, [0; 3]),
        with(12, &2099u32.to_le_bytes()),
        with(12, &[0, 0, 0, 128]),
        // a residue of 2^50, in a total of 0
        with(16, &[(1u64 << 50).to_le_bytes(), u64::MAX.to_le_bytes()].concat()),
        record_of(26, [most + 1, 0, 0]),
        record_of(26, [0, -most - 1, 0]),
        record_of(26, [0, 0, most + 1]),
        record_of(0, [1, 1, 0]),
        record_of(0, [1, 0, 1]),
        record_of(1, [1, 1, -1]),
    ];
    for g in 1..6u64 {
        let keyed: Vec<u8> = (0..6u32).flat_map(|i| sound.bytes(10 + 10 * i)).collect();
        assert_eq!(totals_both(&keyed, g), Ok((g, 3 * g)));
        for at in 0..6usize {
            let expected = if at < g as usize { Err(7) } else { Ok((g, 3 * g)) };
            for record in &unsound {
                let mut t = keyed.clone();
                t[64 * at + 4..64 * at + 64].copy_from_slice(&record[4..]);
                assert_eq!(totals_both(&t, g), expected, "{record:?} as record {at} of {g}");
            }
            // a key that does not rise above the one before it
            for key in [10 * at as u32, 10 * at as u32 - (at > 0) as u32] {
                let mut t = keyed.clone();
                t[64 * at..64 * at + 4].copy_from_slice(&key.to_le_bytes());
                assert_eq!(totals_both(&t, g), if at == 0 { Ok((g, 3 * g)) } else { expected }, "key {key} in record {at} of {g}");
            }
        }
    }
}

/// Sound records with rising keys, as many as asked.
fn records(n: u32) -> Vec<u8> {
    (0..n).flat_map(|i| Section { count: 4294967295 - i as u64, top: 1 + i % 52, finest: 2098 - i, totals: [-(i as i128), 1 << 39, 0] }.bytes(3 * i + 7)).collect()
}

/// 7, then 18, then 16: each alone, and each where those after it hold too.
#[test]
fn refusals_of_saving() {
    let mut r = Random(15);
    let full = records(1026);
    let mut damaged = full.clone();
    damaged[64 * 1023 + 14] = 1;
    let (all, exact) = (full.len(), 64 * 1024);
    for (table, length, g, room, answer) in [
        (&full, all, 1025, 70000, Err(7)),
        (&full, all, 1026, 0, Err(7)),
        (&full, exact - 1, 1024, 70000, Err(7)),
        (&full, exact - 1, 1024, 0, Err(7)),
        (&full, 63, 1, 79, Err(7)),
        (&full, 0, 1, 80, Err(7)),
        (&damaged, all, 1024, 70000, Err(7)),
        (&damaged, all, 1024, 0, Err(7)),
        (&full, all, 1024, 70000, Err(18)),
        (&full, all, 1024, 65552, Err(18)),
        (&full, all, 1024, 65551, Err(18)),
        (&full, exact, 1024, 65536, Err(18)),
        (&full, exact, 1024, 0, Err(18)),
        (&full, all, 1023, 65487, Err(16)),
        (&damaged, exact, 1023, 0, Err(16)),
        (&full, 64, 1, 79, Err(16)),
        (&full, 64, 1, 64, Err(16)),
        (&full, 0, 0, 15, Err(16)),
        (&full, all, 0, 0, Err(16)),
        (&full, all, 1023, 65488, Ok(65488)),
        (&damaged, all, 1023, 65489, Ok(65488)),
        (&full, 64 * 1023, 1023, 70000, Ok(65488)),
        (&full, 64, 1, 80, Ok(80)),
        (&full, 127, 1, 81, Ok(80)),
        (&full, 0, 0, 16, Ok(16)),
        (&full, all, 0, 99, Ok(16)),
    ] {
        let mut out = strange(&mut r, table, room);
        assert_eq!(save_both(&table[..length], g, &mut out), answer, "{length} bytes, {g} records, {room}");
    }
}

/// Group counts far beyond every table: 64 times some of them is a small number in 64 or 32 bits.
#[test]
fn saves_of_too_many_groups() {
    let mut r = Random(25);
    let full = records(1026);
    for g in [1 << 32, (1 << 32) + 1, 1 << 58, (1 << 58) + 1, 1 << 63, u64::MAX] {
        for room in [0, 16, 80, 70000] {
            assert_eq!(save_both(&full, g, &mut strange(&mut r, &full, room)), Err(7), "{g} records, {room}");
        }
    }
}

/// A file of two records with any of its faults, at every place in the order: 3, 19 (for three of them), 16 and 7.
#[test]
fn refusals_of_loading() {
    let mut r = Random(16);
    let sound = records(2);
    let mut seen = [0; 20];
    for faults in 0..64 {
        let has = |i: u32| faults >> i & 1 == 1;
        let mut file = sound.clone();
        file[64 + 4] = if has(5) { 0 } else { 1 };
        file[64 + 5..64 + 8].fill(0);
        file[64 + 16..].fill(0);
        for x in [if has(1) { 3 } else { 2 }, if has(2) { 128 } else { 144 }, if has(3) { 1 << 24 } else { 0u32 }] {
            file.extend(x.to_le_bytes());
        }
        file.extend(if has(0) { *b"LAST" } else { *b"TABL" });
        // long enough for three records, or too short for two
        let room = if has(4) { 127 } else { 192 + r.below(99) as usize };
        let mut table = strange(&mut r, &file, room);
        let first = (0..6).find(|i| has(*i)).map(|i| [3, 19, 19, 19, 16, 7][i as usize]);
        assert_eq!(load_both(&file, &mut table), first.map_or(Ok(2), Err), "{faults:b}");
        seen[first.unwrap_or(0) as usize] += 1;
    }
    assert_eq!((seen[0], seen[3], seen[19], seen[16], seen[7]), (1, 32, 28, 2, 1));
}

/// Lengths at which 1 and 2 hold, whatever else does; group counts and distances whose bytes are far too many, or few in 32 bits.
#[test]
fn lengths_of_saved_files() {
    let mut r = Random(17);
    let with = |n: usize, g: u32, distance: u32, zero: u32| {
        let mut file: Vec<u8> = records(1100)[..n].to_vec();
        for x in [g, distance, zero] {
            file.extend(x.to_le_bytes());
        }
        file.extend(b"TABL");
        file
    };
    let mut loads = |file: &[u8], room: usize| {
        let mut table = strange(&mut r, file, room);
        load_both(file, &mut table)
    };
    assert_eq!(loads(&with(64 * 1024, 1024, 65552, 0), 70000), Err(1));
    assert_eq!(loads(&with(65521, 1023, 65488, 0), 70000), Err(1));
    assert_eq!(loads(&vec![0xAB; 65537], 0), Err(1));
    assert_eq!(loads(&with(65520, 1023, 65488, 0), 70000), Err(19));
    assert_eq!(loads(&vec![0xAB; 65536], 0), Err(3));
    assert_eq!(loads(&with(64 * 1023, 1023, 65488, 0), 64 * 1023), Ok(1023));
    assert_eq!(loads(&with(64 * 1023, 1023, 65488, 0), 64 * 1023 - 1), Err(16));
    let none = with(0, 0, 16, 0);
    for cut in 1..=16 {
        assert_eq!(loads(&none[cut..], 64), Err(2));
        assert_eq!(loads(&none[..16 - cut], 0), Err(2));
    }
    assert_eq!(loads(&none, 0), Ok(0));
    for (n, g, distance, zero) in [
        (0, 0, 0, 0), (0, 0, 15, 0), (0, 0, 17, 0), (0, 0, 16 + (1 << 16), 0), (0, 0, 16, 1), (0, 0, 16, 1 << 31), (0, 1, 16, 0), (0, 1, 80, 0), (0, 1 << 26, 16, 0),
        (0, u32::MAX, 16, 0), (0, u32::MAX, u32::MAX - 47, 0), (64, 1 + (1 << 26), 80, 0), (64, 0, 16, 0), (64, 1, 16, 0), (64, 1, 64, 0), (63, 1, 80, 0), (65, 1, 80, 0), (65, 1, 81, 0),
        (64, 2, 80, 0), (128, 1, 80, 0), (128, 1, 144, 0), (128, 2, 80, 0), (128, 3, 144, 0), (65520, 1024, 65552, 0),
    ] {
        for room in [0, 63, 64, 70000] {
            assert_eq!(loads(&with(n, g, distance, zero), room), Err(19), "{n} bytes, {g}, {distance}, {zero}");
        }
    }
}

/// From no group to as many as a file may have: outputs and tables that are a byte short, long enough and longer; both directions.
#[test]
fn sizes_of_saved_tables() {
    let mut r = Random(18);
    for g in [0, 1, 2, 3, 17, 1022, 1023] {
        let (table, length) = (records(g as u32), 64 * g + 16);
        let mut file = vec![];
        for room in [length - 1, length, length + 1, length + 15, length + 64, 70000] {
            let mut out = strange(&mut r, &table, room);
            assert_eq!(save_both(&table, g as u64, &mut out).ok(), (room >= length).then_some(length));
            file = out[..length.min(room)].to_vec();
        }
        for room in [64 * g - (g > 0) as usize, 64 * g, 64 * g + 1, 64 * g + 63, 64 * g + 64, 70000] {
            let mut into = strange(&mut r, &file, room);
            let answer = load_both(&file, &mut into);
            assert_eq!(answer, if room < 64 * g { Err(16) } else { Ok(g as u64) });
            if answer.is_ok() {
                assert!(into[..64 * g] == table[..]);
                assert_eq!(saved(&mut r, &into, g as u64), file);
                assert_eq!(totals_both(&into, g as u64), totals_both(&table, g as u64));
            }
        }
    }
}

/// Every byte of a small file changed to every other value, and the file cut and made longer at either end by each number of bytes.
#[test]
fn damaged_saved_files() {
    let mut r = Random(19);
    let table = [Section::of_rows(&[1f64.to_bits(), 0.1f64.to_bits()]).bytes(1), Section::of_rows(&[(-96f64).to_bits()]).bytes(258)].concat();
    let file = saved(&mut r, &table, 2);
    let mut seen = [0; 20];
    let mut count = |r: &mut Random, file: &[u8]| {
        let room = [128, 128, 129, 300, 127][r.below(5) as usize];
        let mut into = strange(r, file, room);
        seen[load_both(file, &mut into).err().unwrap_or(0) as usize] += 1;
    };
    for at in 0..file.len() {
        for change in 1..=255 {
            let mut damaged = file.clone();
            damaged[at] ^= change;
            count(&mut r, &damaged);
        }
    }
    for n in 1..=file.len() {
        let more = r.bytes(n);
        let ends = [&file[n..], &file[..file.len() - n]];
        for damaged in ends.into_iter().map(<[u8]>::to_vec).chain([[&more, &file[..]].concat(), [&file[..], &more].concat(), [&file[..n], &file[..]].concat()]) {
            count(&mut r, &damaged);
        }
    }
    assert!([0, 2, 3, 7, 16, 19].iter().all(|&i| seen[i] > 10), "{seen:?}");
}

/// An unsound record at every place of a well-formed file leaves the table as it was, also where that holds a sound table of as many records.
#[test]
fn unsound_saved_files() {
    let mut r = Random(20);
    let (table, other) = (records(5), records(9)[64 * 4..].to_vec());
    let file = saved(&mut r, &table, 5);
    let mut seen = [0; 2];
    for _ in 0..4000 {
        let mut damaged = file.clone();
        let at = 64 * r.below(5) as usize;
        damage(&mut r, &mut damaged[at..at + 64], &mut 1);
        let mut into = other.clone();
        let answer = load_both(&damaged, &mut into);
        // an unsound table is no reason to refuse a sound file
        let mut unsound = other.clone();
        unsound[at + 14] = 9;
        assert_eq!(load_both(&damaged, &mut unsound), answer);
        seen[(answer == Err(7)) as usize] += 1;
    }
    assert!(seen[0] + seen[1] == 4000 && seen.iter().all(|&n| n > 200), "{seen:?}");
}

/// Random tables, a part of them unsound, into outputs of any length; what was saved is loaded into tables of any length.
#[test]
fn saves_and_loads() {
    let mut r = Random(21);
    let (mut seen, mut finished) = ([0; 20], 0);
    for turn in 0..4000 {
        let (room, span) = if turn % 200 == 0 { (1022 + r.below(4), 1 << 32) } else { (r.below(12), 1 + r.below(16)) };
        let (mut t, mut g) = table(&mut r, room as usize, room as usize, span);
        damage(&mut r, &mut t, &mut g);
        let width = (64 * g + 16 + r.below(99)).saturating_sub(if r.chance(4) { 1 + r.below(99) } else { 0 }) as usize;
        let mut out = strange(&mut r, &t, width);
        let answer = save_both(&t, g, &mut out);
        seen[answer.err().unwrap_or(0) as usize] += 1;
        let Ok(length) = answer else { continue };
        let file = &out[..length];
        let width = (64 * g + r.below(99)).saturating_sub(if r.chance(4) { 1 + r.below(99) } else { 0 }) as usize;
        let mut into = strange(&mut r, file, width);
        if load_both(file, &mut into) != Ok(g) {
            seen[1] += 1;
            continue;
        }
        assert!(into[..64 * g as usize] == t[..64 * g as usize]);
        assert_eq!(saved(&mut r, &into, g), file);
        assert_eq!(totals_both(&into, g), totals_both(&t, g));
        for record in t[..64 * g as usize].chunks(64).take(17) {
            let key = u32::from_le_bytes(record[..4].try_into().unwrap());
            for key in [key, key.wrapping_add(1)] {
                assert_eq!(finish_both(&into, g, key), finish_both(&t, g, key));
                finished += 1;
            }
        }
    }
    assert!([0, 1, 7, 16, 18].iter().all(|&i| seen[i] > 0) && finished > 1000, "{seen:?} {finished}");
}

/// The same adds and merges on a table that lives on and on one that is saved between them, and loaded over some other buffer.
#[test]
fn interrupted_tables() {
    let mut r = Random(22);
    let mut loads = 0;
    for _ in 0..300 {
        let span = 1 + r.below(12);
        let (mut whole, mut g) = (r.bytes(64 * 12), 0);
        let (mut parts, mut h) = (r.bytes(64 * 12), 0);
        for _ in 0..8 {
            if r.chance(2) {
                let file = saved(&mut r, &parts, h);
                let spare = r.below(64) as usize;
                parts = strange(&mut r, &file, 64 * 12 + spare);
                h = load_both(&file, &mut parts).unwrap();
                loads += (h > 0) as u32;
            }
            let n = r.below(9) as usize;
            let rows: Vec<(u32, u64)> = r.rows(n).into_iter().map(|b| (r.below(span) as u32, b)).collect();
            let (k, v) = columns(&rows);
            if r.chance(3) {
                let mut second = r.bytes(64 * 12);
                let g2 = calls::add(&mut second, 0, &k, &v, Kind::Double, &mut [1; 64 * 12]).unwrap();
                (g, h) = (merge_both(&mut whole, g, &second, g2).unwrap(), merge_both(&mut parts, h, &second, g2).unwrap());
            } else {
                g = add_both(&mut whole, g, &k, &v, &mut [1; 64 * 12]).unwrap();
                h = add_both(&mut parts, h, &k, &v, &mut [1; 64 * 13]).unwrap();
            }
            assert!(g == h && whole[..64 * g as usize] == parts[..64 * g as usize]);
        }
        assert_eq!(totals_both(&parts, h), totals_both(&whole, g));
        for key in 0..span as u32 {
            finish_both(&parts, h, key).ok();
            assert_eq!((calls::sum(&parts, h, key), calls::line(&parts, h, key)), (calls::sum(&whole, g, key), calls::line(&whole, g, key)));
        }
    }
    assert!(loads > 500, "{loads}");
}

/// Files of saved tables, each with the rows that its table had when it was saved.
#[derive(Default)]
struct Shelf(Vec<(Vec<u8>, Rows)>);

impl Shelf {
    /// A save, at times into an output that is too short.
    fn save(&mut self, r: &mut Random, (t, g, held): &(Vec<u8>, u64, Rows)) -> Result<u64, u32> {
        let room = if r.chance(5) { r.below(64 * g + 16) } else { 64 * g + 16 + r.below(99) } as usize;
        let mut out = strange(r, t, room);
        let length = save_both(t, *g, &mut out)?;
        out.truncate(length);
        self.0.push((out, held.clone()));
        Ok(length as u64)
    }

    /// A load of any file, or of none, which is read as an empty one.
    fn load(&self, r: &mut Random, (t, g, held): &mut (Vec<u8>, u64, Rows)) -> Result<u64, u32> {
        let (file, rows) = self.0.get(r.below(self.0.len() as u64 + 1) as usize).cloned().unwrap_or_default();
        let answer = load_both(&file, t)?;
        (*g, *held) = (answer, rows);
        Ok(answer)
    }
}

/// Lists of adds of both kinds, merges, finishings, saves and loads, refused ones among them: the totals are those of the rows, where a loaded table has those of the
/// saved one, and tables with the same rows have the same used bytes.
#[test]
fn lists_with_saves_and_loads() {
    let mut r = Random(23);
    let (mut seen, mut most, mut same, mut mixed) = ([0; 20], 0, 0, [0; 2]);
    for _ in 0..80 {
        let span = 1 + r.below(12);
        let (mut tables, mut shelf) = (Tables::random(&mut r), Shelf::default());
        for _ in 0..200 {
            let i = r.below(3) as usize;
            let answer = match r.below(16) {
                0 => finish_both(&tables.all[i].0, tables.all[i].1, r.below(span) as u32).map(|_| 0),
                1 | 2 => tables.add(&mut r, i, span),
                3 | 4 => shelf.save(&mut r, &tables.all[i]),
                // what kinds a table has had is not followed through a file
                5 => shelf.load(&mut r, &mut tables.all[i]).inspect(|_| tables.kinds[i] = [false; 2]),
                _ => tables.merge(i, (i + 1 + r.below(2) as usize) % 3),
            };
            most = most.max(tables.look());
            seen[answer.err().filter(|e| !(13..16).contains(e)).unwrap_or(0) as usize] += 1;
            let (a, b) = (&tables.all[i], &tables.all[(i + 1) % 3]);
            if a.2 == b.2 {
                assert!(a.1 == b.1 && a.0[..64 * a.1 as usize] == b.0[..64 * b.1 as usize]);
                same += (a.1 > 0) as u32;
            }
        }
        mixed = [0, 1].map(|kind| mixed[kind] + tables.mixed[kind]);
    }
    assert!([0, 2, 8, 9, 10, 11, 12, 16].iter().all(|&i| seen[i] > 20) && seen[7] == 0, "{seen:?}");
    assert!(most > 2 * 4294967295 && same > 100 && mixed.iter().all(|&n| n > 200), "{most} {same} {mixed:?}");
}

/// The distance of demand 3: the kept value lies within n x largest x 2^-80 of the exact sum.
#[test]
fn distance() {
    let mut r = Random(5);
    for turn in 0..1500 {
        let n = 1 + r.below(if turn % 10 == 0 { 2000 } else { 60 }) as usize;
        let rows = r.rows(n);
        let exact = rows.iter().fold(Big::ZERO, |s, &b| s.plus(model::value(b)));
        let largest = rows.iter().map(|&b| model::value(b).size()).fold(Big::ZERO, |m, x| if m.at_most(x) { x } else { m });
        let (t, g) = of_values(&rows);
        let kept = model::find(&t, g, 7).unwrap().kept();
        assert!(kept.less(exact).size().shl(80).at_most(largest.times(n as u64)));
    }
}

/// A row of every finite exponent field, of both signs, with the smallest and the largest fraction, those about a subnormal's bound and one at random: the record
/// is the model's, which looks for the top level by level. Rows with one field that is not 0 have one top.
#[test]
fn tops_of_every_field() {
    let mut r = Random(6);
    let mut seen = [false; 53];
    for field in 0..2047 {
        let mut tops = BTreeSet::new();
        for fraction in [0, 1, (1 << 39) - 1, 1 << 39, (1 << 52) - 1, r.below(1 << 52)] {
            for sign in [0, 1 << 63] {
                let (k, v) = columns(&[(7, sign | field << 52 | fraction)]);
                let mut t = vec![0; 64];
                add_both(&mut t, 0, &k, &v, &mut [0; 64]).unwrap();
                seen[t[8] as usize] = true;
                tops.insert(t[8]);
            }
        }
        assert_eq!(tops.len(), if field == 0 { 2 } else { 1 });
    }
    assert!(seen.iter().all(|&top| top));
}

/// Rows of every finest power from 0 to 2,097, of both signs: the power of two alone, and odd numbers of it with more digits, subnormal ones among them.
#[test]
fn finest_powers() {
    let mut r = Random(26);
    let (mut rows, mut subnormal, mut answers) = (0, 0, [0; 2]);
    for z in 0..2098usize {
        // odd numbers times 2^z, of as many digits as a row may have: 53, and fewer where the row would be too large
        let longest = 53.min(2098 - z);
        let mut odd = vec![1, (1 << longest) - 1, r.next() >> (64 - longest) | 1];
        if z < 51 {
            odd.extend([(1 << (52 - z)) - 1, r.next() >> (12 + z) | 1]);
        }
        if z < 2097 {
            odd.push(3);
        }
        for m in odd {
            for sign in [0, 1 << 63] {
                let bits = model::nearest_double(Big::from(m as i128).shl(z)) | sign;
                assert_eq!(model::value(bits).size(), Big::from(m as i128).shl(z), "{m} x 2^{z} is a double");
                let (k, v) = columns(&[(7, bits)]);
                let mut t = vec![0xA5; 64];
                add_both(&mut t, 0, &k, &v, &mut [1; 64]).unwrap();
                assert_eq!(finest_of(&t), z as u32, "{m} x 2^{z}");
                answers[exact_both(&t, 1, 7).unwrap() as usize] += 1;
                (rows, subnormal) = (rows + 1, subnormal + (bits >> 52 & 2047 == 0) as u32);
            }
        }
    }
    for zeros in [vec![0], vec![1 << 63], vec![0, 1 << 63, 0]] {
        assert_eq!(finest_of(&of_values(&zeros).0), 2098);
        // zeros beside another row play no part
        assert_eq!(finest_of(&of_values(&[&zeros[..], &[2f64.powi(1023).to_bits()]].concat()).0), 2097);
        assert_eq!(finest_of(&of_values(&[&[1], &zeros[..]].concat()).0), 0);
    }
    // a row alone is always answered exact: its 53 digits lie within three levels
    assert!(rows > 2 * 4 * 2000 && subnormal > 200 && answers[0] == 0, "{rows} {subnormal} {answers:?}");
}

/// Rows about the levels t, t - 1 and t - 2: multiples of a power at the lowest kept unit, or not far from it, and one that needs level t.
fn rows_about(r: &mut Random, t: usize, n: usize) -> Vec<u64> {
    let lowest = (40 * t).saturating_sub(80) + r.below(5) as usize;
    let z = match r.below(3) {
        0 => lowest.saturating_sub(2),
        1 => (40 * t + 20).saturating_sub(r.below(130) as usize).min(2097),
        _ => (40 * t).saturating_sub(80),
    };
    let row = |r: &mut Random, z: usize| {
        let digits = 1 + r.below(53.min(40 * t as u64 + 39 - z as u64).min(2098 - z as u64));
        let m = if r.chance(6) { 0 } else { r.next() >> (64 - digits) };
        model::nearest_double(Big::from(m as i128).shl(z)) | r.below(2) << 63
    };
    let mut rows: Vec<u64> = (0..n).map(|_| row(r, z)).collect();
    rows.push(model::nearest_double(Big::power((40 * t).max(1) - 1 + r.below(2) as usize)) | r.below(2) << 63);
    if r.chance(3) {
        // one row that is finer, beside others that are not
        let z = z.saturating_sub(r.below(4) as usize);
        rows.push(row(r, z));
    }
    r.shuffle(&mut rows);
    rows
}

/// Sections of several rows: the finest power is the smallest of the rows', and a section that is answered exact keeps the exact sum. The others may keep it too.
#[test]
fn exact_sections() {
    let mut r = Random(27);
    let mut seen: BTreeMap<(bool, bool, bool), u32> = BTreeMap::new();
    for turn in 0..6000 {
        let n = 1 + r.below(if turn % 40 == 0 { 100 } else { 12 }) as usize;
        let t = r.below(53) as usize;
        let rows = if turn % 4 == 0 { r.rows(n) } else { rows_about(&mut r, t, n) };
        let (k, v) = columns(&rows.iter().map(|&b| (7, b)).collect::<Vec<_>>());
        let mut table = vec![0xA5; 64];
        add_both(&mut table, 0, &k, &v, &mut [1; 64]).unwrap();
        assert_eq!(finest_of(&table), rows.iter().map(|&b| model::finest(&[b])).min().unwrap());
        let sum = rows.iter().fold(Big::ZERO, |sum, &b| sum.plus(model::value(b)));
        let section = model::find(&table, 1, 7).unwrap();
        let (exact, same) = (exact_both(&table, 1, 7).unwrap(), section.kept() == sum);
        assert!(same || !exact, "{rows:x?}");
        *seen.entry((exact, same, section.top > 2)).or_default() += 1;
    }
    for kind in [(true, true, true), (true, true, false), (false, true, true), (false, false, true)] {
        assert!(seen.get(&kind).is_some_and(|&n| n > 60), "{seen:?}");
    }
}

/// For every top the power that is just enough, and one less; with tops up to 2 every power is.
#[test]
fn edges_of_exactness() {
    // rows: the smallest and the largest power of two that have this top, and beside them a finer one
    for t in 0..=52i32 {
        let edge = 40 * (t - 2);
        for big in [(40 * t - 1).max(0), (40 * t + 38).min(2097)] {
            for z in [0, 1, 39, 40, edge - 1, edge, edge + 1].into_iter().filter(|z| (0..=big).contains(z)) {
                let (table, g) = of_values(&[big, z].map(|e| model::nearest_double(Big::power(e as usize))));
                assert_eq!((table[8] as i32, finest_of(&table) as i32), (t, z));
                assert_eq!(exact_both(&table, g, 7), Ok(t <= 2 || z >= edge), "top {t}, finest power {z}");
            }
        }
    }
    // records of every top and every finest power, whatever their totals are
    let mut answers = [0; 2];
    for top in 0..=52u32 {
        for finest in 0..=2098 {
            let b = Section { count: 5, top, finest, totals: [1, if top > 0 { -7 } else { 0 }, (top > 1) as i128] }.bytes(7);
            let exact = calls::exact(&b, 1, 7) == Ok(calls::Exactness::Exact);
            assert_eq!(exact, top <= 2 || finest + 80 >= 40 * top, "{top} {finest}");
            answers[exact as usize] += 1;
        }
    }
    // 40 × (1 + .. + 50) pairs are below the edge
    assert_eq!(answers, [51000, 53 * 2099 - 51000]);
    for (top, finest, exact) in [(2, 0, true), (3, 39, false), (3, 40, true), (52, 1999, false), (52, 2000, true), (26, 959, false), (26, 960, true)] {
        assert_eq!(exact_both(&Section { count: 1, top, finest, totals: [0; 3] }.bytes(7), 1, 7), Ok(exact), "{top} {finest}");
    }
}

/// An add and a merge keep the smaller finest power of a section that both have, whichever has the larger top; a section of one alone keeps its own.
#[test]
fn smaller_finest_powers() {
    let mut r = Random(28);
    let powers = [0, 1, 39, 40, 1073, 1074, 2096, 2097, 2098];
    let finest_at = |t: &[u8], i: usize| u32::from_le_bytes(t[64 * i + 12..64 * i + 16].try_into().unwrap());
    for (a, b) in powers.iter().flat_map(|a| powers.map(|b| (*a, b))) {
        for (s, t) in [(0, 0), (26, 26), (26, 27), (27, 26), (52, 3), (3, 52)] {
            let record = |top, finest| Section { count: 1, top, finest, totals: [0; 3] };
            let mut first = [record(s, a).bytes(7), record(s, b).bytes(9), vec![0xA5; 64]].concat();
            let second = [record(t, b).bytes(7), record(t, a).bytes(8)].concat();
            assert_eq!(merge_both(&mut first, 2, &second, 2), Ok(3));
            assert_eq!([0, 1, 2].map(|i| finest_at(&first, i)), [a.min(b), a, b]);
        }
        // the same powers by rows: one that has the second is added to a record with the first, and to an empty table beside it
        let row = if b == 2098 { 0 } else { model::nearest_double(Big::power(b as usize)) } | r.below(2) << 63;
        for top in [0, model::top(row), 52] {
            let mut t = [Section { count: 1, top, finest: a, totals: [0; 3] }.bytes(7), vec![0xA5; 64]].concat();
            let (k, v) = columns(&[(7, row), (5, row)]);
            assert_eq!(add_both(&mut t, 1, &k, &v, &mut [1; 128]), Ok(2));
            assert_eq!([0, 1].map(|i| finest_at(&t, i)), [b, a.min(b)], "{a} and {b}");
        }
    }
}

/// What each call answers that gets a table of g records, the last two a load of the records as a file and a removal of no rows.
fn every_answer(t: &[u8], g: u64, key: u32) -> [Option<u32>; 11] {
    let (row, zeros) = (columns(&[(key, 1f64.to_bits())]), vec![0; t.len()]);
    let file = [t, &(g as u32).to_le_bytes()[..], &(64 * g as u32 + 16).to_le_bytes(), &[0; 4], b"TABL"].concat();
    [
        add_both(&mut t.to_vec(), g, &row.0, &row.1, &mut zeros.clone()).err(),
        merge_both(&mut t.to_vec(), g, &[], 0).err(),
        merge_both(&mut zeros.clone(), 0, t, g).err(),
        finish_both(t, g, key).err(),
        calls::sum(t, g, key).err(),
        calls::line(t, g, key).err(),
        exact_both(t, g, key).err(),
        totals_both(t, g).err(),
        save_both(t, g, &mut vec![0; t.len() + 16]).err(),
        load_both(&file, &mut zeros.clone()).err(),
        remove_both(&mut t.to_vec(), g, &[], &[], 8, &mut zeros.clone()).err(),
    ]
}

/// A finest power from 2,099 on is not sound, at every place of a table and for every call; all smaller ones are, whatever else the record says.
#[test]
fn unsound_finest_powers() {
    let mut r = Random(29);
    for finest in [2099, 2100, 4096, 1 << 16, (1 << 16) + 5, 1 << 24, 1 << 31, u32::MAX] {
        for at in 0..5 {
            let mut t = records(5);
            t[64 * at + 12..64 * at + 16].copy_from_slice(&u32::to_le_bytes(finest));
            // section 7 is the first one; 8 is absent: 7 comes before 13
            for key in [7, 8] {
                assert_eq!(every_answer(&t, 5, key), [Some(7); 11], "{finest} in record {at}");
            }
            // beyond the used bytes it plays no part
            let before = totals_both(&t, at as u64);
            assert!(before.is_ok(), "{finest} after {at} records");
        }
    }
    for finest in [0, 1, 255, 256, 2047, 2048, 2096, 2097, 2098] {
        for _ in 0..20 {
            let mut t: Vec<u8> = (0..3).flat_map(|i| Section { count: 1 + r.below(9), finest, ..record(&mut r) }.bytes(7 + i)).collect();
            for record in t.chunks_mut(64) {
                // totals that so few rows allow
                record[16..].fill(0);
            }
            assert_eq!(every_answer(&t, 3, 7), [None; 11], "{finest}");
            assert_eq!(every_answer(&t, 3, 99)[3..7], [Some(13); 4], "{finest}");
        }
    }
}

/// The question's refusals: 7, also where 13 would hold, then 13.
#[test]
fn refusals_of_the_question() {
    let t = records(3);
    for (length, g, key, answer) in [
        (192, 4, 7, Err(7)), (192, 4, 8, Err(7)), (191, 3, 7, Err(7)), (0, 1, 7, Err(7)), (0, u64::MAX, 7, Err(7)), (192, 1 << 58, 8, Err(7)), (192, (1 << 32) + 3, 8, Err(7)),
        (192, 3, 8, Err(13)), (192, 3, 0, Err(13)), (192, 3, u32::MAX, Err(13)), (192, 2, 13, Err(13)), (192, 0, 7, Err(13)), (0, 0, 0, Err(13)),
        (192, 3, 7, Ok(true)), (192, 3, 13, Ok(true)), (128, 2, 10, Ok(true)),
    ] {
        assert_eq!(exact_both(&t[..length], g, key), answer, "{length} bytes, {g} records, section {key}");
    }
}

/// The bytes of records without their finest powers.
fn without_finest(used: &[u8]) -> Vec<u8> {
    used.iter().enumerate().filter(|(i, _)| !(12..16).contains(&(i % 64))).map(|(_, x)| *x).collect()
}

/// A saved table as an older version wrote it, with 0 in place of each finest power.
fn as_older(file: &[u8]) -> Vec<u8> {
    let records = file.len() - 16;
    file.iter().enumerate().map(|(i, x)| if i < records && (12..16).contains(&(i % 64)) { 0 } else { *x }).collect()
}

/// A file as it is written and the same as an older version wrote it, loaded, added to, merged and saved alike: all but the finest powers and the question's answer
/// is the same, and sections of the older file keep 0.
#[test]
fn tables_of_an_older_version() {
    let mut r = Random(30);
    let (mut answers, mut raised) = ([[0; 2]; 2], 0);
    for turn in 0..400 {
        let span = 1 + r.below(10);
        let t = if turn % 4 == 0 { r.below(3) } else { r.below(53) } as usize;
        let some = |r: &mut Random| -> Vec<(u32, u64)> {
            let n = 1 + r.below(9) as usize;
            let rows = if r.chance(2) { rows_about(r, t, n) } else { (0..n).map(|_| (r.below(4000) as f64 / 8.0 - 250.0).to_bits()).collect() };
            rows.into_iter().map(|b| (r.below(span) as u32, b)).collect()
        };
        let (k, v) = columns(&some(&mut r));
        let mut start = r.bytes(64 * 12);
        let g = add_both(&mut start, 0, &k, &v, &mut [1; 64 * 12]).unwrap();
        let file = saved(&mut r, &start, g);
        let older = as_older(&file);
        let (mut new, mut old) = (r.bytes(64 * 12), r.bytes(64 * 12));
        let (mut g, mut h) = (load_both(&file, &mut new).unwrap(), load_both(&older, &mut old).unwrap());
        let from_file: BTreeSet<u32> = (0..h as usize).map(|i| u32::from_le_bytes(old[64 * i..64 * i + 4].try_into().unwrap())).collect();
        for step in 0..5 {
            assert!(g == h && without_finest(&new[..64 * g as usize]) == without_finest(&old[..64 * g as usize]));
            assert_eq!(totals_both(&old, h), totals_both(&new, g));
            for (key, s) in model::sections(&old, h).unwrap() {
                let finish = |t: &[u8]| (calls::sum(t, g, key), calls::figure(t, g, key), calls::line(t, g, key));
                finish_both(&old, h, key).ok();
                assert_eq!(finish(&old), finish(&new));
                let (known, exact) = (model::find(&new, g, key).unwrap(), exact_both(&old, h, key).unwrap());
                if from_file.contains(&key) {
                    assert!(s.finest == 0 && exact == (s.top <= 2), "section {key} of the older file");
                    answers[exact as usize][exact_both(&new, g, key).unwrap() as usize] += 1;
                } else {
                    assert_eq!(s, known, "section {key}, which came later");
                    raised += (s.finest > 0) as u32;
                }
            }
            let (k, v) = columns(&some(&mut r));
            if step % 2 == 0 {
                (g, h) = (add_both(&mut new, g, &k, &v, &mut [1; 64 * 12]).unwrap(), add_both(&mut old, h, &k, &v, &mut [1; 64 * 12]).unwrap());
            } else {
                let mut other = r.bytes(64 * 12);
                let many = add_both(&mut other, 0, &k, &v, &mut [1; 64 * 12]).unwrap();
                if r.chance(2) {
                    (g, h) = (merge_both(&mut new, g, &other, many).unwrap(), merge_both(&mut old, h, &other, many).unwrap());
                } else {
                    // into another table, and on from there
                    let mut same = other.clone();
                    (g, h) = (merge_both(&mut other, many, &new, g).unwrap(), merge_both(&mut same, many, &old, h).unwrap());
                    (new, old) = (other, same);
                }
            }
            if r.chance(3) {
                let file = saved(&mut r, &old, h);
                old = strange(&mut r, &file, 64 * 12);
                assert_eq!(load_both(&file, &mut old), Ok(h));
            }
        }
    }
    // by the answer in the older file's table, then by that in the other one: where the first is exact, so is the second
    assert!(answers[0][0] > 100 && answers[0][1] > 1000 && answers[1][1] > 300 && answers[1][0] == 0 && raised > 300, "{answers:?} {raised}");
}

/// Lists of adds, merges, saves and loads, refused ones among them, the loads now and then of a file as an older version wrote it: a section that is answered exact keeps the
/// exact sum of the rows that the calls brought. The used bytes are those of the same rows added one by one, with 0 for the finest power of each section that has a row of an older file.
#[test]
fn exact_sections_of_lists() {
    let mut r = Random(31);
    let (mut answers, mut refused, mut onward) = ([[0; 2]; 2], BTreeMap::new(), [0; 3]);
    let (mut faded, mut beside, mut several) = (0, 0, [0; 3]);
    for turn in 0..800 {
        let (span, t, older) = (1 + r.below(6), r.below(53) as usize, turn % 2 == 0);
        // bytes, group count, rows, and the sections with a row of an older file
        let mut tables = vec![];
        for _ in 0..3 {
            let room = 2 + r.below(5) as usize;
            tables.push((r.bytes(64 * room), 0, Rows::default(), BTreeSet::new()));
        }
        let mut shelf = vec![];
        for _ in 0..30 {
            let i = r.below(3) as usize;
            let (mut bytes, mut g, mut held, mut of_older) = tables[i].clone();
            let answer = match r.below(10) {
                0..4 => {
                    let n = r.below(5) as usize;
                    let rows: Vec<(u32, u64)> = rows_about(&mut r, t, n).into_iter().map(|b| (r.below(span) as u32, b)).collect();
                    let (k, v) = columns(&rows);
                    let answer = add_both(&mut bytes, g, &k, &v, &mut [1; 64 * 6]);
                    if answer.is_ok() {
                        held.take(&Rows::of(&rows));
                        onward[0] += rows.iter().any(|row| of_older.contains(&row.0)) as u32;
                    }
                    answer
                }
                4 | 5 => {
                    let (second, g2, brought, others) = &tables[(i + 1) % 3];
                    let answer = merge_both(&mut bytes, g, second, *g2);
                    if answer.is_ok() {
                        held.take(brought);
                        onward[1] += !others.is_subset(&of_older) as u32;
                        of_older.extend(others);
                    }
                    answer
                }
                6 | 7 => {
                    shelf.push((saved(&mut r, &bytes, g), held.clone(), of_older.clone()));
                    Ok(g)
                }
                _ => {
                    let (file, rows, others) = shelf.pop().unwrap_or_default();
                    let by_older = older && !file.is_empty() && r.chance(2);
                    let answer = load_both(&if by_older { as_older(&file) } else { file }, &mut bytes);
                    if answer.is_ok() {
                        onward[2] += (!by_older && !others.is_empty()) as u32;
                        of_older = if by_older { rows.each().map(|row| row.0).collect() } else { others };
                        held = rows;
                    }
                    answer
                }
            };
            match answer {
                Ok(after) => g = after,
                Err(e) => *refused.entry(e).or_insert(0) += 1,
            }
            tables[i] = (bytes, g, held, of_older);
        }
        for (bytes, g, held, of_older) in &tables {
            for (key, s) in model::sections(bytes, *g).unwrap() {
                let (exact, whole) = (exact_both(bytes, *g, key).unwrap(), s.kept() == held.sum(key));
                assert!(whole || !exact, "section {key}");
                answers[exact as usize][whole as usize] += 1;
                let finest = model::finest(&held.doubles(key));
                assert_eq!(s.finest, if of_older.contains(&key) { 0 } else { finest }, "section {key}, whose rows have {finest}");
                faded += (of_older.contains(&key) && finest > 0) as u32;
                beside += (!of_older.contains(&key) && finest > 0 && !of_older.is_empty()) as u32;
            }
            // the same rows, each by an add of its own
            let (mut again, mut h) = (r.bytes(64 * 6), 0);
            for row in held.each() {
                let (k, v) = columns(&[row]);
                h = add_both(&mut again, h, &k, &v, &mut [1; 64 * 6]).unwrap();
            }
            let used = 64 * *g as usize;
            assert_eq!(h, *g);
            for record in again[..used].chunks_mut(64) {
                if of_older.contains(&u32::from_le_bytes(record[..4].try_into().unwrap())) {
                    record[12..16].fill(0);
                }
            }
            assert!(again[..used] == bytes[..used]);
            several[if of_older.is_empty() { older as usize } else { 2 }] += (*g > 1) as u32;
        }
    }
    assert!(answers[0][0] > 100 && answers[0][1] > 100 && answers[1][1] > 1000, "{answers:?}");
    // sections with a row of an older file whose rows have another finest power than 0, and other sections in the same tables
    assert!(faded > 200 && beside > 40, "{faded} {beside}");
    // tables of several sections that were compared: in lists without older files; in the others, without a row of one, and with
    assert!(several.iter().all(|&n| n > 100), "{several:?}");
    // how often an add came to a section of an older file, a merge brought one, and a file of this version was loaded that has one
    assert!(onward.iter().all(|&n| n > 20) && [2, 12, 16].iter().all(|e| refused.get(e).is_some_and(|&n| n > 20)), "{onward:?} {refused:?}");
}

/// Three rows whose sum is an exact half of a hundredth, an odd number of eighths; and its mill figure, which is in range.
fn half_hundredths(r: &mut Random) -> (Vec<u64>, i64) {
    let most = if r.chance(2) { 85899346 } else { 500 };
    let j = r.below(most) as i64 * 2 + 1;
    let (a, b) = (r.below(1 << 30) as i64, r.below(1 << 30) as i64);
    let rows = [a - b, b, j - a].map(|eighths| (eighths as f64 / 8.0).to_bits());
    (rows.to_vec(), (25 * j + 1) / 2)
}

/// Rows, and the same with their signs turned, have mill figures of opposite signs or the same refusal.
#[test]
fn mirrored_figures() {
    let mut r = Random(16);
    let (mut refused, mut nothing, mut beside) = ([0; 16], 0, [0; 2]);
    for turn in 0..12000 {
        let mut expected = None;
        let rows = match turn % 5 {
            0 => {
                let (rows, figure) = half_hundredths(&mut r);
                expected = Some(figure);
                rows
            }
            // a double beside an exact half: the figure is that of the half, or one less in size
            1 => {
                let (rows, figure) = half_hundredths(&mut r);
                let x = rows.iter().map(|&b| f64::from_bits(b)).sum::<f64>();
                let next = r.below(2);
                expected = Some(figure - 1 + next as i64);
                beside[next as usize] += 1;
                vec![x.to_bits() - 1 + 2 * next]
            }
            2 => vec![21474836.475f64.to_bits() + r.below(9) - 4, r.below(2) << 63],
            3 => vec![0x7FEFFFFFFFFFFFFF, (0x7C8 << 52) + r.next() % (1 << 54)],
            _ => {
                let n = 1 + r.below(9) as usize;
                r.rows(n)
            }
        };
        let figures = [0, 1 << 63].map(|sign| {
            let (t, g) = of_values(&rows.iter().map(|b| b ^ sign).collect::<Vec<_>>());
            finish_both(&t, g, 7)
        });
        assert_eq!(figures[1], figures[0].map(|z| -z), "{rows:X?}");
        assert!(expected.is_none_or(|z| figures[0] == Ok(z)), "{rows:X?}");
        match figures[0] {
            Ok(z) => nothing += (z == 0) as u32,
            Err(e) => refused[e as usize] += 1,
        }
    }
    assert!(nothing > 100 && refused[14] > 100 && refused[15] > 100 && beside.iter().all(|&n| n > 100), "{nothing} {refused:?} {beside:?}");
}

/// How often a sum, and how often a finished line, of each sign had each of the sides -1, 0 and 1; a sum of bits 0 counts as neither.
#[derive(Default, Debug)]
struct Sides {
    sums: [[u32; 3]; 2],
    lines: [[u32; 3]; 2],
    /// Sums that were rounded, of sections whose mill figure does not fit.
    without_line: u32,
}

impl Sides {
    /// The sum of a section and its side, compared with the model.
    fn finish(&mut self, table: &[u8], g: u64, key: u32) -> Result<(u64, i64), u32> {
        let figure = finish_both(table, g, key);
        let s = calls::sum(table, g, key)?;
        let (sign, side) = ((s.bits >> 63) as usize, (s.side + 1) as usize);
        if s.bits != 0 {
            self.sums[sign][side] += 1;
            self.lines[sign][side] += figure.is_ok() as u32;
            self.without_line += (figure == Err(15) && s.side != 0) as u32;
        }
        Ok((s.bits, s.side))
    }

    fn of_values(&mut self, rows: &[u64]) -> Result<(u64, i64), u32> {
        let (t, g) = of_values(rows);
        self.finish(&t, g, 7)
    }

    fn assert_all(&self, least: u32) {
        let all = self.sums.iter().chain(&self.lines).flatten().all(|&n| n >= least);
        assert!(all && self.without_line >= least, "{self:?}");
    }
}

/// A kept value of m * 2^c + d units of 2^(e - 1074), where m has 53 digits and d is below 2^c, or its negative.
#[derive(Clone, Copy, Debug)]
struct Near {
    negative: bool,
    m: u64,
    c: usize,
    d: u128,
    e: usize,
}

impl Near {
    /// At the places around a tie, and at the ends, of significands that are even, odd, and the first and the last of a binade.
    fn random(r: &mut Random, c: usize, e: usize) -> Near {
        let m = match r.below(6) {
            0 => 1 << 52,
            1 => (1 << 52) + 1,
            2 => (1 << 53) - 2,
            3 => (1 << 53) - 1,
            _ => 1 << 52 | r.next() >> 12,
        };
        let (half, end) = (1 << (c - 1), 1 << c);
        let d = match r.below(8) {
            0 => 0,
            1 => 1,
            2 => half - 1,
            3 | 4 => half,
            5 => (half + 1) % end,
            6 => end - 1,
            _ => (r.next() as u128 | (r.next() as u128) << 64) % end,
        };
        Near { negative: r.chance(2), m, c, d, e }
    }

    fn is_tie(self) -> bool {
        2 * self.d == 1 << self.c
    }

    fn signed(self, k: Big) -> Big {
        if self.negative { k.minus() } else { k }
    }

    fn units(self) -> Big {
        let d = Big::from((self.d >> 64) as i128).shl(64).plus(Big::from(self.d as u64 as i128));
        self.signed(Big::from(self.m as i128).shl(self.c).plus(d))
    }

    fn kept(self) -> Big {
        self.units().shl(self.e)
    }

    /// The bits of the nearest double and its side, from m, c and d alone.
    fn sum(self) -> (u64, i64) {
        let up = 2 * self.d > 1 << self.c || self.is_tie() && self.m % 2 == 1;
        let bits = (((self.c + self.e) as u64) << 52) + self.m + up as u64;
        let side = if self.d == 0 { 0 } else if up { 1 } else { -1 };
        if self.negative { (bits | 1 << 63, -side) } else { (bits, side) }
    }
}

/// How often a tie went to either side, by sign, and how often a sum was rounded to the first double of the next binade.
#[derive(Default, Debug)]
struct Ties([[u32; 2]; 2], [u32; 2]);

impl Ties {
    fn count(&mut self, n: Near) {
        let (bits, side) = n.sum();
        if n.is_tie() {
            self.0[n.negative as usize][(side > 0) as usize] += 1;
        }
        self.1[n.negative as usize] += (n.m == (1 << 53) - 1 && bits << 12 == 0) as u32;
    }

    fn assert_all(&self, least: u32) {
        assert!(self.0.iter().flatten().chain(&self.1).all(|&n| n >= least), "{self:?}");
    }
}

/// Rows whose sum lies near a tie, at every place of a double, in several ways to come to the same kept value.
#[test]
fn sides_of_rows() {
    let mut r = Random(10);
    let (mut seen, mut ties) = (Sides::default(), Ties::default());
    for turn in 0..20000 {
        // 26 digits below the significand are kept whatever the top is
        let c = 1 + r.below(26) as usize;
        let e = match turn % 4 {
            0 => r.below(3) as usize,
            1 => r.below(2045 - c as u64) as usize,
            _ => 1000 + r.below(46) as usize - c,
        };
        let n = Near::random(&mut r, c, e);
        let double = |x: Big| model::nearest_double(n.signed(x.shl(e)));
        let (m, d) = (Big::from(n.m as i128).shl(c), Big::from(n.d as i128));
        let mut rows = match r.below(3) {
            0 => vec![double(m), double(d)],
            1 => vec![double(m.plus(Big::power(c))), double(d.less(Big::power(c)))],
            _ => vec![double(m), double(d), double(m), double(m.minus())],
        };
        if r.chance(2) {
            let x = double(Big::from(r.below(1 << 26) as i128));
            rows.extend([x, x ^ 1 << 63]);
        }
        r.shuffle(&mut rows);
        assert_eq!(Section::of_rows(&rows).kept(), n.kept(), "{n:?}");
        assert_eq!(seen.of_values(&rows), Ok(n.sum()), "{n:?}");
        ties.count(n);
    }
    seen.assert_all(100);
    ties.assert_all(100);
}

/// Records whose kept value lies near a tie, with up to 97 digits below the significand, and with totals that take from each other.
#[test]
fn sides_of_records() {
    let mut r = Random(11);
    let (mut seen, mut ties) = (Sides::default(), Ties::default());
    for turn in 0..20000 {
        let top = if turn % 2 == 0 { 24 + r.below(4) } else { r.below(53) } as usize;
        let below = top.min(2);
        let e = 40 * (top - below);
        let c = 1 + r.below((17 + 40 * below as u64).min(2044 - e as u64)) as usize;
        let n = Near::random(&mut r, c, e);
        let (mut k, mut totals) = (n.units(), [0; 3]);
        for i in (1..=below).rev() {
            let rest = k.shr(40);
            totals[i] = k.less(rest.shl(40)).small();
            k = rest;
        }
        totals[0] = k.small();
        for i in 1..=below {
            let q = r.below(1 << 30) as i128 - (1 << 29);
            totals[i] += q << 40;
            totals[i - 1] -= q;
        }
        let s = Section { count: 4294967295, top: top as u32, finest: 0, totals };
        assert_eq!(s.kept(), n.kept(), "{n:?}");
        assert_eq!(seen.finish(&s.bytes(7), 1, 7), Ok(n.sum()), "{n:?}");
        ties.count(n);
    }
    seen.assert_all(20);
    ties.assert_all(100);
}

/// Sums at the ends of the doubles, and kept values of 0; each also with all signs turned.
#[test]
fn sides_at_the_ends() {
    let mut seen = Sides::default();
    let power = |e: i32| if e < -1022 { 1 << (e + 1074) } else { ((e + 1023) as u64) << 52 };
    let minus = 1 << 63;
    let most = 0x7FEFFFFFFFFFFFFF;
    let figure = 21474836.5f64.to_bits();
    for (rows, sum) in [
        (vec![1], Ok((1, 0))),
        (vec![1; 3], Ok((3, 0))),
        (vec![0xFFFFFFFFFFFFF; 2], Ok((0x1FFFFFFFFFFFFE, 0))),
        (vec![0xFFFFFFFFFFFFF, 1], Ok((power(-1022), 0))),
        (vec![power(-1021), 1], Ok((power(-1021), -1))),
        (vec![power(-1021), 3], Ok((power(-1021) + 2, 1))),
        (vec![power(-1021), 1 | minus], Ok((power(-1021) - 1, 0))),
        // a subnormal sum of which levels were dropped
        (vec![power(-955), power(-1029), 1, power(-955) | minus], Ok((power(-1029), 0))),
        // nothing is kept, though the rows have another sum
        (vec![0], Ok((0, 0))),
        (vec![1, 1 | minus], Ok((0, 0))),
        (vec![power(60), power(-35), power(60) | minus], Ok((0, 0))),
        (vec![most, 1, most | minus], Ok((0, 0))),
        (vec![most], Ok((most, 0))),
        // the unit of level 50 is 2^926
        (vec![most, power(926)], Ok((most, -1))),
        (vec![most, power(926) | minus], Ok((most, 1))),
        (vec![most, power(969)], Ok((most, -1))),
        (vec![most, power(970), power(926) | minus], Ok((most, -1))),
        (vec![most, power(970)], Err(14)),
        (vec![most, power(970), power(926)], Err(14)),
        (vec![most - 1, power(970)], Ok((most - 1, -1))),
        (vec![most - 1, power(970), power(926)], Ok((most, 1))),
        (vec![figure, power(-30)], Ok((figure, -1))),
        (vec![figure, power(-30) | minus], Ok((figure, 1))),
    ] {
        assert_eq!(seen.of_values(&rows), sum, "{rows:x?}");
        let turned: Vec<u64> = rows.iter().map(|b| b ^ minus).collect();
        let other = sum.map(|(bits, side)| (if bits == 0 { 0 } else { bits | minus }, -side));
        assert_eq!(seen.of_values(&turned), other, "{turned:x?}");
    }
    seen.assert_all(1);
}

/// Random rows, of any size and of lengths that a mill has; of each sign every side occurs. A subnormal sum has side 0.
#[test]
fn sides_of_any_rows() {
    let mut r = Random(12);
    let (mut seen, mut subnormal) = (Sides::default(), [0; 2]);
    for turn in 0..6000 {
        let n = 1 + r.below(40) as usize;
        let rows = match turn % 4 {
            0 => r.rows(n),
            1 => (0..n).map(|_| r.next() >> (13 + r.below(51)) | r.below(2) << 63).collect(),
            2 => (0..n).map(|_| (r.below(60000) as f64 / 10.0 - 3000.0).to_bits()).collect(),
            _ => (0..n).map(|_| ((r.next() >> 11) as f64 / (1u64 << 41) as f64 - 2048.0).to_bits()).collect::<Vec<u64>>(),
        };
        let sum = seen.of_values(&rows);
        if let Ok((bits, side)) = sum {
            if bits >> 52 & 2047 == 0 && bits << 1 != 0 {
                assert_eq!(side, 0);
                subnormal[(bits >> 63) as usize] += 1;
            }
        }
    }
    seen.assert_all(50);
    assert!(subnormal.iter().all(|&n| n > 300), "{subnormal:?}");
}

fn report_both(file: &[u8], room: usize) -> String {
    let expected = model::report(file);
    let before: Vec<u8> = (0..room).map(|i| !(i as u8)).collect();
    let mut out = before.clone();
    match calls::report(file, &mut out) {
        Ok(n) => {
            assert_eq!(String::from_utf8_lossy(&out[..n]), expected);
            assert_eq!(out[n..], before[n..]);
        }
        Err(e) => assert!(e == 16 && room < expected.len() && out == before),
    }
    expected
}

#[test]
fn reports() {
    let mut r = Random(6);
    // lines of sections by the sign of their sum, 2 for none, and their last word, which is the side or the refusal's number; then totals by the number
    // of sections, and refused files and adds
    let mut seen: BTreeMap<(u64, String), u32> = BTreeMap::new();
    for _ in 0..2000 {
        let n = if r.chance(30) { 0 } else { r.below(90) } as usize;
        let span = [1, 5, 64, 70, 1 << 32][r.below(5) as usize];
        let key = |r: &mut Random| if r.chance(9) { u32::MAX } else { r.below(span) as u32 };
        let short = r.chance(3);
        let (k, mut v) = if short {
            short_columns(&r.shorts(n).into_iter().map(|b| (key(&mut r), b)).collect::<Vec<_>>())
        } else {
            columns(&r.rows(n).into_iter().map(|b| (key(&mut r), b)).collect::<Vec<_>>())
        };
        if r.chance(10) && n > 0 {
            let end = v.len();
            v[end - 2..].copy_from_slice(&[0xF0, 0xFF]);
        }
        let (a, first) = (r.below(9) as usize, r.chance(2));
        let mut f = file(&r.bytes(a), &k, &[], &v, &[], first);
        if short {
            f = with_short_mark(f);
        }
        if r.chance(10) {
            let at = f.len() - 1 - r.below(16) as usize;
            f[at] ^= 1;
        }
        let room = if r.chance(2) { 4096 } else { r.below(3000) as usize };
        let text = report_both(&f, room);
        if room == 4096 {
            for line in text.lines().filter(|l| !l.starts_with("section")) {
                let words: Vec<&str> = line.split(' ').collect();
                let kind = match words[0] {
                    "total" => (3, words[1]),
                    "refused" => (4, words[1]),
                    _ => (u64::from_str_radix(words[2], 16).map_or(2, |bits| bits >> 63), words[words.len() - 1]),
                };
                *seen.entry((kind.0, kind.1.to_string())).or_default() += 1;
            }
        }
    }
    let sections = [(0, "-1"), (0, "0"), (0, "1"), (0, "15"), (1, "-1"), (1, "0"), (1, "1"), (1, "15"), (2, "14")];
    for (kind, word) in sections.into_iter().chain([(3, "0"), (3, "1"), (4, "3"), (4, "10"), (4, "12")]) {
        assert!(seen.get(&(kind, word.to_string())).is_some_and(|&n| n > 10), "{kind} {word}: {seen:?}");
    }
}

/// The longest lines that a file can have, and 64 of them.
#[test]
fn longest_report() {
    let rows = [(-21474836.47f64).to_bits(), 2f64.powi(-30).to_bits()];
    let lines: Vec<(u32, u64)> = (0..64).flat_map(|i| (0..85).map(move |j| (u32::MAX - 63 + i, if j < 2 { rows[j] } else { 0 }))).collect();
    let (k, v) = columns(&lines);
    let text = report_both(&file(&[], &k, &[], &v, &[], false), 4096);
    let sections = &text.lines().collect::<Vec<_>>()[1..65];
    assert!(sections.iter().all(|l| l.starts_with("42949672") && l.ends_with(" 85 C1747AE147851EB8 -2147483647 -1")), "{text}");
    assert!(text.ends_with("\ntotal 64 5440\n"));
    assert_eq!(text.len(), 34 + 64 * 46 + 14);
}

/// Each file of samples/: its name tells the refusal, and its report stands beside it.
#[test]
fn samples() {
    let folder = concat!(env!("CARGO_MANIFEST_DIR"), "/../../samples");
    let mut files = 0;
    for entry in std::fs::read_dir(folder).unwrap() {
        let path = entry.unwrap().path();
        if path.extension().is_none_or(|e| e != "patch") {
            continue;
        }
        files += 1;
        let data = std::fs::read(&path).unwrap();
        let expected = std::fs::read_to_string(path.with_extension("report")).unwrap();
        assert_eq!(report_both(&data, 4096), expected, "{}", path.display());
        let name = path.file_name().unwrap().to_str().unwrap();
        match name.strip_prefix("refused-").map(|rest| rest.split('-').next().unwrap().to_string()) {
            Some(number) => assert!(expected.contains(&format!("refused {number}\n"))),
            None => assert!(!expected.contains("refused")),
        }
    }
    assert!(files >= 31);
}

/// Each saved table of samples/: its name tells the refusal, the patch file whose rows it has, or the table that an older version saved. A file of one kind is none of the other.
#[test]
fn saved_samples() {
    let mut r = Random(24);
    let folder = concat!(env!("CARGO_MANIFEST_DIR"), "/../../samples");
    let (mut files, mut older) = ([0; 2], 0);
    for entry in std::fs::read_dir(folder).unwrap() {
        let path = entry.unwrap().path();
        if path.extension().is_none_or(|e| e != "table") {
            continue;
        }
        let data = std::fs::read(&path).unwrap();
        let mut table = strange(&mut r, &data, 4096);
        let answer = load_both(&data, &mut table);
        let name = path.file_name().unwrap().to_str().unwrap();
        let refused = name.strip_prefix("refused-").map(|rest| rest.split('-').next().unwrap().parse().unwrap());
        assert_eq!(answer.err(), refused, "{name}");
        assert_eq!(read_both(&data).err(), if refused == Some(3) { Some(5) } else { Some(3) }, "{name}");
        files[refused.is_some() as usize] += 1;
        let Ok(g) = answer else { continue };
        if let Some(same) = name.strip_prefix("older-") {
            let newer = std::fs::read(path.with_file_name(same)).unwrap();
            assert!(newer != data && as_older(&newer) == data, "{name}");
            older += 1;
            continue;
        }
        let patch = std::fs::read(path.with_extension("patch")).unwrap();
        assert_eq!(load_both(&patch, &mut table), Err(3), "{name}");
        let (n, k, v, width) = model::read(&patch).unwrap();
        let mut added = r.bytes(4096);
        assert_eq!(add_both_of(&mut added, 0, &patch[k..k + 4 * n], &patch[v..v + width * n], width as u64, &mut [1; 4096]), Ok(g));
        assert_eq!(saved(&mut r, &added, g), data, "{name}");
    }
    assert!(files[0] >= 6 && files[1] >= 6 && older >= 1, "{files:?} {older}");
}

/// A file that tools/mkpatch makes is accepted, has the rows of its text, and is what the library writes.
#[test]
fn made_files() {
    use std::io::Write;
    use std::process::{Command, Stdio};
    let tool = concat!(env!("CARGO_MANIFEST_DIR"), "/../../tools/mkpatch");
    let make_with = |words: &[&str], text: &str| {
        let mut child = Command::new("python3").arg(tool).args(words).stdin(Stdio::piped()).stdout(Stdio::piped()).stderr(Stdio::null()).spawn().unwrap();
        child.stdin.take().unwrap().write_all(text.as_bytes()).unwrap();
        let out = child.wait_with_output().unwrap();
        (out.status.success(), out.stdout)
    };
    let make = |text: &str| make_with(&[], text);
    let (good, data) = make("# two sections\n1 1.0\n2 0.125\n\n1 0.5\n");
    assert!(good && read_both(&data) == Ok(3) && rewritten(&data) == data);
    assert_eq!(report_both(&data, 4096), "section rows bits hundredths side\n1 2 3FF8000000000000 150 0\n2 1 3FC0000000000000 13 0\ntotal 2 3\n");
    let most: String = (0..5460).map(|i| format!("{} {}.25\n", i % 64, i)).collect();
    let (good, data) = make(&most);
    assert!(good && read_both(&data) == Ok(5460) && rewritten(&data) == data);
    assert!(report_both(&data, 4096).ends_with("\ntotal 64 5460\n"));
    assert!(make("").0 && !make(&(most + "1 1\n")).0 && !make("1 inf\n").0 && !make("4294967296 1\n").0 && !make("x\n").0);
    // of short floats: the report is that of the same text without the word
    let text = "# two sections\n1 1.0\n2 0.125\n\n1 -0.5\n3 1.401298464324817e-45\n3 -0\n";
    let (good, data) = make_with(&["--short", "--values-first", "--notes", "x"], text);
    assert!(good && read_both(&data) == Ok(5) && calls::read(&data).unwrap().kind == Kind::Single);
    assert_eq!(report_both(&data, 4096), report_both(&make(text).1, 4096));
    let most: String = (0..8190).map(|i| format!("{} {}.25\n", i % 64, i)).collect();
    let (good, data) = make_with(&["--short"], &most);
    assert!(good && data.len() == 65536 && read_both(&data) == Ok(8190));
    assert!(report_both(&data, 4096).ends_with("\ntotal 64 8190\n"));
    assert!(!make_with(&["--short"], &(most + "1 1\n")).0 && !make_with(&["--short"], "1 0.1\n").0 && !make_with(&["--short"], "1 1e39\n").0);
}
