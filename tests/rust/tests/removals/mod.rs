//! Removals (Card 9 of document 02) beside the exact model.
use super::*;

const ONE: u64 = 0x3FF0000000000000;
/// The row 32, whose top is 27, one above that of 1.
const HIGHER: u64 = 0x4040000000000000;

/// One removal that is told a width, compared with the model: the answer, every byte of the table, the work buffer.
pub fn remove_both(table: &mut Vec<u8>, g: u64, keys: &[u8], values: &[u8], width: u64, work: &mut [u8]) -> Result<u64, u32> {
    let expected = model::remove(table, g, keys, values, width, work.len());
    change_both(expected, calls::remove_of_width, table, g, keys, values, width, work)
}

/// A removal of rows as doubles, with a work buffer of the table's length of which no byte is 0.
fn remove_rows(table: &mut Vec<u8>, g: u64, rows: &[(u32, u64)]) -> Result<u64, u32> {
    let ((k, v), mut work) = (columns(rows), vec![0xA5; table.len()]);
    remove_both(table, g, &k, &v, 8, &mut work)
}

/// The records of sections, in the order of their keys.
fn bytes_of(map: &BTreeMap<u32, Section>) -> Vec<u8> {
    map.iter().flat_map(|(key, s)| s.bytes(*key)).collect()
}

/// A table whose records are those of rows, in a buffer of which every other byte is 0xA5.
fn table_of(rows: &[(u32, u64)], room: usize) -> (Vec<u8>, u64) {
    let map = model::sections_of(rows);
    (model::written(&map, &vec![0xA5; room]), map.len() as u64)
}

fn is_zero(bytes: &[u8]) -> bool {
    bytes.iter().all(|&x| x == 0)
}

/// A table of records with any totals, or of those that random rows make; any bytes stand after them.
fn start(r: &mut Random, span: u64) -> (Vec<u8>, u64) {
    let (groups, room) = (r.below(10) as usize, 1 + r.below(14) as usize);
    if r.chance(2) {
        return table(r, groups, room, span);
    }
    let n = 1 + r.below(20) as usize;
    let rows: Vec<(u32, u64)> = r.patch(n, span.min(room as u64)).3;
    let (t, g) = table_of(&rows, 64 * room);
    (t[..64 * g as usize].iter().copied().chain(r.bytes(64 * room - 64 * g as usize)).collect(), g)
}

/// Every kind of add taken back at once, of doubles and of short floats: the former used bytes and count are back, but for the tops that the add raised, with the levels that these drop, and
/// for the finest powers that it lowered. Bytes that the add used beyond the former ones are zero, and those after them as they were.
#[test]
fn undone_adds() {
    let mut r = Random(40);
    let mut seen: BTreeMap<(u64, &str), u32> = BTreeMap::new();
    for _ in 0..5000 {
        let span = 1 + r.below(12);
        let (mut t, g) = start(&mut r, span);
        let (former, n, longer) = (t.clone(), r.below(9) as usize, r.below(64) as usize);
        let (k, v, width, rows) = r.patch(n, span);
        let mut work = r.bytes(t.len() + longer);
        let Ok(more) = add_both_of(&mut t, g, &k, &v, width, &mut work) else { continue };
        work.fill(0xA5);
        assert_eq!(remove_both(&mut t, more, &k, &v, width, &mut work), Ok(g));

        let (held, patch) = (model::sections(&former, g).unwrap(), model::sections_of(&rows));
        let expected = held.iter().map(|(key, s)| (*key, patch.get(key).map_or_else(|| s.clone(), |p| s.held_at(p.top, p.finest)))).collect();
        let (used, vacated) = (64 * g as usize, 64 * more as usize);
        assert!(t[..used] == bytes_of(&expected) && is_zero(&t[used..vacated]) && t[vacated..] == former[vacated..]);

        let both: Vec<(&Section, &Section)> = held.iter().filter_map(|(key, s)| Some((s, patch.get(key)?))).collect();
        let (raised, lowered) = (both.iter().any(|(s, p)| s.top < p.top), both.iter().any(|(s, p)| s.finest > p.finest));
        match (raised, lowered) {
            (false, false) => assert!(t[..used] == former[..used]),
            (false, true) => assert!(t[..used] != former[..used] && without_finest(&t[..used]) == without_finest(&former[..used])),
            (true, _) => assert!(t[..used] != former[..used]),
        }
        let kinds = [(raised, "raised"), (lowered, "lowered"), (!raised && !lowered && !both.is_empty(), "held, as before"), (more > g, "new"), (n == 0, "no rows")];
        for (_, what) in kinds.iter().filter(|(holds, _)| *holds) {
            *seen.entry((width, what)).or_default() += 1;
        }
    }
    assert!(seen.len() == 10 && seen.values().all(|&n| n > 100), "{seen:?}");
}

/// Patches that were never added, to tables of any records, damaged ones among them, with columns, rows and work buffers that are refused. With its values in doubles a removal of
/// short floats answers and leaves the same.
#[test]
fn removals_of_any_rows() {
    let mut r = Random(41);
    let mut seen = BTreeMap::new();
    for _ in 0..2500 {
        let span = 1 + r.below(6);
        let (mut t, mut g) = start(&mut r, span);
        damage(&mut r, &mut t, &mut g);
        for _ in 0..3 {
            let n = r.below(4) as usize;
            let (mut k, mut v, width, rows) = r.patch(n, span);
            let mut doubles = columns(&rows).1;
            match r.below(20) {
                0 => k.push(0),
                1 if n > 0 => {
                    v[width as usize * n - 2..].copy_from_slice(&[0xF0, 0x7F]);
                    doubles[8 * n - 2..].copy_from_slice(&[0xF0, 0x7F]);
                }
                // rows of 0 take nothing but their count
                2..10 => [&mut v, &mut doubles].into_iter().for_each(|column| column.fill(0)),
                _ => {}
            }
            let length = (t.len() + r.below(64) as usize).saturating_sub(if r.chance(12) { 64 } else { 0 });
            let mut same = t.clone();
            let answer = remove_both(&mut t, g, &k, &v, width, &mut r.bytes(length));
            assert!(remove_both(&mut same, g, &k, &doubles, 8, &mut r.bytes(length)) == answer && same == t, "the same rows in doubles");
            *seen.entry((width, answer.err().unwrap_or(0))).or_insert(0) += 1;
            g = answer.unwrap_or(g);
        }
        for key in 0..span as u32 + 1 {
            finish_both(&t, g, key).ok();
        }
        totals_both(&t, g).ok();
    }
    let all = [4, 8].into_iter().flat_map(|width| [0, 7, 8, 9, 10, 20, 21, 22].map(|answer| (width, answer)));
    assert!(all.clone().all(|kind| seen.get(&kind).is_some_and(|&n| n > 100)) && seen.len() == all.count(), "{seen:?}");
}

/// Of one section the rows that are held, those to be removed, and the numbers whose conditions hold.
const CASES: [(&[u64], &[u64], &[u32]); 10] = [
    (&[ONE, HIGHER], &[], &[]),
    (&[ONE, 0], &[0], &[]),
    (&[ONE, 0], &[0, ONE], &[]),
    (&[], &[ONE], &[20]),
    (&[0], &[0, 0], &[20]),
    (&[ONE], &[0, 0], &[20, 22]),
    (&[ONE], &[HIGHER, HIGHER], &[20, 21, 22]),
    (&[ONE, ONE], &[HIGHER], &[21]),
    (&[ONE], &[HIGHER], &[21, 22]),
    (&[ONE, 0], &[0, 0], &[22]),
];

/// Each of 20, 21 and 22 in each of three sections, with and without the others: 20 is looked for in all sections before 21, and 21 before 22. Where none holds, the sections that
/// lose all their rows go, from the front, the middle and the end.
#[test]
fn orders_of_removing() {
    let mut r = Random(42);
    let mut seen = BTreeMap::new();
    for turn in 0..1000 {
        let cases = [turn % 10, turn / 10 % 10, turn / 100].map(|i| CASES[i]);
        let keyed = |rows: [&[u64]; 3]| -> Vec<(u32, u64)> { (0..3).flat_map(|i| rows[i].iter().map(move |b| (7 * i as u32, *b))).collect() };
        let (mut t, g) = table_of(&keyed(cases.map(|c| c.0)), 64 * 4 + 9);
        let (mut gone, before) = (keyed(cases.map(|c| c.1)), t.clone());
        r.shuffle(&mut gone);
        let answer = remove_rows(&mut t, g, &gone);
        let left = cases.iter().filter(|(held, gone, _)| held.len() > gone.len()).count();
        let expected = cases.iter().flat_map(|c| c.2).min().map_or(Ok(left as u64), |number| Err(*number));
        assert_eq!(answer, expected, "{cases:?}");
        let (used, former) = (64 * left, 64 * g as usize);
        assert!(answer.is_err() || is_zero(&t[used..former]) && t[former..] == before[former..]);
        *seen.entry(answer.err().unwrap_or(0)).or_insert(0) += 1;
    }
    assert_eq!(seen, BTreeMap::from([(0, 27), (20, 1000 - 6 * 6 * 6), (21, 216 - 64), (22, 64 - 27)]));
}

/// 7, 8, 9, 10, 20, 21 and 22 in this order: every set of their conditions, each made in several ways.
#[test]
fn refusals_of_removing() {
    let mut r = Random(43);
    for (faults, turn) in (0..128u32).flat_map(|faults| (0..12).map(move |turn| (faults, turn))) {
        let has = |i: u32| faults >> i & 1 == 1;
        let (mut t, mut g) = table_of(&[(1, ONE), (2, ONE), (2, ONE), (3, ONE), (3, 0)], 64 * 3 + turn % 3 * 50);
        let mut gone = vec![(2, ONE)];
        let bad = [(has(4), (9, ONE)), (has(5), (1, HIGHER)), (has(6), (3, 0)), (has(6), (3, 0)), (has(3), (2, 0x7FF0000000000000 + r.below(3)))];
        gone.extend(bad.into_iter().filter(|(holds, _)| *holds).map(|(_, row)| row));
        r.shuffle(&mut gone);
        let ((mut k, mut v), mut width) = (columns(&gone), 8);
        if has(2) {
            match turn % 4 {
                0 => k.push(0),
                1 => v.truncate(v.len() - 1),
                2 => width = [0, 9, 1 << 32 | 8][turn / 4],
                _ => width = 4,
            }
        }
        if has(0) {
            match turn % 3 {
                0 => g = [4, 1 << 32 | 3, 1 << 58, u64::MAX][turn / 3],
                1 => t[64 * 2 + 4..64 * 2 + 8].fill(0),
                _ => t[12..16].copy_from_slice(&2099u32.to_le_bytes()),
            }
        }
        let longer = r.below(70) as usize;
        let mut work = r.bytes(if has(1) { [t.len() - 1, 0][turn % 2] } else { t.len() + longer });
        let first = (0..7).find(|i| has(*i)).map(|i| [7, 8, 9, 10, 20, 21, 22][i as usize]);
        assert_eq!(remove_both(&mut t, g, &k, &v, width, &mut work), first.map_or(Ok(3), Err), "{faults:b}, {turn}");
    }
}

/// A remaining total at its bound is taken, and one beyond it is refused: at every top, on each of the levels, of both signs, with remaining rows from none to the most, in a section at the
/// front, in the middle and at the end. The patch takes zeros, or rows that give something to the levels.
#[test]
fn edges_of_remaining_totals() {
    let mut r = Random(44);
    let mut taken = [0; 2];
    for (top, i) in (0..=52u32).flat_map(|top| (0..3.min(top + 1)).map(move |i| (top, i))) {
        for (left, sign) in [0, 1, 2, 1000, 4294967293].into_iter().flat_map(|left| [(left, 1), (left, -1)]) {
            let powers = [40 * top, (40 * top + 38).min(2097)].map(|e| model::nearest_double(Big::power(e as usize)) | r.below(2) << 63);
            let rows = if r.chance(2) { [0; 2] } else { powers };
            let (gone, key) = (Section::of_rows(&rows), r.below(3) as u32);
            for beyond in [0, 1] {
                let mut totals = [0, 1, 2].map(|l| top.checked_sub(l).map_or(0, |j| gone.at(j)));
                totals[i as usize] += sign * (((left as i128) << 39) + beyond);
                let mut sections = BTreeMap::from([0, 1, 2].map(|key| (key, Section { count: 1, top: 52, finest: 5, totals: [1 << 39, -1 << 39, 0] })));
                sections.insert(key, Section { count: left + 2, top, finest: 0, totals });
                let mut t = [bytes_of(&sections), vec![0xA5; 64]].concat();
                if model::sections(&t, 3).is_none() {
                    continue;
                }
                let answer = remove_rows(&mut t, 3, &rows.map(|b| (key, b)));
                assert_eq!(answer, if beyond == 1 { Err(22) } else { Ok(2 + (left > 0) as u64) }, "top {top}, level {i} of section {key}, {left} rows remain");
                taken[beyond as usize] += 1;
            }
        }
    }
    // a total that is beyond its bound with the patch's rows too is not sound
    assert!(taken[0] == 1560 && taken[1] > 1400, "{taken:?}");
}

/// Every set of six sections emptied by one patch, which takes a row of some of the others too: what is left moves down in its order, as many bytes become zero as the sections had, and the
/// bytes after the former records stay.
#[test]
fn emptied_sections() {
    let mut r = Random(45);
    for (goes, spare) in (0..64u32).flat_map(|goes| [0, 1, 64, 200].map(|spare| (goes, spare))) {
        let values: Vec<u64> = r.rows(12);
        let rows: Vec<(u32, u64)> = (0..12).map(|i| (3 * (i as u32 / 2), values[i])).collect();
        let (mut t, g) = table_of(&rows, 64 * 6 + spare);
        let some = r.below(64) as u32;
        let (mut gone, mut left) = (vec![], vec![]);
        for (i, pair) in rows.chunks(2).enumerate() {
            let (all, one) = (goes >> i & 1 == 1, some >> i & 1 == 1);
            gone.extend(if all { pair } else { &pair[..one as usize] });
            let record = &t[64 * i..64 * i + 64];
            let s = model::find(record, 1, pair[0].0).unwrap();
            match (all, one) {
                (true, _) => {}
                (_, false) => left.extend(record),
                _ => left.extend(Section::of_rows(&[pair[1].1]).held_at(s.top, s.finest).bytes(pair[0].0)),
            }
        }
        r.shuffle(&mut gone);
        let expected = [left.clone(), vec![0; 64 * 6 - left.len()], vec![0xA5; spare]].concat();
        assert_eq!(remove_rows(&mut t, g, &gone), Ok(6 - goes.count_ones() as u64));
        assert!(t == expected, "{goes:06b}");
    }
}

/// As many sections as there may be, in a buffer with room for more: the first one, the last one, every other one and all of them go; a patch with one section more is refused.
#[test]
fn full_tables() {
    let all: Vec<(u32, u64)> = (0..1024).map(|i| (4194304 * i, (i as f64).to_bits())).collect();
    let (t, g) = table_of(&all, 64 * 1030);
    let absent = [&all[..], &[(1, 0)]].concat();
    assert_eq!(remove_rows(&mut t.clone(), g, &absent), Err(20));
    for gone in [&all[..1], &all[1023..], &all[..1023], &all[1..], &all, &all.iter().copied().step_by(2).collect::<Vec<_>>()] {
        let mut left = t.clone();
        assert_eq!(remove_rows(&mut left, g, gone), Ok(1024 - gone.len() as u64));
        assert!(is_zero(&left[65536 - 64 * gone.len()..65536]) && left[65536..] == t[65536..]);
    }
    // a buffer without a byte to spare
    let mut exact = t[..65536].to_vec();
    assert_eq!(remove_rows(&mut exact, g, &all), Ok(0));
    assert!(is_zero(&exact));
}

/// The row that set the top goes: the top stays, what is kept of the other rows is kept at its levels, and so is what is added later. A section that went starts anew.
#[test]
fn held_tops_and_powers() {
    let (big, fine) = (2f64.powi(60).to_bits(), 2f64.powi(-35).to_bits());
    let (mut t, g) = table_of(&[(7, ONE), (7, big), (7, fine)], 128);
    assert_eq!((t[8], finest_of(&t), exact_both(&t, g, 7)), (28, 1039, Ok(false)));
    assert_eq!(remove_rows(&mut t, g, &[(7, big)]), Ok(1));
    // 2^-35 is half a unit of level 26, the lowest that is kept: nothing is kept of it, and that it is missing is not known
    assert_eq!(model::find(&t, g, 7), Ok(Section { count: 2, top: 28, finest: 1039, totals: [0, 0, 1 << 34] }));
    assert_eq!((calls::sum(&t, g, 7).map(|s| s.bits), exact_both(&t, g, 7)), (Ok(ONE), Ok(false)));
    // the same row once more is one that the table does not have, which no refusal tells
    assert_eq!(remove_rows(&mut t.clone(), g, &[(7, big)]), Ok(1));
    assert_eq!(remove_rows(&mut t, g, &[(7, fine)]), Ok(1));
    assert_eq!(model::find(&t, g, 7), Ok(Section { count: 1, top: 28, finest: 1039, totals: [0, 0, 1 << 34] }));
    let (k, v) = columns(&[(7, ONE)]);
    assert_eq!(add_both(&mut t, g, &k, &v, &mut [1; 128]), Ok(1));
    assert_eq!(model::find(&t, g, 7), Ok(Section { count: 2, top: 28, finest: 1039, totals: [0, 0, 2 << 34] }));
    assert_eq!(remove_rows(&mut t, g, &[(7, ONE), (7, ONE)]), Ok(0));
    assert_eq!(add_both(&mut t, 0, &k, &v, &mut [1; 128]), Ok(1));
    assert_eq!(model::find(&t, g, 7), Ok(Section { count: 1, top: 26, finest: 1074, totals: [1 << 34, 0, 0] }));
}

/// Residue and carry of what remains, where the total passes 2^50 and 0: 65,536 rows of 1 less one, less all; 1 and -1 less 1.
#[test]
fn carries_of_what_remains() {
    let ((k, v), mut t) = (columns(&vec![(7, ONE); 65536]), vec![0xA5; 64]);
    let level = |residue: u64, carry: i64| [residue.to_le_bytes(), carry.to_le_bytes()].concat();
    assert_eq!(calls::add(&mut t, 0, &k, &v, Kind::Double, &mut [1; 64]), Ok(1));
    assert_eq!(t[16..32], level(0, 1));
    assert_eq!(remove_rows(&mut t, 1, &[(7, ONE)]), Ok(1));
    assert_eq!((&t[4..8], &t[16..32]), (&65535u32.to_le_bytes()[..], &level((1 << 50) - (1 << 34), 0)[..]));
    assert_eq!(calls::remove(&mut t, 1, &k[4..], &v[8..], Kind::Double, &mut [1; 64]), Ok(0));
    assert!(is_zero(&t));
    let (mut t, g) = table_of(&[(7, ONE), (7, ONE | 1 << 63)], 64);
    assert_eq!(remove_rows(&mut t, g, &[(7, ONE)]), Ok(1));
    assert_eq!(t[16..32], level(1125882726973440, -1));
}

/// The most rows of a file of either kind, in 64 sections, added to a table with rows of 40 of them and removed again, whole and in parts in another order.
#[test]
fn longest_patches() {
    let mut r = Random(46);
    for (width, most) in [(8, 5460), (4, 8190)] {
        let mut rows: Vec<(u32, u32)> = r.shorts(most).into_iter().map(|b| (r.below(64) as u32, b)).collect();
        let cut = |rows: &[(u32, u32)]| if width == 4 { short_columns(rows) } else { columns(&widened(rows)) };
        // every section that is held has a row of the largest short float and one of the smallest, so that its top and its finest power stay
        let held: Vec<(u32, u64)> = (0..40).flat_map(|key| [(key, 0x7F7FFFFF), (key, 1)]).map(|(key, b)| (key, model::widened(b).unwrap())).collect();
        let (mut t, g) = table_of(&held, 4096);
        let former = [&t[..64 * 40], &[0; 64 * 24]].concat();
        let (k, v) = cut(&rows);
        assert_eq!(add_both_of(&mut t, g, &k, &v, width, &mut [1; 4096]), Ok(64));
        let mut parts = t.clone();
        assert_eq!(remove_both(&mut t, 64, &k, &v, width, &mut [1; 4096]), Ok(40));
        assert!(t == former);
        r.shuffle(&mut rows);
        let mut g = 64;
        for part in rows.chunks(most / 5) {
            let (k, v) = cut(part);
            g = remove_both(&mut parts, g, &k, &v, width, &mut [1; 4096]).unwrap();
        }
        assert!(g == 40 && parts == former);
    }
}

/// Columns of every small length for either kind: 9 where no row count fits, and otherwise the rows, which are zeros, leave a section of ten.
#[test]
fn columns_of_removals() {
    let (zeros, g) = table_of(&[(0, 0); 10], 640);
    let mut taken = [0; 2];
    for (keys, values) in (0..45).flat_map(|k| (0..90).map(move |v| (k, v))) {
        for width in [4, 8] {
            let answer = remove_both(&mut zeros.clone(), g, &vec![0; keys], &vec![0; values], width, &mut [1; 640]);
            let fits = keys % 4 == 0 && values as u64 == width * keys as u64 / 4;
            let expected = if !fits { Err(9) } else if keys > 40 { Err(20) } else { Ok((keys < 40) as u64) };
            assert_eq!(answer, expected, "{keys} and {values} bytes, width {width}");
            taken[(width == 4) as usize] += answer.is_ok() as u32;
        }
    }
    assert_eq!(taken, [11, 11]);
}

/// A patch with its rows, and its columns as they were lent.
#[derive(Clone)]
struct Patch {
    keys: Vec<u8>,
    values: Vec<u8>,
    width: u64,
    rows: Vec<(u32, u64)>,
}

impl Patch {
    fn random(r: &mut Random, span: u64, about: usize) -> Patch {
        let n = 1 + r.below(4) as usize;
        if r.chance(2) {
            let (keys, values, width, rows) = r.patch(n, span);
            return Patch { keys, values, width, rows };
        }
        let rows: Vec<(u32, u64)> = rows_about(r, about, n).into_iter().map(|b| (r.below(span) as u32, b)).collect();
        Patch::of(rows)
    }

    fn of(rows: Vec<(u32, u64)>) -> Patch {
        let (keys, values) = columns(&rows);
        Patch { keys, values, width: 8, rows }
    }

    /// Made one that is refused with 9 or 10, or left as it is.
    fn spoilt(mut self, r: &mut Random) -> Patch {
        match r.below(16) {
            0 => self.keys.push(0),
            1 if !self.values.is_empty() => {
                let end = self.values.len();
                self.values[end - 2..].copy_from_slice(&[0xF0, 0x7F]);
            }
            2 => self.width = 5,
            _ => {}
        }
        self
    }
}

/// A table with what the accepted calls say of it.
#[derive(Clone)]
struct TableWithAccount {
    bytes: Vec<u8>,
    g: u64,
    account: Account,
}

/// The rows that a table has, how many were brought and removed, and whether each removal took rows that were there; the patches that were added and not removed, and whether each removal took
/// one of them. A merge joins the accounts of two tables, and a file keeps that of its table.
#[derive(Clone)]
struct Account {
    rows: Rows,
    brought: u64,
    removed: u64,
    accounted: bool,
    patches: Vec<Patch>,
    patchwise: bool,
}

impl Account {
    fn blank() -> Account {
        Account { rows: Rows::default(), brought: 0, removed: 0, accounted: true, patches: vec![], patchwise: true }
    }

    fn add(&mut self, patch: &Patch) {
        self.rows.take(&Rows::of(&patch.rows));
        self.brought += patch.rows.len() as u64;
        self.patches.push(patch.clone());
    }

    fn merge(&mut self, other: &Account) {
        self.rows.take(&other.rows);
        self.brought += other.brought;
        self.removed += other.removed;
        self.accounted &= other.accounted;
        self.patches.extend(other.patches.iter().cloned());
        self.patchwise &= other.patchwise;
    }

    fn remove(&mut self, patch: &Patch) {
        let gone = Rows::of(&patch.rows);
        self.accounted &= !self.rows.lacks(&gone);
        self.rows.give_back(&gone);
        self.removed += patch.rows.len() as u64;
        match self.patches.iter().position(|p| p.rows == patch.rows) {
            Some(i) => drop(self.patches.remove(i)),
            None => self.patchwise = false,
        }
    }
}

impl TableWithAccount {
    /// What every table has to hold after a call, and what one that is accounted for has to hold of its rows. How many sections kept an exact sum with a top that none of their rows sets.
    fn look(&self) -> u32 {
        let TableWithAccount { bytes, g, account } = self;
        let sections = model::sections(bytes, *g).expect("a sound table");
        assert_eq!(totals_both(bytes, *g), Ok((*g, account.brought - account.removed)));
        if !account.accounted {
            return 0;
        }
        assert_eq!(account.rows.totals(), (*g, account.brought - account.removed));
        let mut heaps: BTreeMap<u32, Vec<u64>> = BTreeMap::new();
        account.rows.each().for_each(|(key, bits)| heaps.entry(key).or_default().push(bits));
        let mut above = 0;
        for (key, rows) in heaps {
            let (s, own, exact) = (&sections[&key], Section::of_rows(&rows), account.rows.sum(key));
            assert!(s.top >= own.top && s.finest <= own.finest && *s == own.held_at(s.top, s.finest), "section {key}");
            let lowest = Big::power(40 * s.top.saturating_sub(2) as usize);
            assert!(s.kept().less(exact).size().shl(1).at_most(lowest.times(s.count)), "half a lowest unit for each row");
            let told = exact_both(bytes, *g, key).unwrap();
            assert!(s.kept() == exact || !told && s.top > 2, "section {key} is answered exact");
            above += (told && s.top > own.top) as u32;
        }
        above
    }

    fn add(&mut self, patch: Patch, work: &mut [u8]) -> Result<u64, u32> {
        self.g = add_both_of(&mut self.bytes, self.g, &patch.keys, &patch.values, patch.width, work)?;
        self.account.add(&patch);
        Ok(self.g)
    }

    /// A removal. From a table that is accounted for, rows that are there are refused by 8, 9 and 10 alone.
    fn remove(&mut self, patch: Patch, work: &mut [u8]) -> Result<u64, u32> {
        let there = self.account.accounted && !self.account.rows.lacks(&Rows::of(&patch.rows));
        let answer = remove_both(&mut self.bytes, self.g, &patch.keys, &patch.values, patch.width, work);
        assert!(!there || !answer.is_err_and(|e| e > 10), "{answer:?} for rows that are there");
        self.g = answer?;
        self.account.remove(&patch);
        Ok(self.g)
    }

    fn merge(&mut self, other: &TableWithAccount) -> Result<u64, u32> {
        self.g = merge_both(&mut self.bytes, self.g, &other.bytes, other.g)?;
        self.account.merge(&other.account);
        Ok(self.g)
    }

    fn load(&mut self, file: &[u8], account: Account) -> Result<u64, u32> {
        self.g = load_both(file, &mut self.bytes)?;
        self.account = account;
        Ok(self.g)
    }

    /// A patch that was added, as it was or in doubles.
    fn added(&self, r: &mut Random) -> Patch {
        let patch = self.account.patches[r.below(self.account.patches.len() as u64) as usize].clone();
        if r.chance(3) { Patch::of(patch.rows) } else { patch }
    }

    /// Some of the rows that are there, in any order, of any patches.
    fn some_rows(&self, r: &mut Random) -> Vec<(u32, u64)> {
        let mut some: Vec<(u32, u64)> = self.account.rows.each().filter(|_| r.chance(3)).collect();
        r.shuffle(&mut some);
        some
    }

    /// A patch to be removed, by what is removed at all: patches that were added, rows that are there, or also a row of them changed, and a new patch.
    fn candidate(&self, r: &mut Random, what: u64, fresh: Patch) -> Patch {
        let mut some = self.some_rows(r);
        match r.below(1 + 2 * what) {
            0 => self.added(r),
            3 if !some.is_empty() => {
                let at = r.below(some.len() as u64) as usize;
                some[at].1 ^= [1 << 63, 1 << 52, 1, 1 << 30][r.below(4) as usize];
                Patch::of(some)
            }
            4 => fresh,
            _ => Patch::of(some),
        }
    }
}

/// A call on the table t, with the table `other`, the files on the shelf, or a patch of some rows.
fn any_call(r: &mut Random, t: &mut TableWithAccount, other: &TableWithAccount, shelf: &mut Vec<(Vec<u8>, Account)>, span: u64, about: usize, turn: u64) -> (&'static str, Result<u64, u32>) {
    let mut work = r.bytes(t.bytes.len() + 5);
    if r.chance(16) {
        work.truncate(t.bytes.len() - 1);
    }
    let fresh = Patch::random(r, span, about);
    match r.below(16) {
        // tables that are merged again and again would have too many rows to be told one by one
        0 | 1 if t.account.patches.len() + other.account.patches.len() < 40 => ("merge", t.merge(other)),
        2 => {
            shelf.push((saved(r, &t.bytes, t.g), t.account.clone()));
            ("save", Ok(t.g))
        }
        3 => {
            let (file, account) = shelf[r.below(shelf.len() as u64) as usize].clone();
            let older = r.chance(3) && !file.is_empty();
            ("load", t.load(&if older { as_older(&file) } else { file }, account))
        }
        4..10 if !t.account.patches.is_empty() => {
            let patch = t.candidate(r, turn % 3, fresh).spoilt(r);
            ("remove", t.remove(patch, &mut work))
        }
        _ => ("add", t.add(fresh.spoilt(r), &mut work)),
    }
}

/// Lists of adds of both kinds, removals, merges, saves and loads, files of an older version and refused calls among them. After every call the tables are sound, and their rows are those brought less
/// those removed; a table that is accounted for keeps the count and, at the held tops, the totals of its remaining rows.
#[test]
fn lists_with_removals() {
    let mut r = Random(47);
    let (mut seen, mut states, mut above) = (BTreeMap::new(), BTreeMap::new(), 0);
    for turn in 0..300 {
        let (span, about) = (1 + r.below(5), r.below(53) as usize);
        let mut tables: Vec<TableWithAccount> = vec![];
        for _ in 0..3 {
            let room = r.below(64 * 6) as usize;
            tables.push(TableWithAccount { bytes: r.bytes(64 + room), g: 0, account: Account::blank() });
        }
        let mut shelf: Vec<(Vec<u8>, Account)> = vec![(vec![], Account::blank())];
        for _ in 0..40 {
            let (i, j) = (r.below(3) as usize, r.below(2) as usize);
            let other = tables[(i + 1 + j) % 3].clone();
            let t = &mut tables[i];
            let (what, answer) = any_call(&mut r, t, &other, &mut shelf, span, about, turn);
            above += t.look();
            *seen.entry((what, answer.err().unwrap_or(0))).or_insert(0) += 1;
            *states.entry((t.account.accounted, t.account.patchwise, t.account.removed > 0)).or_insert(0) += 1;
        }
    }
    let refused = [("add", 8), ("add", 9), ("add", 10), ("add", 12), ("merge", 12), ("load", 2), ("load", 16)];
    let removed = [0, 8, 9, 10, 20, 21, 22].map(|e| ("remove", e));
    let accepted = ["add", "merge", "save", "load"].map(|what| (what, 0));
    let all: BTreeSet<_> = refused.into_iter().chain(removed).chain(accepted).collect();
    assert!(seen.keys().copied().eq(all) && seen.values().all(|&n| n > 10), "{seen:?}");
    // accounted for, by whole patches, with a removal of rows
    let kinds = [(false, false, true), (true, false, true), (true, true, true), (true, true, false)];
    assert!(kinds.iter().all(|kind| states.get(kind).is_some_and(|&n| n > 500)) && above > 100, "{states:?} {above}");
}
