//! Safe calls of the proved library for reproducible grouped summation.
//!
//! Rows of (section, double) are added to a table of 64-byte records; as long as none is removed, a table's bytes and a section's sum depend on the multiset of rows
//! alone, whatever their order, their splits and their merges. A short float (binary32) counts as the double of equal value. docs/FORMATS.md has the bytes, docs/RULES.md the rules and the refusals.
//!
//! The caller holds a table as a buffer and its group count `g`, which starts at 0. Each call is total: it refuses what is wrong with a
//! [`Refusal`], and a refused call changes no byte of a table, nor of an output.
//!
//! ```
//! // a patch file of 3 rows: 12 bytes a row, and a trailer of 16
//! let keys = [1u32, 2, 1].map(u32::to_le_bytes).concat();
//! let values = [1f64, 0.125, 0.5].map(f64::to_le_bytes).concat();
//! let mut file = [0u8; 52];
//! assert_eq!(girths::write(&keys, &values, &mut file)?, 52);
//!
//! let columns = girths::read(&file)?;
//! assert_eq!((columns.rows, columns.keys, columns.values), (3, &keys[..], &values[..]));
//! assert_eq!(columns.kind, girths::Kind::Double);
//!
//! let mut table = [0u8; 64 * 64];
//! let mut work = [0u8; 64 * 64];
//! let g = girths::add(&mut table, 0, columns.keys, columns.values, columns.kind, &mut work)?;
//! assert_eq!(g, 2);
//!
//! let line = girths::line(&table, g, 1)?;
//! assert_eq!((line.count, f64::from_bits(line.bits), line.figure, line.side), (2, 1.5, 150, 0));
//! assert_eq!(girths::sum(&table, g, 5).unwrap_err().number(), 13);
//! assert_eq!(girths::exact(&table, g, 1)?, girths::Exactness::Exact);
//! assert_eq!(girths::totals(&table, g)?, girths::Totals { sections: 2, rows: 3 });
//!
//! // the same rows as two patches on two tables, merged
//! let mut other = [0u8; 64 * 64];
//! let h = girths::add(&mut other, 0, &columns.keys[4..], &columns.values[8..], columns.kind, &mut work)?;
//! let mut first = [0u8; 64 * 64];
//! let f = girths::add(&mut first, 0, &columns.keys[..4], &columns.values[..8], columns.kind, &mut work)?;
//! assert_eq!(girths::merge(&mut first, f, &other, h)?, g);
//! assert_eq!(first, table);
//!
//! // the same rows once more, as short floats: 8 bytes a row, and a trailer with the other mark
//! let short = [1f32, 0.125, 0.5].map(f32::to_le_bytes).concat();
//! let trailer = [3u32, 40, 28].map(u32::to_le_bytes).concat();
//! let file = [&keys[..], &short, &trailer, b"LAS4"].concat();
//! let columns = girths::read(&file)?;
//! assert_eq!((columns.rows, columns.values, columns.kind), (3, &short[..], girths::Kind::Single));
//! let mut same = [0u8; 64 * 64];
//! assert_eq!(girths::add(&mut same, 0, columns.keys, columns.values, columns.kind, &mut work)?, g);
//! assert_eq!(same, table);
//!
//! // a patch taken back out, right after it was added
//! let before = table;
//! let (keys, values) = ([9, 0, 0, 0], 2.5f64.to_le_bytes());
//! let more = girths::add(&mut table, g, &keys, &values, girths::Kind::Double, &mut work)?;
//! assert_eq!(more, 3);
//! assert_eq!(girths::remove(&mut table, more, &keys, &values, girths::Kind::Double, &mut work)?, g);
//! assert_eq!(table, before);
//! let again = girths::remove(&mut table, g, &keys, &values, girths::Kind::Double, &mut work);
//! assert_eq!(again.unwrap_err().number(), 20);
//!
//! // the table kept in a file: 64 bytes a group, and a trailer of 16; loaded elsewhere, it goes on
//! let mut file = [0u8; 64 * 64 + 16];
//! let length = girths::save(&table, g, &mut file)?;
//! assert_eq!(length, 144);
//! let mut loaded = [0u8; 64 * 64];
//! assert_eq!(girths::load(&file[..length], &mut loaded)?, g);
//! assert_eq!(loaded, table);
//! assert_eq!(girths::load(&file[1..length], &mut loaded).unwrap_err().number(), 19);
//!
//! // 1 + 2^-54 is no double: the nearest is 1, which is below it
//! let values = [1f64, 2f64.powi(-54)].map(f64::to_le_bytes).concat();
//! let g = girths::add(&mut table, 0, &[0; 8], &values, girths::Kind::Double, &mut work)?;
//! assert_eq!(girths::sum(&table, g, 0)?, girths::Sum { bits: 1f64.to_bits(), side: -1 });
//! // the table keeps 1 + 2^-54 all the same, but of 1 + 2^-115 it does not keep the last digit
//! assert_eq!(girths::exact(&table, g, 0)?, girths::Exactness::Exact);
//! let values = [1f64, 2f64.powi(-115)].map(f64::to_le_bytes).concat();
//! let g = girths::add(&mut table, 0, &[0; 8], &values, girths::Kind::Double, &mut work)?;
//! assert_eq!(girths::exact(&table, g, 0)?, girths::Exactness::NotKnown);
//! # Ok::<(), girths::Refusal>(())
//! ```

use std::fmt;

// Safety of the calls below: each passes the pointer and the length of one slice, which is never null and holds so many bytes; a slice that is
// written to is borrowed alone, so that it overlaps no other; the library is proved to stay within the lengths.
extern "C" {
    fn girth_read(file: *const u8, file_len: usize, keys_at: *mut u64, values_at: *mut u64, width: *mut u64) -> i64;
    fn girth_write(
        keys: *const u8, keys_len: usize, values: *const u8, values_len: usize, out: *mut u8, out_len: usize,
    ) -> i64;
    fn girth_add(
        table: *mut u8, table_len: usize, g: u64, keys: *const u8, keys_len: usize, values: *const u8, values_len: usize,
        width: u64, work: *mut u8, work_len: usize,
    ) -> i64;
    fn girth_remove(
        table: *mut u8, table_len: usize, g: u64, keys: *const u8, keys_len: usize, values: *const u8, values_len: usize,
        width: u64, work: *mut u8, work_len: usize,
    ) -> i64;
    fn girth_merge(first: *mut u8, first_len: usize, g1: u64, second: *const u8, second_len: usize, g2: u64) -> i64;
    fn girth_sum(table: *const u8, table_len: usize, g: u64, key: u32, bits: *mut u64, side: *mut i64) -> i64;
    fn girth_figure(table: *const u8, table_len: usize, g: u64, key: u32, figure: *mut i64) -> i64;
    fn girth_line(
        table: *const u8, table_len: usize, g: u64, key: u32, count: *mut u64, bits: *mut u64, figure: *mut i64, side: *mut i64,
    ) -> i64;
    fn girth_exact(table: *const u8, table_len: usize, g: u64, key: u32) -> i64;
    fn girth_totals(table: *const u8, table_len: usize, g: u64, sections: *mut u64, rows: *mut u64) -> i64;
    fn girth_save(table: *const u8, table_len: usize, g: u64, out: *mut u8, out_len: usize) -> i64;
    fn girth_load(file: *const u8, file_len: usize, table: *mut u8, table_len: usize) -> i64;
    fn girth_report(file: *const u8, file_len: usize, out: *mut u8, out_len: usize) -> i64;
}

/// Why a call was refused, by its number of 1 to 22.
#[derive(Debug, PartialEq, Eq, Clone, Copy, Hash)]
pub struct Refusal(u32);

const GROUNDS: [&str; 22] = [
    "the file is longer than 65,536 bytes",
    "the file is shorter than 16 bytes",
    "the last four bytes are not a mark of such a file",
    "the key column does not lie between the front of the file and the trailer",
    "the value column does not lie between the front of the file and the trailer",
    "the two columns share a byte",
    "the table is not sound",
    "the work buffer is shorter than the table",
    "the lengths of the two columns fit no row count for the width of the values",
    "a row is infinite or not a number",
    "a section would have more than 4,294,967,295 rows",
    "the table has no room for all keys",
    "the section has no row",
    "the sum is too large for a double",
    "the mill figure does not fit",
    "the output, or the table that a file is loaded into, is too short",
    "a patch file would have more than 5,460 rows",
    "a saved table would have more than 1,023 groups",
    "the length, the distance or the zero field of a saved table is wrong",
    "a section is absent or has fewer rows than are to be removed",
    "the top of the rows to be removed exceeds that of their section",
    "a remaining total would be larger in size than the remaining rows allow",
];

impl Refusal {
    /// The number, as docs/RULES.md lists it.
    pub fn number(self) -> u32 {
        self.0
    }
}

impl fmt::Display for Refusal {
    fn fmt(&self, f: &mut fmt::Formatter<'_>) -> fmt::Result {
        write!(f, "refused {}: {}", self.0, GROUNDS[self.0 as usize - 1])
    }
}

impl std::error::Error for Refusal {}

/// What the values of a column are.
#[derive(Debug, PartialEq, Eq, Clone, Copy, Hash)]
pub enum Kind {
    /// Doubles (binary64).
    Double,
    /// Short floats (binary32), each of which counts as the double of equal value.
    Single,
}

impl Kind {
    /// How many bytes a value has: 8 or 4.
    pub fn width(self) -> usize {
        match self {
            Kind::Double => 8,
            Kind::Single => 4,
        }
    }
}

/// The two columns of a patch file, as parts of it.
#[derive(Debug, PartialEq, Clone, Copy)]
pub struct Columns<'a> {
    /// How many rows the file has.
    pub rows: usize,
    /// The key column: a 32-bit section number for each row.
    pub keys: &'a [u8],
    /// The value column: a double or a short float for each row.
    pub values: &'a [u8],
    /// Which of the two, as the file's mark says.
    pub kind: Kind,
}

/// A section's sum.
#[derive(Debug, PartialEq, Clone, Copy)]
pub struct Sum {
    /// The 64 bits of the double.
    pub bits: u64,
    /// -1, 0 or 1 as the double is below, equal to or above the kept value. A sum of side 0 was not rounded.
    pub side: i64,
}

/// A finished section.
#[derive(Debug, PartialEq, Clone, Copy)]
pub struct Line {
    /// How many rows the section has.
    pub count: u64,
    /// The 64 bits of its sum.
    pub bits: u64,
    /// Its mill figure.
    pub figure: i64,
    /// The side of its sum, as in [`Sum`].
    pub side: i64,
}

/// Whether a section's kept value is known to be the exact sum of its rows.
#[derive(Debug, PartialEq, Eq, Clone, Copy)]
pub enum Exactness {
    /// In a table grown from empty it is, and nothing was dropped of any row. A table is grown from empty where adds and merges made it from an empty
    /// one, and every table merged into it was grown from empty too; saving and loading on the way changes nothing of that, nor does a removal of
    /// rows that the table has.
    Exact,
    /// Something may have been dropped, and need not have been. This is also the answer for a section with a top above 2 that a file of an older
    /// version brought.
    NotKnown,
}

/// The bottom line of a table.
#[derive(Debug, PartialEq, Clone, Copy)]
pub struct Totals {
    /// How many sections the table has.
    pub sections: u64,
    /// How many rows they have: the row counts of the records added up.
    pub rows: u64,
}

fn answer(r: i64) -> Result<u64, Refusal> {
    assert!(r >= -(GROUNDS.len() as i64), "the library gave the answer {r}, which has no meaning");
    if r < 0 { Err(Refusal(r.unsigned_abs() as u32)) } else { Ok(r as u64) }
}

/// What is known of a section, by the answer 1 or 0.
fn exactness(r: i64) -> Result<Exactness, Refusal> {
    match answer(r)? {
        0 => Ok(Exactness::NotKnown),
        1 => Ok(Exactness::Exact),
        n => panic!("the library gave the answer {n}, which has no meaning"),
    }
}

/// The kind of value that has so many bytes.
fn kind(width: u64) -> Kind {
    match width {
        8 => Kind::Double,
        4 => Kind::Single,
        w => panic!("the library gave the width {w}, which has no meaning"),
    }
}

/// The column of so many bytes from a place on, which lies within the file.
fn column(file: &[u8], at: u64, bytes: usize) -> &[u8] {
    let start = usize::try_from(at).ok();
    let part = start.and_then(|s| file.get(s..s.checked_add(bytes)?));
    part.expect("the library gave a column that does not lie within the file")
}

/// The group count of a table after an accepted call, which its buffer has room for.
fn groups(r: i64, room: usize) -> Result<u64, Refusal> {
    let g = answer(r)?;
    assert!(g <= room as u64 / 64, "the library gave more groups than the table has room for");
    Ok(g)
}

/// The length of what was written to the front of an output, which has room for it.
fn length(r: i64, room: usize) -> Result<usize, Refusal> {
    let n = answer(r)?;
    assert!(n <= room as u64, "the library gave a greater length than the output has");
    Ok(n as usize)
}

/// Reads a patch file of doubles or of short floats: its columns and the kind of its values, or refusals 1 to 6.
pub fn read(file: &[u8]) -> Result<Columns<'_>, Refusal> {
    let (mut k, mut v, mut w) = (u64::MAX, u64::MAX, u64::MAX);
    let n = answer(unsafe { girth_read(file.as_ptr(), file.len(), &mut k, &mut v, &mut w) });
    if n.is_err() {
        assert_eq!((k, v, w), (0, 0, 0), "a refused file has no columns");
    }
    let (n, kind) = (n? as usize, kind(w));
    assert!(n <= file.len() / (4 + kind.width()), "the library gave more rows than the file has");
    Ok(Columns { rows: n, keys: column(file, k, 4 * n), values: column(file, v, kind.width() * n), kind })
}

/// Writes a patch file of two columns, the second one of doubles, without notes, to the front of an output, and gives its length: the two columns and a trailer of 16 bytes.
/// Refused, in this order: 9 where the lengths of the columns fit no row count, 17 where there are more than 5,460 rows, 16 where the output is
/// shorter than the file. Values are not looked at. Bytes after the file are untouched, and so is the whole output when the call is refused.
pub fn write(keys: &[u8], values: &[u8], out: &mut [u8]) -> Result<usize, Refusal> {
    let r = unsafe { girth_write(keys.as_ptr(), keys.len(), values.as_ptr(), values.len(), out.as_mut_ptr(), out.len()) };
    let n = length(r, out.len())?;
    assert_eq!(n, keys.len() + values.len() + 16, "a file is its columns and a trailer");
    Ok(n)
}

/// An exported call on a table, its group count, two columns, the width of their values and a work buffer.
type Change = unsafe extern "C" fn(*mut u8, usize, u64, *const u8, usize, *const u8, usize, u64, *mut u8, usize) -> i64;

/// The new group count after an add or a removal.
fn change(call: Change, table: &mut [u8], g: u64, keys: &[u8], values: &[u8], kind: Kind, work: &mut [u8]) -> Result<u64, Refusal> {
    let r = unsafe {
        call(
            table.as_mut_ptr(), table.len(), g, keys.as_ptr(), keys.len(), values.as_ptr(), values.len(), kind.width() as u64,
            work.as_mut_ptr(), work.len(),
        )
    };
    groups(r, table.len())
}

/// Adds rows to a table of g records, and gives its new group count, or refusals 7 to 12. The values are of a kind, as [`read`] gives it; both kinds may go
/// into one table. The work buffer is at least as long as the table, and holds only zeros afterwards.
pub fn add(table: &mut [u8], g: u64, keys: &[u8], values: &[u8], kind: Kind, work: &mut [u8]) -> Result<u64, Refusal> {
    change(girth_add, table, g, keys, values, kind, work)
}

/// Removes rows from a table of g records, all of them or none, and gives its new group count. Each section loses the row count and the totals of its rows, and keeps
/// its top and its finest power; one that is left without rows leaves the table, later records move down, and the bytes vacated at the end become zero. Refused, in this
/// order: 7 to 10 as in [`add`], 20 where a section is absent or has fewer rows than are to be removed, 21 where the top of these rows exceeds the held one, 22 where a
/// remaining total would be larger in size than (remaining rows) x 2^39. The kind and the work buffer are as in [`add`].
///
/// Right after an accepted [`add`] of the same columns, with equal lent lengths, the former records and group count are back, provided that the add raised no held top and
/// lowered no held finest power. Remove only rows that the table has: not all others are refused.
pub fn remove(table: &mut [u8], g: u64, keys: &[u8], values: &[u8], kind: Kind, work: &mut [u8]) -> Result<u64, Refusal> {
    let n = change(girth_remove, table, g, keys, values, kind, work)?;
    assert!(n <= g, "the library gave more groups than the table had");
    Ok(n)
}

/// Merges the second table into the first, and gives the first's new group count, or refusals 7, 11 and 12.
pub fn merge(first: &mut [u8], g1: u64, second: &[u8], g2: u64) -> Result<u64, Refusal> {
    let r = unsafe { girth_merge(first.as_mut_ptr(), first.len(), g1, second.as_ptr(), second.len(), g2) };
    groups(r, first.len())
}

/// A section's sum and its side, or refusals 7, 13 and 14.
pub fn sum(table: &[u8], g: u64, key: u32) -> Result<Sum, Refusal> {
    let mut s = Sum { bits: u64::MAX, side: i64::MAX };
    let r = answer(unsafe { girth_sum(table.as_ptr(), table.len(), g, key, &mut s.bits, &mut s.side) });
    settled(r, s, s == Sum { bits: 0, side: 0 })
}

/// A section's mill figure, or refusals 7 and 13 to 15.
pub fn figure(table: &[u8], g: u64, key: u32) -> Result<i64, Refusal> {
    let mut z = i64::MAX;
    let r = answer(unsafe { girth_figure(table.as_ptr(), table.len(), g, key, &mut z) });
    settled(r, z, z == 0)
}

/// A section's finished line, or refusals 7 and 13 to 15.
pub fn line(table: &[u8], g: u64, key: u32) -> Result<Line, Refusal> {
    let mut l = Line { count: u64::MAX, bits: u64::MAX, figure: i64::MAX, side: i64::MAX };
    let r = answer(unsafe {
        girth_line(table.as_ptr(), table.len(), g, key, &mut l.count, &mut l.bits, &mut l.figure, &mut l.side)
    });
    settled(r, l, l == Line { count: 0, bits: 0, figure: 0, side: 0 })
}

/// Whether a section's kept value is known to be the exact sum of its rows, or refusals 7 and 13.
pub fn exact(table: &[u8], g: u64, key: u32) -> Result<Exactness, Refusal> {
    exactness(unsafe { girth_exact(table.as_ptr(), table.len(), g, key) })
}

/// How many sections and rows a table of g records has, or refusal 7.
pub fn totals(table: &[u8], g: u64) -> Result<Totals, Refusal> {
    let mut t = Totals { sections: u64::MAX, rows: u64::MAX };
    let r = answer(unsafe { girth_totals(table.as_ptr(), table.len(), g, &mut t.sections, &mut t.rows) });
    let t = settled(r, t, t == Totals { sections: 0, rows: 0 })?;
    assert_eq!(t.sections, g, "a table has a section for each record");
    Ok(t)
}

/// Writes a saved table, its g records and a trailer of 16 bytes, to the front of an output, and gives the file's length. Refused, in this order: 7
/// where the table is not sound, 18 where it has more than 1,023 groups, 16 where the output is shorter than the file. Bytes after the file are
/// untouched, and so is the whole output when the call is refused.
pub fn save(table: &[u8], g: u64, out: &mut [u8]) -> Result<usize, Refusal> {
    let r = unsafe { girth_save(table.as_ptr(), table.len(), g, out.as_mut_ptr(), out.len()) };
    let n = length(r, out.len())?;
    assert_eq!(n as u64, 64 * g + 16, "a saved table is its records and a trailer");
    Ok(n)
}

/// Reads a saved table into the front of a table, and gives its group count. What the table held before is given up; bytes after the records are
/// untouched, and so is the whole table when the call is refused. Refused, in this order: 1, 2 and 3 as in [`read`], with the mark of a saved table,
/// 19 where the length, the distance or the zero field is wrong, 16 where the table is too short, 7 where the records are not sound.
pub fn load(file: &[u8], table: &mut [u8]) -> Result<u64, Refusal> {
    let r = unsafe { girth_load(file.as_ptr(), file.len(), table.as_mut_ptr(), table.len()) };
    let g = groups(r, table.len())?;
    assert_eq!(64 * g + 16, file.len() as u64, "a saved table is its records and a trailer");
    Ok(g)
}

/// Writes the report of a patch file to the front of an output, and gives its length, 4,096 bytes at most. Refusal 16 leaves the output untouched.
pub fn report(file: &[u8], out: &mut [u8]) -> Result<usize, Refusal> {
    length(unsafe { girth_report(file.as_ptr(), file.len(), out.as_mut_ptr(), out.len()) }, out.len())
}

/// The value written out, after a look that a refused call wrote zeros.
fn settled<T>(r: Result<u64, Refusal>, value: T, zero: bool) -> Result<T, Refusal> {
    match r {
        Ok(n) => {
            assert_eq!(n, 0);
            Ok(value)
        }
        Err(e) => {
            assert!(zero, "a refused call writes zeros out");
            Err(e)
        }
    }
}

#[cfg(test)]
mod tests {
    #[test]
    fn a_refusal_tells_its_number_and_its_ground() {
        let e = super::read(&[]).unwrap_err();
        assert_eq!(e.number(), 2);
        assert_eq!(e.to_string(), "refused 2: the file is shorter than 16 bytes");
        assert_eq!(super::report(&[], &mut [0; 3]).unwrap_err().to_string(), "refused 16: the output, or the table that a file is loaded into, is too short");
        let e = super::write(&[0; 4 * 5461], &[0; 8 * 5461], &mut []).unwrap_err();
        assert_eq!(e.to_string(), "refused 17: a patch file would have more than 5,460 rows");
        let full: Vec<u8> = (0..1024u32).flat_map(|key| [&key.to_le_bytes()[..], &[1], &[0; 59]].concat()).collect();
        let e = super::save(&full, 1024, &mut []).unwrap_err();
        assert_eq!(e.to_string(), "refused 18: a saved table would have more than 1,023 groups");
        let e = super::load(b"\0\0\0\0\x11\0\0\0\0\0\0\0TABL", &mut []).unwrap_err();
        assert_eq!(e.to_string(), "refused 19: the length, the distance or the zero field of a saved table is wrong");
    }

    #[test]
    fn a_refused_removal_tells_its_ground() {
        let zero_and_one = [0f64, 1.0].map(f64::to_le_bytes);
        for (held, gone, words) in [
            (None, 1, "refused 20: a section is absent or has fewer rows than are to be removed"),
            (Some(0), 1, "refused 21: the top of the rows to be removed exceeds that of their section"),
            (Some(1), 0, "refused 22: a remaining total would be larger in size than the remaining rows allow"),
        ] {
            let (mut table, mut work, mut g) = ([0; 64], [0; 64], 0);
            if let Some(i) = held {
                g = super::add(&mut table, g, &[0; 4], &zero_and_one[i], super::Kind::Double, &mut work).unwrap();
            }
            let e = super::remove(&mut table, g, &[0; 4], &zero_and_one[gone], super::Kind::Double, &mut work).unwrap_err();
            assert_eq!(e.to_string(), words);
        }
    }

    #[test]
    #[should_panic(expected = "the answer 2, which has no meaning")]
    fn a_section_is_exact_or_that_is_not_known() {
        let _ = super::exactness(2);
    }

    #[test]
    fn a_width_is_told_by_its_bytes() {
        for (width, kind) in [(8, super::Kind::Double), (4, super::Kind::Single)] {
            assert_eq!((super::kind(width), kind.width() as u64), (kind, width));
        }
    }

    #[test]
    #[should_panic(expected = "the width 0, which has no meaning")]
    fn an_accepted_file_has_a_width() {
        super::kind(0);
    }

    #[test]
    #[should_panic(expected = "does not lie within the file")]
    fn a_column_beyond_the_file_is_never_sliced() {
        super::column(&[0; 16], 8, 9);
    }

    #[test]
    #[should_panic(expected = "does not lie within the file")]
    fn a_column_whose_end_is_past_every_number_is_never_sliced() {
        super::column(&[0; 16], u64::MAX, 4);
    }

    #[test]
    #[should_panic(expected = "more groups than the table has room for")]
    fn a_group_count_beyond_the_buffer_is_never_given() {
        let _ = super::groups(2, 127);
    }

    #[test]
    #[should_panic(expected = "a greater length than the output has")]
    fn a_length_beyond_the_output_is_never_given() {
        let _ = super::length(17, 16);
    }
}
