//! The calls with a refusal as its bare number, as the exact model gives it.
pub use girths::{Columns, Exactness, Kind, Line, Sum, Totals};

extern "C" {
    fn girth_add(
        table: *mut u8, table_len: usize, g: u64, keys: *const u8, keys_len: usize, values: *const u8, values_len: usize,
        width: u64, work: *mut u8, work_len: usize,
    ) -> i64;
    fn girth_remove(
        table: *mut u8, table_len: usize, g: u64, keys: *const u8, keys_len: usize, values: *const u8, values_len: usize,
        width: u64, work: *mut u8, work_len: usize,
    ) -> i64;
}

fn number<T>(r: Result<T, girths::Refusal>) -> Result<T, u32> {
    r.map_err(|e| e.number())
}

pub fn read(file: &[u8]) -> Result<Columns<'_>, u32> {
    number(girths::read(file))
}

pub fn write(keys: &[u8], values: &[u8], out: &mut [u8]) -> Result<usize, u32> {
    number(girths::write(keys, values, out))
}

pub fn add(table: &mut [u8], g: u64, keys: &[u8], values: &[u8], kind: Kind, work: &mut [u8]) -> Result<u64, u32> {
    number(girths::add(table, g, keys, values, kind, work))
}

pub fn remove(table: &mut [u8], g: u64, keys: &[u8], values: &[u8], kind: Kind, work: &mut [u8]) -> Result<u64, u32> {
    number(girths::remove(table, g, keys, values, kind, work))
}

/// An add that is told any width: the binding has no word for one that is of no kind.
pub fn add_of_width(table: &mut [u8], g: u64, keys: &[u8], values: &[u8], width: u64, work: &mut [u8]) -> Result<u64, u32> {
    match kind(width) {
        Some(kind) => add(table, g, keys, values, kind, work),
        None => of_no_kind(girth_add, table, g, keys, values, width, work),
    }
}

/// A removal that is told any width.
pub fn remove_of_width(table: &mut [u8], g: u64, keys: &[u8], values: &[u8], width: u64, work: &mut [u8]) -> Result<u64, u32> {
    match kind(width) {
        Some(kind) => remove(table, g, keys, values, kind, work),
        None => of_no_kind(girth_remove, table, g, keys, values, width, work),
    }
}

fn kind(width: u64) -> Option<Kind> {
    [Kind::Double, Kind::Single].into_iter().find(|kind| kind.width() as u64 == width)
}

type Change = unsafe extern "C" fn(*mut u8, usize, u64, *const u8, usize, *const u8, usize, u64, *mut u8, usize) -> i64;

fn of_no_kind(call: Change, table: &mut [u8], g: u64, keys: &[u8], values: &[u8], width: u64, work: &mut [u8]) -> Result<u64, u32> {
    // each buffer is a slice of its own, and the library stays within the lengths
    let r = unsafe {
        call(
            table.as_mut_ptr(), table.len(), g, keys.as_ptr(), keys.len(), values.as_ptr(), values.len(), width, work.as_mut_ptr(), work.len(),
        )
    };
    if r < 0 { Err(r.unsigned_abs() as u32) } else { Ok(r as u64) }
}

pub fn merge(first: &mut [u8], g1: u64, second: &[u8], g2: u64) -> Result<u64, u32> {
    number(girths::merge(first, g1, second, g2))
}

pub fn sum(table: &[u8], g: u64, key: u32) -> Result<Sum, u32> {
    number(girths::sum(table, g, key))
}

pub fn figure(table: &[u8], g: u64, key: u32) -> Result<i64, u32> {
    number(girths::figure(table, g, key))
}

pub fn line(table: &[u8], g: u64, key: u32) -> Result<Line, u32> {
    number(girths::line(table, g, key))
}

pub fn exact(table: &[u8], g: u64, key: u32) -> Result<Exactness, u32> {
    number(girths::exact(table, g, key))
}

pub fn totals(table: &[u8], g: u64) -> Result<Totals, u32> {
    number(girths::totals(table, g))
}

pub fn save(table: &[u8], g: u64, out: &mut [u8]) -> Result<usize, u32> {
    number(girths::save(table, g, out))
}

pub fn load(file: &[u8], table: &mut [u8]) -> Result<u64, u32> {
    number(girths::load(file, table))
}

pub fn report(file: &[u8], out: &mut [u8]) -> Result<usize, u32> {
    number(girths::report(file, out))
}
