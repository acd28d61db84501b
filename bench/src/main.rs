//! Times of the library's calls beside plain sums, in one run.
mod level;
use girths::Kind;
use std::collections::{BTreeMap, HashMap};
use std::hint::black_box;
use std::time::Instant;

const ROWS: usize = 5460;
const ROUNDS: usize = 101;

/// Median, and the lower and upper quarter, in nanoseconds.
#[derive(Clone, Copy)]
struct Times {
    low: f64,
    median: f64,
    high: f64,
}

fn quarters(mut t: Vec<f64>) -> Times {
    t.sort_by(f64::total_cmp);
    Times { low: t[t.len() / 4], median: t[t.len() / 2], high: t[t.len() * 3 / 4] }
}

/// The candidates take turns, so that all of them meet the same noise.
fn race(units: usize, repeats: usize, candidates: &mut [(&'static str, Box<dyn FnMut() + '_>)]) -> Vec<(&'static str, Times)> {
    let mut times: Vec<Vec<f64>> = vec![Vec::new(); candidates.len()];
    for round in 0..ROUNDS + 5 {
        for (i, (_, run)) in candidates.iter_mut().enumerate() {
            let start = Instant::now();
            for _ in 0..repeats {
                run();
            }
            let t = start.elapsed().as_nanos() as f64 / (units * repeats) as f64;
            if round >= 5 {
                times[i].push(t);
            }
        }
    }
    candidates.iter().map(|c| c.0).zip(times.into_iter().map(quarters)).collect()
}

fn random(state: &mut u64) -> u64 {
    *state ^= *state << 13;
    *state ^= *state >> 7;
    *state ^= *state << 17;
    state.wrapping_mul(0x2545F4914F6CDD1D)
}

/// Girths in millimetres with both signs; sections at random, or in runs of 40 rows.
fn rows(sections: u64, run: usize) -> (Vec<u8>, Vec<u8>) {
    let mut s = 88172645463325252;
    let (mut keys, mut values) = (Vec::new(), Vec::new());
    let mut key = 0;
    for i in 0..ROWS {
        if i % run == 0 {
            key = (random(&mut s) >> 20) % sections;
        }
        let x = (random(&mut s) >> 11) as f64 / (1u64 << 40) as f64 - 3000.0;
        keys.extend((key as u32 * 7).to_le_bytes());
        values.extend(x.to_bits().to_le_bytes());
    }
    (keys, values)
}

/// The same lengths as short floats.
fn shortened(v: &[u8]) -> Vec<u8> {
    v.chunks_exact(8).flat_map(|c| (f64::from_le_bytes(c.try_into().unwrap()) as f32).to_le_bytes()).collect()
}

fn pairs<'a>(k: &'a [u8], v: &'a [u8]) -> impl Iterator<Item = (u32, f64)> + 'a {
    let keys = k.chunks_exact(4).map(|c| u32::from_le_bytes(c.try_into().unwrap()));
    keys.zip(v.chunks_exact(8).map(|c| f64::from_bits(u64::from_le_bytes(c.try_into().unwrap()))))
}

fn show(what: &str, unit: &str, times: &[(&'static str, Times)]) {
    let base = times[0].1.median;
    for (name, t) in times {
        println!("| {what} | {name} | {:.2} {unit} | {:.2} to {:.2} | {:.2} |", t.median, t.low, t.high, base / t.median);
    }
}

fn adding(name: &str, sections: u64, run: usize) {
    let (k, v) = rows(sections, run);
    let mut table = vec![0u8; 65536];
    let mut work = vec![0u8; 65536];
    // the two level methods agree on the first record
    let g = girths::add(&mut table, 0, &k, &v, Kind::Double, &mut work).unwrap();
    let mut levels = level::Levels::default();
    levels.add(&k, &v);
    let (count, top, carry, residue) = levels.first();
    assert_eq!(table[4..12], [count.to_le_bytes(), top.to_le_bytes()].concat());
    assert_eq!(table[16..32], [(residue as u64).to_le_bytes(), (carry as i64).to_le_bytes()].concat());
    let (mut held, mut held_work, mut held_g) = (vec![0u8; 65536], vec![0u8; 65536], 0);
    let short = shortened(&v);
    let (mut short_table, mut short_work) = (vec![0u8; 65536], vec![0u8; 65536]);
    // the rows twice, of which one half is taken out
    let (mut twice, mut left, mut left_work) = (table.clone(), table.clone(), vec![0u8; 65536]);
    let groups = girths::add(&mut twice, g, &k, &v, Kind::Double, &mut left_work).unwrap();
    let used = 64 * groups as usize;
    let mut candidates: Vec<(&'static str, Box<dyn FnMut()>)> = vec![
        ("add", Box::new(|| {
            black_box(girths::add(&mut table, 0, black_box(&k), black_box(&v), Kind::Double, &mut work).unwrap());
        })),
        ("add, short floats", Box::new(|| {
            black_box(girths::add(&mut short_table, 0, black_box(&k), black_box(&short), Kind::Single, &mut short_work).unwrap());
        })),
        ("add, sections held already", Box::new(|| {
            held_g = girths::add(&mut held, held_g, black_box(&k), black_box(&v), Kind::Double, &mut held_work).unwrap();
        })),
        ("remove (restored by a copy first)", Box::new(|| {
            left[..used].copy_from_slice(&twice[..used]);
            black_box(girths::remove(&mut left, groups, black_box(&k), black_box(&v), Kind::Double, &mut left_work).unwrap());
        })),
        ("BTreeMap<u32, f64>", Box::new(|| {
            let mut m = BTreeMap::new();
            for (key, x) in pairs(black_box(&k), black_box(&v)) {
                *m.entry(key).or_insert(0.0) += x;
            }
            black_box(m);
        })),
        ("HashMap<u32, f64>", Box::new(|| {
            let mut m = HashMap::new();
            for (key, x) in pairs(black_box(&k), black_box(&v)) {
                *m.entry(key).or_insert(0.0) += x;
            }
            black_box(m);
        })),
        ("level method, unproved", Box::new(|| {
            let mut m = level::Levels::default();
            m.add(black_box(&k), black_box(&v));
            black_box(m.first());
        })),
    ];
    show(name, "ns/row", &race(ROWS, 3, &mut candidates));
}

/// A patch with one row in each of 1,024 sections, in rising or in falling order: where the sections are new they are put in order, and each that comes before others moves them up.
fn one_row_each(name: &str, falling: bool) {
    let k: Vec<u8> = (0..1024u32).flat_map(|i| (if falling { 1023 - i } else { i }).to_le_bytes()).collect();
    let v: Vec<u8> = [1.5f64.to_le_bytes(); 1024].concat();
    let mut work = vec![0u8; 65536];
    let (mut table, mut held, mut left) = (vec![0u8; 65536], vec![0u8; 65536], vec![0u8; 65536]);
    let mut twice = table.clone();
    for g in [0, 1024] {
        girths::add(&mut twice, g, &k, &v, Kind::Double, &mut work).unwrap();
    }
    held.copy_from_slice(&twice);
    let (mut held_work, mut left_work) = (work.clone(), work.clone());
    let mut candidates: Vec<(&'static str, Box<dyn FnMut()>)> = vec![
        ("add", Box::new(|| {
            black_box(girths::add(&mut table, 0, black_box(&k), black_box(&v), Kind::Double, &mut work).unwrap());
        })),
        ("add, sections held already", Box::new(|| {
            black_box(girths::add(&mut held, 1024, black_box(&k), black_box(&v), Kind::Double, &mut held_work).unwrap());
        })),
        ("remove (restored by a copy first)", Box::new(|| {
            left.copy_from_slice(&twice);
            black_box(girths::remove(&mut left, 1024, black_box(&k), black_box(&v), Kind::Double, &mut left_work).unwrap());
        })),
    ];
    show(name, "ns/row", &race(1024, 3, &mut candidates));
}

fn filled(sections: u64, shift: u32) -> (Vec<u8>, u64) {
    let mut table = vec![0u8; 65536];
    let mut work = vec![0u8; 65536];
    let mut g = 0;
    for part in 0..4 {
        let keys: Vec<u8> = (0..sections as u32).flat_map(|i| (i * 2 + shift).to_le_bytes()).collect();
        let values: Vec<u8> = (0..sections).flat_map(|i| (i as f64 * 1.37 - part as f64 * 100.1).to_bits().to_le_bytes()).collect();
        g = girths::add(&mut table, g, &keys, &values, Kind::Double, &mut work).unwrap();
    }
    (table, g)
}

/// Two tables of 512 groups, half of the second one's keys new: beside a copy of the used bytes of both.
fn merging() {
    for (name, shift) in [("merge, 512 into 512, same keys", 0), ("merge, 512 into 512, other keys", 1)] {
        let (first, g1) = filled(512, 0);
        let (second, g2) = filled(512, shift);
        let mut a = first.clone();
        let (mut copy1, mut copy2) = (first.clone(), second.clone());
        let (mut used1, mut used2) = (first.clone(), second.clone());
        let used = 64 * g1 as usize;
        let mut candidates: Vec<(&'static str, Box<dyn FnMut()>)> = vec![
            ("merge (restored by a copy first)", Box::new(|| {
                a[..used].copy_from_slice(&first[..used]);
                black_box(girths::merge(black_box(&mut a), g1, black_box(&second), g2).unwrap());
            })),
            ("copy of both tables", Box::new(|| {
                copy1.copy_from_slice(black_box(&first));
                copy2.copy_from_slice(black_box(&second));
                black_box((&copy1, &copy2));
            })),
            ("copy of both tables' used bytes", Box::new(|| {
                used1[..used].copy_from_slice(black_box(&first[..used]));
                used2[..used].copy_from_slice(black_box(&second[..used]));
                black_box((&used1, &used2));
            })),
        ];
        show(name, "ns/call", &race(1, 50, &mut candidates));
    }
}

fn finishing(sections: u64) {
    let (t, g) = filled(sections, 0);
    let n = sections as usize;
    let keys: Vec<u32> = (0..sections as u32).map(|i| i * 2).collect();
    let mut candidates: Vec<(&'static str, Box<dyn FnMut()>)> = vec![
        ("sum", Box::new(|| {
            for &k in &keys {
                black_box(girths::sum(black_box(&t), g, k).unwrap());
            }
        })),
        ("figure", Box::new(|| {
            for &k in &keys {
                black_box(girths::figure(black_box(&t), g, k).unwrap());
            }
        })),
        ("line", Box::new(|| {
            for &k in &keys {
                black_box(girths::line(black_box(&t), g, k).unwrap());
            }
        })),
    ];
    show(&format!("finish in a table of {sections}"), "ns/section", &race(n, if n < 100 { 100 } else { 1 }, &mut candidates));
}

/// A patch file of the most rows, in 64 sections.
fn full_file() -> Vec<u8> {
    let (k, v) = rows(64, 1);
    let mut file = [k, v].concat();
    let l = file.len() as u32 + 16;
    for x in [ROWS as u32, l, l - 4 * ROWS as u32] {
        file.extend(x.to_le_bytes());
    }
    file.extend([0x4C, 0x41, 0x53, 0x54]);
    file
}

fn reading() {
    let file = full_file();
    let mut out = vec![0; 4096];
    let mut candidates: Vec<(&'static str, Box<dyn FnMut()>)> = vec![("read", Box::new(|| {
        black_box(girths::read(black_box(&file)).unwrap());
    })), ("report", Box::new(|| {
        black_box(girths::report(black_box(&file), &mut out).unwrap());
    }))];
    show("a full file, 64 sections", "ns/file", &race(1, 20, &mut candidates));
}

/// The program on a full file, as wall time from start to end, beside `cat` on the same file.
fn program() {
    let root = concat!(env!("CARGO_MANIFEST_DIR"), "/..");
    let path = format!("{root}/target/bench.patch");
    std::fs::write(&path, full_file()).unwrap();
    let run = |program: String| {
        let file = std::fs::File::open(&path).unwrap();
        let done = std::process::Command::new(program).stdin(file).stdout(std::process::Stdio::null()).status().unwrap();
        assert!(done.success());
    };
    let mut candidates: Vec<(&'static str, Box<dyn FnMut()>)> = vec![
        ("girths", Box::new(|| run(format!("{root}/target/bin/girths")))),
        ("cat", Box::new(|| run("cat".to_string()))),
    ];
    show("program on a full file", "ns/run", &race(1, 1, &mut candidates));
}

/// All cases, or those of the part that is named: add1, add64, runs64, add1024, merge, finish, file, program.
fn main() {
    let part = std::env::args().nth(1);
    let chosen = |name: &str| part.as_deref().is_none_or(|p| p == name);
    println!("| case | what | median | quarters | first / this |");
    println!("|---|---|---|---|---|");
    for (name, title, sections, run) in
        [("add1", "1 section", 1, 1), ("add64", "64 sections", 64, 1), ("runs64", "64 sections in runs", 64, 40), ("add1024", "1,024 sections", 1024, 1)]
    {
        if chosen(name) {
            adding(title, sections, run);
        }
    }
    for (name, title, falling) in [("rising", "1,024 sections once each, rising", false), ("falling", "1,024 sections once each, falling", true)] {
        if chosen(name) {
            one_row_each(title, falling);
        }
    }
    if chosen("merge") {
        merging();
    }
    if chosen("finish") {
        [1, 64, 1024].into_iter().for_each(finishing);
    }
    if chosen("file") {
        reading();
    }
    if chosen("program") {
        program();
    }
}
