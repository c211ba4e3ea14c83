//! Speed of both on the same files in memory, one core, both built for release. Each round runs every
//! measure once over all files, by the processor's time; the least, the middle and the most of the rounds
//! show the machine's noise.

use crate::check::{ample, neutralise};
use crate::inputs::unpack;
use crate::model::{self, Lookup, Rules};
use crate::ours::{self, Tables};
use cafebabe::{parse_class, parse_class_with_options, ParseOptions};
use std::hint::black_box;

extern "C" {
    fn clock_gettime(clock: i32, time: *mut [i64; 2]) -> i32;
}

/// Seconds that this process has had a processor, so that other work on the machine counts less.
pub fn processor_seconds() -> f64 {
    let mut time = [0; 2];
    assert_eq!(unsafe { clock_gettime(2, &mut time) }, 0, "no clock of the process's time");
    time[0] as f64 + time[1] as f64 * 1e-9
}

/// The tables one call is lent: as many cells and records as the file needs.
struct Lent {
    table: Vec<u8>,
    tables: Tables,
}

struct Measure<'a> {
    name: &'static str,
    run: Box<dyn FnMut() -> u64 + 'a>,
    bytes: u64,
    calls: u64,
    seconds: Vec<f64>,
}

impl Measure<'_> {
    fn sorted(&self) -> Vec<f64> {
        let mut s = self.seconds.clone();
        s.sort_by(f64::total_cmp);
        s
    }
    fn middle(&self) -> f64 {
        let s = self.sorted();
        s[s.len() / 2]
    }
}

fn lent_for(file: &[u8]) -> Lent {
    let (cells, i, m, a) = match model::class(file, ample(file), Rules::default()) {
        Ok(c) => (c.pool.cells.len(), c.interfaces.len(), c.members.len(), c.attributes.len()),
        Err(r) => panic!("a class of the pack is refused: {r:?}"),
    };
    Lent { table: vec![0; 4 * cells], tables: Tables::new(&[cells, i, m, m, m, m, m, a, a, a]) }
}

pub fn run(packs: &[&str], rounds: usize) -> bool {
    let files: Vec<Vec<u8>> = packs.iter().flat_map(|p| unpack(p)).collect();
    let bytes: u64 = files.iter().map(|f| f.len() as u64).sum();
    let framed: Vec<Vec<u8>> = files
        .iter()
        .map(|f| {
            let mut f = f.clone();
            neutralise(&mut f);
            f
        })
        .collect();
    println!("bench: {} classes, {:.1} MB, {rounds} rounds", files.len(), bytes as f64 / 1e6);
    let mut pools: Vec<Vec<u8>> = files.iter().map(|f| lent_for(f).table).collect();
    let mut classes: Vec<Lent> = files.iter().map(|f| lent_for(f)).collect();
    let mut large_pool = vec![0u8; 4 * 65536];
    let mut large = Tables::new(&[65536, 65535, 8192, 8192, 8192, 8192, 8192, 65536, 65536, 65536]);
    let handed: Vec<Vec<u8>> = files
        .iter()
        .map(|f| model::entries(f, None, Rules::default()).expect("a pool").cells.iter().flat_map(|c| c.to_be_bytes()).collect())
        .collect();
    let this: Vec<u32> = files
        .iter()
        .map(|f| {
            let end = model::entries(f, None, Rules::default()).expect("a pool").end;
            model::pair(f, end + 2) as u32
        })
        .collect();
    let count = files.len() as u64;
    let measure = |name, run| Measure { name, run, bytes, calls: count, seconds: vec![] };
    let mut all: Vec<Measure> = vec![
        measure("ours, pool", Box::new(|| files.iter().zip(&mut pools).map(|(f, t)| u64::from(ours::pool(f, t).slots)).sum())),
        measure("ours, pool, 65,536 cells lent", Box::new(|| files.iter().map(|f| u64::from(ours::pool(f, &mut large_pool).slots)).sum())),
        measure(
            "ours, class",
            Box::new(|| files.iter().zip(&mut classes).map(|(f, t)| u64::from(ours::class(f, &mut t.tables).slots)).sum()),
        ),
        measure("ours, class, large tables lent", Box::new(|| files.iter().map(|f| u64::from(ours::class(f, &mut large).slots)).sum())),
        measure(
            "ours, a lookup on a handed table",
            Box::new(|| {
                files.iter().zip(&handed).zip(&this).map(|((f, t), &s)| u64::from(ours::look(f, t, Lookup::ClassName, s).0 == 0)).sum()
            }),
        ),
        measure("crate, pool", Box::new(|| files.iter().map(|f| ParseOptions::probe_count(f).map_or(0, |p| p as u64)).sum())),
        measure("crate, class, attributes only framed", Box::new(|| framed.iter().map(|f| black_box(parse_class(f)).is_ok() as u64).sum())),
        measure(
            "crate, class, parse_bytecode(false)",
            Box::new(|| {
                let mut options = ParseOptions::default();
                options.parse_bytecode(false);
                files.iter().map(|f| black_box(parse_class_with_options(f, &options)).is_ok() as u64).sum()
            }),
        ),
        measure("crate, class, default", Box::new(|| files.iter().map(|f| black_box(parse_class(f)).is_ok() as u64).sum())),
    ];
    for _ in 0..rounds {
        for m in &mut all {
            let start = processor_seconds();
            black_box((m.run)());
            m.seconds.push(processor_seconds() - start);
        }
    }
    println!("  {:38} {:>9} {:>9} {:>9}   {:>11}", "MB/s", "least", "middle", "most", "classes/s");
    for m in &all {
        let s = m.sorted();
        let rate = |t: f64| m.bytes as f64 / 1e6 / t;
        println!(
            "  {:38} {:>9.1} {:>9.1} {:>9.1}   {:>11.0}",
            m.name,
            rate(s[s.len() - 1]),
            rate(m.middle()),
            rate(s[0]),
            m.calls as f64 / m.middle()
        );
    }
    let middle = |name: &str| all.iter().find(|m| m.name == name).map(Measure::middle);
    for (what, mine, theirs) in [
        ("pool", "ours, pool", "crate, pool"),
        ("pool, 65,536 cells lent", "ours, pool, 65,536 cells lent", "crate, pool"),
        ("class, both only frame attributes", "ours, class", "crate, class, attributes only framed"),
        ("class, parse_bytecode(false)", "ours, class", "crate, class, parse_bytecode(false)"),
        ("class, default", "ours, class", "crate, class, default"),
        ("class, large tables lent, parse_bytecode(false)", "ours, class, large tables lent", "crate, class, parse_bytecode(false)"),
    ] {
        if let (Some(mine), Some(theirs)) = (middle(mine), middle(theirs)) {
            println!("  {what}: ours is {:.2} times as fast", theirs / mine);
        }
    }
    true
}
