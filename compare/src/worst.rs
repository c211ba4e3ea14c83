//! The files on which a call has the most to do: one long text that thousands of entries, interfaces or attributes name, and thousands of
//! members. Seconds of the processor of one call each, ours and the crate's, on the same bytes.

use crate::bench::processor_seconds;
use crate::ours::{self, Tables};
use cafebabe::{parse_class, ParseOptions};
use std::hint::black_box;

/// Slot 1 is the class, slot 2 the long text, slot 3 the class's own name, slot 4 a descriptor.
const FIRST_FREE: usize = 5;

struct Worst {
    name: &'static str,
    file: Vec<u8>,
    members: usize,
    interfaces: usize,
    attributes: usize,
}

fn put(out: &mut Vec<u8>, number: usize) {
    out.extend((number as u16).to_be_bytes());
}

fn text(out: &mut Vec<u8>, bytes: &[u8]) {
    out.push(1);
    put(out, bytes.len());
    out.extend(bytes);
}

/// Header and pool: the four entries, then what `more` puts.
fn pool(long: &[u8], count: usize, more: impl Fn(&mut Vec<u8>)) -> Vec<u8> {
    let mut out = vec![0xCA, 0xFE, 0xBA, 0xBE, 0, 0, 0, 52];
    put(&mut out, count);
    out.extend([7, 0, 3]);
    text(&mut out, long);
    text(&mut out, b"A");
    text(&mut out, b"I");
    more(&mut out);
    out
}

/// Flags, this, no super, and these interfaces, members and own attributes, which all have slot 2's or their own name.
fn class(mut out: Vec<u8>, interfaces: usize, fields: &[usize], attributes: usize, each: usize) -> Vec<u8> {
    for number in [0x21, 1, 0, interfaces] {
        put(&mut out, number);
    }
    (0..interfaces).for_each(|_| put(&mut out, FIRST_FREE));
    put(&mut out, fields.len());
    let attribute = [0, 2, 0, 0, 0, 0];
    for &name in fields {
        for number in [8, name, 4, each] {
            put(&mut out, number);
        }
        (0..each).for_each(|_| out.extend(attribute));
    }
    put(&mut out, 0);
    put(&mut out, attributes);
    (0..attributes).for_each(|_| out.extend(attribute));
    out
}

fn files() -> Vec<Worst> {
    let plain = vec![b'a'; 65535];
    let wide: Vec<u8> = [0xC3, 0xA9].repeat(32767);
    let classes = |long: &[u8], n: usize| class(pool(long, FIRST_FREE + n, |out| (0..n).for_each(|_| out.extend([7, 0, 2]))), 0, &[], 0, 0);
    let listed = |long: &[u8], n: usize| class(pool(long, FIRST_FREE + 1, |out| out.extend([7, 0, 2])), n, &[], 0, 0);
    let framed = |long: &[u8], fields: usize, each: usize| {
        let named: Vec<usize> = (FIRST_FREE..FIRST_FREE + fields).collect();
        class(pool(long, FIRST_FREE + fields, |out| (0..fields).for_each(|i| text(out, format!("f{i}").as_bytes()))), 0, &named, 0, each)
    };
    let worst = |name, file, interfaces, members, attributes| Worst { name, file, members, interfaces, attributes };
    vec![
        worst("65,500 classes of one long name", classes(&plain, 65500), 0, 0, 0),
        worst("32,750 classes of one long name, not ASCII", classes(&wide, 32750), 0, 0, 0),
        worst("64,000 interfaces of one long name", listed(&plain, 64000), 64000, 0, 0),
        worst("512,000 attributes of one long name", framed(&plain, 8, 64000), 0, 8, 512000),
        worst("64,000 attributes of one long name, not ASCII", framed(&wide, 1, 64000), 0, 1, 64000),
        worst("20,000 fields", framed(b"x", 20000, 0), 0, 20000, 0),
    ]
}

fn seconds(run: impl FnOnce() -> bool) -> f64 {
    let start = processor_seconds();
    black_box(run());
    processor_seconds() - start
}

pub fn run() -> bool {
    println!("worst files, seconds of the processor, one call each");
    println!("  {:46} {:>8} {:>10} {:>10} {:>10} {:>10}", "", "MB", "our pool", "our class", "its pool", "its class");
    for w in files() {
        let f = &w.file;
        let mut table = vec![0u8; 4 * 65536];
        let mut tables = Tables::new(&[
            65536, w.interfaces, w.members, w.members, w.members, w.members, w.members, w.attributes, w.attributes, w.attributes,
        ]);
        let mut refusal = 0;
        let pool = seconds(|| ours::pool(f, &mut table).refusal == 0);
        let whole = seconds(|| {
            refusal = ours::class(f, &mut tables).refusal;
            refusal == 0
        });
        let its_pool = seconds(|| ParseOptions::probe_count(f).is_ok());
        let its_class = seconds(|| parse_class(f).is_ok());
        let size = f.len() as f64 / 1e6;
        println!("  {:46} {size:>8.1} {pool:>10.4} {whole:>10.4} {its_pool:>10.4} {its_class:>10.4}", w.name);
        if refusal != 0 {
            println!("  .. is refused with {refusal}, so it measures nothing");
            return false;
        }
    }
    true
}
