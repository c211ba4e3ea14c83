//! Mutants: a class file with one to three changes, each aimed at a rule.

use crate::forms::two;
use crate::model::{entries, four, pair, Pool, Rules, View};
use crate::rng::Rng;

/// Where things stand in a file that can be read at least up to the end of its pool.
#[derive(Default)]
struct Layout {
    pool: Option<Pool>,
    /// References of the pool: byte of the index, own slot.
    refs: Vec<(usize, usize)>,
    /// Utf8 entries: their tag bytes.
    utf8s: Vec<usize>,
    /// Indices after the pool, u2 counts, u4 lengths: their bytes.
    indices: Vec<usize>,
    counts: Vec<usize>,
    lengths: Vec<usize>,
    flags: usize,
    /// Members and attributes: first byte, byte after, byte of the count that counts them.
    members: Vec<(usize, usize, usize)>,
    attributes: Vec<(usize, usize, usize)>,
    bootstraps: Vec<(usize, usize, usize)>,
    /// Indices of member names and descriptors.
    named: Vec<(usize, usize)>,
}

fn layout(file: &[u8]) -> Layout {
    let mut l = Layout::default();
    let Ok(pool) = entries(file, None, Rules::default()) else { return l };
    let v = View { file, major: pool.major, cells: &pool.cells };
    for slot in 0..pool.cells.len() {
        let at = v.at(slot);
        match v.tag(slot) {
            1 => l.utf8s.push(at),
            7 | 8 | 16 | 19 | 20 => l.refs.push((at + 1, slot)),
            9..=12 => l.refs.extend([(at + 1, slot), (at + 3, slot)]),
            15 => l.refs.push((at + 2, slot)),
            17 | 18 => l.refs.extend([(at + 1, slot), (at + 3, slot)]),
            _ => (),
        }
    }
    l.counts.push(8);
    let _ = after_pool(file, &pool, &mut l);
    l.pool = Some(pool);
    l
}

fn after_pool(file: &[u8], pool: &Pool, l: &mut Layout) -> Option<()> {
    let v = View { file, major: pool.major, cells: &pool.cells };
    let has = |at: usize, n: usize| if at + n <= file.len() { Some(()) } else { None };
    let mut at = pool.end;
    l.flags = at;
    has(at, 8)?;
    l.indices.extend([at + 2, at + 4]);
    l.counts.push(at + 6);
    let n = pair(file, at + 6);
    at += 8;
    has(at, 2 * n)?;
    l.indices.extend((0..n).map(|i| at + 2 * i));
    at += 2 * n;
    for list in 0..3 {
        has(at, 2)?;
        let counted = at;
        l.counts.push(at);
        let n = pair(file, at);
        at += 2;
        if list == 2 {
            return framed(v, &mut at, n, counted, l);
        }
        for _ in 0..n {
            let first = at;
            has(at, 8)?;
            l.indices.extend([at + 2, at + 4]);
            l.named.push((at + 2, at + 4));
            l.counts.push(at + 6);
            let n = pair(file, at + 6);
            at += 8;
            framed(v, &mut at, n, first + 6, l)?;
            l.members.push((first, at, counted));
        }
    }
    Some(())
}

fn framed(v: View, at: &mut usize, n: usize, counted: usize, l: &mut Layout) -> Option<()> {
    for _ in 0..n {
        let first = *at;
        if first + 6 > v.file.len() {
            return None;
        }
        l.indices.push(first);
        l.lengths.push(first + 2);
        let length = four(v.file, first + 2);
        *at = first + 6 + length;
        if *at > v.file.len() {
            return None;
        }
        l.attributes.push((first, *at, counted));
        let name = pair(v.file, first);
        if name < v.cells.len() && v.tag(name) == 1 && v.utf8(name) == b"BootstrapMethods" {
            l.bootstraps.push((first, *at, counted));
            l.counts.push(first + 6);
            l.indices.extend((first + 8..(*at).saturating_sub(1)).step_by(2));
        }
    }
    Some(())
}

fn put2(file: &mut [u8], at: usize, n: usize) {
    if at + 2 <= file.len() {
        file[at..at + 2].copy_from_slice(&two(n as u16));
    }
}

fn add2(file: &mut [u8], at: usize, n: isize) {
    if at + 2 <= file.len() {
        let now = pair(file, at) as isize;
        put2(file, at, (now + n) as usize & 0xFFFF);
    }
}

/// Names, descriptors and bytes that are good in one place and bad in another.
const TEXTS: [&[u8]; 64] = [
    b"",
    b"A",
    b"a/b",
    b"a//b",
    b"/a",
    b"a/",
    b"a.b",
    b"a;b",
    b"a[b",
    b"<init>",
    b"<clinit>",
    b"<x>",
    b"x<",
    b"x>",
    b"<",
    b"[",
    b"[V",
    b"[I",
    b"[[J",
    b"[L;",
    b"[La;",
    b"[La/b;",
    b"[La",
    b"[Ia",
    b"I",
    b"V",
    b"B",
    b"C",
    b"D",
    b"F",
    b"J",
    b"S",
    b"Z",
    b"L;",
    b"La;",
    b"La/b;",
    b"La//b;",
    b"La<b>;",
    b"L<;",
    b"Ia",
    b"II",
    b"()V",
    b"()I",
    b"()",
    b"(",
    b"(I",
    b"(I)V",
    b"(V)V",
    b"()VV",
    b"()IX",
    b"(IJ[D)La;",
    b"(La<b;)V",
    b"()[V",
    b"a\\",
    b"\\\\",
    b"\\:",
    b"a:b",
    b"a@b",
    b"\\@x",
    b"\\a",
    b"a\x1Fb",
    b"a b",
    b"BootstrapMethods",
    b"Code",
];

const RAW: [&[u8]; 24] = [
    &[0],
    &[0xC0, 0x80],
    &[0xC0, 0x81],
    &[0xC1, 0xBF],
    &[0xC2, 0x80],
    &[0xC2],
    &[0x80],
    &[0xDF, 0xBF],
    &[0xE0, 0x80, 0x80],
    &[0xE0, 0x9F, 0xBF],
    &[0xE0, 0xA0, 0x80],
    &[0xED, 0x9F, 0xBF],
    &[0xED, 0xA0, 0x80],
    &[0xED, 0xAF, 0xBF],
    &[0xED, 0xB0, 0x80],
    &[0xED, 0xA0, 0x80, 0xED, 0xB0, 0x80],
    &[0xED, 0xAF, 0xBF, 0xED, 0xBF, 0xBF],
    &[0xED, 0xB0, 0x80, 0xED, 0xA0, 0x80],
    &[0xED, 0xA0, 0x80, 0xED, 0xA0, 0x80],
    &[0xEE, 0x80, 0x80],
    &[0xEF, 0xBF, 0xBF],
    &[0xEF, 0xBF],
    &[0xF0, 0x90, 0x80, 0x80],
    &[0xFF],
];

const LETTERS: &[u8] = b"()[[LL;;IJVZ/a<>.b";

fn some_text(rng: &mut Rng) -> Vec<u8> {
    match rng.below(8) {
        0..=3 => rng.pick(&TEXTS).to_vec(),
        4 => rng.pick(&RAW).to_vec(),
        5 => [*rng.pick(&TEXTS), *rng.pick(&RAW)].concat(),
        6 => (0..1 + rng.below(6)).map(|_| *rng.pick(LETTERS)).collect(),
        _ => {
            let mut s = vec![b'['; [1, 2, 254, 255, 256, 300][rng.below(6)]];
            s.extend_from_slice([&b"I"[..], b"La;", b"V", b""][rng.below(4)]);
            if rng.below(2) == 0 {
                s = [b"(", &s[..], b")V"].concat();
            }
            s
        }
    }
}

/// An index to put: the entry's own slot, 0, P, P + 1, 65535, an Unused, or any.
fn some_index(rng: &mut Rng, l: &Layout, own: usize) -> usize {
    let Some(pool) = &l.pool else { return rng.below(65536) };
    let p = pool.cells.len();
    match rng.below(10) {
        0 => own,
        1 => 0,
        2 => p,
        3 => p + 1,
        4 => 65535,
        5 => {
            let unused: Vec<usize> = (1..p).filter(|&n| pool.cells[n] == 0).collect();
            if unused.is_empty() {
                own
            } else {
                *rng.pick(&unused)
            }
        }
        6 => p.saturating_sub(1),
        _ => rng.below(p),
    }
}

fn replace_utf8(file: &mut Vec<u8>, at: usize, with: &[u8]) {
    let n = pair(file, at + 1);
    file.splice(at + 1..at + 3 + n, [&two(with.len() as u16)[..], with].concat());
}

/// An entry at the pool's end.
fn add_entry(rng: &mut Rng, file: &mut Vec<u8>, l: &Layout) {
    let Some(pool) = &l.pool else { return };
    let own = pool.cells.len();
    let mut index = || two(some_index(rng, l, own) as u16);
    let (a, b) = (index(), index());
    let tag = [1, 3, 4, 5, 6, 7, 8, 9, 10, 11, 12, 15, 16, 17, 18, 19, 20][rng.below(17)];
    let mut e = vec![tag];
    match tag {
        1 => {
            let s = some_text(rng);
            e.extend_from_slice(&two(s.len() as u16));
            e.extend_from_slice(&s);
        }
        3 | 4 => e.extend_from_slice(&(rng.next() as u32).to_be_bytes()),
        5 | 6 => e.extend_from_slice(&rng.next().to_be_bytes()),
        7 | 8 | 16 | 19 | 20 => e.extend_from_slice(&a),
        15 => e.extend_from_slice(&[rng.below(11) as u8, a[0], a[1]]),
        17 | 18 => e.extend_from_slice(&[0, rng.below(4) as u8, b[0], b[1]]),
        _ => e.extend_from_slice(&[a, b].concat()),
    }
    let end = pool.end;
    file.splice(end..end, e);
    let wide = rng.below(3) > 0 && (tag == 5 || tag == 6);
    add2(file, 8, if wide { 2 } else { 1 });
}

/// Puts a text into the Utf8 that an index names.
fn rename(rng: &mut Rng, file: &mut Vec<u8>, l: &Layout, index: usize, with: &[u8]) {
    let Some(pool) = &l.pool else { return };
    let slot = pair(file, index);
    let v = View { file, major: pool.major, cells: &pool.cells };
    if slot < pool.cells.len() && v.tag(slot) == 1 {
        let at = v.at(slot);
        replace_utf8(file, at, with);
    } else {
        add2(file, index, rng.below(3) as isize - 1);
    }
}

fn special_methods(rng: &mut Rng, file: &mut Vec<u8>, l: &Layout) {
    if l.named.is_empty() {
        return;
    }
    let (name, descriptor) = *rng.pick(&l.named);
    let d = [&b"()V"[..], b"()I", b"(I)V", b"(I)I", b"()[V", b"(", b"()VX", b"()LA;", b"(LA;[I)V", b"I"][rng.below(10)].to_vec();
    let n = [&b"<init>"[..], b"<clinit>", b"<init", b"<>", b"init"][rng.below(5)].to_vec();
    rename(rng, file, l, name, &n);
    let l = layout(file);
    if let Some(&(_, at)) = l.named.iter().find(|x| x.1 == descriptor).or(l.named.last()) {
        rename(rng, file, &l, at, &d);
    }
}

fn bootstrap_change(rng: &mut Rng, file: &mut Vec<u8>, l: &Layout) {
    let list = if l.bootstraps.is_empty() || rng.below(4) == 0 { &l.attributes } else { &l.bootstraps };
    if list.is_empty() {
        return;
    }
    let (first, end, counted) = *rng.pick(list);
    match rng.below(6) {
        0 => {
            file.drain(first..end);
            add2(file, counted, -1);
        }
        1 => {
            let copy = file[first..end].to_vec();
            file.splice(end..end, copy);
            add2(file, counted, 1);
        }
        2 => {
            // Shortened together with its length.
            let cut = 1 + rng.below(3);
            if end - first > 6 + cut {
                file.drain(end - cut..end);
                let n = four(file, first + 2) - cut;
                file[first + 2..first + 6].copy_from_slice(&(n as u32).to_be_bytes());
            }
        }
        3 => {
            let more = 1 + rng.below(3);
            file.splice(end..end, vec![0; more]);
            let n = four(file, first + 2) + more;
            file[first + 2..first + 6].copy_from_slice(&(n as u32).to_be_bytes());
        }
        4 => add2(file, first + 6, rng.below(3) as isize - 1),
        _ => {
            if end >= first + 8 {
                let at = first + 6 + rng.below(end - first - 7);
                let n = some_index(rng, l, 0);
                put2(file, at, n);
            }
        }
    }
}

fn member_change(rng: &mut Rng, file: &mut Vec<u8>, l: &Layout) {
    if l.members.is_empty() {
        return;
    }
    let (first, end, counted) = *rng.pick(&l.members);
    match rng.below(3) {
        0 => {
            let copy = file[first..end].to_vec();
            file.splice(end..end, copy);
            add2(file, counted, 1);
        }
        1 => {
            file.drain(first..end);
            add2(file, counted, -1);
        }
        _ => {
            // The name and descriptor of another member.
            let (from, _, _) = *rng.pick(&l.members);
            let pair: Vec<u8> = file[from + 2..from + 6].to_vec();
            file[first + 2..first + 6].copy_from_slice(&pair);
        }
    }
}

fn length_change(rng: &mut Rng, file: &mut [u8], l: &Layout) {
    if l.lengths.is_empty() {
        return;
    }
    let at = *rng.pick(&l.lengths);
    let now = four(file, at) as u32;
    let left = (file.len() - at - 4) as u32;
    let n = match rng.below(7) {
        0 => now.wrapping_add(1),
        1 => now.wrapping_sub(1),
        2 => 0,
        3 => u32::MAX,
        4 => left,
        5 => left + 1,
        _ => rng.next() as u32 >> rng.below(32),
    };
    file[at..at + 4].copy_from_slice(&n.to_be_bytes());
}

fn once(rng: &mut Rng, file: &mut Vec<u8>) {
    if file.len() < 10 {
        return;
    }
    let l = layout(file);
    match rng.below(20) {
        0 => file.truncate(rng.below(file.len() + 1)),
        1 => {
            let more = 1 + rng.below(4);
            file.extend((0..more).map(|_| rng.next() as u8));
        }
        2 => {
            if let Some(pool) = &l.pool {
                let slot = rng.below(pool.cells.len());
                let at = pool.cells[slot] as usize;
                if at != 0 {
                    file[at] = rng.below(22) as u8;
                }
            }
        }
        3 => put2(file, 6, 43 + rng.below(20)),
        4 => {
            let at = *l.counts.get(rng.below(l.counts.len())).unwrap_or(&8);
            match rng.below(5) {
                0 => put2(file, at, rng.below(3)),
                1 => put2(file, at, 65535),
                2 => add2(file, at, 1),
                3 => add2(file, at, -1),
                _ => put2(file, at, rng.below(40)),
            }
        }
        5 | 6 if !l.refs.is_empty() => {
            let (at, own) = *rng.pick(&l.refs);
            let n = some_index(rng, &l, own);
            put2(file, at, n);
        }
        7 | 8 if !l.utf8s.is_empty() => {
            let at = *rng.pick(&l.utf8s);
            let s = some_text(rng);
            replace_utf8(file, at, &s);
        }
        9 if !l.utf8s.is_empty() => {
            let at = *rng.pick(&l.utf8s);
            let n = pair(file, at + 1);
            if n > 0 {
                let b = at + 3 + rng.below(n);
                file[b] = if rng.below(2) == 0 { rng.next() as u8 } else { *rng.pick(LETTERS) };
            }
        }
        10 if !l.indices.is_empty() => {
            let at = *rng.pick(&l.indices);
            let n = some_index(rng, &l, 0);
            put2(file, at, n);
        }
        11 | 12 => special_methods(rng, file, &l),
        13 => member_change(rng, file, &l),
        14 => bootstrap_change(rng, file, &l),
        15 => length_change(rng, file, &l),
        16 => add_entry(rng, file, &l),
        17 if l.flags != 0 => put2(file, l.flags, rng.next() as usize & if rng.below(4) == 0 { 0xFFFF } else { 0x7FFF }),
        18 => {
            let at = rng.below(file.len());
            file[at] = rng.next() as u8;
        }
        _ => {
            let at = rng.below(file.len());
            match rng.below(3) {
                0 => {
                    file.remove(at);
                }
                1 => file.insert(at, rng.next() as u8),
                _ => file[at] ^= 1 << rng.below(8),
            }
        }
    }
}

/// Every place of a file where a slot's number stands, and the number of slots.
pub fn slot_numbers(file: &[u8]) -> (Vec<usize>, usize) {
    let l = layout(file);
    let p = l.pool.as_ref().map_or(0, |p| p.cells.len());
    (l.refs.iter().map(|r| r.0).chain(l.indices).collect(), p)
}

/// One to three changes.
pub fn mutant(rng: &mut Rng, seed: &[u8]) -> Vec<u8> {
    let mut file = seed.to_vec();
    let n = [1, 1, 1, 1, 2, 2, 3][rng.below(7)];
    for _ in 0..n {
        once(rng, &mut file);
    }
    file
}
