//! The files that are tried: a pack of compiled classes, files put together by hand, exhaustive short
//! inputs, and mutants.

use crate::check::{neutralise, Case};
use crate::forms::{self, Form, Rest};
use crate::mutate::{mutant, slot_numbers};
use crate::rng::Rng;

/// A pack: for each class its length in four bytes, then its bytes.
pub fn unpack(path: &str) -> Vec<Vec<u8>> {
    let bytes = std::fs::read(path).unwrap_or_else(|e| panic!("{path}: {e}"));
    let mut out = vec![];
    let mut at = 0;
    while at + 4 <= bytes.len() {
        let n = u32::from_be_bytes([bytes[at], bytes[at + 1], bytes[at + 2], bytes[at + 3]]) as usize;
        out.push(bytes[at + 4..at + 4 + n].to_vec());
        at += 4 + n;
    }
    assert!(at == bytes.len(), "{path}: cut");
    out
}

pub fn from_hex(s: &str) -> Vec<u8> {
    s.split_whitespace().map(|b| u8::from_str_radix(b, 16).expect("hex")).collect()
}

/// The files of the rules' own examples, A to P, and the two after them.
pub fn examples() -> Vec<Vec<u8>> {
    let mut out = vec![vec![], from_hex("CA FE BA BE 00 00 00 34")];
    for (major, body) in [
        (52, "00 00"),
        (52, "00 01"),
        (52, "00 02 03 FF FF FF FF"),
        (52, "00 02 03 80 00 00 00"),
        (52, "00 03 07 00 02 01 00 01 41"),
        (52, "00 02 07 00 01"),
        (52, "00 02 07 00 02"),
        (52, "00 02 07 00 00"),
        (52, "00 02 05 00 00 00 00 00 00 00 01"),
        (52, "00 04 05 00 00 00 00 00 00 00 01 08 00 02"),
        (50, "00 02 10 00 00"),
        (51, "00 02 10 00 00"),
        (52, "00 03 08 00 02 01 00 03 ED A0 80"),
        (52, "00 03 07 00 02 01 00 03 ED A0 80"),
        (52, "00 07 0F 01 00 02 09 00 03 00 04 07 00 05 0C 00 05 00 06 01 00 01 41 01 00 01 49"),
        (52, "00 06 0A 00 02 00 03 07 00 05 0C 00 05 00 04 0C 00 05 00 03 01 00 01 41"),
    ] {
        let mut f = from_hex("CA FE BA BE 00 00 00");
        f.push(major);
        f.extend(from_hex(body));
        out.push(f);
    }
    out
}

/// Files put together by hand, small enough that a change hits something.
pub fn seeds() -> Vec<Vec<u8>> {
    let mut out = vec![];
    for major in [45, 50, 51, 52, 53, 55, 61] {
        out.push(forms::smallest(major));
        out.push(forms::everything(major, false));
        out.push(forms::everything(major, true));
    }
    out
}

/// Files at the limits: 16 MiB to the byte, and pools that end at slots 65,533 to 65,535 with and without
/// a wide entry last, with a class behind them.
pub fn large() -> Vec<Vec<u8>> {
    let mut f = Form::new();
    let this = f.class(b"A");
    let pad = f.utf8(b"Pad");
    let with = |n: usize| f.file(52, &Rest { this, attributes: vec![forms::attribute(pad, &vec![0; n])], ..Rest::default() });
    let empty = with(0).len();
    let mut out = vec![with(16_777_216 - empty)];
    for (last, wide, count) in [
        (65534, true, 65535),
        (65533, true, 65535),
        (65533, true, 65534),
        (65532, true, 65534),
        (65534, false, 65535),
        (65532, false, 65533),
    ] {
        let mut f = Form::new();
        let this = f.class(b"A");
        while f.slots < last {
            f.utf8(b"");
        }
        if wide {
            f.pool.extend([6, 0, 1, 2, 3, 4, 5, 6, 7]);
        } else {
            f.utf8(b"");
        }
        let next = if wide { u32::from(last) + 2 } else { u32::from(last) + 1 };
        for _ in next..count {
            f.utf8(b"");
        }
        let mut file = f.file(52, &Rest { this, ..Rest::default() });
        file[8..10].copy_from_slice(&forms::two(count as u16));
        out.push(file);
    }
    out
}

/// Every text of up to five letters of the grammar, as a class name, a field's and a method's descriptor,
/// a method type; then short pools over a small alphabet; then bytes of texts around every border.
pub struct Exhaustive {
    pub families: Vec<(&'static str, u64)>,
}

const LETTERS: &[u8; 10] = b"()[L;IV/a<";
const BORDERS: [u8; 24] = [
    0x00, 0x01, 0x7F, 0x80, 0x8F, 0x90, 0x9F, 0xA0, 0xAF, 0xB0, 0xBF, 0xC0, 0xC1, 0xC2, 0xDF, 0xE0, 0xE1, 0xEC, 0xED, 0xEE, 0xEF, 0xF0,
    0xF4, 0xFF,
];
const POOL_BYTES: [u8; 13] = [0, 1, 2, 3, 5, 7, 8, 9, 12, 15, 16, 18, 20];

fn digits(mut n: u64, base: u64, length: u32) -> Vec<usize> {
    (0..length)
        .map(|_| {
            let d = (n % base) as usize;
            n /= base;
            d
        })
        .collect()
}

/// The n-th string over an alphabet, shorter ones first.
fn string(mut n: u64, alphabet: &[u8]) -> Vec<u8> {
    let base = alphabet.len() as u64;
    let mut length = 0;
    while n >= base.pow(length) {
        n -= base.pow(length);
        length += 1;
    }
    digits(n, base, length).into_iter().map(|d| alphabet[d]).collect()
}

fn strings(base: u64, longest: u32) -> u64 {
    (0..=longest).map(|l| base.pow(l)).sum()
}

impl Exhaustive {
    pub fn new(longest: u32) -> Exhaustive {
        let letters = strings(10, longest);
        Exhaustive {
            families: vec![
                ("class name", letters),
                ("field descriptor", letters),
                ("method descriptor", letters),
                ("method type", letters),
                ("module name", strings(8, longest)),
                ("member", strings(10, longest.min(4)) * 3),
                ("text", 24 * 24 * 24 + 24 * 24 + 24),
                ("surrogates", 4096),
                ("pool of one", strings(13, 4)),
                ("pool of two", 13 * 6 * 13 * 6 * 6),
                ("header", 11 * 8),
                ("tags", 256 * 16),
                ("handles", 11 * 5 * 21),
            ],
        }
    }

    pub fn len(&self) -> u64 {
        self.families.iter().map(|f| f.1).sum()
    }

    pub fn get(&self, mut n: u64) -> Case {
        let number = n;
        for &(family, count) in &self.families {
            if n < count {
                return Case { family, number, file: short(family, n) };
            }
            n -= count;
        }
        unreachable!()
    }
}

fn short(family: &str, n: u64) -> Vec<u8> {
    let mut f = Form::new();
    match family {
        "class name" => {
            f.one(7, 2);
            f.utf8(&string(n, LETTERS));
        }
        "field descriptor" | "method descriptor" => {
            let class = f.class(b"A");
            let tag = if family == "field descriptor" { [9, 17][(n % 2) as usize] } else { [10, 11, 18][(n % 3) as usize] };
            let named = f.named(b"n", &string(n, LETTERS));
            f.both(tag, if tag > 11 { 0 } else { class }, named);
            return f.head(55);
        }
        "method type" => {
            f.one(16, 2);
            f.utf8(&string(n, LETTERS));
        }
        "module name" => {
            f.one(if n % 2 == 0 { 19 } else { 20 }, 2);
            f.utf8(&string(n, b"\\:@a\x1F/.\x7F"));
            return f.head(53);
        }
        "member" => {
            let s = string(n / 3, LETTERS);
            let this = f.class(b"A");
            let text = f.utf8(&s);
            let good = f.utf8(b"()V");
            let mut rest = Rest { this, ..Rest::default() };
            match n % 3 {
                0 => rest.fields.push(forms::member(0, this - 1, text, &[])),
                1 => rest.methods.push(forms::member(0, this - 1, text, &[])),
                _ => rest.methods.push(forms::member(0, text, good, &[])),
            }
            return f.file(52, &rest);
        }
        "text" => {
            let text: Vec<u8> = if n < 24 {
                vec![BORDERS[n as usize]]
            } else if n < 24 + 576 {
                digits(n - 24, 24, 2).into_iter().map(|d| BORDERS[d]).collect()
            } else {
                digits(n - 600, 24, 3).into_iter().map(|d| BORDERS[d]).collect()
            };
            let s = f.utf8(&text);
            f.one(8, s);
            let this = f.class(b"A");
            let int = f.utf8(b"I");
            f.both(12, int, s);
            return f.file(52, &Rest { this, fields: vec![forms::member(0, s, int, &[])], ..Rest::default() });
        }
        "surrogates" => {
            let d = digits(n, 4, 6);
            let high = [0xED, 0xEC, 0xEE, 0xE0][d[0]];
            let a = [0x9F, 0xA0, 0xAF, 0xB0][d[1]];
            let b = [0x80, 0xBF, 0x7F, 0xC0][d[2]];
            let low = [0xED, 0xEC, 0x41, 0xC2][d[3]];
            let c = [0xAF, 0xB0, 0xBF, 0xC0][d[4]];
            let e = [0x80, 0xBF, 0x7F, 0xC0][d[5]];
            let s = f.utf8(&[high, a, b, low, c, e]);
            f.one(8, s);
            f.one(7, s);
        }
        "pool of one" => {
            let mut file = f.head(52);
            file[9] = 2;
            file.extend(string(n, &POOL_BYTES));
            return file;
        }
        "pool of two" => {
            // Two entries of one reference each (or a wide one, or an unknown tag), and a Utf8.
            let d = digits(n, 78, 2);
            let mut file = f.head(53);
            file[9] = 4;
            for d in d {
                file.extend([POOL_BYTES[d / 6], 0, (d % 6) as u8]);
                file.extend(vec![0; [0, 0, 0, 2, 6, 0, 0, 2, 2, 1, 0, 2, 0][d / 6]]);
            }
            file.extend([1, 0, (n / 6084) as u8, 65, 66, 67, 68, 69]);
            return file;
        }
        "header" => {
            let whole = from_hex("CA FE BA BE 00 03 00 34 00 01 00");
            let cut = (n % 11) as usize;
            let mut file = whole[..cut + 1].to_vec();
            let flip = (n / 11) as usize;
            if flip < file.len() {
                file[flip] ^= 1;
            }
            return file;
        }
        "tags" => {
            // Every tag at every major from 45 to 60, with a body that suits most.
            let tag = (n % 256) as u8;
            let mut file = f.head(45 + (n / 256) as u16);
            file[9] = 3;
            file.push(tag);
            file.extend(match tag {
                1 => vec![0, 0],
                3 | 4 => vec![1, 2, 3, 4],
                5 | 6 => vec![1, 2, 3, 4, 5, 6, 7, 8],
                15 => vec![1, 0, 2],
                7 | 8 | 16 | 19 | 20 => vec![0, 2],
                _ => vec![0, 2, 0, 2],
            });
            file.extend([1, 0, 1, 65]);
            return file;
        }
        "handles" => {
            let kind = (n % 11) as u8;
            let major = 50 + (n / 11 % 5) as u16;
            let target = n / 55;
            let class = f.class(b"A");
            let field = f.member(9, class, b"n", b"I");
            let method = f.member(10, class, b"n", b"()V");
            let shared = f.member(11, class, b"n", b"()V");
            let slot = match target {
                0 => field,
                1 => method,
                2 => shared,
                t => t as u16,
            };
            f.handle(kind, slot);
            return f.head(major);
        }
        _ => unreachable!(),
    }
    f.head(52)
}

/// Classes of members and bootstrap methods in all their combinations.
pub fn combined() -> Vec<Vec<u8>> {
    let mut out = vec![];
    // So many BootstrapMethods attributes with so many methods, and two call sites with their indices.
    let lists: [&[usize]; 11] = [&[], &[0], &[1], &[2], &[0, 0], &[0, 1], &[1, 0], &[1, 1], &[1, 2], &[2, 1], &[2, 2]];
    for sizes in lists {
        for call in 0..16u16 {
            let mut f = Form::new();
            let this = f.class(b"A");
            let method = f.member(10, this, b"m", b"()V");
            let field = f.named(b"f", b"I");
            let named = f.named(b"c", b"()V");
            let handle = f.handle(6, method);
            if call % 4 < 3 {
                f.both(18, call % 4, named);
            }
            if call / 4 < 3 {
                f.both(17, call / 4, field);
            }
            let called = f.utf8(b"BootstrapMethods");
            let list = |n: usize| forms::attribute(called, &forms::bootstrap(&vec![(handle, &[][..]); n]));
            let attributes = sizes.iter().map(|&n| list(n)).collect();
            out.push(f.file(55, &Rest { this, attributes, ..Rest::default() }));
        }
    }
    // Two members with each pair of names and descriptors, in classes and interfaces, around major 51.
    let names: [&[u8]; 5] = [b"m", b"<init>", b"<clinit>", b"<x>", b"n>"];
    let descriptors: [&[u8]; 7] = [b"()V", b"()I", b"(I)V", b"(J)I", b"I", b"()[V", b"[LA;"];
    for n in 0..5 * 7 * 4 * 2 * 2 * 3 {
        let d = [n % 5, n / 5 % 7, n / 35 % 4, n / 140 % 2, n / 280 % 2, n / 560];
        let mut f = Form::new();
        let this = f.class(b"A");
        let name = f.utf8(names[d[0]]);
        let descriptor = f.utf8(descriptors[d[1]]);
        let other = f.utf8(names[d[0]]);
        let same = f.utf8(descriptors[d[1]]);
        let further = f.utf8(b"z");
        let pair = match d[2] {
            0 => (name, descriptor),
            1 => (other, same),
            2 => (further, same),
            _ => (further, descriptor),
        };
        let list = vec![forms::member(0xFFFF, name, descriptor, &[]), forms::member(1, pair.0, pair.1, &[])];
        let mut rest = Rest { flags: [0x0421, 0x0200][d[3]], this, ..Rest::default() };
        if d[4] == 0 {
            rest.methods = list;
        } else {
            rest.fields = list;
        }
        out.push(f.file([50, 51, 52][d[5]], &rest));
    }
    out
}

/// Every beginning of the files put together by hand, and each with a byte more.
pub fn cuts() -> Vec<Vec<u8>> {
    let mut out = vec![];
    for file in [forms::everything(50, false), forms::everything(55, false), forms::everything(61, true), forms::compact(52, true)] {
        out.extend((0..file.len()).map(|n| file[..n].to_vec()));
        out.push([&file[..], &[0]].concat());
    }
    out
}

/// Files in which one slot's number is changed: to every slot, to P, P + 1 and 65535, at every place.
pub struct Indices {
    files: Vec<(Vec<u8>, Vec<usize>, usize)>,
}

impl Indices {
    pub fn new() -> Indices {
        let files = [(51, false), (52, false), (55, false), (61, true)].map(|(major, interface)| {
            let file = forms::everything(major, interface);
            let (places, p) = slot_numbers(&file);
            (file, places, p)
        });
        Indices { files: files.into() }
    }

    pub fn len(&self) -> u64 {
        self.files.iter().map(|(_, places, p)| (places.len() * (p + 3)) as u64).sum()
    }

    pub fn get(&self, number: u64) -> Case {
        let mut n = number as usize;
        for (file, places, p) in &self.files {
            let count = places.len() * (p + 3);
            if n < count {
                let slot = n % (p + 3);
                let slot = if slot == p + 2 { 65535 } else { slot };
                let mut file = file.clone();
                let at = places[n / (p + 3)];
                file[at..at + 2].copy_from_slice(&forms::two(slot as u16));
                return Case { family: "index", number, file };
            }
            n -= count;
        }
        unreachable!()
    }
}

/// Mutants of given files by number: the same seed and number give the same mutant.
pub struct Mutants<'a> {
    pub seeds: &'a [Vec<u8>],
    pub compiled: &'a [Vec<u8>],
    pub seed: u64,
    /// Mutants of compiled files, in percent.
    pub share: usize,
}

impl Mutants<'_> {
    pub fn get(&self, number: u64) -> Case {
        let mut rng = Rng::of(self.seed, number);
        let from = if !self.compiled.is_empty() && rng.below(100) < self.share { self.compiled } else { self.seeds };
        let mut file = mutant(&mut rng, rng_pick(from, number));
        neutralise(&mut file);
        Case { family: "mutant", number, file }
    }
}

fn rng_pick(from: &[Vec<u8>], number: u64) -> &[u8] {
    let mut rng = Rng::of(0x5EED, number);
    let n = rng.below(from.len());
    &from[n]
}
