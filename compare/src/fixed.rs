//! The fixed list: some thousands of small cases with the answers of both, written as the input and the
//! expected output of a program that replays them against the proved code, with no Rust needed.
//!
//! A line is words with one blank between them: a command, hex bytes (`-` for none) and numbers, and last
//! what the crate does. The expected output repeats the line and gives the answer of the rules, in the words
//! of the programs that replay it:
//!   read CELLS FILE CRATE                         crates/pool_vectors
//!   hex FILE HANDED SLOT ROOM [CELL VALUE]        crates/dependants_vectors
//!   LOOKUP FILE TABLE SLOT CRATE                  crates/lookup_vectors; the table's cells in four bytes each
//!   class SIZE FILE CRATE                         crates/class_vectors; SIZE says how large the lent tables are

use crate::check::{foretelling, neutralise};
use crate::forms;
use crate::inputs::{self, Exhaustive};
use crate::model::{self, Answer, Class, Lookup, Pool, Room, Rules, LOOKUPS};
use crate::mutate::{mutant, slot_numbers};
use crate::rng::Rng;
use cafebabe::{parse_class, ParseOptions};
use std::collections::{HashMap, HashSet};

fn hex(bytes: &[u8]) -> String {
    if bytes.is_empty() {
        return "-".into();
    }
    bytes.iter().map(|b| format!("{b:02x}")).collect()
}

fn table_bytes(cells: &[u32], lent: usize) -> Vec<u8> {
    let mut out: Vec<u8> = cells.iter().flat_map(|c| c.to_be_bytes()).collect();
    out.resize(lent, 0);
    out
}

fn word(accepted: Option<bool>) -> &'static str {
    match accepted {
        Some(true) => "crate-accepts",
        Some(false) => "crate-refuses",
        None => "crate-dies",
    }
}

fn endless(file: &[u8]) -> bool {
    matches!(model::pool(file, None, foretelling()), Err(r) if r.no == model::ENDLESS)
}

fn crate_pool(file: &[u8]) -> &'static str {
    word(if endless(file) { None } else { Some(ParseOptions::probe_pool(file).is_ok()) })
}

fn crate_class(file: &[u8]) -> &'static str {
    word(if endless(file) { None } else { Some(parse_class(file).is_ok()) })
}

/// What the crate's lookup of this kind does; it has no handed tables and hands back no part.
fn crate_look(file: &[u8], which: Lookup, slot: u32, no: u32) -> &'static str {
    let bit = match which {
        Lookup::Literal => 1,
        Lookup::ClassName => 2,
        Lookup::ModuleName => 4,
        Lookup::PackageName => 8,
        Lookup::MethodType => 16,
        Lookup::NameAndType => 32,
        Lookup::MemberReference => 64,
        Lookup::MethodHandle => 128,
        Lookup::Dynamic => 256,
        Lookup::InvokeDynamic => 512,
        Lookup::Text => 1024,
        Lookup::Utf8Part => return "crate-has-none",
    };
    if no == 12 {
        return "crate-has-no-table";
    }
    if endless(file) {
        return "crate-dies";
    }
    match ParseOptions::probe_lookups(file, &[slot as usize]) {
        Ok(looks) if looks[0].1 == 254 && which == Lookup::NameAndType => "crate-panics",
        Ok(looks) if which == Lookup::Text && no == 0 && looks[0].0 & bit == 0 => "crate-keeps-bytes",
        Ok(looks) => word(Some(looks[0].0 & bit != 0)),
        Err(_) => "crate-refuses",
    }
}

fn numbers(xs: impl IntoIterator<Item = u64>) -> String {
    xs.into_iter().map(|x| x.to_string()).collect::<Vec<_>>().join(" ")
}

/// How many lines there may be of a command with the same refusal: most where the refusal is its own.
fn most(command: &str, refusal: u32) -> usize {
    match (command, refusal) {
        ("class", 0) => 160,
        ("class", 8 | 16 | 17) => 110,
        ("class", _) => 70,
        ("read", 0) => 600,
        ("read", _) => 330,
        ("hex", 0 | 12 | 13) => 200,
        ("hex", _) => 20,
        ("literal", 0) => 90,
        (_, 0 | 8 | 12) => 40,
        (_, 7) => 12,
        _ => 4,
    }
}

/// The command of a line; a lookup of a class's name is told from a call on a whole class.
fn kind_of(line: &str) -> String {
    let words: Vec<&str> = line.split(' ').collect();
    if words[0] == "class" && words.len() == 5 {
        return kind_of_look(Lookup::ClassName).into();
    }
    words[0].into()
}

fn kind_of_look(which: Lookup) -> &'static str {
    match which {
        Lookup::ClassName => "class_name",
        _ => name_of(which),
    }
}

/// The list while it grows: so many lines of a kind, none twice.
struct List {
    lines: Vec<(String, String)>,
    seen: HashSet<String>,
    kinds: HashMap<(String, u32), usize>,
}

impl List {
    fn put(&mut self, line: String, refusal: u32, answer: String) {
        let command = kind_of(&line);
        let full = self.full(&command, refusal);
        let kind = self.kinds.entry((command, refusal)).or_default();
        if full || !self.seen.insert(line.clone()) {
            return;
        }
        *kind += 1;
        self.lines.push((line, answer));
    }

    fn full(&self, command: &str, refusal: u32) -> bool {
        self.kinds.get(&(command.to_string(), refusal)).is_some_and(|&n| n >= most(command, refusal))
    }

    fn pool(&mut self, file: &[u8], cells: usize) {
        let answer: Answer<Pool> = model::pool(file, Some(cells), Rules::default());
        let no = answer.as_ref().err().map_or(0, |r| r.no);
        if self.full("read", no) {
            return;
        }
        let (mut said, made) = match answer {
            Ok(p) => (format!("P {}, version {}.{}, then byte {} |", p.cells.len(), p.major, p.minor, p.end), p.cells),
            Err(r) => (format!("{} at {} |", r.no, r.place), vec![]),
        };
        for n in 0..cells {
            said.push_str(&format!(" {}", made.get(n).unwrap_or(&0)));
        }
        self.put(format!("read {cells} {} {}", hex(file), crate_pool(file)), no, said);
    }

    fn class(&mut self, file: &[u8], size: &str) {
        let room = room_of(size);
        let answer = model::class(file, room, Rules::default());
        let no = answer.as_ref().err().map_or(0, |r| r.no);
        if self.full("class", no) {
            return;
        }
        let line = format!("class {size} {} {}", hex(file), crate_class(file));
        self.put(line, no, class_answer(&answer, room));
    }

    fn look(&mut self, file: &[u8], cells: &[u32], which: Lookup, slot: u32) {
        let name = name_of(which);
        let answer = model::look(file, cells, which, slot);
        let no = answer.err().map_or(0, |r| r.no);
        if self.full(kind_of_look(which), no) {
            return;
        }
        let said = match answer {
            Ok(values) => look_answer(file, which, &values),
            Err(_) if which == Lookup::Utf8Part => "-".into(),
            Err(r) => format!("refused {} {}", r.no, r.place),
        };
        let word = crate_look(file, which, slot, no);
        self.put(format!("{name} {} {} {slot} {word}", hex(file), hex(&table_bytes(cells, 4 * cells.len()))), no, said);
    }

    /// `made`: the table that the entries give; `cells`: the one handed in, which differs in one cell at most.
    fn dependants(&mut self, file: &[u8], made: &[u32], cells: &[u32], slot: u32, room: usize) {
        let answer = model::dependants(file, cells, slot, room);
        let no = answer.as_ref().err().map_or(0, |r| r.no);
        let (mut said, list) = match answer {
            Ok(list) => (format!("listed {}:", list.len()), list),
            Err(r) => (format!("refused {} at {}:", r.no, r.place), vec![]),
        };
        for n in 0..room {
            said.push_str(&format!(" {}", list.get(n).unwrap_or(&0)));
        }
        let changed = (0..cells.len()).find(|&n| cells[n] != made.get(n).copied().unwrap_or(0));
        let changed = changed.map_or(String::new(), |n| format!(" {n} {}", cells[n]));
        self.put(format!("hex {} {} {slot} {room}{changed}", hex(file), cells.len()), no, said);
    }
}

fn name_of(which: Lookup) -> &'static str {
    match which {
        Lookup::Literal => "literal",
        Lookup::ClassName => "class",
        Lookup::ModuleName => "module",
        Lookup::PackageName => "package",
        Lookup::MethodType => "method_type",
        Lookup::NameAndType => "name_and_type",
        Lookup::MemberReference => "member",
        Lookup::MethodHandle => "handle",
        Lookup::Dynamic => "dynamic",
        Lookup::InvokeDynamic => "invoke_dynamic",
        Lookup::Text => "utf8",
        Lookup::Utf8Part => "part",
    }
}

/// A literal in words: below zero is said of numbers, and of floats that are none that they are none.
fn literal_answer(tag: u64, bits: u64) -> String {
    let (name, below, number) = match tag {
        3 => ("integer", (bits as u32 as i32) < 0, true),
        4 => ("float", f32::from_bits(bits as u32) < 0.0, !f32::from_bits(bits as u32).is_nan()),
        5 => ("long", (bits as i64) < 0, true),
        6 => ("double", f64::from_bits(bits) < 0.0, !f64::from_bits(bits).is_nan()),
        _ => ("string", false, true),
    };
    let none = if number { "" } else { " that is no number" };
    format!("{name}{none} {bits}{}", if below { " below zero" } else { "" })
}

fn look_answer(file: &[u8], which: Lookup, v: &model::Values) -> String {
    match which {
        Lookup::Literal => literal_answer(v[0], v[1]),
        Lookup::ClassName | Lookup::ModuleName | Lookup::PackageName | Lookup::MethodType => format!("slot {}", v[0]),
        Lookup::NameAndType => format!("named {} {}", v[0], v[1]),
        Lookup::MemberReference => format!("member {} {} {} {}", v[0], v[1], v[2], v[3]),
        Lookup::MethodHandle => format!("kind {} member {} {} {} {}", v[0], v[1], v[2], v[3], v[4]),
        Lookup::Dynamic | Lookup::InvokeDynamic => format!("index {} named {} {}", v[0], v[1], v[2]),
        Lookup::Text => if v[0] == 1 { "text" } else { "raw" }.into(),
        Lookup::Utf8Part => hex(&file[v[0] as usize..(v[0] + v[1]) as usize]),
    }
}

/// The tables that the program lends: cells, interfaces, member records, attribute records.
fn room_of(size: &str) -> Room {
    let (cells, interfaces, members, attributes) = match size {
        "short" => (5, 1, 1, 1),
        "tight" => (60, 1, 1, 1),
        "large" => (80, 4, 20, 30),
        _ => (60, 3, 4, 5),
    };
    Room { cells, interfaces, members, attributes }
}

fn class_answer(answer: &Answer<Class>, room: Room) -> String {
    let mut out = match answer {
        Ok(c) => format!(
            "accepted {}",
            numbers([
                c.pool.cells.len() as u64,
                c.pool.minor as u64,
                c.pool.major as u64,
                u64::from(c.flags),
                u64::from(c.this),
                u64::from(c.super_class),
                c.interfaces.len() as u64,
                c.fields as u64,
                c.methods as u64,
                c.member_attributes as u64,
                (c.attributes.len() - c.member_attributes) as u64,
            ])
        ),
        Err(r) => format!("refused {} {}", r.no, r.place),
    };
    let c = answer.as_ref().ok();
    let mut column = |name: &str, lent: usize, cells: Vec<u64>| {
        out.push_str(&format!("\n  {name}"));
        for x in cells.into_iter().chain(std::iter::repeat(0)).take(lent) {
            out.push_str(&format!(" {x}"));
        }
    };
    let members = |f: fn(&model::Member) -> u64| c.map_or(vec![], |c| c.members.iter().map(f).collect());
    let attributes = |f: fn(&model::Attribute) -> u64| c.map_or(vec![], |c| c.attributes.iter().map(f).collect());
    column("cells", room.cells, c.map_or(vec![], |c| c.pool.cells.iter().map(|&x| u64::from(x)).collect()));
    column("interfaces", room.interfaces, c.map_or(vec![], |c| c.interfaces.iter().map(|&x| u64::from(x)).collect()));
    column("flags", room.members, members(|m| u64::from(m.flags)));
    column("names", room.members, members(|m| u64::from(m.name)));
    column("descriptors", room.members, members(|m| u64::from(m.descriptor)));
    column("firsts", room.members, members(|m| u64::from(m.first)));
    column("counts", room.members, members(|m| u64::from(m.count)));
    column("attributes", room.attributes, attributes(|a| u64::from(a.name)));
    column("bodies", room.attributes, attributes(|a| u64::from(a.body)));
    column("lengths", room.attributes, attributes(|a| u64::from(a.length)));
    out
}

/// A case from a file: the calls on it, with tables by chance.
fn add(list: &mut List, rng: &mut Rng, file: &[u8]) {
    let Ok(entries) = model::entries(file, None, Rules::default()) else {
        list.pool(file, rng.below(9));
        list.class(file, "small");
        list.look(file, &[0, 10], *rng.pick(&LOOKUPS), rng.below(3) as u32);
        list.dependants(file, &[], &[0, 0], 1, 2);
        return;
    };
    let cells = entries.cells;
    let p = cells.len();
    let room = match rng.below(5) {
        0 => rng.below(p + 1),
        _ => p + rng.below(3),
    };
    list.pool(file, room);
    if entries.end < file.len() {
        let size = ["small", "small", "small", "small", "small", "large", "tight", "tight", "short"][rng.below(9)];
        list.class(file, size);
    }
    let mut handed = cells.clone();
    match rng.below(8) {
        0 => handed.push(0),
        1 => handed.push(7),
        2 => {
            handed.pop();
        }
        3 => {
            let n = rng.below(p);
            handed[n] = handed[n].wrapping_add(1);
        }
        _ => (),
    }
    let slot = if rng.below(12) == 0 { p + rng.below(3) } else { rng.below(p) } as u32;
    for which in LOOKUPS {
        if rng.below(3) == 0 || model::look(file, &handed, which, slot).is_ok() {
            list.look(file, &handed, which, slot);
        }
    }
    list.dependants(file, &cells, &handed, slot, rng.below(7));
}

/// Short inputs that the list is never without: every kind of handle on every kind of member, each tag around the
/// majors that matter, short names and descriptors, module names, and texts at the borders.
fn chosen(short: &Exhaustive) -> Vec<Vec<u8>> {
    let mut out = vec![];
    let mut start = 0;
    for &(family, count) in &short.families {
        let take: Vec<u64> = match family {
            "handles" => (0..11 * 5 * 3).collect(),
            "tags" => (0..16 * 256).filter(|n| n % 256 < 22 && [50, 51, 52, 53, 54, 55].contains(&(45 + n / 256))).collect(),
            "class name" | "field descriptor" | "method type" => (0..111).collect(),
            "method descriptor" => (0..300).collect(),
            "module name" => (0..73).collect(),
            "text" => (0..24).chain((24..600).step_by(7)).collect(),
            "member" => (0..333).collect(),
            _ => vec![],
        };
        out.extend(take.into_iter().map(|n| short.get(start + n).file));
        start += count;
    }
    for s in [&[0xC0, 0x80][..], b"a\xC0\x80", b" ", b"\x7F", b"\xC2\x80"] {
        let mut f = forms::Form::new();
        f.one(19, 2);
        f.utf8(s);
        out.push(f.head(53));
    }
    out
}

/// Call sites on every number of BootstrapMethods attributes, and a bootstrap method that names every slot.
fn call_sites() -> Vec<Vec<u8>> {
    let mut out: Vec<Vec<u8>> = inputs::combined().into_iter().take(11 * 16).collect();
    for file in [forms::compact(55, false), forms::compact(55, true)] {
        let (places, p) = slot_numbers(&file);
        // The handle and the arguments stand last.
        for &at in places.iter().filter(|&&at| at + 12 > file.len()) {
            for slot in 0..p + 2 {
                let mut file = file.clone();
                file[at..at + 2].copy_from_slice(&forms::two(slot as u16));
                out.push(file);
            }
        }
    }
    out
}

/// Pools of numbers at their borders, with the slots to look up.
fn literals() -> Vec<(Vec<u8>, Vec<u32>)> {
    let singles = [
        0,
        1,
        0x7F80_0000,
        0xFF80_0000,
        0x7F80_0001,
        0x7FC0_0000,
        0x7FC0_0001,
        0xFFFF_FFFF,
        0x8000_0000,
        0x7FFF_FFFF,
        0x007F_FFFF,
        0xBF80_0000u32,
    ];
    let doubles = [
        0,
        1,
        0x7FF0 << 48,
        0xFFF0 << 48,
        (0x7FF0 << 48) + 1,
        0x7FF8 << 48,
        (0xFFF8u64 << 48) + 0x123,
        u64::MAX,
        1 << 63,
        i64::MAX as u64,
        0xBFF0 << 48,
    ];
    let mut out = vec![];
    for tag in 3..=6 {
        let mut f = forms::Form::new();
        let slots = if tag < 5 {
            singles.iter().map(|b| u32::from(f.put(tag, &b.to_be_bytes()))).collect()
        } else {
            doubles.iter().map(|b| u32::from(f.put(tag, &b.to_be_bytes()))).collect()
        };
        out.push((f.head(52), slots));
    }
    out
}

/// Writes `stdin` and `stdout` into four folders: the calls of pools, classes, lists of dependants, and lookups.
pub fn run(folder: &str, seed: u64) -> bool {
    let mut list = List { lines: vec![], seen: HashSet::new(), kinds: HashMap::new() };
    let mut rng = Rng::of(seed, 0xF1);
    for file in inputs::examples() {
        add(&mut list, &mut rng, &file);
    }
    for d in crate::departures::all() {
        if d.file.len() < 1000 {
            add(&mut list, &mut rng, &d.file);
        }
    }
    let short = Exhaustive::new(3);
    for file in chosen(&short) {
        add(&mut list, &mut rng, &file);
    }
    for (file, slots) in literals() {
        let cells = model::entries(&file, None, Rules::default()).expect("a pool").cells;
        for slot in slots {
            list.look(&file, &cells, Lookup::Literal, slot);
        }
    }
    for file in call_sites() {
        add(&mut list, &mut rng, &file);
        list.class(&file, "small");
    }
    for _ in 0..600 {
        let case = short.get(rng.next() % short.len());
        add(&mut list, &mut rng, &case.file);
    }
    let seeds: Vec<Vec<u8>> =
        [45, 50, 51, 52, 53, 55, 61].into_iter().flat_map(|m| [forms::compact(m, false), forms::compact(m, true)]).collect();
    for n in 0..20_000 {
        let mut own = Rng::of(seed, n);
        let mut file = mutant(&mut own, &seeds[n as usize % seeds.len()]);
        neutralise(&mut file);
        if file.len() < 400 {
            add(&mut list, &mut rng, &file);
        }
    }
    for name in ["pool", "class", "dependants", "lookups"] {
        let of = |line: &str| match line.split(' ').next() {
            Some("read") => "pool",
            Some("class") if line.split(' ').count() == 4 => "class",
            Some("hex") => "dependants",
            _ => "lookups",
        };
        let chosen: Vec<&(String, String)> = list.lines.iter().filter(|l| of(&l.0) == name).collect();
        let head = format!(
            "# Answers of the rules and of the crate cafebabe 0.9.0, made by `make fixed-list` with seed {seed}; compare/src/fixed.rs tells the words of a line.\n"
        );
        let stdin: String = head.clone() + &chosen.iter().map(|l| l.0.clone() + "\n").collect::<String>();
        let stdout: String =
            head + &chosen.iter().map(|l| format!("{}{}{}\n", l.0, if name == "class" { "\n" } else { " -> " }, l.1)).collect::<String>();
        let folder = format!("{folder}/{name}");
        std::fs::create_dir_all(&folder).expect("a folder");
        std::fs::write(format!("{folder}/stdin"), &stdin).expect("stdin");
        std::fs::write(format!("{folder}/stdout"), &stdout).expect("stdout");
        println!("{folder}: {} cases, {} and {} bytes", chosen.len(), stdin.len(), stdout.len());
    }
    let mut counts: Vec<_> = list.kinds.iter().collect();
    counts.sort();
    for ((command, no), n) in counts {
        print!(" {command}/{no}:{n}");
    }
    println!();
    true
}
