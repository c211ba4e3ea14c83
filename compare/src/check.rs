//! One case: the proved library against the model, call by call and table by table, and the crate
//! against the model with the crate's departures, value by value.

use crate::guard::{add, get, Shared, CRATE, MODEL, OURS};
use crate::model::{self, Answer, Class, Lookup, Pool, Refusal, Room, Rules, View, LOOKUPS};
use crate::ours::{self, Tables};
use crate::rng::Rng;
use cafebabe::attributes::{AttributeData, AttributeInfo};
use cafebabe::{parse_class, ClassFile, ParseOptions};
use std::panic::{catch_unwind, AssertUnwindSafe};
use std::sync::atomic::{AtomicUsize, Ordering::SeqCst};

/// A file to try, and where it comes from.
pub struct Case {
    pub family: &'static str,
    pub number: u64,
    pub file: Vec<u8>,
}

/// How much is tried on one case.
#[derive(Clone, Copy)]
pub struct Effort {
    /// Slots looked up.
    pub slots: usize,
    /// Whether every slot is looked up where there are few.
    pub all: bool,
    /// Tables with too little room, changed tables.
    pub rooms: usize,
    pub with_crate: bool,
}

/// The names of departures that are not switches of the model, in the order of the shared counters.
pub const RAW_PANIC: usize = 8;
pub const SEVERAL: usize = 9;
pub const CONTENTS: usize = 10;

const TOO_MANY: u64 = 12;

static FORGOTTEN: AtomicUsize = AtomicUsize::new(usize::MAX);

/// Takes a departure from the list, to show that it is then a difference.
pub fn forget(n: usize) {
    FORGOTTEN.store(n, SeqCst);
}

/// The rules by which the crate is foretold: all its known departures.
pub fn foretelling() -> Rules {
    Rules::all_but(FORGOTTEN.load(SeqCst))
}

pub struct Check<'a> {
    pub shared: &'static Shared,
    pub case: &'a Case,
}

pub fn hex(file: &[u8]) -> String {
    file.iter().map(|b| format!("{b:02X}")).collect::<Vec<_>>().join(" ")
}

/// The attribute names whose contents the crate reads and the rules do not.
const NOT_TAKEN: [&[u8]; 29] = [
    b"ConstantValue",
    b"Code",
    b"StackMapTable",
    b"Exceptions",
    b"InnerClasses",
    b"EnclosingMethod",
    b"Synthetic",
    b"Signature",
    b"SourceFile",
    b"SourceDebugExtension",
    b"LineNumberTable",
    b"LocalVariableTable",
    b"LocalVariableTypeTable",
    b"Deprecated",
    b"RuntimeVisibleAnnotations",
    b"RuntimeInvisibleAnnotations",
    b"RuntimeVisibleParameterAnnotations",
    b"RuntimeInvisibleParameterAnnotations",
    b"RuntimeVisibleTypeAnnotations",
    b"RuntimeInvisibleTypeAnnotations",
    b"AnnotationDefault",
    b"MethodParameters",
    b"Module",
    b"ModulePackages",
    b"ModuleMainClass",
    b"NestHost",
    b"NestMembers",
    b"PermittedSubclasses",
    b"Record",
];

/// Renames, length for length, every Utf8 that names an attribute whose contents are not taken: the
/// crate then only frames it. Both sides read the same changed bytes.
pub fn neutralise(file: &mut [u8]) {
    let Ok(pool) = model::entries(file, None, Rules::default()) else { return };
    for &cell in &pool.cells {
        let at = cell as usize;
        if at != 0 && file[at] == 1 {
            let n = model::pair(file, at + 1);
            let s = &file[at + 3..at + 3 + n];
            if NOT_TAKEN.contains(&s) {
                file[at + 3] = b'~';
            }
        }
    }
}

fn bytes_of(cells: &[u32], room: usize) -> Vec<u8> {
    let mut out = vec![0; room];
    for (place, cell) in out.chunks_exact_mut(4).zip(cells) {
        place.copy_from_slice(&cell.to_be_bytes());
    }
    out
}

fn decoded(s: &[u8]) -> Option<String> {
    model::points(s)?.into_iter().map(char::from_u32).collect()
}

type Text = Result<(usize, usize), String>;

/// Whether the crate's text is this Utf8 slot's.
fn same_text(v: View, slot: usize, got: &Text) -> bool {
    match got {
        Ok((at, n)) => *at == v.at(slot) + 3 && *n == v.utf8(slot).len(),
        Err(s) => decoded(v.utf8(slot)).as_deref() == Some(s),
    }
}

fn text_in(file: &[u8], s: &str) -> Text {
    let at = (s.as_ptr() as usize).wrapping_sub(file.as_ptr() as usize);
    if at <= file.len() && at + s.len() <= file.len() {
        Ok((at, s.len()))
    } else {
        Err(s.to_string())
    }
}

pub fn ample(file: &[u8]) -> Room {
    let n = file.len();
    Room { cells: (n / 3 + 3).min(65537), interfaces: (n / 2 + 1).min(65536), members: n / 8 + 1, attributes: n / 6 + 1 }
}

const UNLIMITED: Room = Room { cells: usize::MAX, interfaces: usize::MAX, members: usize::MAX, attributes: usize::MAX };

impl Check<'_> {
    pub fn differ(&self, what: &str) {
        let n = get(&self.shared.differences);
        add(&self.shared.differences, 1);
        if n >= TOO_MANY {
            return;
        }
        let file = &self.case.file;
        let kept = format!("build/compare/difference-{n}.class");
        let _ = std::fs::write(&kept, file);
        let bytes = if file.len() <= 400 { hex(file) } else { format!("{} bytes", file.len()) };
        println!("DIFFERENCE in {} {}: {what}\n    {bytes}\n    kept in {kept}", self.case.family, self.case.number);
    }

    pub fn all(&self, rng: &mut Rng, effort: Effort) {
        let file = &self.case.file;
        self.shared.stage(MODEL);
        add(&self.shared.bytes, file.len() as u64);
        let pool = model::pool(file, None, Rules::default());
        let class = match &pool {
            Ok(_) => model::class(file, UNLIMITED, Rules::default()),
            Err(r) => Err(*r),
        };
        self.pool_calls(rng, &pool, effort);
        self.entries_calls(rng, effort);
        self.class_calls(rng, &pool, &class, effort);
        self.lookups(rng, effort);
        if effort.with_crate {
            self.with_crate(rng, &pool, &class, effort);
        }
        self.shared.stage(MODEL);
    }

    // ------------------------------------------------------------ ours and the model

    fn pool_calls(&self, rng: &mut Rng, pool: &Answer<Pool>, effort: Effort) {
        let file = &self.case.file;
        let p = match pool {
            Ok(p) => p.cells.len(),
            Err(_) => ample(file).cells,
        };
        self.pool_call(4 * p + rng.below(4), pool);
        for _ in 0..effort.rooms {
            let cells = some_room(rng, p);
            self.pool_call(4 * cells + rng.below(4), &model::pool(file, Some(cells), Rules::default()));
        }
    }

    /// The entries alone: read and not checked, so a pool that is refused with 6 to 11 is accepted here.
    fn entries_calls(&self, rng: &mut Rng, effort: Effort) {
        let file = &self.case.file;
        let read = model::entries(file, None, Rules::default());
        let p = read.as_ref().map_or(ample(file).cells, |p| p.cells.len());
        self.entries_call(p, &read);
        for _ in 0..effort.rooms {
            let cells = some_room(rng, p);
            self.entries_call(cells, &model::entries(file, Some(cells), Rules::default()));
        }
    }

    fn entries_call(&self, room: usize, want: &Answer<Pool>) {
        let file = &self.case.file;
        let mut table = ours::Column::new(room, 0xA5A5_A5A5u32);
        self.shared.stage(OURS);
        let got = ours::entries(file, table.lend());
        self.shared.stage(MODEL);
        self.shared.counted(1, got.refusal);
        let answer = ours::calls::PoolAnswer::of(want);
        if got != answer {
            self.differ(&format!("entries with {room} cells lent: ours {got:?}, the rules {answer:?}"));
        } else if !holds(&table, want.iter().flat_map(|p| p.cells.iter().copied())) {
            self.differ(&format!("entries with {room} cells lent: the table differs"));
        }
    }

    fn pool_call(&self, room: usize, want: &Answer<Pool>) {
        let file = &self.case.file;
        let mut table = ours::Column::new(room, 0xA5u8);
        self.shared.stage(OURS);
        let got = ours::pool(file, table.lend());
        self.shared.stage(MODEL);
        self.shared.counted(0, got.refusal);
        let answer = ours::calls::PoolAnswer::of(want);
        let cells = want.as_ref().map_or(&[][..], |p| &p.cells);
        if got != answer {
            self.differ(&format!("pool with {room} bytes lent: ours {got:?}, the rules {answer:?}"));
        } else if table.cells() != bytes_of(cells, room) {
            self.differ(&format!("pool with {room} bytes lent: the table differs"));
        } else if !table.untouched_behind() {
            self.differ("pool: written behind the table");
        }
    }

    fn class_calls(&self, rng: &mut Rng, pool: &Answer<Pool>, class: &Answer<Class>, effort: Effort) {
        let file = &self.case.file;
        let need = match class {
            Ok(c) => {
                Room { cells: c.pool.cells.len(), interfaces: c.interfaces.len(), members: c.members.len(), attributes: c.attributes.len() }
            }
            Err(_) => {
                let mut room = ample(file);
                if let Ok(p) = pool {
                    room.cells = p.cells.len();
                }
                room
            }
        };
        let widths = |r: Room| {
            let (m, a) = (r.members, r.attributes);
            [r.cells, r.interfaces, m, m, m, m, m, a, a, a]
        };
        self.class_call(&widths(need), class);
        for _ in 0..effort.rooms {
            let mut room = widths(need);
            for (n, r) in room.iter_mut().enumerate() {
                *r = match rng.below(if n == 0 { 12 } else { 6 }) {
                    0 => rng.below((*r).min(64) + 1),
                    1 => r.saturating_sub(1),
                    _ => *r + rng.below(3),
                };
            }
            let least = Room {
                cells: room[0],
                interfaces: room[1],
                members: *room[2..7].iter().min().unwrap(),
                attributes: *room[7..].iter().min().unwrap(),
            };
            self.class_call(&room, &model::class(file, least, Rules::default()));
        }
    }

    fn class_call(&self, room: &[usize; 10], want: &Answer<Class>) {
        let file = &self.case.file;
        let mut t = Tables::new(room);
        self.shared.stage(OURS);
        let got = ours::class(file, &mut t);
        self.shared.stage(MODEL);
        self.shared.counted(2, got.refusal);
        let answer = ours::calls::ClassAnswer::of(want);
        if got != answer {
            self.differ(&format!("class with room {room:?}: ours {got:?}, the rules {answer:?}"));
            return;
        }
        let c = want.as_ref().ok();
        let members = || c.iter().flat_map(|c| c.members.iter());
        let attributes = || c.iter().flat_map(|c| c.attributes.iter());
        let columns = [
            holds(&t.table, c.iter().flat_map(|c| c.pool.cells.iter().copied())),
            holds(&t.interfaces, c.iter().flat_map(|c| c.interfaces.iter().copied())),
            holds(&t.flags, members().map(|m| m.flags)),
            holds(&t.names, members().map(|m| m.name)),
            holds(&t.descriptors, members().map(|m| m.descriptor)),
            holds(&t.firsts, members().map(|m| m.first)),
            holds(&t.counts, members().map(|m| m.count)),
            holds(&t.attribute_names, attributes().map(|a| a.name)),
            holds(&t.bodies, attributes().map(|a| a.body)),
            holds(&t.lengths, attributes().map(|a| a.length)),
        ];
        if let Some(n) = columns.iter().position(|good| !good) {
            let refused = if c.is_none() { " after a refusal" } else { "" };
            self.differ(&format!("class with room {room:?}: column {n} differs{refused}"));
        }
    }

    fn lookups(&self, rng: &mut Rng, effort: Effort) {
        let file = &self.case.file;
        let cells = match model::entries(file, None, Rules::default()) {
            Ok(p) => p.cells,
            Err(_) => vec![0, 10],
        };
        let p = cells.len();
        let exact = bytes_of(&cells, 4 * p);
        let tag = |slot: usize| if slot < p && cells[slot] != 0 { file.get(cells[slot] as usize).copied().unwrap_or(0) } else { 0 };
        if effort.all && p <= 24 {
            for slot in (0..p as u32 + 1).chain([65535, 65536, u32::MAX]) {
                for which in LOOKUPS {
                    self.lookup(&exact, &cells, which, slot);
                }
                self.dependant(&exact, &cells, slot, p);
            }
        }
        for _ in 0..effort.slots {
            let slot = self.some_slot(rng, p);
            let which = if rng.below(4) > 0 { matching(tag(slot as usize), rng) } else { LOOKUPS[rng.below(12)] };
            self.lookup(&exact, &cells, which, slot);
        }
        for _ in 0..effort.rooms {
            let handed = changed(rng, &cells);
            let mut table = bytes_of(&handed, 4 * handed.len());
            for _ in 0..rng.below(4) {
                table.push(rng.next() as u8);
            }
            let slot = self.some_slot(rng, p);
            self.lookup(&table, &handed, matching(tag(slot as usize), rng), slot);
            let room = match rng.below(3) {
                0 => p,
                1 => rng.below(4),
                _ => rng.below(p + 1),
            };
            let same = rng.below(2) == 0;
            let (table, handed) = if same { (&exact, &cells) } else { (&table, &handed) };
            self.dependant(table, handed, slot, room);
        }
    }

    fn some_slot(&self, rng: &mut Rng, p: usize) -> u32 {
        match rng.below(24) {
            0 => p as u32,
            1 => [p as u32 + 1, 65535, 65536, u32::MAX][rng.below(4)],
            _ => rng.below(p) as u32,
        }
    }

    fn lookup(&self, table: &[u8], cells: &[u32], which: Lookup, slot: u32) {
        let file = &self.case.file;
        let want = model::look(file, cells, which, slot);
        self.shared.stage(OURS);
        let got = ours::look(file, table, which, slot);
        self.shared.stage(MODEL);
        self.shared.counted(3, got.0);
        let wanted = match want {
            Ok(values) => (0, 0, values),
            Err(r) => (r.no, r.place, [0; 5]),
        };
        if got != wanted {
            self.differ(&format!("{which:?} of slot {slot}, table {}: ours {got:?}, the rules {wanted:?}", short(cells)));
        }
    }

    fn dependant(&self, table: &[u8], cells: &[u32], slot: u32, room: usize) {
        let file = &self.case.file;
        let want = model::dependants(file, cells, slot, room);
        let lent = 4 * room + slot as usize % 4;
        let mut list = ours::Column::new(lent, 0xA5u8);
        self.shared.stage(OURS);
        let got = ours::dependants(file, table, slot, list.lend());
        self.shared.stage(MODEL);
        self.shared.counted(4, got.refusal);
        let (answer, found) = match &want {
            Ok(found) => ((0, 0, found.len() as u32), &found[..]),
            Err(r) => ((r.no, r.place, 0), &[][..]),
        };
        let got_answer = (got.refusal, got.place, got.count);
        if got_answer != answer {
            self.differ(&format!("dependants of {slot} with room {room}: ours {got_answer:?}, the rules {answer:?}"));
        } else if list.cells() != bytes_of(found, lent) || !list.untouched_behind() {
            self.differ(&format!("dependants of {slot} with room {room}: the list differs"));
        }
    }

    // ------------------------------------------------------------ the crate and the model

    fn with_crate(&self, rng: &mut Rng, pool: &Answer<Pool>, class: &Answer<Class>, effort: Effort) {
        let file = &self.case.file;
        let foretold = model::pool(file, None, foretelling());
        self.shared.stage(CRATE);
        let got = catch_unwind(AssertUnwindSafe(|| ParseOptions::probe_pool(file)));
        self.shared.stage(MODEL);
        let Ok(got) = got else { return self.differ("the crate panics on the pool") };
        if matches!(foretold, Err(Refusal { no: model::ENDLESS, .. })) {
            return self.differ("the crate was to recurse without end, and did not");
        }
        if got.is_ok() != foretold.is_ok() {
            let said = got.map(|_| ()).map_err(|e| e.to_string());
            return self.differ(&format!("pool: the crate {said:?}, foretold {:?}", foretold.err()));
        }
        self.departure(got.is_ok(), pool.is_ok(), |rules| model::pool(file, None, rules).is_ok());
        let (Ok(got), Ok(p)) = (got, foretold) else { return };
        let v = View { file, major: p.major, cells: &p.cells };
        if (got.0 as usize, got.1 as usize, got.2, got.3.len()) != (p.minor, p.major, p.end, p.cells.len()) {
            return self.differ("pool: the crate's minor, major, end or number of slots differs");
        }
        if let Some(n) = (0..p.cells.len()).find(|&n| !same_slot(v, n, &got.3[n])) {
            return self.differ(&format!("pool: the crate's slot {n} is {:?}", got.3[n]));
        }
        add(&self.shared.slots, p.cells.len() as u64);
        if p.cells.len() <= 65536 {
            self.crate_lookups(rng, v, effort);
        }
        self.crate_class(class);
    }

    fn crate_lookups(&self, rng: &mut Rng, v: View, effort: Effort) {
        let p = v.cells.len();
        let slots: Vec<usize> = if p <= 64 { (0..p).collect() } else { (0..effort.slots.max(8)).map(|_| rng.below(p)).collect() };
        self.shared.stage(CRATE);
        let got = ParseOptions::probe_lookups(v.file, &slots);
        self.shared.stage(MODEL);
        let Ok(got) = got else { return self.differ("the crate refuses the pool a second time") };
        add(&self.shared.crate_lookups, slots.len() as u64);
        for (&slot, (mask, tag, a, b, texts)) in slots.iter().zip(&got) {
            let bit = bit_of(v, slot);
            let raw = v.tag(slot) == 12 && !model::is_text(v.utf8(v.references(slot)[1]));
            if raw && *tag == 254 {
                add(&self.shared.departures[RAW_PANIC], 1);
                continue;
            }
            if *mask != bit || raw {
                self.differ(&format!("lookups of slot {slot}: the crate answers {mask:#b}"));
                continue;
            }
            if bit != 0 && !same_look(v, slot, *tag, *a, *b, texts) {
                self.differ(&format!("lookup of slot {slot}: the crate's values are {tag} {a} {b} {texts:?}"));
            }
        }
    }

    fn crate_class(&self, class: &Answer<Class>) {
        let file = &self.case.file;
        let foretold = model::class(file, UNLIMITED, foretelling());
        self.shared.stage(CRATE);
        let got = catch_unwind(AssertUnwindSafe(|| parse_class(file)));
        self.shared.stage(MODEL);
        if !matches!(&got, Ok(Ok(_))) && foretold.is_ok() && self.contents() {
            add(&self.shared.departures[CONTENTS], 1);
            return;
        }
        let Ok(got) = got else { return self.differ("the crate panics on the class") };
        add(if got.is_ok() { &self.shared.crate_accepts } else { &self.shared.crate_refuses }, 1);
        if got.is_ok() != foretold.is_ok() {
            let said = got.map(|_| ()).map_err(|e| e.to_string());
            return self.differ(&format!("class: the crate {said:?}, foretold {:?}", foretold.err()));
        }
        self.departure(got.is_ok(), class.is_ok(), |rules| model::class(file, UNLIMITED, rules).is_ok());
        let (Ok(got), Ok(c)) = (got, foretold) else { return };
        if let Ok(ruled) = class {
            if *ruled != c {
                return self.differ("class: accepted by both with other values");
            }
        }
        if let Some(what) = class_difference(file, &got, &c) {
            self.differ(&format!("class: the crate's {what} differs"));
        }
    }

    /// Whether the crate minds only what attributes hold: it accepts the file with their names changed.
    fn contents(&self) -> bool {
        let mut file = self.case.file.clone();
        neutralise(&mut file);
        file != self.case.file && catch_unwind(AssertUnwindSafe(|| parse_class(&file).is_ok())).unwrap_or(false)
    }

    /// Counts a departure: the crate and the rules differ, and a switch of the model says why.
    fn departure(&self, crates: bool, ruled: bool, with: impl Fn(Rules) -> bool) {
        if crates == ruled {
            return;
        }
        let why = (0..Rules::NAMES.len()).find(|&n| with(Rules::only(n)) == crates).unwrap_or(SEVERAL);
        add(&self.shared.departures[why], 1);
    }
}

fn short(cells: &[u32]) -> String {
    if cells.len() <= 16 {
        format!("{cells:?}")
    } else {
        format!("of {} cells", cells.len())
    }
}

fn holds<T: Copy + PartialEq + Default>(column: &ours::Column<T>, mut want: impl Iterator<Item = T>) -> bool {
    column.cells().iter().all(|&x| x == want.next().unwrap_or_default()) && want.next().is_none() && column.untouched_behind()
}

/// How many cells are lent: few, nearly enough, enough, any number.
fn some_room(rng: &mut Rng, p: usize) -> usize {
    match rng.below(4) {
        0 => rng.below(4),
        1 => p.saturating_sub(1 + rng.below(3)),
        2 => p + rng.below(4),
        _ => rng.below(p.min(200) + 1),
    }
}

/// A handed table: as it should be, longer, shorter, or with one cell changed.
fn changed(rng: &mut Rng, cells: &[u32]) -> Vec<u32> {
    let mut t = cells.to_vec();
    match rng.below(6) {
        0 => t.resize(t.len() + rng.below(5), 0),
        1 => {
            t.resize(t.len() + 1 + rng.below(5), 0);
            let n = cells.len() + rng.below(t.len() - cells.len());
            t[n] = rng.next() as u32;
        }
        2 => t.truncate(t.len() - 1 - rng.below(t.len().min(3))),
        3 => {
            let n = rng.below(t.len());
            t[n] = t[n].wrapping_add([1, u32::MAX, 1 << 16, 1 << 24][rng.below(4)]);
        }
        4 => {
            let n = rng.below(t.len());
            t[n] = cells[rng.below(cells.len())];
        }
        _ => t.truncate(rng.below(t.len() + 1)),
    }
    t
}

fn matching(tag: u8, rng: &mut Rng) -> Lookup {
    match tag {
        1 => [Lookup::Text, Lookup::Utf8Part][rng.below(2)],
        3..=6 | 8 => Lookup::Literal,
        7 => Lookup::ClassName,
        9..=11 => Lookup::MemberReference,
        12 => Lookup::NameAndType,
        15 => Lookup::MethodHandle,
        16 => Lookup::MethodType,
        17 => Lookup::Dynamic,
        18 => Lookup::InvokeDynamic,
        19 => Lookup::ModuleName,
        20 => Lookup::PackageName,
        _ => LOOKUPS[rng.below(12)],
    }
}

fn same_slot(v: View, slot: usize, got: &(u8, u64, u64, Option<String>)) -> bool {
    let (tag, a, b, owned) = got;
    let at = v.at(slot);
    let refs = v.references(slot);
    let reference = |n: usize| refs[n] as u64;
    match v.tag(slot) {
        0 => *tag == if slot == 0 { 0 } else { 255 },
        1 => {
            let s = v.utf8(slot);
            if *tag != if model::is_text(s) { 1 } else { 2 } {
                return false;
            }
            match owned {
                Some(text) => decoded(s).as_deref() == Some(text),
                None => (*a, *b) == (at as u64 + 3, s.len() as u64),
            }
        }
        t @ (3 | 4) => (*tag as usize, *a) == (t, model::four(v.file, at + 1) as u64),
        t @ (5 | 6) => (*tag as usize, *a) == (t, (model::four(v.file, at + 1) as u64) << 32 | model::four(v.file, at + 5) as u64),
        t @ (7 | 8 | 16 | 19 | 20) => (*tag as usize, *a) == (t, reference(0)),
        t @ 9..=12 => (*tag as usize, *a, *b) == (t, reference(0), reference(1)),
        t @ 15 => (*tag as usize, *a, *b) == (t, v.file[at + 1] as u64, reference(0)),
        t => (*tag as usize, *a, *b) == (t, model::pair(v.file, at + 1) as u64, reference(0)),
    }
}

/// The one lookup of the crate that answers for a slot's kind.
fn bit_of(v: View, slot: usize) -> u32 {
    match v.tag(slot) {
        1 if model::is_text(v.utf8(slot)) => 1024,
        3..=6 | 8 => 1,
        7 => 2,
        9..=11 => 64,
        12 => 32,
        15 => 128,
        16 => 16,
        17 => 256,
        18 => 512,
        19 => 4,
        20 => 8,
        _ => 0,
    }
}

fn same_look(v: View, slot: usize, tag: u8, a: u64, b: u64, texts: &[Text]) -> bool {
    let which = match v.tag(slot) {
        1 => return tag == 1 && texts.len() == 1 && same_text(v, slot, &texts[0]),
        t => matching(t as u8, &mut Rng(0)),
    };
    // The checks were made: the values are read off directly, as a lookup would.
    let Ok(values) = model::values_at(v, which, slot) else { return false };
    let n = |i: usize| values[i] as usize;
    let (numbers, slots): ((u64, u64, u64), Vec<usize>) = match which {
        Lookup::Literal if n(0) == 8 => ((8, u64::from(model::is_text(v.utf8(n(1)))), 0), vec![n(1)]),
        Lookup::Literal => ((values[0], values[1], 0), vec![]),
        Lookup::ClassName => ((7, 0, 0), vec![n(0)]),
        Lookup::ModuleName => ((19, 0, 0), vec![n(0)]),
        Lookup::PackageName => ((20, 0, 0), vec![n(0)]),
        Lookup::MethodType => ((16, 0, 0), vec![n(0)]),
        Lookup::NameAndType => ((12, 0, 0), vec![n(0), n(1)]),
        Lookup::MemberReference => ((values[0], 0, 0), vec![n(1), n(2), n(3)]),
        Lookup::MethodHandle => ((15, values[0], values[1]), vec![n(2), n(3), n(4)]),
        Lookup::Dynamic => ((17, values[0], 0), vec![n(1), n(2)]),
        Lookup::InvokeDynamic => ((18, values[0], 0), vec![n(1), n(2)]),
        Lookup::Text | Lookup::Utf8Part => return false,
    };
    (tag as u64, a, b) == numbers && slots.len() == texts.len() && slots.iter().zip(texts).all(|(&s, t)| same_text(v, s, t))
}

fn same_attributes(v: View, want: &[model::Attribute], got: &[AttributeInfo]) -> bool {
    want.len() == got.len()
        && want.iter().zip(got).all(|(w, g)| {
            let framed = match &g.data {
                AttributeData::Other(body) => {
                    let at = (body.as_ptr() as usize).wrapping_sub(v.file.as_ptr() as usize);
                    (at, body.len()) == (w.body as usize, w.length as usize)
                }
                AttributeData::BootstrapMethods(methods) => {
                    let words: usize = methods.iter().map(|m| 2 + m.arguments.len()).sum();
                    model::pair(v.file, w.body as usize) == methods.len() && w.length as usize == 2 + 2 * words
                }
                _ => true,
            };
            framed && same_text(v, w.name as usize, &text_in(v.file, &g.name))
        })
}

/// The first part of a class in which the crate's reading differs from the model's.
fn class_difference<'a>(file: &'a [u8], got: &ClassFile<'a>, c: &Class) -> Option<String> {
    let v = View { file, major: c.pool.major, cells: &c.pool.cells };
    let named = |slot: u16, got: &str| same_text(v, v.references(slot as usize)[0], &text_in(file, got));
    if (got.major_version as usize, got.minor_version as usize) != (c.pool.major, c.pool.minor) {
        return Some("version".into());
    }
    if got.access_flags.bits() != c.flags {
        return Some("flags".into());
    }
    if !named(c.this, &got.this_class) {
        return Some("this class".into());
    }
    let parent = match &got.super_class {
        None => c.super_class == 0,
        Some(name) => c.super_class != 0 && named(c.super_class, name),
    };
    if !parent {
        return Some("super class".into());
    }
    if got.interfaces.len() != c.interfaces.len() || !c.interfaces.iter().zip(&got.interfaces).all(|(&s, n)| named(s, n)) {
        return Some("interfaces".into());
    }
    if (got.fields.len(), got.methods.len()) != (c.fields, c.methods) {
        return Some("number of members".into());
    }
    let slots = got.probe_slots(file);
    if slots.len() != c.pool.cells.len() || !(0..slots.len()).all(|n| same_slot(v, n, &slots[n])) {
        return Some("pool".into());
    }
    let fields = got.fields.iter().map(|f| (f.access_flags.bits(), &f.name, f.descriptor.to_string(), &f.attributes));
    let methods = got.methods.iter().map(|m| (m.access_flags.bits(), &m.name, m.descriptor.to_string(), &m.attributes));
    for (n, (w, (flags, name, descriptor, attributes))) in c.members.iter().zip(fields.chain(methods)).enumerate() {
        let method = n >= c.fields;
        let part = model::descriptor_part(v.utf8(w.descriptor as usize), method, foretelling());
        let same = flags == w.flags
            && same_text(v, w.name as usize, &text_in(file, name))
            && decoded(part) == Some(descriptor)
            && attributes.len() == w.count as usize
            && same_attributes(v, &c.attributes[w.first as usize..w.first as usize + w.count as usize], attributes);
        if !same {
            return Some(format!("member {n}"));
        }
    }
    if !same_attributes(v, &c.attributes[c.member_attributes..], &got.attributes) {
        return Some("list of attributes".into());
    }
    None
}
