//! A third opinion: the rules of the project written out in plain Rust, directly from their text, with
//! neither the proved code nor the crate in sight. Slow where slow is plainer.
//!
//! `Rules` holds one switch for each known departure of the crate. With all of them off the model says
//! what the rules say; with all of them on it must foretell the crate: a difference that no switch
//! explains is a fault somewhere.

/// A refusal: its number and its place.
#[derive(Clone, Copy, Debug, PartialEq, Eq)]
pub struct Refusal {
    pub no: u32,
    pub place: u64,
}

pub type Answer<T> = Result<T, Refusal>;

/// The number of what only the crate refuses, and of what it never ends on.
pub const CRATES_OWN: u32 = 250;
pub const ENDLESS: u32 = 251;

/// Which of the crate's departures hold.
#[derive(Clone, Copy, Debug, PartialEq, Eq, Default)]
pub struct Rules {
    /// `<` and `>` are refused in class names of descriptors, of this, of super and of interfaces.
    pub angle: bool,
    /// More than 255 dimensions are refused.
    pub deep: bool,
    /// Bytes after a member's descriptor are accepted.
    pub tail: bool,
    /// A class with the flag MODULE must be a module from major 53 and nothing else.
    pub module: bool,
    /// BootstrapMethods is looked into on fields and methods too.
    pub member_bootstrap: bool,
    /// The next slot is counted in 16 bits.
    pub wrap: bool,
    /// Files of any length are read.
    pub long: bool,
    /// A method descriptor is followed from NameAndType to NameAndType.
    pub chain: bool,
}

impl Rules {
    pub const NAMES: [&'static str; 8] = [
        "angle brackets in class names",
        "more than 255 dimensions",
        "bytes after a member's descriptor",
        "MODULE flag",
        "BootstrapMethods on a member",
        "wide entry in slot 65,534",
        "length over 16 MiB",
        "NameAndType cycle",
    ];
    fn switch(&mut self, n: usize) -> &mut bool {
        match n {
            0 => &mut self.angle,
            1 => &mut self.deep,
            2 => &mut self.tail,
            3 => &mut self.module,
            4 => &mut self.member_bootstrap,
            5 => &mut self.wrap,
            6 => &mut self.long,
            _ => &mut self.chain,
        }
    }

    /// The rules with the one departure of this number.
    pub fn only(n: usize) -> Rules {
        let mut r = Rules::default();
        *r.switch(n) = true;
        r
    }

    /// The rules with every departure but this one.
    pub fn all_but(n: usize) -> Rules {
        let mut r = Rules::default();
        for k in (0..Rules::NAMES.len()).filter(|&k| k != n) {
            *r.switch(k) = true;
        }
        r
    }
}

fn refuse<T>(no: u32, place: usize) -> Answer<T> {
    Err(Refusal { no, place: place as u64 })
}

// ---------------------------------------------------------------- bytes

pub fn byte(file: &[u8], at: usize) -> usize {
    file[at] as usize
}

pub fn pair(file: &[u8], at: usize) -> usize {
    byte(file, at) * 256 + byte(file, at + 1)
}

pub fn four(file: &[u8], at: usize) -> usize {
    pair(file, at) * 65536 + pair(file, at + 2)
}

/// One read of n bytes: 2 where it passes the end; a read of no bytes never refuses.
fn need(file: &[u8], at: usize, n: usize) -> Answer<()> {
    if n > 0 && at + n > file.len() {
        return refuse(2, at);
    }
    Ok(())
}

fn read2(file: &[u8], at: &mut usize) -> Answer<usize> {
    need(file, *at, 2)?;
    *at += 2;
    Ok(pair(file, *at - 2))
}

// ---------------------------------------------------------------- texts, names, descriptors

/// The code points of a text, or nothing where the bytes are raw.
pub fn points(s: &[u8]) -> Option<Vec<u32>> {
    let on = |i: usize| i < s.len() && (0x80..=0xBF).contains(&s[i]);
    let low = |i: usize| u32::from(s[i] & 0x3F);
    let mut out = Vec::new();
    let mut i = 0;
    while i < s.len() {
        let b = u32::from(s[i]);
        if (0x01..=0x7F).contains(&b) {
            out.push(b);
            i += 1;
        } else if b == 0xC0 && i + 1 < s.len() && s[i + 1] == 0x80 {
            out.push(0);
            i += 2;
        } else if (0xC2..=0xDF).contains(&b) && on(i + 1) {
            out.push((b - 0xC0) * 64 + low(i + 1));
            i += 2;
        } else if (0xE0..=0xEF).contains(&b) && on(i + 1) && on(i + 2) {
            let c = (b - 0xE0) * 4096 + low(i + 1) * 64 + low(i + 2);
            if c < 0x800 || (0xDC00..=0xDFFF).contains(&c) {
                return None;
            }
            if (0xD800..=0xDBFF).contains(&c) {
                let pair = i + 5 < s.len() && s[i + 3] == 0xED && (0xB0..=0xBF).contains(&s[i + 4]) && on(i + 5);
                if !pair {
                    return None;
                }
                let d = 0xD000 + low(i + 4) * 64 + low(i + 5);
                out.push(0x10000 + (c - 0xD800) * 1024 + (d - 0xDC00));
                i += 6;
            } else {
                out.push(c);
                i += 3;
            }
        } else {
            return None;
        }
    }
    Some(out)
}

pub fn is_text(s: &[u8]) -> bool {
    s.iter().all(|b| (0x01..=0x7F).contains(b)) || points(s).is_some()
}

pub fn is_unqualified(s: &[u8]) -> bool {
    !s.is_empty() && !s.iter().any(|b| b".;[/".contains(b))
}

pub fn is_method_name(s: &[u8], interface: bool) -> bool {
    if s == b"<clinit>" || (s == b"<init>" && !interface) {
        return true;
    }
    is_unqualified(s) && !s.iter().any(|b| b"<>".contains(b))
}

pub fn is_binary(s: &[u8]) -> bool {
    s.split(|&b| b == b'/').all(is_unqualified)
}

pub fn is_module_name(s: &[u8]) -> bool {
    let Some(points) = points(s) else { return false };
    let mut i = 0;
    while i < points.len() {
        let c = points[i];
        if c == u32::from(b'\\') {
            if i + 1 == points.len() || !b"\\:@".iter().any(|&b| u32::from(b) == points[i + 1]) {
                return false;
            }
            i += 2;
        } else if c < 0x20 || c == u32::from(b':') || c == u32::from(b'@') {
            return false;
        } else {
            i += 1;
        }
    }
    true
}

/// The length of the field type at the front, if there is one.
fn field_type(s: &[u8], rules: Rules) -> Option<usize> {
    let depth = s.iter().take_while(|&&b| b == b'[').count();
    if rules.deep && depth > 255 {
        return None;
    }
    let rest = &s[depth..];
    match rest.first()? {
        b'B' | b'C' | b'D' | b'F' | b'I' | b'J' | b'S' | b'Z' => Some(depth + 1),
        b'L' => {
            let end = rest.iter().position(|&b| b == b';')?;
            let name = &rest[1..end];
            if !is_binary(name) || (rules.angle && name.iter().any(|b| b"<>".contains(b))) {
                return None;
            }
            Some(depth + end + 1)
        }
        _ => None,
    }
}

pub fn is_field_descriptor(s: &[u8], rules: Rules) -> bool {
    field_type(s, rules) == Some(s.len())
}

pub fn is_array_descriptor(s: &[u8], rules: Rules) -> bool {
    s.first() == Some(&b'[') && is_field_descriptor(s, rules)
}

/// How many parameters, whether it answers nothing, and the length of the method descriptor at the front.
pub fn method_type(s: &[u8], rules: Rules) -> Option<(usize, bool, usize)> {
    if s.first() != Some(&b'(') {
        return None;
    }
    let mut at = 1;
    let mut parameters = 0;
    while s.get(at) != Some(&b')') {
        at += field_type(s.get(at..)?, rules)?;
        parameters += 1;
    }
    at += 1;
    if &s[at..] == b"V" {
        return Some((parameters, true, at + 1));
    }
    Some((parameters, false, at + field_type(&s[at..], rules)?))
}

pub fn is_method_descriptor(s: &[u8], rules: Rules) -> bool {
    matches!(method_type(s, rules), Some((_, _, n)) if n == s.len())
}

// ---------------------------------------------------------------- the pool

/// What reading the entries leaves: the table's cells (P of them), the header, the byte after the pool.
#[derive(Clone, Debug, PartialEq, Eq)]
pub struct Pool {
    pub cells: Vec<u32>,
    pub minor: usize,
    pub major: usize,
    pub end: usize,
}

fn major_from(tag: usize) -> Option<usize> {
    match tag {
        1 | 3..=12 => Some(0),
        15 | 16 | 18 => Some(51),
        17 => Some(55),
        19 | 20 => Some(53),
        _ => None,
    }
}

/// Reads the entries; `room` is the number of cells lent, if that is regarded.
pub fn entries(file: &[u8], room: Option<usize>, rules: Rules) -> Answer<Pool> {
    if file.len() > 16_777_216 && !rules.long {
        return refuse(1, 0);
    }
    need(file, 0, 4)?;
    if four(file, 0) != 0xCAFE_BABE {
        return refuse(3, 0);
    }
    let mut at = 4;
    let minor = read2(file, &mut at)?;
    let major = read2(file, &mut at)?;
    let count = read2(file, &mut at)?;
    let mut cells: Vec<u32> = Vec::new();
    let full = |slot: usize| room.is_some_and(|r| slot >= r);
    if full(0) {
        return refuse(5, 0);
    }
    cells.push(0);
    let mut next = 1;
    while next < count {
        if full(cells.len()) {
            return refuse(5, cells.len());
        }
        need(file, at, 1)?;
        let tag = byte(file, at);
        if !major_from(tag).is_some_and(|m| m <= major) {
            return refuse(4, at);
        }
        let end = match tag {
            1 => {
                need(file, at + 1, 2)?;
                let n = pair(file, at + 1);
                need(file, at + 3, n)?;
                at + 3 + n
            }
            3 | 4 => {
                need(file, at + 1, 4)?;
                at + 5
            }
            5 | 6 => {
                need(file, at + 1, 8)?;
                at + 9
            }
            7 | 8 | 16 | 19 | 20 => {
                need(file, at + 1, 2)?;
                at + 3
            }
            15 => {
                need(file, at + 1, 1)?;
                if !(1..=9).contains(&byte(file, at + 1)) {
                    return refuse(4, at + 1);
                }
                need(file, at + 2, 2)?;
                at + 4
            }
            _ => {
                need(file, at + 1, 2)?;
                need(file, at + 3, 2)?;
                at + 5
            }
        };
        cells.push(at as u32);
        at = end;
        next += 1;
        if tag == 5 || tag == 6 {
            if full(cells.len()) {
                return refuse(5, cells.len());
            }
            cells.push(0);
            next += 1;
        }
        if rules.wrap {
            next %= 65536;
        }
    }
    Ok(Pool { cells, minor, major, end: at })
}

/// At most two slots.
pub struct Refs {
    n: usize,
    slots: [usize; 2],
}

impl std::ops::Deref for Refs {
    type Target = [usize];
    fn deref(&self) -> &[usize] {
        &self.slots[..self.n]
    }
}

/// A file and the cells that stand for its slots.
#[derive(Clone, Copy)]
pub struct View<'a> {
    pub file: &'a [u8],
    pub major: usize,
    pub cells: &'a [u32],
}

impl<'a> View<'a> {
    pub fn at(&self, slot: usize) -> usize {
        self.cells[slot] as usize
    }

    /// The tag in a slot, 0 for Zero and Unused.
    pub fn tag(&self, slot: usize) -> usize {
        match self.at(slot) {
            0 => 0,
            at => byte(self.file, at),
        }
    }

    /// The slots that an entry names, left to right.
    pub fn references(&self, slot: usize) -> Refs {
        let at = self.at(slot);
        match self.tag(slot) {
            7 | 8 | 16 | 19 | 20 => Refs { n: 1, slots: [pair(self.file, at + 1), 0] },
            9..=12 => Refs { n: 2, slots: [pair(self.file, at + 1), pair(self.file, at + 3)] },
            15 => Refs { n: 1, slots: [pair(self.file, at + 2), 0] },
            17 | 18 => Refs { n: 1, slots: [pair(self.file, at + 3), 0] },
            _ => Refs { n: 0, slots: [0, 0] },
        }
    }

    pub fn utf8(&self, slot: usize) -> &'a [u8] {
        let at = self.at(slot);
        &self.file[at + 3..at + 3 + pair(self.file, at + 1)]
    }
}

/// Kind 8 unless the named slot holds one of these tags.
fn one_of(v: View, slot: usize, tags: &[usize], place: usize) -> Answer<()> {
    if tags.contains(&v.tag(slot)) {
        return Ok(());
    }
    refuse(8, place)
}

/// A Utf8 (else 8) that is text (else 9).
fn text(v: View, slot: usize, place: usize) -> Answer<()> {
    one_of(v, slot, &[1], place)?;
    if !is_text(v.utf8(slot)) {
        return refuse(9, place);
    }
    Ok(())
}

fn must(good: bool, no: u32, place: usize) -> Answer<()> {
    if good {
        return Ok(());
    }
    refuse(no, place)
}

/// NameAndType with a field or a method descriptor.
fn with_descriptor(v: View, slot: usize, method: bool, place: usize, rules: Rules) -> Answer<()> {
    one_of(v, slot, &[12], place)?;
    let mut descriptor = v.references(slot)[1];
    if rules.chain && method {
        let mut steps = 0;
        while v.tag(descriptor) == 12 {
            descriptor = v.references(descriptor)[1];
            steps += 1;
            if steps > v.cells.len() {
                return refuse(ENDLESS, place);
            }
        }
    }
    text(v, descriptor, place)?;
    let s = v.utf8(descriptor);
    let good = if method { is_method_descriptor(s, rules) } else { is_field_descriptor(s, rules) };
    must(good, 11, place)
}

fn check_slot(v: View, slot: usize, rules: Rules) -> Answer<()> {
    let refs = v.references(slot);
    match v.tag(slot) {
        7 => {
            text(v, refs[0], slot)?;
            let s = v.utf8(refs[0]);
            if s.first() == Some(&b'[') {
                return must(is_array_descriptor(s, rules), 11, slot);
            }
            must(is_binary(s), 10, slot)
        }
        8 => one_of(v, refs[0], &[1], slot),
        9 => {
            one_of(v, refs[0], &[7], slot)?;
            with_descriptor(v, refs[1], false, slot, rules)
        }
        10 | 11 => {
            one_of(v, refs[0], &[7], slot)?;
            with_descriptor(v, refs[1], true, slot, rules)
        }
        12 => {
            text(v, refs[0], slot)?;
            must(is_unqualified(v.utf8(refs[0])), 10, slot)?;
            one_of(v, refs[1], &[1], slot)
        }
        15 => {
            let tags: &[usize] = match byte(v.file, v.at(slot) + 1) {
                1..=4 => &[9],
                5 | 8 => &[10],
                6 | 7 if v.major < 52 => &[10],
                6 | 7 => &[10, 11],
                _ => &[11],
            };
            one_of(v, refs[0], tags, slot)
        }
        16 => {
            text(v, refs[0], slot)?;
            must(is_method_descriptor(v.utf8(refs[0]), rules), 11, slot)
        }
        17 => with_descriptor(v, refs[0], false, slot, rules),
        18 => with_descriptor(v, refs[0], true, slot, rules),
        19 => {
            text(v, refs[0], slot)?;
            must(is_module_name(v.utf8(refs[0])), 10, slot)
        }
        20 => {
            text(v, refs[0], slot)?;
            must(is_binary(v.utf8(refs[0])), 10, slot)
        }
        _ => Ok(()),
    }
}

/// Self-reference then range for every reference, then kinds and texts.
fn checks(v: View, rules: Rules) -> Answer<()> {
    let p = v.cells.len();
    for slot in 0..p {
        for &target in v.references(slot).iter() {
            if target == slot {
                return refuse(6, slot);
            }
            if target >= p {
                return refuse(7, slot);
            }
        }
    }
    for slot in 0..p {
        check_slot(v, slot, rules)?;
    }
    Ok(())
}

/// A pool call.
pub fn pool(file: &[u8], room: Option<usize>, rules: Rules) -> Answer<Pool> {
    let pool = entries(file, room, rules)?;
    checks(View { file, major: pool.major, cells: &pool.cells }, rules)?;
    Ok(pool)
}

// ---------------------------------------------------------------- handed tables, lookups, dependants

/// A handed table: read afresh, compared, checked.
fn handed(file: &[u8], table: &[u32]) -> Answer<Pool> {
    let rules = Rules::default();
    let pool = entries(file, None, rules)?;
    let made = |n: usize| pool.cells.get(n).copied().unwrap_or(0);
    for (n, &cell) in table.iter().enumerate() {
        if cell != made(n) {
            return refuse(12, n);
        }
    }
    if table.len() < pool.cells.len() {
        return refuse(12, table.len());
    }
    checks(View { file, major: pool.major, cells: &pool.cells }, rules)?;
    Ok(pool)
}

#[derive(Clone, Copy, Debug, PartialEq, Eq)]
pub enum Lookup {
    Literal,
    ClassName,
    ModuleName,
    PackageName,
    MethodType,
    NameAndType,
    MemberReference,
    MethodHandle,
    Dynamic,
    InvokeDynamic,
    Text,
    Utf8Part,
}

pub const LOOKUPS: [Lookup; 12] = [
    Lookup::Literal,
    Lookup::ClassName,
    Lookup::ModuleName,
    Lookup::PackageName,
    Lookup::MethodType,
    Lookup::NameAndType,
    Lookup::MemberReference,
    Lookup::MethodHandle,
    Lookup::Dynamic,
    Lookup::InvokeDynamic,
    Lookup::Text,
    Lookup::Utf8Part,
];

/// The values of a lookup's answer in the order of the C interface, zeros after them.
pub type Values = [u64; 5];

fn lookup_tags(which: Lookup) -> &'static [usize] {
    match which {
        Lookup::Literal => &[3, 4, 5, 6, 8],
        Lookup::ClassName => &[7],
        Lookup::ModuleName => &[19],
        Lookup::PackageName => &[20],
        Lookup::MethodType => &[16],
        Lookup::NameAndType => &[12],
        Lookup::MemberReference => &[9, 10, 11],
        Lookup::MethodHandle => &[15],
        Lookup::Dynamic => &[17],
        Lookup::InvokeDynamic => &[18],
        Lookup::Text | Lookup::Utf8Part => &[1],
    }
}

fn member_values(v: View, slot: usize) -> [u64; 4] {
    let refs = v.references(slot);
    let named = v.references(refs[1]);
    [v.tag(slot) as u64, v.references(refs[0])[0] as u64, named[0] as u64, named[1] as u64]
}

pub fn look(file: &[u8], table: &[u32], which: Lookup, slot: u32) -> Answer<Values> {
    let pool = handed(file, table)?;
    let v = View { file, major: pool.major, cells: &pool.cells };
    let slot = slot as usize;
    if slot >= pool.cells.len() {
        return refuse(7, slot);
    }
    values_at(v, which, slot)
}

/// A lookup in a pool that was checked, of a slot that is in range.
pub fn values_at(v: View, which: Lookup, slot: usize) -> Answer<Values> {
    one_of(v, slot, lookup_tags(which), slot)?;
    let at = v.at(slot);
    let refs = v.references(slot);
    Ok(match which {
        Lookup::Literal => match v.tag(slot) {
            8 => [8, refs[0] as u64, 0, 0, 0],
            t @ (3 | 4) => [t as u64, four(v.file, at + 1) as u64, 0, 0, 0],
            t => [t as u64, (four(v.file, at + 1) as u64) << 32 | four(v.file, at + 5) as u64, 0, 0, 0],
        },
        Lookup::ClassName | Lookup::ModuleName | Lookup::PackageName | Lookup::MethodType => [refs[0] as u64, 0, 0, 0, 0],
        Lookup::NameAndType => {
            if !is_text(v.utf8(refs[1])) {
                return refuse(9, slot);
            }
            [refs[0] as u64, refs[1] as u64, 0, 0, 0]
        }
        Lookup::MemberReference => {
            let m = member_values(v, slot);
            [m[0], m[1], m[2], m[3], 0]
        }
        Lookup::MethodHandle => {
            let m = member_values(v, refs[0]);
            [byte(v.file, at + 1) as u64, m[0], m[1], m[2], m[3]]
        }
        Lookup::Dynamic | Lookup::InvokeDynamic => {
            let named = v.references(refs[0]);
            [pair(v.file, at + 1) as u64, named[0] as u64, named[1] as u64, 0, 0]
        }
        Lookup::Text => [u64::from(is_text(v.utf8(slot))), 0, 0, 0, 0],
        Lookup::Utf8Part => [at as u64 + 3, v.utf8(slot).len() as u64, 0, 0, 0],
    })
}

/// Every slot from which the given one is reached by references, rising; `room` cells are lent.
pub fn dependants(file: &[u8], table: &[u32], slot: u32, room: usize) -> Answer<Vec<u32>> {
    let pool = handed(file, table)?;
    let v = View { file, major: pool.major, cells: &pool.cells };
    let p = pool.cells.len();
    let slot = slot as usize;
    if slot >= p {
        return refuse(7, slot);
    }
    let mut reaches = vec![false; p];
    loop {
        let mut changed = false;
        for n in 0..p {
            if !reaches[n] && v.references(n).iter().any(|&t| t == slot || reaches[t]) {
                reaches[n] = true;
                changed = true;
            }
        }
        if !changed {
            break;
        }
    }
    let list: Vec<u32> = (0..p).filter(|&n| reaches[n]).map(|n| n as u32).collect();
    if list.len() > room {
        return refuse(13, list.len());
    }
    Ok(list)
}

// ---------------------------------------------------------------- the class

/// How many cells and records are lent.
#[derive(Clone, Copy, Debug, PartialEq, Eq)]
pub struct Room {
    pub cells: usize,
    pub interfaces: usize,
    pub members: usize,
    pub attributes: usize,
}

#[derive(Clone, Copy, Debug, PartialEq, Eq)]
pub struct Member {
    pub flags: u16,
    pub name: u16,
    pub descriptor: u16,
    pub first: u32,
    pub count: u16,
}

#[derive(Clone, Copy, Debug, PartialEq, Eq)]
pub struct Attribute {
    pub name: u16,
    pub body: u32,
    pub length: u32,
}

#[derive(Clone, Debug, PartialEq, Eq)]
pub struct Class {
    pub pool: Pool,
    pub flags: u16,
    pub this: u16,
    pub super_class: u16,
    pub interfaces: Vec<u16>,
    pub fields: usize,
    pub methods: usize,
    pub members: Vec<Member>,
    pub member_attributes: usize,
    pub attributes: Vec<Attribute>,
}

fn in_range(v: View, slot: usize, place: usize) -> Answer<()> {
    must(slot < v.cells.len(), 7, place)
}

/// A Class entry with a binary name, not an array.
fn class_index(v: View, slot: usize, place: usize, rules: Rules) -> Answer<()> {
    in_range(v, slot, place)?;
    one_of(v, slot, &[7], place)?;
    let name = v.utf8(v.references(slot)[0]);
    must(is_binary(name) && !(rules.angle && name.iter().any(|b| b"<>".contains(b))), 10, place)
}

fn text_index(v: View, slot: usize, place: usize) -> Answer<()> {
    in_range(v, slot, place)?;
    text(v, slot, place)
}

/// The number of bootstrap methods of a BootstrapMethods body.
fn bootstrap(v: View, first: usize, body: usize, end: usize) -> Answer<usize> {
    let mut at = body;
    let mut next = || -> Answer<(usize, usize)> {
        if at + 2 > end {
            return refuse(18, first);
        }
        at += 2;
        Ok((pair(v.file, at - 2), at - 2))
    };
    let (n, _) = next()?;
    for _ in 0..n {
        let (handle, place) = next()?;
        in_range(v, handle, place)?;
        one_of(v, handle, &[15], place)?;
        let (k, _) = next()?;
        for _ in 0..k {
            let (argument, place) = next()?;
            in_range(v, argument, place)?;
            one_of(v, argument, &[3, 4, 5, 6, 7, 8, 15, 16], place)?;
        }
    }
    must(at == end, 18, first)?;
    Ok(n)
}

/// Reads a list of attributes; answers the sizes of those called BootstrapMethods where they are looked into.
fn attributes(v: View, at: &mut usize, looked: bool, room: usize, out: &mut Vec<Attribute>) -> Answer<(usize, Vec<usize>)> {
    let count = read2(v.file, at)?;
    let mut sizes = Vec::new();
    for _ in 0..count {
        let first = *at;
        let name = read2(v.file, at)?;
        text_index(v, name, first)?;
        need(v.file, *at, 4)?;
        let length = four(v.file, *at);
        *at += 4;
        let body = *at;
        need(v.file, body, length)?;
        *at += length;
        if looked && v.utf8(name) == b"BootstrapMethods" {
            sizes.push(bootstrap(v, first, body, *at)?);
        }
        if out.len() >= room {
            return refuse(13, first);
        }
        out.push(Attribute { name: name as u16, body: body as u32, length: length as u32 });
    }
    Ok((count, sizes))
}

fn member_shape(name: &[u8], descriptor: &[u8], major: usize, rules: Rules) -> bool {
    let (parameters, nothing, _) = method_type(descriptor, rules).unwrap_or((0, false, 0));
    if name == b"<clinit>" {
        return nothing && (major < 51 || parameters == 0);
    }
    name != b"<init>" || nothing
}

/// What counts as the same descriptor: its bytes, without a tail where that is allowed.
pub fn descriptor_part(d: &[u8], method: bool, rules: Rules) -> &[u8] {
    let n = if method { method_type(d, rules).map(|x| x.2) } else { field_type(d, rules) };
    &d[..n.unwrap_or(d.len())]
}

pub fn class(file: &[u8], room: Room, rules: Rules) -> Answer<Class> {
    let pool = pool(file, Some(room.cells), rules)?;
    let v = View { file, major: pool.major, cells: &pool.cells };
    let mut at = pool.end;
    let flags = read2(file, &mut at)?;
    let masked = flags & 0xF631;
    let module = rules.module && flags & 0x8000 != 0;
    if module && (pool.major < 53 || masked != 0x8000) {
        return refuse(CRATES_OWN, at - 2);
    }
    let this = read2(file, &mut at)?;
    class_index(v, this, at - 2, rules)?;
    let super_class = read2(file, &mut at)?;
    if super_class != 0 {
        class_index(v, super_class, at - 2, rules)?;
    }
    let mut interfaces = Vec::new();
    for _ in 0..read2(file, &mut at)? {
        let slot = read2(file, &mut at)?;
        class_index(v, slot, at - 2, rules)?;
        if interfaces.len() >= room.interfaces {
            return refuse(13, at - 2);
        }
        interfaces.push(slot as u16);
    }
    let mut members: Vec<Member> = Vec::new();
    let mut records = Vec::new();
    let mut numbers = [0, 0];
    for method in [false, true] {
        let start = members.len();
        let count = read2(file, &mut at)?;
        numbers[usize::from(method)] = count;
        // Which descriptors go with a name, among the members of this kind so far.
        let mut seen: std::collections::HashSet<(&[u8], &[u8])> = std::collections::HashSet::new();
        for _ in 0..count {
            let first = at;
            let own = read2(file, &mut at)?;
            let name = read2(file, &mut at)?;
            let descriptor = read2(file, &mut at)?;
            text_index(v, name, first + 2)?;
            let n = v.utf8(name);
            let good = if method { is_method_name(n, flags & 0x0200 != 0) } else { is_unqualified(n) };
            must(good, 10, first + 2)?;
            text_index(v, descriptor, first + 4)?;
            let d = v.utf8(descriptor);
            let good = match (method, rules.tail) {
                (false, false) => is_field_descriptor(d, rules),
                (false, true) => field_type(d, rules).is_some(),
                (true, false) => is_method_descriptor(d, rules),
                (true, true) => method_type(d, rules).is_some(),
            };
            must(good, 11, first + 4)?;
            must(!method || member_shape(n, d, pool.major, rules), 15, first)?;
            let same = if rules.tail { descriptor_part(d, method, rules) } else { d };
            must(seen.insert((n, same)), 14, first)?;
            if members.len() >= room.members {
                return refuse(13, first);
            }
            let before = records.len();
            let (count, _) = attributes(v, &mut at, rules.member_bootstrap, room.attributes, &mut records)?;
            let mask = if method { 0x1DFF } else { 0x50DF };
            members.push(Member {
                flags: (own & mask) as u16,
                name: name as u16,
                descriptor: descriptor as u16,
                first: before as u32,
                count: count as u16,
            });
        }
        debug_assert!(members.len() - start == count);
    }
    let member_attributes = records.len();
    let (_, sizes) = attributes(v, &mut at, true, room.attributes, &mut records)?;
    must(at == file.len(), 18, at)?;
    if module && (super_class != 0 || !interfaces.is_empty() || !members.is_empty()) {
        return refuse(CRATES_OWN, 0);
    }
    for slot in 0..pool.cells.len() {
        if matches!(v.tag(slot), 17 | 18) {
            let index = pair(file, v.at(slot) + 1);
            must(sizes.iter().all(|&n| index < n), 17, slot)?;
            must(sizes.len() == 1, 16, slot)?;
        }
    }
    Ok(Class {
        flags: masked as u16,
        this: this as u16,
        super_class: super_class as u16,
        interfaces,
        fields: numbers[0],
        methods: numbers[1],
        members,
        member_attributes,
        attributes: records,
        pool,
    })
}
