// Stands in the place of the crate's unpublished test module, and so sees its private items.
// It shows the pool slot by slot and runs the crate's own lookups on every slot.

use super::*;
use crate::{ClassFile, ParseOptions};
use std::collections::HashMap;
use std::panic::{catch_unwind, AssertUnwindSafe};

/// tag (0 Zero, 1 text, 2 raw, 255 Unused), two numbers, and the text where it is not the file's bytes.
type Slot = (u8, u64, u64, Option<String>);
/// Where a text stands in the file, or the text itself where it was decoded.
type Text = Result<(usize, usize), String>;
/// Which of the crate's lookups answer for the slot, the tag they give, two numbers, the texts.
type Look = (u32, u8, u64, u64, Vec<Text>);

fn place(bytes: &[u8], part: &[u8]) -> Option<(usize, usize)> {
    let at = (part.as_ptr() as usize).wrapping_sub(bytes.as_ptr() as usize);
    if at <= bytes.len() && at + part.len() <= bytes.len() {
        Some((at, part.len()))
    } else {
        None
    }
}

fn text(bytes: &[u8], s: &Cow<str>) -> Text {
    match s {
        Cow::Borrowed(s) => place(bytes, s.as_bytes()).ok_or_else(|| s.to_string()),
        Cow::Owned(s) => Err(s.clone()),
    }
}

fn slots_of<'a>(bytes: &'a [u8], pool: &[CafeRc<ConstantPoolEntry<'a>>]) -> Vec<Slot> {
    let mut of: HashMap<*const ConstantPoolEntry, u64> = HashMap::with_capacity(pool.len());
    for (i, e) in pool.iter().enumerate() {
        of.insert(CafeRc::as_ptr(e), i as u64);
    }
    let at = |x: &CafeCell<ConstantPoolRef<'a>>| of[&CafeRc::as_ptr(peel!(x))];
    let mut slots = Vec::with_capacity(pool.len());
    for e in pool {
        slots.push(match e.deref() {
            ConstantPoolEntry::Zero => (0, 0, 0, None),
            ConstantPoolEntry::Unused => (255, 0, 0, None),
            ConstantPoolEntry::Utf8(s) => match text(bytes, s) {
                Ok((a, n)) => (1, a as u64, n as u64, None),
                Err(s) => (1, 0, 0, Some(s)),
            },
            ConstantPoolEntry::Utf8Bytes(b) => match place(bytes, b) {
                Some((a, n)) => (2, a as u64, n as u64, None),
                None => panic!("raw bytes that are not the file's"),
            },
            ConstantPoolEntry::Integer(v) => (3, u64::from(*v as u32), 0, None),
            ConstantPoolEntry::Float(v) => (4, u64::from(v.to_bits()), 0, None),
            ConstantPoolEntry::Long(v) => (5, *v as u64, 0, None),
            ConstantPoolEntry::Double(v) => (6, v.to_bits(), 0, None),
            ConstantPoolEntry::ClassInfo(x) => (7, at(x), 0, None),
            ConstantPoolEntry::String(x) => (8, at(x), 0, None),
            ConstantPoolEntry::FieldRef(x, y) => (9, at(x), at(y), None),
            ConstantPoolEntry::MethodRef(x, y) => (10, at(x), at(y), None),
            ConstantPoolEntry::InterfaceMethodRef(x, y) => (11, at(x), at(y), None),
            ConstantPoolEntry::NameAndType(x, y) => (12, at(x), at(y), None),
            ConstantPoolEntry::MethodHandle(k, x) => (15, kind(*k), at(x), None),
            ConstantPoolEntry::MethodType(x) => (16, at(x), 0, None),
            ConstantPoolEntry::Dynamic(i, x) => (17, u64::from(*i), at(x), None),
            ConstantPoolEntry::InvokeDynamic(i, x) => (18, u64::from(*i), at(x), None),
            ConstantPoolEntry::ModuleInfo(x) => (19, at(x), 0, None),
            ConstantPoolEntry::PackageInfo(x) => (20, at(x), 0, None),
        });
    }
    slots
}

fn kind(k: ReferenceKind) -> u64 {
    match k {
        ReferenceKind::GetField => 1,
        ReferenceKind::GetStatic => 2,
        ReferenceKind::PutField => 3,
        ReferenceKind::PutStatic => 4,
        ReferenceKind::InvokeVirtual => 5,
        ReferenceKind::InvokeStatic => 6,
        ReferenceKind::InvokeSpecial => 7,
        ReferenceKind::NewInvokeSpecial => 8,
        ReferenceKind::InvokeInterface => 9,
    }
}

fn literal(bytes: &[u8], v: &LiteralConstant) -> (u8, u64, u64, Vec<Text>) {
    match v {
        LiteralConstant::Integer(v) => (3, u64::from(*v as u32), 0, vec![]),
        LiteralConstant::Float(v) => (4, u64::from(v.to_bits()), 0, vec![]),
        LiteralConstant::Long(v) => (5, *v as u64, 0, vec![]),
        LiteralConstant::Double(v) => (6, v.to_bits(), 0, vec![]),
        LiteralConstant::String(s) => (8, 1, 0, vec![text(bytes, s)]),
        LiteralConstant::StringBytes(b) => (8, 0, 0, vec![Ok(place(bytes, b).unwrap())]),
    }
}

fn member(bytes: &[u8], class: &Cow<str>, nt: &NameAndType) -> Vec<Text> {
    vec![text(bytes, class), text(bytes, &nt.name), text(bytes, &nt.descriptor)]
}

fn named(bytes: &[u8], nt: &NameAndType) -> Vec<Text> {
    vec![text(bytes, &nt.name), text(bytes, &nt.descriptor)]
}

// The crate's lookups take an index from the bytes: these are all indices, for the life of the program.
fn index(slot: usize) -> &'static [u8] {
    static ALL: std::sync::OnceLock<Vec<u8>> = std::sync::OnceLock::new();
    let all = ALL.get_or_init(|| (0..=65535u16).flat_map(|i| i.to_be_bytes()).collect());
    &all[2 * slot..2 * slot + 2]
}

fn look<'a>(bytes: &'a [u8], pool: &[CafeRc<ConstantPoolEntry<'a>>], slot: usize) -> Look {
    let at: &'a [u8] = index(slot);
    let mut found: Look = (0, 0, 0, 0, vec![]);
    let mut put = |bit: u32, got: (u8, u64, u64, Vec<Text>)| {
        found = (found.0 | bit, got.0, got.1, got.2, got.3);
    };
    if let Ok(v) = read_cp_literalconstant(at, &mut 0, pool) {
        put(1, literal(bytes, &v));
    }
    if let Ok(s) = read_cp_classinfo(at, &mut 0, pool) {
        put(2, (7, 0, 0, vec![text(bytes, &s)]));
    }
    if let Ok(s) = read_cp_moduleinfo(at, &mut 0, pool) {
        put(4, (19, 0, 0, vec![text(bytes, &s)]));
    }
    if let Ok(s) = read_cp_packageinfo(at, &mut 0, pool) {
        put(8, (20, 0, 0, vec![text(bytes, &s)]));
    }
    match get_cp_loadable(slot, pool) {
        Ok(Loadable::MethodType(s)) => put(16, (16, 0, 0, vec![text(bytes, &s)])),
        Ok(Loadable::Dynamic(d)) => put(256, (17, u64::from(d.attr_index), 0, named(bytes, &d.name_and_type))),
        _ => (),
    }
    // A NameAndType that nothing refers to may have a raw descriptor, and the crate then panics.
    match catch_unwind(AssertUnwindSafe(|| read_cp_nameandtype_opt(at, &mut 0, pool))) {
        Ok(Ok(Some(nt))) => put(32, (12, 0, 0, named(bytes, &nt))),
        Ok(_) => (),
        Err(_) => put(32, (254, 0, 0, vec![])),
    }
    for (tag, allowed) in [
        (9, ConstantPoolEntryTypes::FIELD_REF),
        (10, ConstantPoolEntryTypes::METHOD_REF),
        (11, ConstantPoolEntryTypes::INTERFACE_METHOD_REF),
    ] {
        if let Ok(m) = read_cp_memberref(at, &mut 0, pool, allowed) {
            put(64, (tag, 0, 0, member(bytes, &m.class_name, &m.name_and_type)));
        }
    }
    if let Ok(h) = read_cp_methodhandle(at, &mut 0, pool) {
        let tag = match h.member_kind {
            MemberKind::Field => 9,
            MemberKind::Method => 10,
            MemberKind::InterfaceMethod => 11,
        };
        put(128, (15, kind(h.kind), tag, member(bytes, &h.class_name, &h.member_ref)));
    }
    if let Ok(d) = read_cp_invokedynamic(at, &mut 0, pool) {
        put(512, (18, u64::from(d.attr_index), 0, named(bytes, &d.name_and_type)));
    }
    if let Ok(s) = read_cp_utf8(at, &mut 0, pool) {
        put(1024, (1, 0, 0, vec![text(bytes, &s)]));
    }
    found
}

type Pool<'a> = (u16, u16, usize, Vec<CafeRc<ConstantPoolEntry<'a>>>);

// The first lines of parse_class_with_options: the header and the pool, and nothing after it.
fn pool_of(bytes: &[u8]) -> Result<Pool<'_>, ParseError> {
    let mut ix = 0;
    if read_u4(bytes, &mut ix)? != 0xCAFE_BABE {
        fail!("Unexpected magic header");
    }
    let minor = read_u2(bytes, &mut ix)?;
    let major = read_u2(bytes, &mut ix)?;
    let pool = read_constant_pool(bytes, &mut ix, major)?;
    Ok((minor, major, ix, pool))
}

impl ParseOptions {
    /// Reads header and pool: minor, major, the byte after the pool, every slot.
    #[allow(clippy::type_complexity)]
    pub fn probe_pool(bytes: &[u8]) -> Result<(u16, u16, usize, Vec<Slot>), ParseError> {
        let (minor, major, end, pool) = pool_of(bytes)?;
        Ok((minor, major, end, slots_of(bytes, &pool)))
    }

    /// Reads header and pool and looks the given slots up in every way that the crate has.
    pub fn probe_lookups(bytes: &[u8], slots: &[usize]) -> Result<Vec<Look>, ParseError> {
        let (_, _, _, pool) = pool_of(bytes)?;
        Ok(slots.iter().map(|&s| look(bytes, &pool, s)).collect())
    }

    /// Reads header and pool and answers how many slots there are: for timing.
    pub fn probe_count(bytes: &[u8]) -> Result<usize, ParseError> {
        Ok(pool_of(bytes)?.3.len())
    }
}

impl<'a> ClassFile<'a> {
    /// The pool of a class that was read, slot by slot.
    pub fn probe_slots(&self, bytes: &'a [u8]) -> Vec<Slot> {
        slots_of(bytes, &self.constant_pool)
    }
}
