//! The known departures of the crate from the rules: for each a file on which it shows, what the rules
//! ask (and the proved library answers), and what the crate does. docs/DIFFERENCES.md tells them.

use crate::forms::{self, attribute, member, Form, Rest};
use crate::inputs::from_hex;

/// What the crate does on the file.
#[derive(Clone, Copy, Debug, PartialEq, Eq)]
pub enum Does {
    Accepts,
    /// Refuses, with a message that contains this.
    Refuses(&'static str),
    Panics,
    /// Recurses until the stack is used up.
    Dies,
}

/// Which call shows it.
#[derive(Clone, Copy, Debug, PartialEq, Eq)]
pub enum Call {
    Pool,
    Class,
    NameAndType(u32),
}

pub struct Departure {
    pub name: &'static str,
    pub call: Call,
    pub file: Vec<u8>,
    /// The refusal's number and place; number 0 where accepted.
    pub ours: (u32, u64),
    pub does: Does,
}

fn class_called(name: &[u8]) -> Vec<u8> {
    let mut f = Form::new();
    let this = f.class(name);
    f.file(52, &Rest { this, ..Rest::default() })
}

fn with_member(method: bool, name: &[u8], descriptor: &[u8]) -> Vec<u8> {
    let mut f = Form::new();
    let this = f.class(b"A");
    let name = f.utf8(name);
    let descriptor = f.utf8(descriptor);
    let list = vec![member(0, name, descriptor, &[])];
    let mut rest = Rest { this, ..Rest::default() };
    if method {
        rest.methods = list;
    } else {
        rest.fields = list;
    }
    f.file(52, &rest)
}

fn module(major: u16, flags: u16, parent: bool) -> Vec<u8> {
    let mut f = Form::new();
    let this = f.class(b"A");
    f.file(major, &Rest { flags, this, super_class: if parent { this } else { 0 }, ..Rest::default() })
}

fn with_attribute(name: &[u8], body: &[u8], on_field: bool) -> Vec<u8> {
    let mut f = Form::new();
    let this = f.class(b"A");
    let called = f.utf8(name);
    let int = f.utf8(b"I");
    let list = vec![attribute(called, body)];
    let mut rest = Rest { this, ..Rest::default() };
    if on_field {
        rest.fields = vec![member(0, int, int, &list)];
    } else {
        rest.attributes = list;
    }
    f.file(52, &rest)
}

fn named_as(descriptor: &[u8]) -> Vec<u8> {
    let mut f = Form::new();
    f.named(b"A", descriptor);
    f.head(52)
}

/// A member that is cut after its name's index, and that index is bad.
fn cut_member() -> Vec<u8> {
    let mut file = forms::smallest(52);
    let n = file.len();
    file.truncate(n - 6);
    file.extend([0, 1, 0, 0, 0, 0]);
    file
}

/// A pool of 65,534 slots whose last entry is wide.
fn wide_last() -> Vec<u8> {
    let mut file = from_hex("CA FE BA BE 00 00 00 34 FF FF");
    for _ in 0..65533 {
        file.extend([1, 0, 0]);
    }
    file.extend([5, 0, 0, 0, 0, 0, 0, 0, 1]);
    file
}

/// The same, with 65,535 entries more behind it and then the rest of a class: the crate takes them for the
/// pool's, since its count begins again at 0.
fn wide_last_more() -> Vec<u8> {
    let mut file = from_hex("CA FE BA BE 00 00 00 34 FF FF 01 00 01 41 07 00 01");
    for _ in 0..65531 {
        file.extend([1, 0, 0]);
    }
    file.extend([5, 0, 0, 0, 0, 0, 0, 0, 1]);
    for _ in 0..65535 {
        file.extend([1, 0, 0]);
    }
    file.extend(from_hex("00 00 00 02 00 00 00 00 00 00 00 00 00 00"));
    file
}

/// The smallest class with one attribute that fills it up to one byte more than 16 MiB.
fn too_long() -> Vec<u8> {
    let file = with_attribute(b"Pad", &[], false);
    let body = vec![0; 16_777_217 - file.len()];
    with_attribute(b"Pad", &body, false)
}

pub fn all() -> Vec<Departure> {
    let d = |name, call, file, ours, does| Departure { name, call, file, ours, does };
    let disallowed = Does::Refuses("Disallowed character");
    vec![
        d("angle brackets in a class name", Call::Class, class_called(b"A<"), (0, 0), disallowed),
        d("angle brackets in a descriptor", Call::Class, with_member(false, b"f", b"LA<;"), (0, 0), disallowed),
        d("angle brackets in an array's name", Call::Pool, class_called(b"[LA>;"), (0, 0), Does::Refuses("Invalid classinfo name")),
        d(
            "more than 255 dimensions",
            Call::Pool,
            class_called(&[&[b'['; 256][..], b"I"].concat()),
            (0, 0),
            Does::Refuses("Invalid classinfo name"),
        ),
        d("bytes after a field's descriptor", Call::Class, with_member(false, b"f", b"Ix"), (11, 40), Does::Accepts),
        d("bytes after a method's descriptor", Call::Class, with_member(true, b"m", b"()Ix"), (11, 44), Does::Accepts),
        d(
            "NameAndType cycle",
            Call::Pool,
            from_hex("CA FE BA BE 00 00 00 34 00 06 0A 00 02 00 03 07 00 05 0C 00 05 00 04 0C 00 05 00 03 01 00 01 41"),
            (8, 1),
            Does::Dies,
        ),
        d(
            "NameAndType chain",
            Call::Pool,
            from_hex("CA FE BA BE 00 00 00 34 00 07 0A 00 02 00 03 07 00 05 0C 00 05 00 04 0C 00 05 00 06 01 00 01 41 01 00 03 28 29 56"),
            (8, 1),
            Does::Refuses("constant pool entry 3"),
        ),
        d("a member's indices in their order", Call::Class, cut_member(), (2, 31), Does::Refuses("name of class field 0")),
        d("MODULE before major 53", Call::Class, module(52, 0x8000, false), (0, 0), Does::Refuses("invalid MODULE class access flag")),
        d("MODULE with other flags", Call::Class, module(53, 0x8001, false), (0, 0), Does::Refuses("no other flags should be set")),
        d("MODULE with a super class", Call::Class, module(53, 0x8000, true), (0, 0), Does::Refuses("expected none for module")),
        d(
            "BootstrapMethods on a member",
            Call::Class,
            with_attribute(b"BootstrapMethods", &[], true),
            (0, 0),
            Does::Refuses("Length mismatch when reading attribute 0 for class field 0"),
        ),
        d(
            "BootstrapMethods read past its body",
            Call::Class,
            with_attribute(b"BootstrapMethods", &[0, 1], false),
            (18, 54),
            Does::Refuses("Unexpected end of stream reading u2"),
        ),
        d("wide entry in slot 65,534", Call::Pool, wide_last(), (0, 0), Does::Refuses("Unexpected end of stream")),
        d("wide entry in slot 65,534, entries behind it", Call::Class, wide_last_more(), (8, 196_621), Does::Accepts),
        d("raw descriptor of a NameAndType", Call::NameAndType(3), named_as(&[0x80]), (9, 3), Does::Panics),
        d("length over 16 MiB", Call::Class, too_long(), (1, 0), Does::Accepts),
        d(
            "contents of other attributes",
            Call::Class,
            with_attribute(b"Synthetic", &[0], false),
            (0, 0),
            Does::Refuses("Unexpected length 1"),
        ),
    ]
}
