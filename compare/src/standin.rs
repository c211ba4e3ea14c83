//! The C interface answered by the model, as a shared library: it stands where the proved library would
//! while the nets themselves are tried (compare/planted puts one small error into a copy at a time).

#![allow(clippy::missing_safety_doc, clippy::too_many_arguments)]

pub mod calls;
#[allow(dead_code)]
mod model;

use calls::*;
use model::{Lookup, Refusal, Room, Rules};
use std::slice::{from_raw_parts, from_raw_parts_mut};

const RULES: Rules =
    Rules { angle: false, deep: false, tail: false, module: false, member_bootstrap: false, wrap: false, long: false, chain: false };

unsafe fn bytes<'a>(p: *const u8, n: usize) -> &'a [u8] {
    from_raw_parts(p, n)
}

fn cells(table: &[u8]) -> Vec<u32> {
    table.chunks_exact(4).map(|c| u32::from_be_bytes([c[0], c[1], c[2], c[3]])).collect()
}

fn put(table: &mut [u8], cells: &[u32]) {
    table.fill(0);
    for (place, cell) in table.chunks_exact_mut(4).zip(cells) {
        place.copy_from_slice(&cell.to_be_bytes());
    }
}

fn values(file: &[u8], table: &[u8], which: Lookup, slot: u32) -> Result<[u64; 5], Refusal> {
    model::look(file, &cells(table), which, slot)
}

#[no_mangle]
pub unsafe extern "C" fn luo_pool(file: *const u8, n: usize, table: *mut u8, m: usize) -> PoolAnswer {
    let file = bytes(file, n);
    let table = from_raw_parts_mut(table, m);
    let pool = model::pool(file, Some(table.len() / 4), RULES);
    put(table, pool.as_ref().map_or(&[], |p| &p.cells));
    PoolAnswer::of(&pool)
}

#[no_mangle]
pub unsafe extern "C" fn luo_entries(file: *const u8, n: usize, table: *mut u32, m: usize) -> PoolAnswer {
    let read = model::entries(bytes(file, n), Some(m), RULES);
    fill(table, m, read.iter().flat_map(|p| p.cells.iter().copied()));
    PoolAnswer::of(&read)
}

macro_rules! lookup {
    ($name:ident, $which:ident, $answer:ident { $($field:ident: $n:literal as $t:ty),* }) => {
        #[no_mangle]
        pub unsafe extern "C" fn $name(file: *const u8, n: usize, table: *const u8, m: usize, slot: u32) -> $answer {
            match values(bytes(file, n), bytes(table, m), Lookup::$which, slot) {
                Ok(v) => $answer { refusal: 0, place: 0, $($field: v[$n] as $t),* },
                Err(r) => $answer { refusal: r.no, place: r.place, ..Default::default() },
            }
        }
    };
}

lookup!(luo_literal, Literal, LiteralAnswer { tag: 0 as u32, bits: 1 as u64 });
lookup!(luo_class_name, ClassName, SlotAnswer { slot: 0 as u32 });
lookup!(luo_module_name, ModuleName, SlotAnswer { slot: 0 as u32 });
lookup!(luo_package_name, PackageName, SlotAnswer { slot: 0 as u32 });
lookup!(luo_method_type, MethodType, SlotAnswer { slot: 0 as u32 });
lookup!(luo_name_and_type, NameAndType, NamedAnswer { name: 0 as u32, descriptor: 1 as u32 });
lookup!(luo_member_reference, MemberReference, MemberAnswer { tag: 0 as u32, class_name: 1 as u32, name: 2 as u32, descriptor: 3 as u32 });
lookup!(
    luo_method_handle,
    MethodHandle,
    HandleAnswer { kind: 0 as u32, tag: 1 as u32, class_name: 2 as u32, name: 3 as u32, descriptor: 4 as u32 }
);
lookup!(luo_dynamic, Dynamic, DynamicAnswer { index: 0 as u32, name: 1 as u32, descriptor: 2 as u32 });
lookup!(luo_invoke_dynamic, InvokeDynamic, DynamicAnswer { index: 0 as u32, name: 1 as u32, descriptor: 2 as u32 });
lookup!(luo_text, Text, TextAnswer { text: 0 as u32 });

#[no_mangle]
pub unsafe extern "C" fn luo_utf8_part(file: *const u8, n: usize, table: *const u8, m: usize, slot: u32) -> PartAnswer {
    match values(bytes(file, n), bytes(table, m), Lookup::Utf8Part, slot) {
        Ok(v) => PartAnswer { refusal: 0, place: 0, start: v[0], length: v[1] },
        Err(r) => PartAnswer { refusal: r.no, place: r.place, start: 0, length: 0 },
    }
}

#[no_mangle]
pub unsafe extern "C" fn luo_dependants(
    file: *const u8,
    n: usize,
    table: *const u8,
    m: usize,
    slot: u32,
    list: *mut u8,
    l: usize,
) -> ListAnswer {
    let list = from_raw_parts_mut(list, l);
    match model::dependants(bytes(file, n), &cells(bytes(table, m)), slot, list.len() / 4) {
        Ok(found) => {
            put(list, &found);
            ListAnswer { refusal: 0, place: 0, count: found.len() as u32 }
        }
        Err(r) => {
            put(list, &[]);
            ListAnswer { refusal: r.no, place: r.place, count: 0 }
        }
    }
}

unsafe fn fill<T: Copy + Default>(p: *mut T, n: usize, with: impl Iterator<Item = T>) {
    let column = from_raw_parts_mut(p, n);
    column.fill(T::default());
    for (place, x) in column.iter_mut().zip(with) {
        *place = x;
    }
}

#[no_mangle]
pub unsafe extern "C" fn luo_class(
    file: *const u8,
    n: usize,
    table: *mut u32,
    t: usize,
    interfaces: *mut u16,
    i: usize,
    flags: *mut u16,
    f: usize,
    names: *mut u16,
    a: usize,
    descriptors: *mut u16,
    d: usize,
    firsts: *mut u32,
    s: usize,
    counts: *mut u16,
    k: usize,
    attribute_names: *mut u16,
    x: usize,
    bodies: *mut u32,
    y: usize,
    lengths: *mut u32,
    z: usize,
) -> ClassAnswer {
    let members = f.min(a).min(d).min(s).min(k);
    let attributes = x.min(y).min(z);
    let room = Room { cells: t, interfaces: i, members, attributes };
    let class = model::class(bytes(file, n), room, RULES);
    let c = class.as_ref().ok();
    let members = || c.iter().flat_map(|c| c.members.iter());
    let attributes = || c.iter().flat_map(|c| c.attributes.iter());
    fill(table, t, c.iter().flat_map(|c| c.pool.cells.iter().copied()));
    fill(interfaces, i, c.iter().flat_map(|c| c.interfaces.iter().copied()));
    fill(flags, f, members().map(|m| m.flags));
    fill(names, a, members().map(|m| m.name));
    fill(descriptors, d, members().map(|m| m.descriptor));
    fill(firsts, s, members().map(|m| m.first));
    fill(counts, k, members().map(|m| m.count));
    fill(attribute_names, x, attributes().map(|a| a.name));
    fill(bodies, y, attributes().map(|a| a.body));
    fill(lengths, z, attributes().map(|a| a.length));
    ClassAnswer::of(&class)
}
