//! The proved library, called through its C interface.

use crate::model::{Lookup, Values};

#[path = "calls.rs"]
pub mod calls;

use calls::*;

/// Where the library's processor is not this one (compare/build says so), its calls are answered by a child.
#[cfg(served)]
#[path = "served.rs"]
mod c;

#[cfg(not(served))]
#[allow(clippy::too_many_arguments)]
mod c {
    use super::calls::*;
    extern "C" {
        pub fn luo_pool(file: *const u8, n: usize, table: *mut u8, m: usize) -> PoolAnswer;
        pub fn luo_entries(file: *const u8, n: usize, table: *mut u32, m: usize) -> PoolAnswer;
        pub fn luo_literal(file: *const u8, n: usize, table: *const u8, m: usize, slot: u32) -> LiteralAnswer;
        pub fn luo_class_name(file: *const u8, n: usize, table: *const u8, m: usize, slot: u32) -> SlotAnswer;
        pub fn luo_module_name(file: *const u8, n: usize, table: *const u8, m: usize, slot: u32) -> SlotAnswer;
        pub fn luo_package_name(file: *const u8, n: usize, table: *const u8, m: usize, slot: u32) -> SlotAnswer;
        pub fn luo_method_type(file: *const u8, n: usize, table: *const u8, m: usize, slot: u32) -> SlotAnswer;
        pub fn luo_name_and_type(file: *const u8, n: usize, table: *const u8, m: usize, slot: u32) -> NamedAnswer;
        pub fn luo_member_reference(file: *const u8, n: usize, table: *const u8, m: usize, slot: u32) -> MemberAnswer;
        pub fn luo_method_handle(file: *const u8, n: usize, table: *const u8, m: usize, slot: u32) -> HandleAnswer;
        pub fn luo_dynamic(file: *const u8, n: usize, table: *const u8, m: usize, slot: u32) -> DynamicAnswer;
        pub fn luo_invoke_dynamic(file: *const u8, n: usize, table: *const u8, m: usize, slot: u32) -> DynamicAnswer;
        pub fn luo_text(file: *const u8, n: usize, table: *const u8, m: usize, slot: u32) -> TextAnswer;
        pub fn luo_utf8_part(file: *const u8, n: usize, table: *const u8, m: usize, slot: u32) -> PartAnswer;
        pub fn luo_dependants(file: *const u8, n: usize, table: *const u8, m: usize, slot: u32, list: *mut u8, l: usize) -> ListAnswer;
        pub fn luo_class(
            file: *const u8,
            n: usize,
            table: *mut u32,
            t: usize,
            interfaces: *mut u16,
            i: usize,
            flags: *mut u16,
            f: usize,
            names: *mut u16,
            a: usize,
            descriptors: *mut u16,
            d: usize,
            firsts: *mut u32,
            s: usize,
            counts: *mut u16,
            c: usize,
            attribute_names: *mut u16,
            x: usize,
            bodies: *mut u32,
            y: usize,
            lengths: *mut u32,
            z: usize,
        ) -> ClassAnswer;
    }
}

pub fn pool(file: &[u8], table: &mut [u8]) -> PoolAnswer {
    unsafe { c::luo_pool(file.as_ptr(), file.len(), table.as_mut_ptr(), table.len()) }
}

pub fn entries(file: &[u8], table: &mut [u32]) -> PoolAnswer {
    unsafe { c::luo_entries(file.as_ptr(), file.len(), table.as_mut_ptr(), table.len()) }
}

/// A lookup: the refusal's number and place, and the answer's values in the order of the C interface.
pub fn look(file: &[u8], table: &[u8], which: Lookup, slot: u32) -> (u32, u64, Values) {
    let (f, n, t, m) = (file.as_ptr(), file.len(), table.as_ptr(), table.len());
    let u = u64::from;
    unsafe {
        match which {
            Lookup::Literal => {
                let r = c::luo_literal(f, n, t, m, slot);
                (r.refusal, r.place, [u(r.tag), r.bits, 0, 0, 0])
            }
            Lookup::ClassName | Lookup::ModuleName | Lookup::PackageName | Lookup::MethodType => {
                let r = match which {
                    Lookup::ClassName => c::luo_class_name(f, n, t, m, slot),
                    Lookup::ModuleName => c::luo_module_name(f, n, t, m, slot),
                    Lookup::PackageName => c::luo_package_name(f, n, t, m, slot),
                    _ => c::luo_method_type(f, n, t, m, slot),
                };
                (r.refusal, r.place, [u(r.slot), 0, 0, 0, 0])
            }
            Lookup::NameAndType => {
                let r = c::luo_name_and_type(f, n, t, m, slot);
                (r.refusal, r.place, [u(r.name), u(r.descriptor), 0, 0, 0])
            }
            Lookup::MemberReference => {
                let r = c::luo_member_reference(f, n, t, m, slot);
                (r.refusal, r.place, [u(r.tag), u(r.class_name), u(r.name), u(r.descriptor), 0])
            }
            Lookup::MethodHandle => {
                let r = c::luo_method_handle(f, n, t, m, slot);
                (r.refusal, r.place, [u(r.kind), u(r.tag), u(r.class_name), u(r.name), u(r.descriptor)])
            }
            Lookup::Dynamic | Lookup::InvokeDynamic => {
                let r = match which {
                    Lookup::Dynamic => c::luo_dynamic(f, n, t, m, slot),
                    _ => c::luo_invoke_dynamic(f, n, t, m, slot),
                };
                (r.refusal, r.place, [u(r.index), u(r.name), u(r.descriptor), 0, 0])
            }
            Lookup::Text => {
                let r = c::luo_text(f, n, t, m, slot);
                (r.refusal, r.place, [u(r.text), 0, 0, 0, 0])
            }
            Lookup::Utf8Part => {
                let r = c::luo_utf8_part(f, n, t, m, slot);
                (r.refusal, r.place, [r.start, r.length, 0, 0, 0])
            }
        }
    }
}

pub fn dependants(file: &[u8], table: &[u8], slot: u32, list: &mut [u8]) -> ListAnswer {
    unsafe { c::luo_dependants(file.as_ptr(), file.len(), table.as_ptr(), table.len(), slot, list.as_mut_ptr(), list.len()) }
}

/// A lent column, filled with a mark, with marked cells behind it that no call may touch.
pub struct Column<T> {
    all: Vec<T>,
    lent: usize,
    mark: T,
}

const BEHIND: usize = 4;

impl<T: Copy + PartialEq> Column<T> {
    pub fn new(lent: usize, mark: T) -> Column<T> {
        Column { all: vec![mark; lent + BEHIND], lent, mark }
    }
    pub fn lend(&mut self) -> &mut [T] {
        &mut self.all[..self.lent]
    }
    pub fn cells(&self) -> &[T] {
        &self.all[..self.lent]
    }
    pub fn untouched_behind(&self) -> bool {
        self.all[self.lent..].iter().all(|x| *x == self.mark)
    }
    fn at(&mut self) -> *mut T {
        self.all.as_mut_ptr()
    }
}

/// The tables that a whole class is read into.
pub struct Tables {
    pub table: Column<u32>,
    pub interfaces: Column<u16>,
    pub flags: Column<u16>,
    pub names: Column<u16>,
    pub descriptors: Column<u16>,
    pub firsts: Column<u32>,
    pub counts: Column<u16>,
    pub attribute_names: Column<u16>,
    pub bodies: Column<u32>,
    pub lengths: Column<u32>,
}

impl Tables {
    /// `room`: cells, interfaces, the five columns of members, the three of attributes.
    pub fn new(room: &[usize; 10]) -> Tables {
        let (a, b) = (0xA5A5, 0xA5A5_A5A5);
        Tables {
            table: Column::new(room[0], b),
            interfaces: Column::new(room[1], a),
            flags: Column::new(room[2], a),
            names: Column::new(room[3], a),
            descriptors: Column::new(room[4], a),
            firsts: Column::new(room[5], b),
            counts: Column::new(room[6], a),
            attribute_names: Column::new(room[7], a),
            bodies: Column::new(room[8], b),
            lengths: Column::new(room[9], b),
        }
    }
}

pub fn class(file: &[u8], t: &mut Tables) -> ClassAnswer {
    unsafe {
        c::luo_class(
            file.as_ptr(),
            file.len(),
            t.table.at(),
            t.table.lent,
            t.interfaces.at(),
            t.interfaces.lent,
            t.flags.at(),
            t.flags.lent,
            t.names.at(),
            t.names.lent,
            t.descriptors.at(),
            t.descriptors.lent,
            t.firsts.at(),
            t.firsts.lent,
            t.counts.at(),
            t.counts.lent,
            t.attribute_names.at(),
            t.attribute_names.lent,
            t.bodies.at(),
            t.bodies.lent,
            t.lengths.at(),
            t.lengths.lent,
        )
    }
}
