//! The C interface where this processor is not the library's: each call is a request to compare/serve.c, which
//! runs as a child (build/compare/serve starts it, under an emulator) and tells the two ends of the talk.
//! Bytes that the child has are not sent again: the cases ask many questions of one file.

#![allow(clippy::missing_safety_doc, clippy::too_many_arguments)]

use super::calls::*;
use std::cell::RefCell;
use std::io::{Read, Write};
use std::process::{id, ChildStdin, ChildStdout, Command, Stdio};
use std::slice::{from_raw_parts, from_raw_parts_mut};

struct Server {
    /// Whose child it is: a process that was forked since starts its own.
    of: u32,
    to: ChildStdin,
    from: ChildStdout,
    file: Vec<u8>,
    table: Vec<u8>,
    out: Vec<u8>,
    back: Vec<u8>,
}

thread_local! {
    static SERVER: RefCell<Option<Server>> = const { RefCell::new(None) };
}

fn start() -> Server {
    let path = "build/compare/serve";
    let child = Command::new(path).stdin(Stdio::piped()).stdout(Stdio::piped()).spawn();
    let child = child.unwrap_or_else(|e| panic!("{path} does not start: {e}"));
    let (to, from) = (child.stdin.expect("a pipe"), child.stdout.expect("a pipe"));
    Server { of: id(), to, from, file: vec![], table: vec![], out: vec![], back: vec![] }
}

impl Server {
    /// Whether the child already has these bytes; keeps them as those that it has.
    fn has(kept: &mut Vec<u8>, bytes: &[u8]) -> bool {
        let same = kept == bytes;
        if !same {
            kept.clear();
            kept.extend_from_slice(bytes);
        }
        same
    }

    fn ask<T: Copy + Default>(
        &mut self,
        call: u32,
        slot: u32,
        file: &[u8],
        table: Option<&[u8]>,
        lent: &mut [&mut [u8]],
    ) -> std::io::Result<T> {
        let file_new = !Server::has(&mut self.file, file);
        let table_new = table.is_some_and(|t| !Server::has(&mut self.table, t));
        let mut words = [0; 16];
        words[..6].copy_from_slice(&[call, slot, file.len() as u32, file_new.into(), self.table.len() as u32, table_new.into()]);
        for (word, slice) in words[6..].iter_mut().zip(lent.iter()) {
            *word = slice.len() as u32;
        }
        self.out.clear();
        self.out.extend(words.iter().flat_map(|w: &u32| w.to_le_bytes()));
        if file_new {
            self.out.extend_from_slice(file);
        }
        if table_new {
            self.out.extend_from_slice(&self.table);
        }
        self.to.write_all(&self.out)?;
        let size = std::mem::size_of::<T>();
        self.back.resize(4 + size + lent.iter().map(|s| s.len()).sum::<usize>(), 0);
        self.from.read_exact(&mut self.back)?;
        let (length, rest) = self.back.split_at(4);
        assert_eq!(u32::from_le_bytes([length[0], length[1], length[2], length[3]]) as usize, size, "the size of an answer");
        let (answer, mut rest) = rest.split_at(size);
        for slice in lent {
            let (now, after) = rest.split_at(slice.len());
            slice.copy_from_slice(now);
            rest = after;
        }
        // Every answer is a #[repr(C)] struct of numbers, laid out alike on both processors: any bytes are one.
        Ok(unsafe { answer.as_ptr().cast::<T>().read_unaligned() })
    }
}

fn ask<T: Copy + Default>(call: u32, slot: u32, file: &[u8], table: Option<&[u8]>, lent: &mut [&mut [u8]]) -> T {
    SERVER.with_borrow_mut(|server| {
        if !server.as_ref().is_some_and(|s| s.of == id()) {
            // The talk of the process that this one was forked from stays open: it is not ours to end.
            std::mem::forget(server.replace(start()));
        }
        let server = server.as_mut().expect("a server");
        // A server that died in a call, died of it: so does this process, and guard.rs tells whose code it was.
        server.ask(call, slot, file, table, lent).unwrap_or_else(|_| std::process::abort())
    })
}

unsafe fn bytes<'a>(p: *const u8, n: usize) -> &'a [u8] {
    from_raw_parts(p, n)
}

unsafe fn numbers<'a, T>(p: *mut T, n: usize) -> &'a mut [u8] {
    from_raw_parts_mut(p.cast(), n * std::mem::size_of::<T>())
}

pub unsafe fn luo_pool(file: *const u8, n: usize, table: *mut u8, m: usize) -> PoolAnswer {
    ask(0, 0, bytes(file, n), None, &mut [numbers(table, m)])
}

pub unsafe fn luo_entries(file: *const u8, n: usize, table: *mut u32, m: usize) -> PoolAnswer {
    ask(15, 0, bytes(file, n), None, &mut [numbers(table, m)])
}

macro_rules! lookups {
    ($($call:literal $name:ident $answer:ident)*) => {$(
        pub unsafe fn $name(file: *const u8, n: usize, table: *const u8, m: usize, slot: u32) -> $answer {
            ask($call, slot, bytes(file, n), Some(bytes(table, m)), &mut [])
        }
    )*};
}

lookups! {
    1 luo_literal LiteralAnswer
    2 luo_class_name SlotAnswer
    3 luo_module_name SlotAnswer
    4 luo_package_name SlotAnswer
    5 luo_method_type SlotAnswer
    6 luo_name_and_type NamedAnswer
    7 luo_member_reference MemberAnswer
    8 luo_method_handle HandleAnswer
    9 luo_dynamic DynamicAnswer
    10 luo_invoke_dynamic DynamicAnswer
    11 luo_text TextAnswer
    12 luo_utf8_part PartAnswer
}

pub unsafe fn luo_dependants(file: *const u8, n: usize, table: *const u8, m: usize, slot: u32, list: *mut u8, l: usize) -> ListAnswer {
    ask(13, slot, bytes(file, n), Some(bytes(table, m)), &mut [numbers(list, l)])
}

pub unsafe fn luo_class(
    file: *const u8,
    n: usize,
    table: *mut u32,
    t: usize,
    interfaces: *mut u16,
    i: usize,
    flags: *mut u16,
    f: usize,
    names: *mut u16,
    a: usize,
    descriptors: *mut u16,
    d: usize,
    firsts: *mut u32,
    s: usize,
    counts: *mut u16,
    c: usize,
    attribute_names: *mut u16,
    x: usize,
    bodies: *mut u32,
    y: usize,
    lengths: *mut u32,
    z: usize,
) -> ClassAnswer {
    let lent = &mut [
        numbers(table, t),
        numbers(interfaces, i),
        numbers(flags, f),
        numbers(names, a),
        numbers(descriptors, d),
        numbers(firsts, s),
        numbers(counts, c),
        numbers(attribute_names, x),
        numbers(bodies, y),
        numbers(lengths, z),
    ];
    ask(14, 0, bytes(file, n), None, lent)
}
