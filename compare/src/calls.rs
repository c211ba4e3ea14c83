//! The C interface of the proved library as Rust declarations: the answers of its calls, and which of them the
//! rules give for a pool and for a class.
//! Each begins with the refusal's number (0 where accepted) and its place; the values are 0 after a refusal.

use crate::model::{Answer, Class, Pool};

macro_rules! answers {
    ($($name:ident { $($field:ident: $t:ty),* })*) => {$(
        #[repr(C)]
        #[derive(Clone, Copy, Debug, PartialEq, Eq, Default)]
        pub struct $name { pub refusal: u32, pub place: u64, $(pub $field: $t),* }
    )*};
}

answers! {
    PoolAnswer { slots: u32, minor: u32, major: u32 }
    LiteralAnswer { tag: u32, bits: u64 }
    SlotAnswer { slot: u32 }
    NamedAnswer { name: u32, descriptor: u32 }
    MemberAnswer { tag: u32, class_name: u32, name: u32, descriptor: u32 }
    HandleAnswer { kind: u32, tag: u32, class_name: u32, name: u32, descriptor: u32 }
    DynamicAnswer { index: u32, name: u32, descriptor: u32 }
    TextAnswer { text: u32 }
    PartAnswer { start: u64, length: u64 }
    ListAnswer { count: u32 }
    ClassAnswer {
        slots: u32, minor: u32, major: u32, flags: u32, this_class: u32, super_class: u32,
        interfaces: u32, fields: u32, methods: u32, member_attributes: u32, class_attributes: u32
    }
}

impl PoolAnswer {
    pub fn of(answer: &Answer<Pool>) -> PoolAnswer {
        match answer {
            Ok(p) => PoolAnswer { refusal: 0, place: 0, slots: p.cells.len() as u32, minor: p.minor as u32, major: p.major as u32 },
            Err(r) => PoolAnswer { refusal: r.no, place: r.place, ..Default::default() },
        }
    }
}

impl ClassAnswer {
    pub fn of(answer: &Answer<Class>) -> ClassAnswer {
        match answer {
            Ok(c) => ClassAnswer {
                refusal: 0,
                place: 0,
                slots: c.pool.cells.len() as u32,
                minor: c.pool.minor as u32,
                major: c.pool.major as u32,
                flags: u32::from(c.flags),
                this_class: u32::from(c.this),
                super_class: u32::from(c.super_class),
                interfaces: c.interfaces.len() as u32,
                fields: c.fields as u32,
                methods: c.methods as u32,
                member_attributes: c.member_attributes as u32,
                class_attributes: (c.attributes.len() - c.member_attributes) as u32,
            },
            Err(r) => ClassAnswer { refusal: r.no, place: r.place, ..Default::default() },
        }
    }
}
