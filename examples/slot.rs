//! What stands in one slot of a class file's pool, from Rust: the header's struct and calls, bound by hand.
//! rustc slot.rs -L PREFIX/lib -l static=luohtemik && ./slot Curve.class 22

#[repr(C)]
struct PoolAnswer { refusal: u32, place: u64, slots: u32, minor: u32, major: u32 }
#[repr(C)]
struct LiteralAnswer { refusal: u32, place: u64, tag: u32, bits: u64 }

extern "C" {
    fn luo_pool32(file: *const u8, file_len: usize, table: *mut u32, table_len: usize) -> PoolAnswer;
    fn luo_literal32(file: *const u8, file_len: usize, table: *const u32, table_len: usize, slot: u32) -> LiteralAnswer;
}

fn main() {
    let words: Vec<String> = std::env::args().collect();
    let file = std::fs::read(&words[1]).expect("a class file");
    let slot: u32 = words[2].parse().expect("a slot number");
    let mut table = vec![0u32; (file.len() / 3 + 2).min(65536)]; // LUO_ROOM_SLOTS of luohtemik_tables.h
    let p = unsafe { luo_pool32(file.as_ptr(), file.len(), table.as_mut_ptr(), table.len()) };
    if p.refusal != 0 { return println!("refused with {} at {}", p.refusal, p.place); }
    println!("version {}.{}, {} slots", p.major, p.minor, p.slots);
    let v = unsafe { luo_literal32(file.as_ptr(), file.len(), table.as_ptr(), p.slots as usize, slot) };
    match (v.refusal, v.tag) {
        (0, 3) => println!("int {}", v.bits as u32 as i32),
        (0, 4) => println!("float {}", f32::from_bits(v.bits as u32)),
        (0, 5) => println!("long {}", v.bits as i64),
        (0, 6) => println!("double {}", f64::from_bits(v.bits)),
        (0, _) => println!("String, its text in slot {}", v.bits),
        (refusal, _) => println!("refused with {} at {}", refusal, v.place),
    }
}
