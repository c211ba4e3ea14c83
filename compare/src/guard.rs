//! A guarded child process: the cases run in it one after the other, with limits on stack, memory and
//! time. It keeps its place and its counts in memory shared with the parent; if it dies, the parent
//! knows on which case and in whose code, asks what that means, and starts a new child behind that case.
//! A death is never silent: it is a departure on the list or a difference.

use std::sync::atomic::{AtomicU32, AtomicU64, Ordering::SeqCst};
use std::time::{Duration, Instant};

#[repr(C)]
struct Limit {
    soft: u64,
    hard: u64,
}

extern "C" {
    fn fork() -> i32;
    fn waitpid(pid: i32, status: *mut i32, options: i32) -> i32;
    fn kill(pid: i32, signal: i32) -> i32;
    fn mmap(at: *mut u8, n: usize, prot: i32, flags: i32, fd: i32, offset: i64) -> *mut u8;
    fn setrlimit(what: i32, limit: *const Limit) -> i32;
    fn open(path: *const u8, flags: i32) -> i32;
    fn dup2(from: i32, to: i32) -> i32;
    fn _exit(code: i32) -> !;
}

/// Whose code runs: a death in the crate may be a known departure, one elsewhere never is.
pub const OURS: u32 = 1;
pub const MODEL: u32 = 2;
pub const CRATE: u32 = 3;

pub const CALLS: [&str; 5] = ["pool", "entries", "class", "lookups", "dependants"];

/// What the parent and the child both see.
#[repr(C)]
pub struct Shared {
    pub at: AtomicU64,
    pub stage: AtomicU32,
    pub turns: AtomicU64,
    pub done: AtomicU64,
    pub bytes: AtomicU64,
    pub differences: AtomicU64,
    pub deaths: AtomicU64,
    pub crate_accepts: AtomicU64,
    pub crate_refuses: AtomicU64,
    pub slots: AtomicU64,
    pub crate_lookups: AtomicU64,
    /// By call and by refusal number (0: accepted).
    pub refusals: [[AtomicU64; 20]; 5],
    pub departures: [AtomicU64; 16],
}

pub fn add(counter: &AtomicU64, n: u64) {
    counter.fetch_add(n, std::sync::atomic::Ordering::Relaxed);
}

pub fn get(counter: &AtomicU64) -> u64 {
    counter.load(SeqCst)
}

impl Shared {
    /// Fresh zeroed memory that a child shares with its parent.
    pub fn new() -> &'static Shared {
        unsafe {
            let at = mmap(std::ptr::null_mut(), std::mem::size_of::<Shared>(), 3, 0x21, -1, 0);
            assert!(at as isize != -1, "mmap");
            &*(at as *const Shared)
        }
    }

    pub fn stage(&self, stage: u32) {
        self.stage.store(stage, SeqCst);
        add(&self.turns, 1);
    }

    pub fn counted(&self, call: usize, no: u32) {
        add(&self.refusals[call][(no as usize).min(19)], 1);
    }
}

/// How a child ended before its time.
#[derive(Debug, Clone, Copy, PartialEq, Eq)]
pub enum End {
    Signal(i32),
    Exit(i32),
    TimeLimit,
}

/// Runs `each(i)` for i in 0..count in guarded children, until `until`; `died(i, stage, end)` judges a death.
pub fn run(
    shared: &'static Shared,
    count: u64,
    seconds_a_case: f64,
    until: Option<Instant>,
    mut progress: impl FnMut(u64),
    each: impl Fn(u64),
    mut died: impl FnMut(u64, u32, End),
) {
    let mut start = 0;
    while start < count {
        shared.at.store(start, SeqCst);
        shared.stage.store(MODEL, SeqCst);
        let pid = unsafe { fork() };
        assert!(pid >= 0, "fork");
        if pid == 0 {
            let stack = Limit { soft: 8 << 20, hard: 8 << 20 };
            let memory = Limit { soft: 6 << 30, hard: 6 << 30 };
            unsafe {
                setrlimit(3, &stack);
                setrlimit(9, &memory);
                // What the runtime says of a stack used up: the parent tells it better.
                dup2(open(c"/dev/null".as_ptr().cast(), 1), 2);
            }
            for i in start..count {
                shared.at.store(i, SeqCst);
                if until.is_some_and(|t| i % 64 == 0 && Instant::now() > t) {
                    break;
                }
                each(i);
                add(&shared.done, 1);
            }
            shared.at.store(count, SeqCst);
            unsafe { _exit(0) };
        }
        let end = watch(shared, pid, seconds_a_case, &mut progress);
        match end {
            End::Exit(0) if get(&shared.at) == count => return,
            _ => {
                let i = get(&shared.at);
                add(&shared.deaths, 1);
                died(i, shared.stage.load(SeqCst), end);
                start = i + 1;
            }
        }
        if until.is_some_and(|t| Instant::now() > t) {
            return;
        }
    }
}

fn watch(shared: &Shared, pid: i32, seconds_a_case: f64, progress: &mut impl FnMut(u64)) -> End {
    let mut last = (get(&shared.turns), Instant::now());
    let mut pause = 200;
    loop {
        let mut status = 0;
        let got = unsafe { waitpid(pid, &mut status, 1) };
        if got == pid {
            if status & 0x7F != 0 {
                return End::Signal(status & 0x7F);
            }
            return End::Exit((status >> 8) & 0xFF);
        }
        assert!(got == 0, "waitpid");
        std::thread::sleep(Duration::from_micros(pause));
        pause = (pause * 2).min(20_000);
        let turns = get(&shared.turns);
        if turns != last.0 {
            last = (turns, Instant::now());
        } else if last.1.elapsed().as_secs_f64() > seconds_a_case {
            unsafe { kill(pid, 9) };
            let mut status = 0;
            unsafe { waitpid(pid, &mut status, 0) };
            return End::TimeLimit;
        }
        progress(get(&shared.done));
    }
}
