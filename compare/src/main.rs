//! Compares the proved library with the crate cafebabe 0.9.0 and with a model of the rules.

mod bench;
mod check;
mod departures;
mod fixed;
mod forms;
mod guard;
mod inputs;
#[allow(dead_code)]
mod model;
mod mutate;
mod ours;
mod planted;
mod rng;
mod worst;

use cafebabe::{parse_class, ParseOptions};
use check::{Case, Check, Effort};
use departures::{Call, Does};
use guard::{add, get, End, Shared, CRATE};
use model::Rules;
use rng::Rng;
use std::collections::HashMap;
use std::panic::{catch_unwind, AssertUnwindSafe};
use std::time::{Duration, Instant};

const SECONDS_A_CASE: f64 = 20.0;
const AS_THE_CRATE: &str = "as the crate did";

fn main() {
    // A panic of the crate is an answer, not a message; any other is told.
    std::panic::set_hook(Box::new(|info| {
        if !info.location().is_some_and(|l| l.file().contains("cafebabe/")) && !info.to_string().contains(AS_THE_CRATE) {
            println!("{info}");
        }
    }));
    let mut words = std::env::args().skip(1);
    let command = words.next().unwrap_or_default();
    let options: HashMap<String, String> = words.filter_map(|w| w.split_once('=').map(|(k, v)| (k.to_string(), v.to_string()))).collect();
    let number = |name: &str, other: u64| options.get(name).map_or(other, |v| v.parse().expect(name));
    let packs: Vec<&str> = options.get("packs").map_or(vec![], |p| p.split(',').filter(|p| !p.is_empty()).collect());
    if let Some(n) = options.get("without") {
        check::forget(n.parse().expect("without"));
    }
    let mut plan = Plan {
        seed: number("seed", 1),
        mutants: number("mutants", 200_000),
        longest: number("longest", 4) as u32,
        time: None,
        stop: number("stop", 0) > 0,
    };
    let good = match command.as_str() {
        "compare" => run(&packs, &plan),
        "long" => {
            (plan.mutants, plan.longest, plan.time) = (u64::MAX / 2, 5, Some(number("time", 600)));
            run(&packs, &plan)
        }
        "departures" => {
            for d in departures::all() {
                let bytes = if d.file.len() <= 400 { check::hex(&d.file) } else { format!("{} bytes", d.file.len()) };
                println!("{}: {:?}; ours {:?}; the crate {:?}\n    {bytes}", d.name, d.call, d.ours, d.does);
            }
            true
        }
        "fixed" => fixed::run(&options["out"], number("seed", 1)),
        "bench" => bench::run(&packs, number("rounds", 15) as usize),
        "worst" => worst::run(),
        "planted" => {
            let words: Vec<String> = options.iter().filter(|(k, _)| *k != "only").map(|(k, v)| format!("{k}={v}")).collect();
            planted::run("compare/planted.txt", options.get("only").map_or("", |s| s), &words)
        }
        "planted-code" => planted::code(options.get("code").map_or("", |s| s), options.get("only").map_or("", |s| s)),
        "one" => one(&options["file"]),
        other => panic!("compare, long, fixed, bench, worst, planted, departures or one; not '{other}'"),
    };
    std::process::exit(if good { 0 } else { 1 });
}

/// Prints what each side says of one file.
fn one(path: &str) -> bool {
    let file = std::fs::read(path).expect(path);
    let room = check::ample(&file);
    println!("rules, pool:  {:?}", model::pool(&file, None, Rules::default()).map(|p| p.cells.len()));
    println!("rules, class: {:?}", model::class(&file, room, Rules::default()));
    println!("crate, foretold: {:?}", model::class(&file, room, check::foretelling()).map(|c| c.members.len()));
    let mut table = vec![0; 4 * room.cells];
    println!("ours, pool:   {:?}", ours::pool(&file, &mut table));
    println!("ours, entries: {:?}", ours::entries(&file, &mut vec![0; room.cells]));
    let mut t = ours::Tables::new(&[
        room.cells,
        room.interfaces,
        room.members,
        room.members,
        room.members,
        room.members,
        room.members,
        room.attributes,
        room.attributes,
        room.attributes,
    ]);
    println!("ours, class:  {:?}", ours::class(&file, &mut t));
    println!("crate, pool:  {:?}", ParseOptions::probe_pool(&file).map(|p| p.3.len()).map_err(|e| e.to_string()));
    println!("crate, class: {:?}", parse_class(&file).map(|_| ()).map_err(|e| e.to_string()));
    true
}

struct Part<'a> {
    name: &'static str,
    count: u64,
    effort: Effort,
    get: Box<dyn Fn(u64) -> Case + 'a>,
}

impl<'a> Part<'a> {
    /// The files of a list, as they are.
    fn listed(name: &'static str, family: &'static str, files: &'a [Vec<u8>], effort: Effort) -> Part<'a> {
        let get = move |number: u64| Case { family, number, file: files[number as usize].clone() };
        Part { name, count: files.len() as u64, effort, get: Box::new(get) }
    }
}

fn progress_line(name: &str, start: Instant, shared: &'static Shared, each: Duration) -> impl FnMut(u64) {
    let name = name.to_string();
    let mut last = Instant::now();
    move |done| {
        if last.elapsed() >= each {
            last = Instant::now();
            println!("  {:6.0} s  {name}: {done} cases, {} differences", start.elapsed().as_secs_f64(), get(&shared.differences));
        }
    }
}

/// How much is run.
struct Plan {
    seed: u64,
    mutants: u64,
    /// The longest text that is tried exhaustively.
    longest: u32,
    /// Seconds until the mutants end, however many they are.
    time: Option<u64>,
    /// Whether a part with a difference is the last.
    stop: bool,
}

/// Runs the parts, each in guarded children; answers whether nothing differed.
fn run(packs: &[&str], plan: &Plan) -> bool {
    let Plan { seed, mutants, longest, time, stop } = *plan;
    let start = Instant::now();
    let compiled: Vec<Vec<u8>> = packs.iter().flat_map(|p| inputs::unpack(p)).collect();
    let seeds = inputs::seeds();
    let examples = inputs::examples();
    let exhaustive = inputs::Exhaustive::new(longest);
    let small: Vec<Vec<u8>> = compiled.iter().filter(|f| f.len() < 4000).cloned().collect();
    let large = inputs::large();
    let indices = inputs::Indices::new();
    let combined = inputs::combined();
    let cuts = inputs::cuts();
    let departing = departures::all();
    let every = Effort { slots: 4, all: true, rooms: 4, with_crate: true };
    let neutral = |number: u64| {
        let mut file = compiled[number as usize].clone();
        check::neutralise(&mut file);
        Case { family: "compiled class", number, file }
    };
    let mutant = inputs::Mutants { seeds: &seeds, compiled: &small, seed, share: 25 };
    let parts = [
        Part::listed("examples of the rules", "example", &examples, every),
        Part::listed("put together by hand", "by hand", &seeds, Effort { slots: 200, all: true, rooms: 60, with_crate: true }),
        Part::listed("at the limits", "large", &large, Effort { slots: 2, all: false, rooms: 2, with_crate: true }),
        Part {
            name: "departures, foretold",
            count: departing.len() as u64,
            effort: Effort { slots: 2, all: false, rooms: 0, with_crate: true },
            get: Box::new(|number| {
                let mut file = departing[number as usize].file.clone();
                check::neutralise(&mut file);
                Case { family: "departure", number, file }
            }),
        },
        Part::listed("members, call sites", "combined", &combined, every),
        Part::listed("cut at every byte", "cut", &cuts, Effort { slots: 1, all: false, rooms: 1, with_crate: true }),
        Part {
            name: "every index to every slot",
            count: indices.len(),
            effort: Effort { slots: 1, all: false, rooms: 0, with_crate: true },
            get: Box::new(|n| indices.get(n)),
        },
        Part {
            name: "exhaustive short",
            count: exhaustive.len(),
            effort: Effort { slots: 1, all: false, rooms: 1, with_crate: true },
            get: Box::new(|n| exhaustive.get(n)),
        },
        Part {
            name: "compiled",
            count: compiled.len() as u64,
            effort: Effort { slots: 6, all: false, rooms: 1, with_crate: true },
            get: Box::new(neutral),
        },
        Part::listed("compiled, as they are", "compiled class as it is", &compiled, Effort { slots: 1, all: false, rooms: 0, with_crate: true }),
        Part {
            name: "mutants",
            count: mutants,
            effort: Effort { slots: 2, all: false, rooms: 1, with_crate: true },
            get: Box::new(|n| mutant.get(n)),
        },
    ];
    let mut good = known_departures(start);
    if stop && !good {
        return false;
    }
    println!("compare: seed {seed}");
    let mut totals = Totals::default();
    for part in &parts {
        let shared = Shared::new();
        let until = match (time, part.name) {
            (Some(t), "mutants") => Some(start + Duration::from_secs(t)),
            _ => None,
        };
        let began = Instant::now();
        let check = |n: u64| {
            let case = (part.get)(n);
            let mut rng = Rng::of(seed ^ 0xC0FFEE, n);
            Check { shared, case: &case }.all(&mut rng, part.effort);
        };
        let died = |n: u64, stage: u32, end: End| {
            let case = (part.get)(n);
            let endless = matches!(model::pool(&case.file, None, check::foretelling()), Err(r) if r.no == model::ENDLESS);
            if stage == CRATE && endless && matches!(end, End::Signal(6 | 11)) {
                add(&shared.departures[7], 1);
                add(&shared.done, 1);
            } else {
                let whose = ["nothing", "ours", "the model", "the crate"][stage as usize & 3];
                Check { shared, case: &case }.differ(&format!("{whose} died: {end:?}"));
            }
        };
        let each = Duration::from_secs(if time.is_some() { 10 } else { 3600 });
        guard::run(shared, part.count, SECONDS_A_CASE, until, progress_line(part.name, start, shared, each), check, died);
        let done = get(&shared.done);
        println!(
            "  {:26} {:>9} cases {:>7.1} MB {:>6.1} s   the crate accepts {}, refuses {}",
            part.name,
            done,
            get(&shared.bytes) as f64 / 1e6,
            began.elapsed().as_secs_f64(),
            get(&shared.crate_accepts),
            get(&shared.crate_refuses)
        );
        if until.is_none() && done != part.count && get(&shared.differences) == 0 {
            println!("FAILED: {} of {} cases of '{}' did not run to their end", part.count - done, part.count, part.name);
            good = false;
        }
        totals.add(shared);
        if stop && totals.differences > 0 {
            return false;
        }
    }
    totals.print();
    let missing = totals.missing();
    if !missing.is_empty() {
        println!("FAILED: never seen: {}", missing.join(", "));
        good = false;
    }
    good &= totals.differences == 0;
    println!(
        "compare: {} cases, {} differences, {:.0} s{}",
        totals.done,
        totals.differences,
        start.elapsed().as_secs_f64(),
        if good { "" } else { ": FAILED" }
    );
    good
}

#[derive(Default)]
struct Totals {
    done: u64,
    differences: u64,
    slots: u64,
    lookups: u64,
    refusals: [[u64; 20]; 5],
    departures: [u64; 16],
}

impl Totals {
    fn add(&mut self, s: &Shared) {
        self.done += get(&s.done);
        self.differences += get(&s.differences);
        self.slots += get(&s.slots);
        self.lookups += get(&s.crate_lookups);
        for (mine, theirs) in self.refusals.iter_mut().zip(&s.refusals) {
            for (a, b) in mine.iter_mut().zip(theirs) {
                *a += get(b);
            }
        }
        for (a, b) in self.departures.iter_mut().zip(&s.departures) {
            *a += get(b);
        }
    }

    fn print(&self) {
        println!("  crate: {} slots and {} lookups equal by value", self.slots, self.lookups);
        print!("  refusal     ");
        for no in 0..=18 {
            print!(" {:>8}", if no == 0 { "accepted".into() } else { no.to_string() });
        }
        println!();
        for (call, row) in guard::CALLS.iter().zip(&self.refusals) {
            print!("  {call:12}");
            for n in &row[..19] {
                print!(" {n:>8}");
            }
            println!();
        }
        let names =
            Rules::NAMES.iter().copied().chain(["raw descriptor of a NameAndType", "several at once", "contents of other attributes"]);
        let seen: Vec<String> = names.zip(&self.departures).filter(|(_, &n)| n > 0).map(|(name, n)| format!("{name} {n}")).collect();
        println!("  departures: {}", seen.join("; "));
    }

    /// The refusals that a call can give and that the run never saw.
    fn missing(&self) -> Vec<String> {
        let can: [&[usize]; 5] = [
            &[0, 2, 3, 4, 5, 6, 7, 8, 9, 10, 11],
            &[0, 1, 2, 3, 4, 5],
            &[0, 2, 3, 4, 5, 6, 7, 8, 9, 10, 11, 13, 14, 15, 16, 17, 18],
            &[0, 2, 3, 4, 6, 7, 8, 9, 10, 11, 12],
            &[0, 2, 3, 4, 6, 7, 8, 9, 10, 11, 12, 13],
        ];
        let mut out = vec![];
        for (call, (row, can)) in self.refusals.iter().zip(can).enumerate() {
            for &no in can {
                if row[no] == 0 {
                    out.push(format!("{} with {no}", guard::CALLS[call]));
                }
            }
        }
        out
    }
}

/// Each known departure on its own file: the model, the proved library and the crate say what is listed.
fn known_departures(start: Instant) -> bool {
    let all = departures::all();
    let shared = Shared::new();
    let wrong = |n: usize, what: String| {
        add(&shared.differences, 1);
        println!("DIFFERENCE in departure '{}': {what}", all[n].name);
    };
    let check = |n: u64| {
        let d = &all[n as usize];
        let case = Case { family: d.name, number: n, file: d.file.clone() };
        let without = Effort { slots: 4, all: true, rooms: 2, with_crate: false };
        Check { shared, case: &case }.all(&mut Rng::of(7, n), without);
        let ruled = match d.call {
            Call::Pool => model::pool(&d.file, None, Rules::default()).err(),
            Call::Class => model::class(&d.file, check::ample(&d.file), Rules::default()).err(),
            Call::NameAndType(slot) => {
                let cells = model::entries(&d.file, None, Rules::default()).expect("a pool").cells;
                model::look(&d.file, &cells, model::Lookup::NameAndType, slot).err()
            }
        };
        let ruled = ruled.map_or((0, 0), |r| (r.no, r.place));
        if ruled != d.ours {
            wrong(n as usize, format!("the rules give {ruled:?}, listed is {:?}", d.ours));
        }
        shared.stage(CRATE);
        let does = catch_unwind(AssertUnwindSafe(|| match d.call {
            Call::Class => parse_class(&d.file).map(|_| ()).map_err(|e| e.to_string()),
            Call::Pool => ParseOptions::probe_pool(&d.file).map(|_| ()).map_err(|e| e.to_string()),
            Call::NameAndType(slot) => match ParseOptions::probe_lookups(&d.file, &[slot as usize]) {
                Ok(looks) if looks[0].1 == 254 => panic!("{AS_THE_CRATE}"),
                other => other.map(|_| ()).map_err(|e| e.to_string()),
            },
        }));
        shared.stage(guard::MODEL);
        let same = match (&does, d.does) {
            (Ok(Ok(())), Does::Accepts) | (Err(_), Does::Panics) => true,
            (Ok(Err(said)), Does::Refuses(part)) => said.contains(part),
            _ => false,
        };
        if !same {
            wrong(n as usize, format!("the crate: {does:?}, listed is {:?}", d.does));
        }
    };
    let died = |n: u64, stage: u32, end: End| {
        add(&shared.done, 1);
        if !(stage == CRATE && all[n as usize].does == Does::Dies && matches!(end, End::Signal(6 | 11))) {
            wrong(n as usize, format!("died in stage {stage}: {end:?}"));
        }
    };
    guard::run(shared, all.len() as u64, SECONDS_A_CASE, None, |_| (), check, died);
    let good = get(&shared.differences) == 0 && get(&shared.done) == all.len() as u64;
    println!(
        "departures: {} on the list, {} shown, {:.1} s{}",
        all.len(),
        get(&shared.done),
        start.elapsed().as_secs_f64(),
        if good { "" } else { ": FAILED" }
    );
    good
}
