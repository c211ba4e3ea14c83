//! Planted errors: a copy of the stand-in library with one small error at a time, and the same run as
//! always against it; a copy of the proved code with one at a time, and the fixed list replayed on it. Each
//! must be caught.

use std::path::Path;
use std::process::Command;

struct Plant {
    label: String,
    file: String,
    old: String,
    new: String,
}

/// A list of plants: `plant:`, `file:`, `old:`, `new:` begin a value, which may go on over lines.
fn read(list: &str) -> Vec<Plant> {
    let mut out: Vec<Plant> = vec![];
    let mut key = "";
    for line in list.lines() {
        if line.is_empty() || line.starts_with('#') {
            key = "";
            continue;
        }
        let begun = ["plant: ", "file: ", "old: ", "new: "].into_iter().find(|k| line.starts_with(k));
        let value = begun.map_or(line, |k| &line[k.len()..]);
        let first = begun.is_some();
        key = begun.unwrap_or(key);
        if key == "plant: " {
            out.push(Plant { label: String::new(), file: String::new(), old: String::new(), new: String::new() });
        }
        let p = out.last_mut().expect("a plant");
        let field = match key {
            "plant: " => &mut p.label,
            "file: " => &mut p.file,
            "old: " => &mut p.old,
            "new: " => &mut p.new,
            _ => panic!("planted: '{line}'"),
        };
        if !first {
            field.push('\n');
        }
        field.push_str(value);
    }
    out
}

/// `only`: plants whose label contains this.
pub fn run(list: &str, only: &str, words: &[String]) -> bool {
    let plants = read(&std::fs::read_to_string(list).expect(list));
    let dir = Path::new("build/compare/planted");
    std::fs::create_dir_all(dir).expect("a folder");
    let me = std::env::current_exe().expect("own path");
    let (mut caught, mut tried) = (0, 0);
    for p in plants.iter().filter(|p| p.label.contains(only)) {
        tried += 1;
        for file in ["standin.rs", "model.rs", "calls.rs"] {
            let mut text = std::fs::read_to_string(format!("compare/src/{file}")).expect(file);
            if file == p.file {
                let n = text.matches(&p.old).count();
                assert!(n == 1, "planted '{}': its old text stands {n} times in {file}", p.label);
                text = text.replace(&p.old, &p.new);
            }
            std::fs::write(dir.join(file), text).expect(file);
        }
        let built = Command::new("rustc")
            .args([
                "-C",
                "opt-level=1",
                "-A",
                "warnings",
                "--edition",
                "2021",
                "--crate-type",
                "cdylib",
                "--crate-name",
                "luohtemik",
                "--out-dir",
            ])
            .arg(dir)
            .arg(dir.join("standin.rs"))
            .output()
            .expect("rustc");
        assert!(built.status.success(), "planted '{}': {}", p.label, String::from_utf8_lossy(&built.stderr));
        let ran = Command::new(&me).arg("compare").args(words).env("LD_LIBRARY_PATH", dir).output().expect("own program");
        let said = String::from_utf8_lossy(&ran.stdout).to_string();
        let first = said.lines().find(|l| l.starts_with("DIFFERENCE")).unwrap_or("");
        let good = ran.status.code() == Some(1) && !first.is_empty();
        caught += usize::from(good);
        println!("  {:6} {:52} {}", if good { "caught" } else { "MISSED" }, p.label, &first.chars().take(110).collect::<String>());
    }
    // A departure taken from the list must be seen too.
    for n in 0..crate::model::Rules::NAMES.len() {
        let name = crate::model::Rules::NAMES[n];
        if !name.contains(only) {
            continue;
        }
        tried += 1;
        let ran = Command::new(&me).arg("compare").args(words).arg(format!("without={n}")).output().expect("own program");
        let said = String::from_utf8_lossy(&ran.stdout).to_string();
        let first = said.lines().find(|l| l.starts_with("DIFFERENCE")).unwrap_or("");
        let good = ran.status.code() == Some(1) && !first.is_empty();
        caught += usize::from(good);
        println!(
            "  {:6} {:52} {}",
            if good { "caught" } else { "MISSED" },
            format!("not on the list: {name}"),
            &first.chars().take(110).collect::<String>()
        );
    }
    println!("planted: {tried} errors, {caught} caught{}", if caught == tried { "" } else { ": FAILED" });
    caught == tried && tried > 0
}

/// The programs that replay the fixed list on what a crate does.
fn programs_of(name: &str) -> &'static [&'static str] {
    match name {
        "reads" | "text" => &["pool_vectors", "class_vectors"],
        "descriptors" | "pool" | "slot" | "checks" => &["pool_vectors"],
        "handed" | "lookups" | "values" | "literal" => &["lookup_vectors"],
        "reach" | "dependants" => &["dependants_vectors"],
        "bootstrap" | "attributes" | "member" | "class_head" | "class" => &["class_vectors"],
        _ => &[],
    }
}

/// Whether a program writes what is expected when it is compiled without a proof.
fn replays(code: &Path, program: &str) -> bool {
    let folder = code.join("crates").join(program);
    let given = std::fs::File::open(folder.join("stdin")).expect("its vectors");
    // Only the compiled run gives an answer to so many vectors, and with its checks large buffers need more stack than is usual.
    let mut try_it = "ulimit -s unlimited 2>/dev/null; exec rt try --steps 1".to_string();
    // Files that its vectors name.
    if let Ok(list) = std::fs::read_dir(folder.join("data")) {
        let names = list.filter_map(|e| e.ok()).map(|e| e.file_name().to_string_lossy().to_string());
        names.for_each(|name| try_it += &format!(" --data {name}=data/{name}"));
    }
    let ran = Command::new("sh").args(["-c", &try_it]).stdin(given).current_dir(&folder).output().expect("rt");
    let said = String::from_utf8_lossy(&ran.stderr);
    let ended = said.contains("\nrun=ended status=");
    // 4: a fault; 6: no end within its time.
    assert!(ended || matches!(ran.status.code(), Some(4 | 6)), "rt try of {program}: {said}");
    ended && ran.status.success() && ran.stdout == std::fs::read(folder.join("stdout")).expect("their answers")
}

/// Edits of the code, in the folder `code` that has a copy of crates/ with the fixed list.
pub fn code(code: &str, only: &str) -> bool {
    let root = Path::new(code);
    let mut edits: Vec<(String, std::path::PathBuf)> = vec![];
    for entry in std::fs::read_dir(root.join("crates")).expect("crates") {
        let entry = entry.expect("a crate");
        let Ok(list) = std::fs::read_dir(entry.path().join("must-fail")) else { continue };
        let paths = list.filter_map(|e| e.ok()).map(|e| e.path()).filter(|p| p.extension().is_some_and(|x| x == "edit"));
        edits.extend(paths.map(|p| (entry.file_name().to_string_lossy().to_string(), p)));
    }
    edits.sort();
    let (mut tried, mut caught) = (0, 0);
    let mut fit: Vec<&str> = vec![];
    for (name, edit) in edits.iter().filter(|(_, e)| e.to_string_lossy().contains(only)) {
        let programs: Vec<&str> = programs_of(name).iter().copied().filter(|p| root.join("crates").join(p).is_dir()).collect();
        if programs.is_empty() {
            continue;
        }
        let text = std::fs::read_to_string(edit).expect("an edit");
        let mut file = "";
        let (mut olds, mut news): (Vec<&str>, Vec<&str>) = (vec![], vec![]);
        for line in text.lines() {
            file = line.strip_prefix("file: ").unwrap_or(file);
            // Pairs of a definition change nothing that the code does; those of a proof bring its answers to a goal's new name.
            if file == "src/lib.rt" {
                olds.extend(line.strip_prefix("old: "));
                news.extend(line.strip_prefix("new: "));
            }
        }
        assert!(olds.len() == news.len(), "{}", edit.display());
        // Nor does an edit of a contract, and a read past the end whose byte nothing uses cannot be seen: the
        // proof alone refuses these.
        let unseen = ["\u{2261}", "ensures", "requires", "ghost", "{ s[at] } else { 0 }"];
        if olds.is_empty() || olds.iter().any(|o| unseen.iter().any(|it| o.contains(it))) {
            continue;
        }
        for program in &programs {
            if !fit.contains(program) {
                assert!(replays(root, program), "{program} does not replay the fixed list as it is");
                fit.push(program);
            }
        }
        let file = root.join("crates").join(name).join("src/lib.rt");
        let whole = std::fs::read_to_string(&file).expect("a source");
        let mut changed = whole.clone();
        for (old, new) in olds.iter().zip(&news) {
            assert!(changed.contains(old), "{}: its old text is not there", edit.display());
            changed = changed.replacen(old, new, 1);
        }
        std::fs::write(&file, changed).expect("a source");
        let by = programs.iter().find(|p| !replays(root, p));
        let good = by.is_some();
        std::fs::write(&file, whole).expect("a source");
        tried += 1;
        caught += usize::from(good);
        let label = edit.file_stem().expect("a name").to_string_lossy().to_string();
        println!("  {:6} {name}: {label} {}", if good { "caught" } else { "MISSED" }, by.unwrap_or(&""));
    }
    println!("planted in the code: {tried} errors, {caught} caught");
    caught == tried && tried > 0
}
