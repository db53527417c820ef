//! docs/ARCHITECTURE.md's map of crates is the one that their imports draw, and no crate knows what it must not know.
//! No definition of a step, a check or a build knows the value that an assignment writes.

use std::collections::{BTreeMap, BTreeSet};
use std::fs;
use std::path::{Path, PathBuf};

type Map = BTreeMap<String, BTreeSet<String>>;

fn root() -> PathBuf {
    Path::new(env!("CARGO_MANIFEST_DIR")).join("..")
}

fn page() -> String {
    fs::read_to_string(root().join("docs/ARCHITECTURE.md")).unwrap()
}

/// A line `name: other other ..`; a static library has that word after its name.
fn named(line: &str) -> Option<(String, BTreeSet<String>)> {
    let (name, others) = line.split_once(':')?;
    Some((name.split_whitespace().next()?.to_string(), others.split_whitespace().map(str::to_string).collect()))
}

/// The crates of crates.txt, and what each is proved with.
fn listed() -> Map {
    let text = fs::read_to_string(root().join("crates.txt")).unwrap();
    text.lines().filter(|l| !l.starts_with('#')).filter_map(named).collect()
}

/// The page's map: the indented lines below its heading.
fn drawn() -> Map {
    let page = page();
    let map = page.split("\n## The map\n").nth(1).expect("a map").split("\n## ").next().unwrap();
    map.lines().filter(|l| l.starts_with("    ")).filter_map(named).collect()
}

/// The page's table: for each crate those that it must not know.
fn forbidden() -> Map {
    let rows = page().lines().filter(|l| l.starts_with("| `")).map(cells).collect::<Vec<_>>();
    rows.into_iter().map(|c| (quoted(&c[0]).pop_first().unwrap(), quoted(&c[2]))).collect()
}

fn cells(row: &str) -> Vec<String> {
    row.trim_matches('|').split('|').map(|c| c.trim().to_string()).collect()
}

/// What stands between back quotes.
fn quoted(cell: &str) -> BTreeSet<String> {
    cell.split('`').skip(1).step_by(2).map(str::to_string).collect()
}

fn files(folder: &Path, found: &mut Vec<PathBuf>) {
    for entry in fs::read_dir(folder).into_iter().flatten() {
        let path = entry.unwrap().path();
        if path.is_dir() {
            files(&path, found);
        } else if path.extension().is_some_and(|e| e == "rt" || e == "antt") {
            found.push(path);
        }
    }
}

/// The crates, of those listed, that a crate's sources, definitions and proofs name.
fn imported(name: &str, crates: &Map) -> BTreeSet<String> {
    let folder = root().join("crates").join(name);
    let mut found = Vec::new();
    for part in ["src", "specs", "proofs"] {
        files(&folder.join(part), &mut found);
    }
    let own = |other: &str| folder.join("src").join(format!("{other}.rt")).exists();
    let mut imports = BTreeSet::new();
    for file in found {
        let text = fs::read_to_string(&file).unwrap();
        let code = file.extension().is_some_and(|e| e == "rt");
        for other in crates.keys().filter(|o| *o != name) {
            let logic = text.contains(&format!("Rattle.{other}."));
            let called = code && !own(other) && text.lines().any(|l| calls(l, other));
            if logic || called {
                imports.insert(other.clone());
            }
        }
    }
    imports
}

/// Whether a line of code has a path that begins with the crate.
fn calls(line: &str, name: &str) -> bool {
    let line = line.split("//").next().unwrap();
    let path = format!("{name}::");
    line.match_indices(&path).any(|(at, _)| {
        !line[..at].ends_with(|c: char| c == ':' || c == '_' || c.is_alphanumeric())
    })
}

/// Everything below a crate.
fn below(name: &str, map: &Map, found: &mut BTreeSet<String>) {
    for other in &map[name] {
        if found.insert(other.clone()) {
            below(other, map, found);
        }
    }
}

#[test]
fn the_map_is_what_the_imports_draw() {
    let crates = listed();
    let imports: Map = crates.keys().map(|name| (name.clone(), imported(name, &crates))).collect();
    assert_eq!(drawn(), imports);
}

#[test]
fn no_crate_knows_what_it_must_not_know() {
    let map = drawn();
    let forbidden = forbidden();
    assert_eq!(forbidden.keys().collect::<Vec<_>>(), map.keys().collect::<Vec<_>>(), "a row for each crate");
    for (name, others) in forbidden {
        let mut known = BTreeSet::new();
        below(&name, &map, &mut known);
        let both: Vec<_> = known.intersection(&others).collect();
        assert!(both.is_empty(), "{name} knows {both:?}");
        assert!(others.iter().all(|o| map.contains_key(o)), "{name}: a crate that there is not, in {others:?}");
    }
}

#[test]
fn a_crate_is_proved_with_what_it_imports_and_no_more() {
    let crates = listed();
    let map = drawn();
    for (name, with) in &crates {
        let mut known = BTreeSet::new();
        below(name, &map, &mut known);
        let listed: BTreeSet<_> = with.iter().filter(|o| crates.contains_key(*o)).cloned().collect();
        assert_eq!(listed, known, "{name} in crates.txt");
    }
}

/// The `use` items of a file, wherever they stand, each up to its last name, whatever lines it is laid out on.
fn uses(text: &str) -> impl Iterator<Item = &str> {
    text.match_indices("use ").map(|(at, _)| {
        let line = text[at..].lines().next().unwrap();
        if line.contains('{') { text[at..].split('}').next().unwrap() } else { line }
    })
}

/// Whether a file takes a name, or anything at all, over from a crate's file of definitions.
fn takes(text: &str, of: &str, file: &str, name: Option<&str>) -> bool {
    let path = format!("Rattle.{of}.specs.{file}");
    let names_it = |l: &&str| l.match_indices(&path).any(|(at, _)| !l[at + path.len()..].starts_with(|c: char| c.is_alphanumeric() || c == '_'));
    uses(text).filter(names_it).any(|l| match (l.split_once('{'), name) {
        (Some((_, names)), Some(name)) => names.split(',').any(|n| n.split_whitespace().next() == Some(name)),
        _ => true,
    })
}

/// The files of definitions, of all crates, that take it.
fn takers(of: &str, file: &str, name: Option<&str>) -> Vec<String> {
    let mut found = Vec::new();
    for name in listed().keys() {
        files(&root().join("crates").join(name).join("specs"), &mut found);
    }
    found.retain(|path| takes(&fs::read_to_string(path).unwrap(), of, file, name));
    let mut names: Vec<_> = found.iter().map(|path| path.strip_prefix(root().join("crates")).unwrap().display().to_string()).collect();
    names.sort();
    names
}

/// "Built conditions don't alter" (document 02, #105): the value that an assignment writes is `value`, of which the
/// answer of `value_written`, the worked sum and runs are made; of runs the check's promise, and of these nothing else.
/// So no definition of a step, a check's answer or a build has it.
#[test]
fn no_step_check_or_build_knows_the_value_that_is_written() {
    assert_eq!(
        takers("operations", "Operations", Some("value")),
        ["chart/specs/Runs.antt", "operations/specs/Answers.antt", "sessions/specs/Cases.antt"]
    );
    assert_eq!(takers("operations", "Answers", None), [""; 0]);
    assert_eq!(takers("chart", "Runs", None), ["checker/specs/Promise.antt"]);
    assert_eq!(takers("checker", "Promise", None), [""; 0]);
    assert_eq!(takers("sessions", "Cases", None), ["sessions/specs/Worked.antt"]);
}
