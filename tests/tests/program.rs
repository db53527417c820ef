//! The program `pick`, run in a folder of its own on two files: worked sessions, edges, files that can't be read, and a
//! standard output that takes no more.

use picker_tests::drawn::{self, Sort, SORTS};
use picker_tests::{algorithms, cases, texts, Random};
use std::ffi::c_int;
use std::fs::{self, File};
use std::io::{Read, Write};
use std::os::fd::FromRawFd;
use std::path::{Path, PathBuf};
use std::process::Command;
use std::sync::atomic::{AtomicUsize, Ordering};

const OLD: &str = "6,5,5,0,0,0\r\n0,1,0,1,0,5\r\n1,2,18,0,0,100\r\n1,3,21,0,0,100\r\n3,5,20,1,0,50\r\n3,4,19,1,0,50\r\n";

/// The program that `rt run` links in the crate pick.
fn program() -> PathBuf {
    let path = Path::new(env!("CARGO_MANIFEST_DIR")).join("../crates/pick/out/pick");
    assert!(path.exists(), "{} is missing: `rt run` makes it in the crate pick", path.display());
    path.canonicalize().unwrap()
}

/// A folder that is removed with the value.
struct Folder(PathBuf);

impl Folder {
    fn new() -> Folder {
        static NEXT: AtomicUsize = AtomicUsize::new(0);
        let name = format!("pick-{}-{}", std::process::id(), NEXT.fetch_add(1, Ordering::Relaxed));
        let path = std::env::temp_dir().join(name);
        fs::create_dir(&path).unwrap();
        Folder(path)
    }

    fn run(&self) -> String {
        let output = Command::new(program()).current_dir(&self.0).output().unwrap();
        assert!(output.status.success());
        String::from_utf8(output.stdout).unwrap()
    }
}

impl Drop for Folder {
    fn drop(&mut self) {
        let _ = fs::remove_dir_all(&self.0);
    }
}

/// A folder with two files; a missing one is not made.
fn folder(old: Option<&str>, new: Option<&str>) -> Folder {
    let folder = Folder::new();
    for (name, text) in [("old.csv", old), ("new.csv", new)] {
        if let Some(text) = text {
            fs::write(folder.0.join(name), text).unwrap();
        }
    }
    folder
}

/// What is printed for two files.
fn printed(old: Option<&str>, new: Option<&str>) -> String {
    folder(old, new).run()
}

/// A chart's text.
fn text(places: usize, alarm: usize, rows: &[[u32; 6]]) -> String {
    let mut s = format!("{places},{alarm},{},0,0,0\r\n", rows.len());
    for r in rows {
        s += &format!("{},{},{},{},{},{}\r\n", r[0], r[1], r[2], r[3], r[4], r[5]);
    }
    s
}

/// What is printed for a chart as both, and for it as the new one beside a good old one.
fn refused(chart: &str, number: u32, position: usize) {
    assert_eq!(printed(Some(chart), Some(OLD)), format!("9999,{number},0,{position}\r\n"));
    assert_eq!(printed(Some(OLD), Some(chart)), format!("9999,{number},1,{position}\r\n"));
    assert_eq!(printed(Some(chart), Some(chart)), format!("9999,{number},0,{position}\r\n"));
}

/// A chart that passes, as both: its start is pair 0, and every record is well formed.
fn passes(chart: &str) {
    let out = printed(Some(chart), Some(chart));
    let records: Vec<Vec<u32>> = out.split_terminator("\r\n").map(|r| r.split(',').map(|x| x.parse().unwrap()).collect()).collect();
    assert!(out.ends_with("\r\n") && records.iter().all(|r| r.len() == 4), "{out}");
    assert_eq!(records[0][0], 0, "{out}");
    let order: Vec<(u32, u32)> = records[1..].iter().map(|r| (r[0], r[1])).collect();
    assert!(order.windows(2).all(|w| w[0] < w[1]), "by from and row: {out}");
}

#[test]
fn sessions() {
    let amended = OLD.replace("0,1,0,1,0,5", "0,1,0,1,0,6");
    let transitions = "0,3,2,1\r\n0,0,1,1\r\n1,1,130,3\r\n1,2,195,1\r\n195,3,4101,2\r\n195,4,4100,2\r\n";
    assert_eq!(printed(Some(OLD), Some(&amended)), transitions);
    assert_eq!(printed(Some(OLD), Some(OLD)), "0,1,0,1\r\n0,0,65,3\r\n");
    let alarmed = OLD.replace("6,5,5,0,0,0", "6,0,5,0,0,0");
    assert_eq!(printed(Some(OLD), Some(&alarmed)), "4096,0,1,0\r\n");
}

/// The worked session of rows that never hold (#101): v0 < 0 leads to the new alarm, and nothing is printed of it. A
/// program that explores such a row prints `0,1,1,1` and `0,0,4098,2`; one that counts rows without it `0,0,129,3`.
#[test]
fn a_row_that_never_holds() {
    let old = "3,2,3,0,0,0\r\n0,1,18,0,0,0\r\n0,2,21,0,0,0\r\n1,2,0,0,0,1\r\n";
    let new = "3,2,3,0,0,0\r\n0,2,18,0,0,0\r\n0,1,21,0,0,0\r\n1,2,0,0,0,1\r\n";
    assert_eq!(printed(Some(old), Some(new)), "0,1,0,1\r\n0,1,129,3\r\n");
    // In the old chart such a row is as it was: nothing matches it, and nothing amended is all covered.
    assert_eq!(printed(Some(old), Some(old)), "0,1,0,1\r\n0,1,130,3\r\n");
}

#[test]
fn places_and_rows() {
    let two = |n: u32| -> Vec<[u32; 6]> {
        (0..n).flat_map(|p| [[p, (p + 1) % n, 16, 0, 0, p], [p, (p * 7 + 3) % n, 17, 0, 0, p]]).collect()
    };
    passes(&text(64, 63, &two(64)));
    refused(&text(65, 63, &[[0, 1, 16, 0, 0, 0]]), 2, 0);
    let mut many = two(64);
    assert_eq!(many.len(), 128);
    many.push([63, 0, 16, 0, 0, 0]);
    refused(&text(64, 63, &many), 2, 6);
}

#[test]
fn variables_and_codes() {
    passes(&text(2, 1, &[[0, 1, 0, 63, 0, 5]]));
    refused(&text(2, 1, &[[0, 1, 0, 64, 0, 5]]), 7, 0);
    for code in [6, 22, 23, 30, 31, 38, 39, 46, 47] {
        refused(&text(2, 1, &[[0, 0, 16, 0, 0, 0], [0, 1, code, 0, 0, 0]]), 6, 1);
    }
    for code in [24, 27, 29, 40, 43, 45] {
        passes(&text(2, 1, &[[0, 1, code, 63, 0, 0]]));
    }
    refused(&text(2, 1, &[[0, 1, 24, 0, 1, 0]]), 7, 0);
    refused(&text(2, 1, &[[0, 1, 40, 0, 0, 1]]), 7, 0);
}

#[test]
fn files_without_bytes() {
    assert_eq!(printed(Some(OLD), Some("")), "9999,11,1,0\r\n");
    assert_eq!(printed(Some(OLD), None), "9999,11,1,0\r\n");
    assert_eq!(printed(Some(""), Some(OLD)), "9999,11,0,0\r\n");
    assert_eq!(printed(None, Some(OLD)), "9999,11,0,0\r\n");
    assert_eq!(printed(None, None), "9999,11,0,0\r\n");
    // A folder opens, and can't be read.
    let folder = Folder::new();
    fs::create_dir(folder.0.join("old.csv")).unwrap();
    fs::write(folder.0.join("new.csv"), OLD).unwrap();
    assert_eq!(folder.run(), "9999,11,0,0\r\n");
}

#[test]
fn the_old_chart_first() {
    assert_eq!(printed(Some("x"), Some("")), "9999,12,0,0\r\n");
    assert_eq!(printed(Some(&text(2, 2, &[[0, 1, 0, 0, 0, 0]])), Some("x")), "9999,3,0,0\r\n");
}

/// A line of the reference's table of refusals: the new text, and what is printed.
fn example(line: &str) -> Option<(String, String)> {
    let (text, rest) = line.strip_prefix("| `")?.split_once("` | `9999,")?;
    let (answer, _) = rest.split_once("` |")?;
    Some((text.replace('␍', "\r").replace('␊', "\n"), format!("9999,{answer}\r\n")))
}

/// What docs/REFERENCE.md says is printed: for its worked example and each of its refusals.
#[test]
fn examples_of_the_reference() {
    let reference = include_str!("../../docs/REFERENCE.md");
    let examples: Vec<(String, String)> = reference.lines().filter_map(example).collect();
    assert!(examples.len() >= 19, "only {} examples", examples.len());
    for (text, answer) in examples {
        assert_eq!(printed(Some(OLD), Some(&text)), answer, "{text:?}");
    }
    let amended = [("0,1,0,1,0,5", "0,1,0,1,0,6"), ("", ""), ("6,5,5,0,0,0", "6,0,5,0,0,0")];
    let mut pairs = amended.map(|(from, to)| (OLD.to_string(), OLD.replace(from, to))).to_vec();
    // The one of a row that never holds, in which two rows change their ends.
    let turned = |first: u32, second: u32| {
        text(3, 2, &[[0, first, 18, 0, 0, 0], [0, second, 21, 0, 0, 0], [1, 2, 0, 0, 0, 1]])
    };
    pairs.push((turned(1, 2), turned(2, 1)));
    for (old, new) in pairs {
        let shown: String = printed(Some(&old), Some(&new)).lines().map(|l| format!("    {l}\n")).collect();
        assert!(reference.contains(&format!("\n\n{shown}\n")), "not in the reference:\n{shown}");
    }
}

/// Conditions of drawn charts, many of them longer than the 1,024 bytes of a portion, against what Algorithms 1 and 2
/// in plain Rust make of them in edition 1, which the program names.
#[test]
fn many_portions() {
    let mut random = Random::new(20280);
    let (mut long, mut longest) = (0, 0);
    for sort in SORTS {
        // Few others are long.
        for _ in 0..cases(if sort == Sort::Dense { 50 } else { 20 }) {
            let (old, new) = drawn::pair(&mut random, sort);
            let built = algorithms::build(1, &old, &new);
            let counts = [built.open, built.kept, built.covered];
            let expected = algorithms::printed(&new, built.start, counts, &built.marks, &built.targets).join("\r\n") + "\r\n";
            let [old, new] = [&old, &new].map(|chart| String::from_utf8(texts::plain_write(chart)).unwrap());
            let out = printed(Some(&old), Some(&new));
            assert!(out == expected, "{sort:?}: {} bytes in place of {}: {old} {new}", out.len(), expected.len());
            long += (out.len() > 1024) as usize;
            longest = longest.max(out.len());
        }
    }
    println!("{long} outputs of more than one portion, the longest of {longest} bytes");
    assert!(long >= 30 && longest > 50 * 1024);
}

#[test]
fn long_files() {
    // More than the program reads of a file: refused at the first byte after the last record.
    let long = format!("{OLD}{}", "0".repeat(20_000));
    refused(&long, 14, OLD.len());
    // A number that never ends.
    refused(&format!("6,5,5,0,0,0\r\n{}", "9".repeat(20_000)), 13, 13);
}

/// Two charts of 64 places whose condition is printed in more than a hundred portions of at most 1,024 bytes: each place
/// leads to two others, and the new chart compares with other constants than the old one.
fn branching() -> Folder {
    let [old, new] = [1, 3].map(|by| {
        let two = |p| [(16, p + 1), (17, p * 7 + 3)].map(|(op, to)| [p, to % 64, op, 0, 0, p * by % 64]);
        text(64, 63, &(0..64).flat_map(two).collect::<Vec<_>>())
    });
    folder(Some(&old), Some(&new))
}

/// What the program prints into a file.
fn into_file(folder: &Folder) -> Vec<u8> {
    let path = folder.0.join("printed");
    let file = File::create(&path).unwrap();
    assert!(Command::new(program()).current_dir(&folder.0).stdout(file).status().unwrap().success());
    fs::read(path).unwrap()
}

extern "C" {
    fn pipe2(ends: *mut c_int, flags: c_int) -> c_int;
    fn fcntl(fd: c_int, command: c_int, ...) -> c_int;
}

// Linux's numbers for x86-64.
const O_NONBLOCK: c_int = 0o4000;
const O_CLOEXEC: c_int = 0o2000000;
const F_SETFL: c_int = 4;
const F_SETPIPE_SZ: c_int = 1031;

/// A pipe that holds so many bytes: its reader, and its writer, which does not wait for room.
fn pipe(holds: usize) -> (File, File) {
    let mut ends = [0; 2];
    unsafe {
        assert_eq!(pipe2(ends.as_mut_ptr(), O_CLOEXEC), 0);
        assert_eq!(fcntl(ends[1], F_SETPIPE_SZ, holds as c_int), holds as c_int);
        assert_eq!(fcntl(ends[1], F_SETFL, O_NONBLOCK), 0);
        (File::from_raw_fd(ends[0]), File::from_raw_fd(ends[1]))
    }
}

/// What comes out of such a pipe, in which other bytes stand before what the program prints. It is read late, once the
/// program has ended, or at once.
fn through(files: &Folder, holds: usize, others: usize, late: bool) -> Vec<u8> {
    let (mut reader, mut writer) = pipe(holds);
    writer.write_all(&vec![b'.'; others]).unwrap();
    let mut child = Command::new(program()).current_dir(&files.0).stdout(writer).spawn().unwrap();
    let mut got = Vec::new();
    if late {
        child.wait().unwrap();
    }
    reader.read_to_end(&mut got).unwrap();
    assert!(child.wait().unwrap().success());
    assert!(got[..others].iter().all(|byte| *byte == b'.'));
    got.split_off(others)
}

/// A reader gets a beginning of what is printed, or all of it: after a write that fails there are no others. A later
/// portion may be shorter than the one that found no room, and fit: so the room is tried in steps.
#[test]
fn a_pipe_that_takes_no_more() {
    let files = branching();
    let whole = into_file(&files);
    assert!(whole.len() > 100 * 1024 && files.run().as_bytes() == whole, "a pipe that is read as it fills");
    for others in (0..=4096).step_by(64) {
        for late in [true, false] {
            let got = through(&files, 4096, others, late);
            assert!(whole.starts_with(&got), "{} bytes after {others} others have a hole, late: {late}", got.len());
            assert!(!late || got.len() + 1024 > 4096 - others, "after {others} others there was room for more");
        }
    }
    assert!(through(&files, 1 << 18, 0, true) == whole, "a pipe that holds it all");
}
