//! The whole program, two files in and their condition out: process against process.

use crate::turns::{line, turns, Contender, Time, DRAWS};
use crate::{plain, plain_build};
use picker_tests::conditions::Buffers;
use picker_tests::drawn::Orders;
use picker_tests::{drawn, texts, Chart, Random};
use std::fs;
use std::io::{self, BufWriter, Write};
use std::path::{Path, PathBuf};
use std::process::Command;

/// The words by which this benchmark runs itself as the plain program.
pub const PLAIN: &str = "--plain";
pub const FORMATTED: &str = "--formatted";

/// How the plain program prints numbers.
#[derive(Clone, Copy)]
pub enum Printer {
    /// Digit by digit into one list of bytes, which is written once.
    Digits,
    /// By std's `write!` through a `BufWriter`.
    Formatted,
}

/// The same program in plain Rust, in edition 1: old.csv and new.csv of the folder it is run in.
pub fn plain_program(printer: Printer) {
    let mut charts = Vec::new();
    for (which, name) in ["old.csv", "new.csv"].iter().enumerate() {
        let mut table = vec![0u32; 768];
        match plain::read(&fs::read(name).unwrap_or_default(), &mut table) {
            Ok((places, alarm, rows)) => {
                table.truncate(6 * rows);
                charts.push(Chart { places, alarm, rows: table });
            }
            Err((number, position)) => {
                print!("9999,{number},{which},{position}\r\n");
                return;
            }
        }
    }
    let mut b = Buffers { marks: vec![0; 4160], targets: vec![0; 8192], sets: vec![0; 4096], waiting: vec![0; 4096] };
    let summary = plain_build::build::<true>(1, &charts[0], &charts[1], &mut b).unwrap();
    let out = io::stdout().lock();
    match printer {
        Printer::Digits => digits(&charts[1], summary, &b, out),
        Printer::Formatted => formatted(&charts[1], summary, &b, out),
    }
    .unwrap();
}

/// The transitions by from and row, each as four numbers.
fn transitions<'a>(new: &Chart, b: &'a Buffers) -> impl Iterator<Item = [u32; 4]> + 'a {
    let mut first = [0; 65];
    for row in new.rows.chunks_exact(6) {
        first[row[0] as usize + 1] += 1;
    }
    for place in 0..64 {
        first[place + 1] += first[place];
    }
    let open = (0..4096).filter(|pair| b.marks[*pair] == 1);
    open.flat_map(move |pair| {
        let rows = (first[pair % 64]..first[pair % 64 + 1]).zip(&b.targets[2 * pair..2 * pair + 2]);
        let led = rows.filter(|(_, to)| **to != 65535);
        led.map(move |(row, &to)| [pair as u32, row, to as u32, b.marks[to as usize] as u32])
    })
}

fn digits(new: &Chart, summary: [u32; 4], b: &Buffers, mut out: impl Write) -> io::Result<()> {
    let mut bytes = Vec::with_capacity(8192);
    for record in std::iter::once(summary).chain(transitions(new, b)) {
        for (k, number) in record.into_iter().enumerate() {
            let mut room = [0; 10];
            bytes.extend_from_slice(plain::digits(number, &mut room));
            bytes.extend_from_slice(if k < 3 { b"," } else { b"\r\n" });
        }
    }
    out.write_all(&bytes)
}

fn formatted(new: &Chart, summary: [u32; 4], b: &Buffers, out: impl Write) -> io::Result<()> {
    let mut out = BufWriter::new(out);
    for [from, row, to, mark] in std::iter::once(summary).chain(transitions(new, b)) {
        write!(out, "{from},{row},{to},{mark}\r\n")?;
    }
    out.flush()
}

/// A folder with both charts, removed with the value.
struct Folder(PathBuf);

impl Folder {
    fn new((old, new): &(Chart, Chart)) -> Folder {
        let path = std::env::temp_dir().join(format!("picker-bench-{}", std::process::id()));
        fs::create_dir(&path).unwrap();
        fs::write(path.join("old.csv"), texts::plain_write(old)).unwrap();
        fs::write(path.join("new.csv"), texts::plain_write(new)).unwrap();
        Folder(path)
    }

    /// What a program prints here.
    fn printed(&self, program: &Path, words: &[&str]) -> Vec<u8> {
        Command::new(program).args(words).current_dir(&self.0).output().unwrap().stdout
    }
}

impl Drop for Folder {
    fn drop(&mut self) {
        let _ = fs::remove_dir_all(&self.0);
    }
}

/// The times of the proved program and of the two plain ones.
fn running(pick: &Path, pair: &(Chart, Chart)) -> Vec<Time> {
    let this = std::env::current_exe().unwrap();
    let folder = Folder::new(pair);
    let expected = folder.printed(pick, &[]);
    assert!(!expected.is_empty());
    let all: Vec<Contender<()>> = vec![
        Box::new(|_| assert!(folder.printed(pick, &[]) == expected)),
        Box::new(|_| assert!(folder.printed(&this, &[PLAIN]) == expected)),
        Box::new(|_| assert!(folder.printed(&this, &[FORMATTED]) == expected)),
    ];
    turns(&mut (), all)
}

pub fn lines() {
    let pick = Path::new(env!("CARGO_MANIFEST_DIR")).join("../crates/pick/out/pick");
    let Ok(pick) = pick.canonicalize() else {
        return eprintln!("the whole program is left out: `rt run` makes it in the crate pick");
    };
    let wide = |random: &mut Random| (drawn::wide(random, 64, 10, 0), drawn::wide(random, 64, 10, 0));
    let amended = |random: &mut Random| drawn::procedures(random, 64, Orders::Unsigned);
    let kinds: [(&str, &dyn Fn(&mut Random) -> (Chart, Chart)); 2] =
        [("small amendment, 64 places", &amended), ("all pairs visited, 64 places", &wide)];
    for (what, draw) in kinds {
        let times: Vec<_> = DRAWS.iter().map(|seed| running(&pick, &draw(&mut Random::new(*seed)))).collect();
        line(&format!("the whole program, {what}"), None, &times, [Some(1), None, None, None]);
        let formatted: Vec<Vec<Time>> = times.iter().map(|times| vec![times[0], times[2]]).collect();
        line(&format!("the same beside plain Rust that prints with `write!`, {what}"), None, &formatted, [Some(1), None, None, None]);
    }
}

#[cfg(test)]
mod tests {
    use super::*;
    use picker_tests::drawn::{Sort, SORTS};
    use picker_tests::{algorithms, cases};

    #[test]
    fn both_printers() {
        let mut random = Random::new(20286);
        for sort in SORTS {
            for _ in 0..cases(if sort == Sort::Wide { 4 } else { 50 }) {
                let (old, new) = drawn::pair(&mut random, sort);
                let mut b = Buffers { marks: vec![0; 4160], targets: vec![0; 8192], sets: vec![0; 4096], waiting: vec![0; 4096] };
                let [start, open, kept, covered] = plain_build::build::<true>(1, &old, &new, &mut b).unwrap();
                let expected = algorithms::printed(&new, start, [open, kept, covered], &b.marks, &b.targets).join("\r\n") + "\r\n";
                let mut out = [Vec::new(), Vec::new()];
                digits(&new, [start, open, kept, covered], &b, &mut out[0]).unwrap();
                formatted(&new, [start, open, kept, covered], &b, &mut out[1]).unwrap();
                assert!(out.iter().all(|out| *out == expected.as_bytes()), "{old:?} {new:?}");
            }
        }
    }
}
