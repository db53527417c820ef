//! Chart texts: the proved reader and writer as the tests call them, and a reader and writer in plain Rust, written from "Chart text" and
//! "Who can cause a refusal" and sharing nothing with the proved code.

use crate::{model, Chart, Operation, Random};

pub mod linked {
    extern "C" {
        pub fn picker_read(text: *const u8, text_len: usize, table: *mut u32, table_len: usize) -> u64;
        pub fn picker_write(places: u32, alarm: u32, rows: *const u32, rows_len: usize, bytes: *mut u8, bytes_len: usize) -> u64;
    }
}

/// A refusal: number, chart and position.
pub type Refusal = (u32, u32, usize);

/// The answer's four numbers, or the refusal.
pub fn taken_apart(answer: u64) -> Result<[u64; 4], Refusal> {
    if answer >> 56 != 0 {
        return Err(((answer >> 56) as u32, (answer >> 48) as u32 & 255, (answer & 0xFFFF_FFFF_FFFF) as usize));
    }
    Ok([0, 14, 28, 42].map(|shift| answer >> shift & 0x3FFF))
}

/// Places, alarm and row count; the rows go to the table.
pub fn read(text: &[u8], table: &mut [u32]) -> Result<[u64; 4], Refusal> {
    taken_apart(unsafe { linked::picker_read(text.as_ptr(), text.len(), table.as_mut_ptr(), table.len()) })
}

/// The count of bytes; the text goes to the bytes.
pub fn write(chart: &Chart, bytes: &mut [u8]) -> Result<[u64; 4], Refusal> {
    taken_apart(unsafe {
        linked::picker_write(chart.places, chart.alarm, chart.rows.as_ptr(), chart.rows.len(), bytes.as_mut_ptr(), bytes.len())
    })
}

// ---- in plain Rust

/// A reader that is wrong in one way, to see that the texts tell it from the right one.
#[derive(Clone, Copy, Debug, PartialEq)]
pub enum Wrong {
    Not,
    LeadingZero,
    ByteAfter,
    RecordMissing,
    BareLf,
    SpareAny,
    CountLater,
}

struct Text<'a> {
    bytes: &'a [u8],
    at: usize,
    wrong: Wrong,
}

impl Text<'_> {
    fn take(&mut self, b: u8) -> Result<(), (u32, usize)> {
        if self.bytes.get(self.at) != Some(&b) {
            return Err((12, self.at));
        }
        self.at += 1;
        Ok(())
    }

    /// A field, and where its first digit stands.
    fn field(&mut self) -> Result<(u32, usize), (u32, usize)> {
        let quoted = self.bytes.get(self.at) == Some(&b'"');
        let first = self.at + quoted as usize;
        let digits: String = self.bytes[first.min(self.bytes.len())..].iter().take_while(|b| b.is_ascii_digit()).map(|b| *b as char).collect();
        if digits.is_empty() {
            return Err((12, first));
        }
        if digits.len() > 1 && digits.starts_with('0') && self.wrong != Wrong::LeadingZero {
            return Err((13, first));
        }
        let value: u32 = digits.parse().map_err(|_| (13, first))?;
        self.at = first + digits.len();
        Ok((value, first))
    }

    fn record(&mut self, head: bool) -> Result<[u32; 6], (u32, usize)> {
        let mut numbers = [0; 6];
        for (i, number) in numbers.iter_mut().enumerate() {
            let quoted = self.bytes.get(self.at) == Some(&b'"');
            let (value, first) = self.field()?;
            if head && i == 2 && value > 128 && self.wrong != Wrong::CountLater {
                return Err((2, first));
            }
            if head && i > 2 && value != 0 && self.wrong != Wrong::SpareAny {
                return Err((13, first));
            }
            if quoted {
                self.take(b'"')?;
            }
            if i < 5 {
                self.take(b',')?;
            }
            *number = value;
        }
        if self.at < self.bytes.len() {
            if !(self.wrong == Wrong::BareLf && self.bytes[self.at] == b'\n') {
                self.take(b'\r')?;
            }
            self.take(b'\n')?;
        }
        Ok(numbers)
    }
}

/// The chart of a text, or the number and position of its refusal.
pub fn plain_read(bytes: &[u8], wrong: Wrong) -> Result<Chart, (u32, usize)> {
    let chart = plain_chart(bytes, wrong)?;
    match fault(&chart) {
        (0, _) => Ok(chart),
        refused => Err(refused),
    }
}

/// The chart of a text, faulty or not, or the number and position of the text's refusal.
pub fn plain_chart(bytes: &[u8], wrong: Wrong) -> Result<Chart, (u32, usize)> {
    if bytes.is_empty() {
        return Err((11, 0));
    }
    let mut text = Text { bytes, at: 0, wrong };
    let head = text.record(true)?;
    let mut chart = Chart { places: head[0], alarm: head[1], rows: Vec::new() };
    for _ in 0..head[2] {
        if text.at == bytes.len() {
            if wrong == Wrong::RecordMissing {
                break;
            }
            return Err((14, text.at));
        }
        chart.rows.extend(text.record(false)?);
    }
    if text.at < bytes.len() && wrong != Wrong::ByteAfter {
        return Err((14, text.at));
    }
    Ok(chart)
}

pub fn plain_write(chart: &Chart) -> Vec<u8> {
    let mut text = format!("{},{},{},0,0,0\r\n", chart.places, chart.alarm, chart.rows.len() / 6);
    for row in chart.rows.chunks(6) {
        let fields: Vec<String> = row.iter().map(u32::to_string).collect();
        text += &(fields.join(",") + "\r\n");
    }
    text.into_bytes()
}

/// Which of the values below, at and above another meet a relation.
fn relation(r: u32) -> [bool; 3] {
    [[false, true, false], [true, false, true], [true, false, false], [true, true, false], [false, false, true], [false, true, true]][r as usize]
}

/// Whether an assumption compares two variables.
fn of_variables(o: Operation) -> bool {
    o.code >= 32
}

/// Whether an assumption reads numbers as two's complement: the second eight of each sixteen codes do.
fn is_signed(o: Operation) -> bool {
    o.code % 16 >= 8
}

/// Some(true) where all values meet an assumption, Some(false) where none do.
fn settled(o: Operation) -> Option<bool> {
    if of_variables(o) {
        return (o.a == o.b).then(|| relation(o.code % 8)[1]);
    }
    match runs(o)[..] {
        [] => Some(false),
        [(0, END)] => Some(true),
        _ => None,
    }
}

/// Where the numbers end, and where those begin that two's complement reads as below 0.
const END: u64 = 1 << 32;
const BELOW_ZERO: u64 = 1 << 31;

/// The numbers that a comparison with a constant lets through, as runs of them: two at most.
fn runs(o: Operation) -> Vec<(u64, u64)> {
    let [below, at, above] = relation(o.code % 8);
    let c = o.c as u64;
    let stretches: &[(bool, u64, u64)] = if !is_signed(o) {
        &[(below, 0, c), (at, c, c + 1), (above, c + 1, END)]
    } else if c < BELOW_ZERO {
        &[(below, 0, c), (at, c, c + 1), (above, c + 1, BELOW_ZERO), (below, BELOW_ZERO, END)]
    } else {
        &[(above, 0, BELOW_ZERO), (below, BELOW_ZERO, c), (at, c, c + 1), (above, c + 1, END)]
    };
    let mut all = Vec::new();
    for &(lets, from, to) in stretches {
        if lets && from < to {
            match all.last_mut() {
                Some((_, end)) if *end == from => *end = to,
                _ => all.push((from, to)),
            }
        }
    }
    all
}

/// The numbers that some runs leave out.
fn others(all: &[(u64, u64)]) -> Vec<(u64, u64)> {
    let mut from = 0;
    let mut left = Vec::new();
    for &(begin, end) in all {
        if from < begin {
            left.push((from, begin));
        }
        from = end;
    }
    if from < END {
        left.push((from, END));
    }
    left
}

/// Exactly one of two assumptions holds, for all values: by what each lets through, without a trial of values.
pub fn opposite(f: Operation, g: Operation) -> bool {
    if let (Some(x), Some(y)) = (settled(f), settled(g)) {
        return x != y;
    }
    if settled(f).is_some() || settled(g).is_some() {
        return false;
    }
    if !of_variables(f) && !of_variables(g) {
        return f.a == g.a && runs(g) == others(&runs(f));
    }
    if !of_variables(f) || !of_variables(g) {
        return false;
    }
    let not_f = relation(f.code % 8).map(|met| !met);
    let [below, at, above] = relation(g.code % 8);
    // Two different numbers can stand in either way in one order, however they stand in the other: only what treats
    // both ways alike, = and ≠, is the same in both orders.
    if is_signed(f) != is_signed(g) && below != above {
        return false;
    }
    ((f.a, f.b) == (g.a, g.b) && not_f == [below, at, above]) || ((f.a, f.b) == (g.b, g.a) && not_f == [above, at, below])
}

/// The number and position of a chart's refusal, as `model::fault` but quick.
pub fn fault(chart: &Chart) -> (u32, usize) {
    let count = chart.rows.len() / 6;
    let first = model::fault_of_rows(chart);
    if first.0 != 0 {
        return first;
    }
    for i in 0..count {
        let (from, _, o) = model::row(&chart.rows, i);
        for j in (0..i).rev() {
            let (earlier, _, e) = model::row(&chart.rows, j);
            if earlier != from {
                break;
            }
            if !(model::is_assumption(e) && model::is_assumption(o) && opposite(e, o)) {
                return (8, i);
            }
        }
    }
    (0, 0)
}

// ---- drawn at random

/// Some fields within quotes, and now and then the last CRLF left off.
pub fn varied(random: &mut Random, text: &[u8]) -> Vec<u8> {
    let quotes = random.one_of(&[0, 0, 1, 4]);
    let mut made = Vec::new();
    let mut digits = Vec::new();
    for &b in text.iter().chain(&[0]) {
        if b.is_ascii_digit() {
            digits.push(b);
            continue;
        }
        if !digits.is_empty() {
            let quoted = random.below(4) < quotes;
            made.extend(quoted.then_some(b'"'));
            made.append(&mut digits);
            made.extend(quoted.then_some(b'"'));
        }
        if b != 0 {
            made.push(b);
        }
    }
    if random.below(4) == 0 {
        made.truncate(made.len() - 2);
    }
    made
}

/// One change: a cut, an insertion, a deletion, swapped bytes, quotes, a byte order mark, LF for CRLF, a record twice, another number.
pub fn damage(random: &mut Random, text: &mut Vec<u8>) {
    if text.is_empty() {
        return;
    }
    let at = random.below(text.len() as u64) as usize;
    match random.below(12) {
        0 => text.truncate(at),
        1 => {
            let ends: Vec<usize> = (0..text.len()).filter(|i| text[*i] == b'\n').collect();
            if !ends.is_empty() {
                text.truncate(random.one_of(&ends) + 1 - 2 * random.below(2) as usize);
            }
        }
        2 => {
            let any = random.word() as u8;
            text.insert(at, random.one_of(&[b'0', b'1', b'9', b',', b'"', b'\r', b'\n', b' ', b'-', any]));
        }
        3 => drop(text.remove(at)),
        4 => {
            let other = random.below(text.len() as u64) as usize;
            text.swap(at, other);
        }
        5 => {
            let any = random.word() as u8;
            text[at] = random.one_of(&[b'0', b'7', b',', b'"', b'\r', b'\n', any]);
        }
        6 => {
            text.insert(at, b'"');
            let other = at + random.below((text.len() - at) as u64) as usize;
            text.insert(other, b'"');
        }
        7 => drop(text.splice(0..0, [0xEF, 0xBB, 0xBF])),
        8 => {
            if let Some(cr) = (at..text.len()).find(|i| text[*i] == b'\r') {
                text.remove(cr);
            }
        }
        9 => {
            if let Some(end) = text.iter().rposition(|b| *b == b'\n') {
                let begin = text[..end].iter().rposition(|b| *b == b'\n').map_or(0, |i| i + 1);
                let last = text[begin..=end].to_vec();
                text.extend(last);
            }
        }
        _ => {
            let Some(begin) = (at..text.len()).find(|i| text[*i].is_ascii_digit()) else { return };
            let end = (begin..text.len()).find(|i| !text[*i].is_ascii_digit()).unwrap_or(text.len());
            let number = random.one_of(&[
                "0", "00", "01", "-1", "6", "22", "24", "29", "30", "40", "45", "46", "63", "64", "65", "128", "129", "2147483648",
                "4294967295", "4294967296", "99999999999", "18446744073709551616",
            ]);
            text.splice(begin..end, number.bytes());
        }
    }
}
