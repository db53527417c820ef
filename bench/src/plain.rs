//! The same work in plain Rust, over the same buffers, written for speed and not for proof.

use crate::plain_build::{exactly_one, opposite};
use picker_tests::Chart;

type Refusal = (u32, usize);

/// A field's number and the offset after its digits and quotes. Kind: 0 plain, 1 row count, 2 spare.
#[inline]
fn field(text: &[u8], mut at: usize, kind: u8) -> Result<(u32, usize), Refusal> {
    let quoted = at < text.len() && text[at] == b'"';
    at += quoted as usize;
    let first = at;
    let mut x = 0u64;
    while at < text.len() && text[at].is_ascii_digit() {
        if at > first && x == 0 {
            return Err((13, first));
        }
        x = x * 10 + (text[at] - b'0') as u64;
        if x > u32::MAX as u64 {
            return Err((13, first));
        }
        at += 1;
    }
    if at == first {
        return Err((12, at));
    }
    match kind {
        1 if x > 128 => return Err((2, first)),
        2 if x != 0 => return Err((13, first)),
        _ => {}
    }
    if quoted {
        if at >= text.len() || text[at] != b'"' {
            return Err((12, at));
        }
        at += 1;
    }
    Ok((x as u32, at))
}

#[inline]
fn expect(text: &[u8], at: usize, b: u8) -> Result<usize, Refusal> {
    if at < text.len() && text[at] == b {
        Ok(at + 1)
    } else {
        Err((12, at))
    }
}

fn record(text: &[u8], mut at: usize, kinds: [u8; 6], into: &mut [u32]) -> Result<usize, Refusal> {
    for k in 0..6 {
        let (x, next) = field(text, at, kinds[k])?;
        into[k] = x;
        at = if k < 5 {
            expect(text, next, b',')?
        } else if next == text.len() {
            next
        } else {
            let cr = expect(text, next, b'\r')?;
            expect(text, cr, b'\n')?
        };
    }
    Ok(at)
}

/// Places, alarm and row count; the rows go to the table.
pub fn read(text: &[u8], table: &mut [u32]) -> Result<(u32, u32, usize), Refusal> {
    if table.len() != 768 {
        return Err((21, 0));
    }
    if text.is_empty() {
        return Err((11, 0));
    }
    let mut head = [0; 6];
    let mut at = record(text, 0, [0, 0, 1, 2, 2, 2], &mut head)?;
    let count = head[2] as usize;
    let mut rows = [0u32; 768];
    for i in 0..count {
        if at == text.len() {
            return Err((14, at));
        }
        at = record(text, at, [0; 6], &mut rows[6 * i..6 * i + 6])?;
    }
    if at < text.len() {
        return Err((14, at));
    }
    let fault = judge(head[0], head[1], &rows[..6 * count]);
    if fault.0 != 0 {
        return Err(fault);
    }
    table[..6 * count].copy_from_slice(&rows[..6 * count]);
    Ok((head[0], head[1], count))
}

/// The digits of a number, at the end of the room.
#[inline]
pub fn digits(mut x: u32, room: &mut [u8; 10]) -> &[u8] {
    let mut n = 10;
    loop {
        n -= 1;
        room[n] = b'0' + (x % 10) as u8;
        x /= 10;
        if x == 0 {
            return &room[n..];
        }
    }
}

/// The bytes of a chart's text; the chart is judged first.
pub fn write(chart: &Chart, bytes: &mut [u8]) -> Result<usize, Refusal> {
    let fault = judge(chart.places, chart.alarm, &chart.rows);
    if fault.0 != 0 {
        return Err(fault);
    }
    let mut at = 0;
    let mut put = |x: u32, last: bool, bytes: &mut [u8]| {
        let mut room = [0; 10];
        let digits = digits(x, &mut room);
        bytes[at..at + digits.len()].copy_from_slice(digits);
        at += digits.len();
        if last {
            bytes[at..at + 2].copy_from_slice(b"\r\n");
            at += 2;
        } else {
            bytes[at] = b',';
            at += 1;
        }
    };
    let head = [chart.places, chart.alarm, chart.rows.len() as u32 / 6, 0, 0, 0];
    for (k, &x) in head.iter().chain(chart.rows.iter()).enumerate() {
        put(x, k % 6 == 5, bytes);
    }
    Ok(at)
}

/// The number and position of a chart's first fault, (0, 0) where there is none.
pub fn judge(n: u32, alarm: u32, rows: &[u32]) -> (u32, usize) {
    let count = rows.len() / 6;
    if n == 0 || count == 0 {
        return (1, 0);
    }
    if n > 64 || count > 128 {
        return (2, 0);
    }
    if alarm >= n {
        return (3, 0);
    }
    let mut previous = 0;
    for (i, r) in rows.chunks_exact(6).enumerate() {
        if r[0] >= n || r[1] >= n {
            return (4, i);
        }
        if r[0] < previous {
            return (5, i);
        }
        previous = r[0];
        let (b, c) = match r[2] {
            0 | 16..=21 | 24..=29 => (r[4] == 0, true),
            1 | 5 | 32..=37 | 40..=45 => (r[4] < 64, r[5] == 0),
            2 => (r[4] < 64, true),
            3 | 4 => (r[4] < 64, r[5] < 64),
            _ => return (6, i),
        };
        if !(r[3] < 64 && b && c) {
            return (7, i);
        }
    }
    for i in 1..count {
        let (e, r) = (&rows[6 * i - 6..6 * i], &rows[6 * i..6 * i + 6]);
        if e[0] == r[0] && ((i > 1 && rows[6 * i - 12] == r[0]) || !apart(e, r)) {
            return (8, i);
        }
    }
    (0, 0)
}

/// Whether two rows are assumptions of which exactly one holds.
fn apart(e: &[u32], r: &[u32]) -> bool {
    if e[2] < 16 || r[2] < 16 {
        return false;
    }
    (opposite(e[2]) == r[2] && e[3..6] == r[3..6]) || exactly_one(e, r)
}

#[cfg(test)]
mod tests {
    use super::*;
    use crate::signed::{half_signed, signed};
    use picker_tests::texts::{damage, fault, plain_read, plain_write, varied, Wrong};
    use picker_tests::{cases, model, Random};

    #[test]
    fn texts_and_faults() {
        let mut random = Random::new(20287);
        let mut refused = 0;
        for _ in 0..cases(20_000) {
            let chart = model::chart(&mut random);
            let expected = fault(&chart);
            assert_eq!(judge(chart.places, chart.alarm, &chart.rows), expected, "{chart:?}");
            let mut bytes = vec![0xA5; 8643];
            if expected.0 == 0 {
                let text = plain_write(&chart);
                assert_eq!(write(&chart, &mut bytes), Ok(text.len()), "{chart:?}");
                assert!(bytes[..text.len()] == text, "{chart:?}");
            } else {
                assert_eq!(write(&chart, &mut bytes), Err(expected), "{chart:?}");
            }
            let mut text = varied(&mut random, &plain_write(&chart));
            (0..random.below(3)).for_each(|_| damage(&mut random, &mut text));
            let mut table = vec![7; 768];
            let answer = read(&text, &mut table);
            refused += answer.is_err() as usize;
            match plain_read(&text, Wrong::Not) {
                Ok(chart) => {
                    assert_eq!(answer, Ok((chart.places, chart.alarm, chart.rows.len() / 6)), "{}", text.escape_ascii());
                    assert!(table[..chart.rows.len()] == chart.rows, "{}", text.escape_ascii());
                }
                Err(refusal) => assert_eq!(answer, Err(refusal), "{}", text.escape_ascii()),
            }
        }
        assert!(refused > 1000, "only {refused} refused");
    }

    /// Every code, with operands that it takes and with one too large or not 0: which codes there are, and what each uses.
    #[test]
    fn codes_and_operands() {
        let judged = |code, a, b, c| judge(1, 0, &[0, 0, code, a, b, c]).0;
        for code in (0..=300).chain([u32::MAX - 7, u32::MAX]) {
            // The largest b and c; an operand that is not used is 0.
            let (b, c) = match code {
                0 | 16..=21 | 24..=29 => (0, u32::MAX),
                1 | 5 | 32..=37 | 40..=45 => (63, 0),
                2 => (63, u32::MAX),
                3 | 4 => (63, 63),
                _ => {
                    assert_eq!(judged(code, 64, 64, 64), 6, "{code}");
                    continue;
                }
            };
            assert_eq!([judged(code, 63, b, c), judged(code, 0, 0, 0)], [0, 0], "{code}");
            assert_eq!([judged(code, 64, b, c), judged(code, 63, b + 1, c)], [7, 7], "{code}");
            assert_eq!(judged(code, 63, b, c.wrapping_add(1)), if c == u32::MAX { 0 } else { 7 }, "{code}");
        }
    }

    /// In the other order a chart has the faults that it had.
    #[test]
    fn faults_in_the_other_order() {
        let mut random = Random::new(20288);
        for _ in 0..cases(20_000) {
            let chart = model::chart(&mut random);
            let made = signed(&chart);
            assert_eq!(judge(made.places, made.alarm, &made.rows), judge(chart.places, chart.alarm, &chart.rows), "{made:?}");
        }
    }

    /// The faults that the proved code finds, with signed comparisons beside unsigned ones, at one place too.
    #[test]
    fn faults_as_proved() {
        let mut random = Random::new(20289);
        let mut numbers = [0; 9];
        for _ in 0..cases(20_000) {
            let chart = model::chart(&mut random);
            let mut made = if random.below(2) == 0 { signed(&chart) } else { half_signed(&chart) };
            if random.below(4) == 0 && !made.rows.is_empty() {
                let row = 6 * random.below(made.rows.len() as u64 / 6) as usize;
                match random.below(3) {
                    0 => made.rows[row + 2] ^= 8,
                    1 => made.rows[row + 2] = random.one_of(&[22, 23, 24, 29, 30, 31, 38, 39, 40, 45, 46, 47]),
                    _ => made.rows[row + 5] = random.one_of(&[0, 1, (1 << 31) - 1, 1 << 31, u32::MAX]),
                }
            }
            let expected = picker_tests::fault(&made);
            assert_eq!(judge(made.places, made.alarm, &made.rows), expected, "{made:?}");
            numbers[expected.0 as usize] += 1;
        }
        assert!([0, 6, 7, 8].iter().all(|n| numbers[*n] > 100), "{numbers:?}");
    }
}
