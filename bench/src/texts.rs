//! The lines of reading, writing and judging the largest charts, against plain Rust.

use crate::plain;
use crate::signed::{half_signed, signed};
use crate::turns::{line, turns, Contender, Time, DRAWS};
use picker_tests::{fault_number, texts, Chart, Random};
use std::hint::black_box;

/// A largest chart: 64 places of two opposite comparisons each, with constants drawn from all numbers; or, mixed, with
/// half of the places comparing two variables.
fn largest(random: &mut Random, mixed: bool) -> Chart {
    let mut rows = Vec::new();
    for p in 0..64 {
        let (r, opposite) = random.one_of(&[(0, 1), (2, 5), (3, 4), (4, 3), (5, 2)]);
        let (a, to) = (random.below(64) as u32, [random.below(64) as u32, random.below(64) as u32]);
        let (kind, b, c) = if mixed && random.below(2) == 0 { (32, random.below(64) as u32, 0) } else { (16, 0, random.word()) };
        rows.extend([p, to[0], kind + r, a, b, c, p, to[1], kind + opposite, a, b, c]);
    }
    Chart { places: 64, alarm: 63, rows }
}

/// A largest chart with an unsigned comparison beside a signed one at every place, so that no two rows are opposite as
/// they are written: = beside ≠s, else the same relation twice, as v0 < 2147483648 beside v0 <s 0.
fn of_both_orders(chart: &Chart) -> Chart {
    let mut made = chart.clone();
    for rows in made.rows.chunks_exact_mut(12) {
        match rows[2] % 8 {
            0 | 1 => rows[8] += 8,
            r => {
                rows[8] = rows[2] + 8;
                (rows[5], rows[11]) = if r == 2 || r == 5 { (1 << 31, 0) } else { ((1 << 31) - 1, u32::MAX) };
            }
        }
    }
    made
}

/// The text with every field in quotes.
fn quoted(text: &[u8]) -> Vec<u8> {
    let mut made = Vec::new();
    for field in text.split_inclusive(|b| *b == b',' || *b == b'\n') {
        let digits = field.iter().take_while(|b| b.is_ascii_digit()).count();
        made.push(b'"');
        made.extend(&field[..digits]);
        made.push(b'"');
        made.extend(&field[digits..]);
    }
    made
}

fn reading(text: &[u8]) -> Vec<Time> {
    let (mut ours, mut theirs) = (vec![0u32; 768], vec![0u32; 768]);
    assert!(texts::read(text, &mut ours).is_ok() && plain::read(text, &mut theirs).is_ok() && ours == theirs);
    let all: Vec<Contender<Vec<u32>>> = vec![
        Box::new(|table| {
            black_box(texts::read(black_box(text), table)).ok();
        }),
        Box::new(|table| {
            black_box(plain::read(black_box(text), table)).ok();
        }),
    ];
    turns(&mut ours, all)
}

fn writing(chart: &Chart) -> Vec<Time> {
    let (mut ours, mut theirs) = (vec![0u8; 8643], vec![0u8; 8643]);
    assert_eq!(texts::write(chart, &mut ours).unwrap()[0] as usize, plain::write(chart, &mut theirs).unwrap());
    assert!(ours == theirs);
    let all: Vec<Contender<Vec<u8>>> = vec![
        Box::new(|bytes| {
            black_box(texts::write(black_box(chart), bytes)).ok();
        }),
        Box::new(|bytes| {
            black_box(plain::write(black_box(chart), bytes)).ok();
        }),
    ];
    turns(&mut ours, all)
}

fn judging(chart: &Chart) -> Vec<Time> {
    assert!(fault_number(chart) == 0 && plain::judge(chart.places, chart.alarm, &chart.rows) == (0, 0));
    let all: Vec<Contender<()>> = vec![
        Box::new(|_| {
            black_box(fault_number(black_box(chart)));
        }),
        Box::new(|_| {
            black_box(plain::judge(chart.places, chart.alarm, black_box(&chart.rows)));
        }),
    ];
    turns(&mut (), all)
}

pub fn lines() {
    let charts = |mixed| -> Vec<Chart> { DRAWS.iter().map(|seed| largest(&mut Random::new(*seed), mixed)).collect() };
    let (constants, mixed) = (charts(false), charts(true));
    let of = |what: &str, charts: &[Chart], time: &dyn Fn(&Chart) -> Vec<Time>| {
        line(what, None, &charts.iter().map(time).collect::<Vec<_>>(), [Some(1), None, None, None]);
    };
    of("read a largest text", &constants, &|chart| reading(&texts::plain_write(chart)));
    of("read a largest text, every field in quotes", &constants, &|chart| reading(&quoted(&texts::plain_write(chart))));
    of("write a largest chart", &constants, &writing);
    of("judge a largest chart, all rows with one kind of code", &constants, &judging);
    of("judge a largest chart, two kinds of code", &mixed, &judging);
    let made = |of: fn(&Chart) -> Chart, charts: &[Chart]| -> Vec<Chart> { charts.iter().map(of).collect() };
    of("judge a largest chart, signed, all rows with one kind of code", &made(signed, &constants), &judging);
    of("judge a largest chart, half signed, four kinds of code", &made(half_signed, &mixed), &judging);
    of("judge a largest chart, signed beside unsigned at every place", &made(of_both_orders, &constants), &judging);
}

#[cfg(test)]
mod tests {
    use super::*;

    /// Signed comparisons are where a line says so, and the charts are faultless with them.
    #[test]
    fn largest_charts() {
        for seed in DRAWS {
            let charts = [false, true].map(|mixed| largest(&mut Random::new(seed), mixed));
            assert!(charts.iter().all(|chart| chart.rows.chunks_exact(6).all(|row| row[2] & 8 == 0)));
            let made = [signed(&charts[0]), half_signed(&charts[1]), of_both_orders(&charts[0])];
            for (chart, least) in made.iter().zip([128, 40, 64]) {
                assert_eq!(plain::judge(chart.places, chart.alarm, &chart.rows), (0, 0), "{chart:?}");
                assert!(chart.rows.chunks_exact(6).filter(|row| row[2] & 8 != 0).count() >= least, "{chart:?}");
            }
        }
    }
}
