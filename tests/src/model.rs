//! "Charts and rows" of the specification once more, in plain Rust, sharing nothing with the proved code.

use crate::{Chart, Operation, Random};

/// The known codes: assignments, then comparisons with a constant and with a variable, first unsigned and then signed.
pub const CODES: [u32; 30] =
    [0, 1, 2, 3, 4, 5, 16, 17, 18, 19, 20, 21, 32, 33, 34, 35, 36, 37, 24, 25, 26, 27, 28, 29, 40, 41, 42, 43, 44, 45];

/// The least number that two's complement reads as one below 0.
pub const HALF: u32 = 1 << 31;

pub fn is_assignment(o: Operation) -> bool {
    o.code <= 5
}

pub fn is_assumption(o: Operation) -> bool {
    matches!(o.code, 16..=21 | 24..=29 | 32..=37 | 40..=45)
}

/// Whether an assumption reads both sides, its constant too, as two's complement.
pub fn is_signed(o: Operation) -> bool {
    matches!(o.code, 24..=29 | 40..=45)
}

/// What codes 0 to 5 write: sums and code 5 wrap, code 4 stops at 0.
pub fn value(o: Operation, v: &[u32]) -> u32 {
    let at = |i: u32| v[i as usize];
    match o.code {
        0 => o.c,
        1 => at(o.b),
        2 => at(o.b).wrapping_add(o.c),
        3 => at(o.b).wrapping_add(at(o.c)),
        4 => at(o.b).saturating_sub(at(o.c)),
        5 => at(o.b).wrapping_neg(),
        _ => unreachable!(),
    }
}

/// Whether values meet an assumption: numbers are compared as they stand, or as the i32 of the same bits.
pub fn holds(o: Operation, v: &[u32]) -> bool {
    let x = v[o.a as usize];
    match o.code {
        16..=21 => related(o.code - 16, x, o.c),
        24..=29 => related(o.code - 24, x as i32, o.c as i32),
        32..=37 => related(o.code - 32, x, v[o.b as usize]),
        40..=45 => related(o.code - 40, x as i32, v[o.b as usize] as i32),
        _ => unreachable!(),
    }
}

fn related<T: Ord>(r: u32, x: T, y: T) -> bool {
    [x == y, x != y, x < y, x <= y, x > y, x >= y][r as usize]
}

/// Refusal 7: a variable above 63 or an unused operand that is not 0.
pub fn operands_fit(o: Operation) -> bool {
    let (b, c) = match o.code {
        0 => ("unused", "constant"),
        1 | 5 => ("variable", "unused"),
        2 => ("variable", "constant"),
        3 | 4 => ("variable", "variable"),
        16..=21 | 24..=29 => ("unused", "constant"),
        _ => ("variable", "unused"),
    };
    let fits = |use_of: &str, x: u32| match use_of {
        "variable" => x < 64,
        "unused" => x == 0,
        _ => true,
    };
    o.a < 64 && fits(b, o.b) && fits(c, o.c)
}

/// All values of the variables that two assumptions compare which could tell them apart: every constant with its neighbours, the ends
/// of both orders, and numbers in between.
fn telling(f: Operation, g: Operation) -> Vec<u32> {
    let mut all = vec![0, 1, 2, 3, 5, HALF - 2, HALF - 1, HALF, HALF + 1, u32::MAX - 2, u32::MAX - 1, u32::MAX];
    for c in [f.c, g.c] {
        for d in -2i64..=2 {
            all.push((c as i64 + d) as u32);
        }
    }
    all.sort_unstable();
    all.dedup();
    all
}

/// Whether some values meet f if p says so, else not, and g likewise: by trying every combination of telling values at up to four variables.
pub fn together(f: Operation, p: bool, g: Operation, q: bool) -> bool {
    let mut variables = vec![f.a, g.a];
    for o in [f, g] {
        if matches!(o.code, 32..=37 | 40..=45) {
            variables.push(o.b);
        }
    }
    variables.sort_unstable();
    variables.dedup();
    let points = telling(f, g);
    let mut v = [0u32; 64];
    fn go(k: usize, variables: &[u32], points: &[u32], v: &mut [u32; 64], test: &dyn Fn(&[u32; 64]) -> bool) -> bool {
        if k == variables.len() {
            return test(v);
        }
        points.iter().any(|&x| {
            v[variables[k] as usize] = x;
            go(k + 1, variables, points, v, test)
        })
    }
    go(0, &variables, &points, &mut v, &|v| holds(f, v) == p && holds(g, v) == q)
}

pub fn exactly_one(f: Operation, g: Operation) -> bool {
    !together(f, true, g, true) && !together(f, false, g, false)
}

/// 0 never, 1 implied, 2 not implied.
pub fn implies(f: Operation, g: Operation) -> u32 {
    if !together(f, true, f, true) {
        0
    } else if !together(f, true, g, false) {
        1
    } else {
        2
    }
}

/// Whether an operation is an assumption that no values meet: a row with it can never be taken. Whether it is an
/// assumption is asked first, as an assignment holds of nothing and is always taken.
pub fn never_holds(o: Operation) -> bool {
    is_assumption(o) && !together(o, true, o, true)
}

pub fn row(rows: &[u32], i: usize) -> (u32, u32, Operation) {
    let r = &rows[6 * i..6 * i + 6];
    (r[0], r[1], Operation { code: r[2], a: r[3], b: r[4], c: r[5] })
}

/// The number and position of a chart's refusal up to 7, (0, 0) where there is none.
pub fn fault_of_rows(chart: &Chart) -> (u32, usize) {
    if chart.rows.len() % 6 != 0 {
        return (21, 0);
    }
    let (n, count) = (chart.places, chart.rows.len() / 6);
    if n == 0 || count == 0 {
        return (1, 0);
    }
    if n > 64 || count > 128 {
        return (2, 0);
    }
    if chart.alarm >= n {
        return (3, 0);
    }
    let mut previous = 0;
    for i in 0..count {
        let (from, to, o) = row(&chart.rows, i);
        if from >= n || to >= n {
            return (4, i);
        }
        if from < previous {
            return (5, i);
        }
        previous = from;
        if !is_assignment(o) && !is_assumption(o) {
            return (6, i);
        }
        if !operands_fit(o) {
            return (7, i);
        }
    }
    (0, 0)
}

/// The number and position of a chart's refusal, (0, 0) where there is none.
pub fn fault(chart: &Chart) -> (u32, usize) {
    let first = fault_of_rows(chart);
    if first.0 != 0 {
        return first;
    }
    for i in 0..chart.rows.len() / 6 {
        let (from, _, o) = row(&chart.rows, i);
        for j in 0..i {
            let (earlier, _, e) = row(&chart.rows, j);
            if earlier == from && !(is_assumption(e) && is_assumption(o) && exactly_one(e, o)) {
                return (8, i);
            }
        }
    }
    (0, 0)
}

/// Faulty charts of every number, with their positions.
pub fn faulty() -> Vec<(Chart, (u32, usize))> {
    let chart = |places, alarm, rows: &[[u32; 6]]| Chart { places, alarm, rows: rows.concat() };
    let one = [0, 0, 0, 0, 0, 0];
    let choice = [[0, 0, 16, 0, 0, 1], [0, 0, 17, 0, 0, 1]];
    let all = vec![
        (chart(0, 0, &[one]), (1, 0)),
        (chart(1, 0, &[]), (1, 0)),
        (chart(65, 0, &[]), (1, 0)),
        (chart(65, 0, &[one]), (2, 0)),
        (chart(u32::MAX, 0, &[one]), (2, 0)),
        (chart(64, 0, &[one; 129]), (2, 0)),
        (chart(1, 1, &[one]), (3, 0)),
        (chart(64, u32::MAX, &[one]), (3, 0)),
        (chart(2, 0, &[one, [1, 2, 0, 0, 0, 0]]), (4, 1)),
        (chart(2, 0, &[one, [2, 0, 0, 0, 0, 0]]), (4, 1)),
        (chart(2, 0, &[[1, 0, 0, 0, 0, 0], one]), (5, 1)),
        (chart(1, 0, &[[0, 0, 6, 0, 0, 0]]), (6, 0)),
        (chart(2, 0, &[one, [1, 0, 22, 0, 0, 0]]), (6, 1)),
        (chart(1, 0, &[[0, 0, 38, 0, 0, 0]]), (6, 0)),
        (chart(2, 0, &[one, [1, 0, 23, 0, 0, 0]]), (6, 1)),
        (chart(1, 0, &[[0, 0, 30, 0, 0, 0]]), (6, 0)),
        (chart(1, 0, &[[0, 0, 31, 0, 0, 0]]), (6, 0)),
        (chart(1, 0, &[[0, 0, 39, 0, 0, 0]]), (6, 0)),
        (chart(1, 0, &[[0, 0, 46, 0, 0, 0]]), (6, 0)),
        (chart(2, 0, &[one, [1, 0, 47, 0, 0, 0]]), (6, 1)),
        (chart(1, 0, &[[0, 0, 0, 64, 0, 0]]), (7, 0)),
        (chart(1, 0, &[[0, 0, 16, 0, 1, 0]]), (7, 0)),
        (chart(1, 0, &[[0, 0, 24, 0, 1, 0]]), (7, 0)),
        (chart(2, 0, &[one, [1, 1, 29, 64, 0, 0]]), (7, 1)),
        (chart(1, 0, &[[0, 0, 40, 0, 0, 1]]), (7, 0)),
        (chart(1, 0, &[[0, 0, 40, 0, 64, 0]]), (7, 0)),
        (chart(2, 0, &[one, [1, 1, 45, 64, 0, 0]]), (7, 1)),
        (chart(2, 0, &[one, [1, 1, 3, 0, 0, 64]]), (7, 1)),
        (chart(1, 0, &[one, one]), (8, 1)),
        (chart(1, 0, &[choice[0], choice[1], choice[0]]), (8, 2)),
        (chart(1, 0, &[choice[0], choice[0]]), (8, 1)),
        // Opposite relations of the same operands in two orders: where v0 is 2^31 and v1 is 0, both rows hold.
        (chart(1, 0, &[[0, 0, 26, 0, 0, 5], [0, 0, 21, 0, 0, 5]]), (8, 1)),
        (chart(1, 0, &[[0, 0, 42, 0, 1, 0], [0, 0, 37, 0, 1, 0]]), (8, 1)),
    ];
    for (chart, expected) in &all {
        assert_eq!(fault(chart), *expected, "{chart:?}");
    }
    all
}

/// The rows that leave a place of the chart named.
pub fn lookup(old: &Chart, new: &Chart, which: u32, place: u32) -> Vec<u32> {
    let chart = match which {
        0 => old,
        1 => new,
        _ => return Vec::new(),
    };
    if fault(chart) != (0, 0) || place >= chart.places {
        return Vec::new();
    }
    chart.rows.chunks(6).filter(|r| r[0] == place).flatten().copied().collect()
}

// ---- drawn at random

pub fn operation(random: &mut Random, codes: &[u32]) -> Operation {
    let code = random.one_of(codes);
    let constant = random.one_of(&[0, 1, 2, 3, 99, 100, 101, HALF - 2, HALF - 1, HALF, HALF + 1, u32::MAX - 1, u32::MAX]);
    let variable = |random: &mut Random| random.one_of(&[0, 1, 2, 63]);
    let (a, b) = (variable(random), variable(random));
    let c = variable(random);
    match code {
        0 | 16..=21 | 24..=29 => Operation { code, a, b: 0, c: constant },
        1 | 5 | 32..=37 | 40..=45 => Operation { code, a, b, c: 0 },
        2 => Operation { code, a, b, c: constant },
        _ => Operation { code, a, b, c },
    }
}

/// Every assumption over v0 and v1 whose constant, if it has one, is an end of either order, beside one, or in between.
pub fn assumptions() -> Vec<Operation> {
    let mut all = Vec::new();
    for code in &CODES[6..] {
        for a in 0..2 {
            if matches!(code, 16..=21 | 24..=29) {
                let constants = [0, 1, 2, 100, HALF - 2, HALF - 1, HALF, HALF + 1, u32::MAX - 1, u32::MAX];
                all.extend(constants.map(|c| Operation { code: *code, a, b: 0, c }));
            } else {
                all.extend([0, 1].map(|b| Operation { code: *code, a, b, c: 0 }));
            }
        }
    }
    all
}

/// A chart most of whose places have an assignment or two opposite assumptions; then, now and then, some entries are spoilt.
pub fn chart(random: &mut Random) -> Chart {
    let places = 1 + random.below(12) as u32;
    let mut rows = Vec::new();
    for from in 0..places {
        let to = |random: &mut Random| random.below(places as u64) as u32;
        match random.below(4) {
            0 => {}
            1 => {
                let o = operation(random, &CODES[..6]);
                rows.extend([from, to(random), o.code, o.a, o.b, o.c]);
            }
            _ => {
                let o = operation(random, &CODES[6..]);
                let opposite = o.code / 8 * 8 + [1, 0, 5, 4, 3, 2][(o.code % 8) as usize];
                rows.extend([from, to(random), o.code, o.a, o.b, o.c]);
                rows.extend([from, to(random), opposite, o.a, o.b, o.c]);
            }
        }
    }
    let mut chart = Chart { places, alarm: random.below(places as u64) as u32, rows };
    for _ in 0..random.below(3) {
        if random.below(3) == 0 && !chart.rows.is_empty() {
            let at = random.below(chart.rows.len() as u64) as usize;
            chart.rows[at] = random.one_of(&[0, 1, 2, 5, 6, 22, 24, 27, 30, 38, 40, 43, 46, 63, 64, 100, HALF, u32::MAX]);
        }
    }
    chart
}
