//! The proved code as the tests call it, and what the tests share: charts, and numbers drawn from a fixed seed.

pub mod algorithms;
pub mod checker;
pub mod conditions;
pub mod drawn;
pub mod model;
pub mod stack;
pub mod texts;
pub mod vectors;

/// The editions that builder and checker know. Any other number is refused.
pub const EDITIONS: [u32; 2] = [1, 2];

/// The operation of a row.
#[derive(Clone, Copy, Debug, PartialEq, Eq)]
pub struct Operation {
    pub code: u32,
    pub a: u32,
    pub b: u32,
    pub c: u32,
}

/// A chart with its table.
#[derive(Clone, Debug)]
pub struct Chart {
    pub places: u32,
    pub alarm: u32,
    pub rows: Vec<u32>,
}

mod linked {
    extern "C" {
        pub fn testing_implies(code: u32, a: u32, b: u32, c: u32, code2: u32, a2: u32, b2: u32, c2: u32) -> u32;
        pub fn testing_exactly_one(code: u32, a: u32, b: u32, c: u32, code2: u32, a2: u32, b2: u32, c2: u32) -> u32;
        pub fn testing_fault(places: u32, alarm: u32, rows: *const u32, len: usize) -> u32;
        pub fn testing_fault_position(places: u32, alarm: u32, rows: *const u32, len: usize) -> usize;
        pub fn testing_written(code: u32, a: u32, b: u32, c: u32, values: *const u32, len: usize) -> u64;
        pub fn testing_meets(code: u32, a: u32, b: u32, c: u32, values: *const u32, len: usize) -> u64;
    }
}

/// 0 never, 1 implied, 2 not implied.
pub fn implies(f: Operation, g: Operation) -> u32 {
    unsafe { linked::testing_implies(f.code, f.a, f.b, f.c, g.code, g.a, g.b, g.c) }
}

pub fn exactly_one(f: Operation, g: Operation) -> bool {
    unsafe { linked::testing_exactly_one(f.code, f.a, f.b, f.c, g.code, g.a, g.b, g.c) == 1 }
}

/// The number and position of a chart's refusal, (0, 0) where there is none.
pub fn fault(chart: &Chart) -> (u32, usize) {
    let (at, len) = (chart.rows.as_ptr(), chart.rows.len());
    unsafe {
        (
            linked::testing_fault(chart.places, chart.alarm, at, len),
            linked::testing_fault_position(chart.places, chart.alarm, at, len),
        )
    }
}

/// The number of a chart's refusal alone, 0 where there is none.
pub fn fault_number(chart: &Chart) -> u32 {
    unsafe { linked::testing_fault(chart.places, chart.alarm, chart.rows.as_ptr(), chart.rows.len()) }
}

/// The value written, or 2^32 and a refusal's number.
pub fn written(o: Operation, values: &[u32]) -> u64 {
    unsafe { linked::testing_written(o.code, o.a, o.b, o.c, values.as_ptr(), values.len()) }
}

/// 1 or 0, or 2^32 and a refusal's number.
pub fn meets(o: Operation, values: &[u32]) -> u64 {
    unsafe { linked::testing_meets(o.code, o.a, o.b, o.c, values.as_ptr(), values.len()) }
}

/// Numbers from a seed (xorshift64*): the same in every run.
pub struct Random(u64);

impl Random {
    pub fn new(seed: u64) -> Random {
        eprintln!("seed {seed}");
        Random(seed.max(1))
    }

    pub fn word(&mut self) -> u32 {
        self.next() as u32
    }

    pub fn next(&mut self) -> u64 {
        self.0 ^= self.0 >> 12;
        self.0 ^= self.0 << 25;
        self.0 ^= self.0 >> 27;
        self.0.wrapping_mul(0x2545_F491_4F6C_DD1D)
    }

    pub fn below(&mut self, n: u64) -> u64 {
        (self.next() >> 11) % n
    }

    pub fn one_of<T: Copy>(&mut self, of: &[T]) -> T {
        of[self.below(of.len() as u64) as usize]
    }
}

/// How many cases a test draws: as many as usual, times the whole number in the environment variable `PICKER_CASES`.
/// Unset, 0 or anything else counts as 1, so that no test is emptied.
pub fn cases(usual: usize) -> usize {
    times(usual, std::env::var("PICKER_CASES").ok().as_deref())
}

fn times(usual: usize, said: Option<&str>) -> usize {
    usual.saturating_mul(said.and_then(|n| n.parse().ok()).unwrap_or(1).max(1))
}

#[cfg(test)]
mod tests {
    #[test]
    fn nothing_said_empties_a_test() {
        for (said, expected) in
            [(None, 40), (Some("10"), 400), (Some("1"), 40), (Some("0"), 40), (Some(""), 40), (Some("-3"), 40), (Some("many"), 40)]
        {
            assert_eq!(super::times(40, said), expected, "{said:?}");
        }
        // Too many to count are not wrapped round to none.
        assert_eq!(super::times(64, Some("9223372036854775808")), usize::MAX);
    }
}
