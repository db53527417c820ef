//! Charts with signed comparisons, made from drawn ones. Nothing is drawn for it, so that all other charts stay those
//! that they were.

use picker_tests::Chart;

/// A comparison in the other order, code 8 more or 8 less, and a constant moved by half of all numbers, since by so
/// much the orders are moved against each other. So a comparison that never or always holds goes on to do so: of
/// v0 < 0 the code alone would make v0 <s 0, and a place with v1 ≤ v1 beside it would be at fault.
fn turn(row: &mut [u32]) {
    if (16..32).contains(&row[2]) {
        row[5] ^= 1 << 31;
    }
    row[2] ^= 8;
}

/// The chart with those of its comparisons in the other order that a test of the rows says.
fn turned(chart: &Chart, which: impl Fn(&[u32]) -> bool) -> Chart {
    let mut made = chart.clone();
    let known = |row: &[u32]| matches!(row[2], 16..=21 | 24..=29 | 32..=37 | 40..=45);
    made.rows.chunks_exact_mut(6).filter(|row| known(row) && which(row)).for_each(turn);
    made
}

/// The chart with all comparisons in the other order: signed, where all are unsigned. Of two assumptions one implies the
/// other exactly if it did before. So the faults of the chart are the same, and so is the record of two charts that are
/// both made so: the same work as of those that were drawn, in the other order.
pub fn signed(chart: &Chart) -> Chart {
    turned(chart, |_| true)
}

/// The chart with about half of its comparisons in the other order: those of odd variables with constants, and of an odd
/// variable with an even one. The two rows of a place, if neither holds always, compare the same variables, and stay
/// two of which exactly one holds.
pub fn half_signed(chart: &Chart) -> Chart {
    turned(chart, |row| (row[3] ^ row[4]) % 2 == 1)
}

/// A pair of charts with signed comparisons in both of them, in about half of their rows, in one of them alone.
#[cfg(test)]
pub fn pairs(old: &Chart, new: &Chart) -> [(Chart, Chart); 5] {
    [
        (signed(old), signed(new)),
        (half_signed(old), half_signed(new)),
        (old.clone(), signed(new)),
        (signed(old), new.clone()),
        (old.clone(), half_signed(new)),
    ]
}
