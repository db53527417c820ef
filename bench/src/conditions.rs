//! The lines of building and checking: the proved code, plain Rust over the same buffers (in three ways), and Rust as
//! written for everyday use.

use crate::signed::{half_signed, signed};
use crate::turns::{line, turns, Contender, Time, DRAWS};
use crate::{everyday, plain_build};
use picker_tests::checker::Record;
use picker_tests::conditions::{build, check, Buffers};
use picker_tests::drawn::Orders;
use picker_tests::{algorithms, drawn, Chart, Random};
use std::hint::black_box;

/// Pairs of charts of one kind, and the edition in which they are built and checked.
struct Work {
    edition: u32,
    what: String,
    pairs: Vec<(Chart, Chart)>,
}

/// One draw of every kind, what is made of some of them with signed comparisons, and some of them in edition 2.
fn work(random: &mut Random) -> Vec<Work> {
    let drawn = drawn_work(random);
    let pairs = |of: &str| &drawn.iter().find(|work| work.what == of).expect("a kind that is drawn").pairs;
    let make = |what: &str, of: &str, old: fn(&Chart) -> Chart, new: fn(&Chart) -> Chart| {
        let pairs = pairs(of).iter().map(|pair| (old(&pair.0), new(&pair.1))).collect();
        Work { edition: 1, what: what.to_string(), pairs }
    };
    let second = |of: &str| Work { edition: 2, what: format!("edition 2, {of}"), pairs: pairs(of).clone() };
    let (few, many, grow) =
        ("small amendments, 64 places", "all pairs visited, 64 places", "all pairs visited, sets grow, 64 places");
    let made = [
        make("small amendments, signed, 8 places", "small amendments, 8 places", signed, signed),
        make("small amendments, signed, 64 places", few, signed, signed),
        make("all pairs visited, sets grow, signed, 64 places", grow, signed, signed),
        make("small amendments, half signed, 64 places", few, half_signed, half_signed),
        // No comparison has an equal one, so that each is tested against those of the old chart.
        make("small amendments, only the new chart signed, 64 places", few, Chart::clone, signed),
        make("many pairs visited, only the new chart signed, 64 places", many, Chart::clone, signed),
        second("small amendments, 8 places"),
        second(few),
        second("renumbered charts, 64 places"),
        second(many),
        second(grow),
    ];
    drawn.into_iter().chain(made).collect()
}

/// One draw of every kind.
fn drawn_work(random: &mut Random) -> Vec<Work> {
    let mut all = Vec::new();
    let mut renumbered = Vec::new();
    for places in [8, 16, 32, 64] {
        let pairs: Vec<_> = (0..20).map(|_| drawn::procedures(random, places, Orders::Unsigned)).collect();
        renumbered = pairs.iter().map(|(old, _)| (old.clone(), drawn::renumbered(random, old))).collect();
        all.push(Work { edition: 1, what: format!("small amendments, {places} places"), pairs });
    }
    all.push(Work { edition: 1, what: "renumbered charts, 64 places".to_string(), pairs: renumbered });
    for (what, assigned) in [("all pairs visited", 0), ("all pairs visited, sets grow", 10)] {
        for places in [8, 16, 32, 64] {
            let mut chart = || drawn::wide(random, places, assigned, 0);
            let pairs = vec![(chart(), chart())];
            all.push(Work { edition: 1, what: format!("{what}, {places} places"), pairs });
        }
    }
    all
}

fn lent() -> Buffers {
    Buffers { marks: vec![0xA5; 4160], targets: vec![0xA5A5; 8192], sets: vec![0xA5A5; 4096], waiting: vec![0xA5; 4096] }
}

/// The proved build, in the form of the plain ones.
fn ours(edition: u32, old: &Chart, new: &Chart, buffers: &mut Buffers) -> plain_build::Answer {
    build(edition, old, new, buffers).map(|answer| answer.map(|n| n as u32))
}

/// The builders over the same buffers.
const BUILDERS: [plain_build::Builder; 4] =
    [ours, plain_build::build::<true>, plain_build::build::<false>, plain_build::build_with_lists];

/// The times of a pair's build, by contender.
fn building(&Work { edition, ref pairs, .. }: &Work) -> Vec<Time> {
    let mut all: Vec<Contender<Buffers>> = Vec::new();
    for build in BUILDERS {
        for (old, new) in pairs {
            let (expected, mut b) = (algorithms::build(edition, old, new), lent());
            let counts = [expected.start, expected.open, expected.kept, expected.covered];
            assert_eq!(build(edition, old, new, &mut b), Ok(counts));
            assert!(b.marks == expected.marks && b.targets == expected.targets && b.sets == expected.sets && b.waiting == expected.waiting);
        }
        all.push(Box::new(move |buffers| {
            for (old, new) in pairs {
                black_box(build(black_box(edition), black_box(old), black_box(new), buffers)).ok();
            }
        }));
    }
    all.push(Box::new(|_| {
        for (old, new) in pairs {
            black_box(everyday::build(black_box(edition), black_box(old), black_box(new))).ok();
        }
    }));
    each(pairs.len(), turns(&mut lent(), all))
}

/// The times of a pair's check, by contender: every one checks what was built, the last one in its own form.
fn checking(&Work { edition, ref pairs, .. }: &Work) -> Vec<Time> {
    let records: Vec<Record> = pairs.iter().map(|(old, new)| algorithms::build(edition, old, new).into()).collect();
    let conditions: Vec<_> = pairs.iter().map(|(old, new)| everyday::build(edition, old, new).unwrap()).collect();
    let all: Vec<Contender<()>> = vec![
        Box::new(|_| {
            for ((old, new), record) in pairs.iter().zip(&records) {
                assert!(black_box(check(black_box(edition), black_box(old), black_box(new), record)).is_ok());
            }
        }),
        Box::new(|_| {
            for ((old, new), record) in pairs.iter().zip(&records) {
                let answer = plain_build::check(black_box(edition), black_box(old), black_box(new), record);
                assert!(black_box(answer).is_ok());
            }
        }),
        Box::new(|_| {
            for ((old, new), condition) in pairs.iter().zip(&conditions) {
                let answer = everyday::check(black_box(edition), black_box(old), black_box(new), condition);
                assert_eq!(black_box(answer), Ok(true));
            }
        }),
    ];
    each(pairs.len(), turns(&mut (), all))
}

/// The times of one pair, of those of a list.
fn each(pairs: usize, times: Vec<Time>) -> Vec<Time> {
    times.into_iter().map(|time| Time { nanos: time.nanos / pairs as f64, ..time }).collect()
}

/// Nodes of a record, on average.
fn nodes(all: &[&Work]) -> usize {
    let pairs = || all.iter().flat_map(|work| work.pairs.iter().map(|(old, new)| (work.edition, old, new)));
    let present = |marks: Vec<u8>| marks.into_iter().filter(|mark| *mark != 0).count();
    let nodes = pairs().map(|(edition, old, new)| present(algorithms::build(edition, old, new).marks));
    nodes.sum::<usize>() / pairs().count()
}

pub fn lines() {
    let draws: Vec<Vec<Work>> = DRAWS.iter().map(|seed| work(&mut Random::new(*seed))).collect();
    for kind in 0..draws[0].len() {
        let all: Vec<&Work> = draws.iter().map(|draw| &draw[kind]).collect();
        let (what, nodes) = (&all[0].what, Some(nodes(&all)));
        let times: Vec<_> = all.iter().map(|work| building(work)).collect();
        line(&format!("build, {what}"), nodes, &times, [Some(1), Some(2), Some(3), Some(4)]);
        let times: Vec<_> = all.iter().map(|work| checking(work)).collect();
        line(&format!("check, {what}"), nodes, &times, [Some(1), None, None, Some(2)]);
    }
}

#[cfg(test)]
mod tests {
    use super::*;

    /// Every pair of every line is faultless, and has signed comparisons exactly where its line says so.
    #[test]
    fn drawn_charts() {
        for seed in DRAWS {
            for Work { edition, what, pairs } in work(&mut Random::new(seed)) {
                for (old, new) in &pairs {
                    assert_eq!(plain_build::judged(edition, old, new), Ok(()), "{what}: {old:?} {new:?}");
                }
                let signed = |chart: &Chart| chart.rows.chunks_exact(6).any(|row| row[2] & 8 != 0);
                let found = [pairs.iter().any(|pair| signed(&pair.0)), pairs.iter().any(|pair| signed(&pair.1))];
                let due = what.contains("signed");
                assert_eq!(found, [due && !what.contains("only the new chart"), due], "{what}");
            }
        }
    }
}
