//! The crates `operations` and `chart` against the vectors and against a plain Rust reading of the specification.

use picker_tests::model::HALF;
use picker_tests::{algorithms, cases, conditions, exactly_one, fault, implies, meets, model, texts, vectors, written};
use picker_tests::{Chart, Operation, Random};

#[test]
fn vectors_of_implication() {
    for (f, g, answer) in vectors::implications() {
        assert_eq!(implies(f, g), answer, "{f:?} {g:?}");
    }
}

/// Each line of the vectors: op, a, b, c, the value of vb, that of v(c) or, where c is no variable, one that is not
/// read; then what is written.
#[test]
fn vectors_of_values() {
    let mut random = Random::new(20281);
    let (mut count, mut stopped) = ([0; 6], 0);
    for line in include_str!("../vectors/105/values.txt").lines() {
        let n: Vec<u32> = line.split_whitespace().map(|w| w.parse().unwrap()).collect();
        let o = Operation { code: n[0], a: n[1], b: n[2], c: n[3] };
        let mut values = [0; 64].map(|_| random.word());
        if [3, 4].contains(&o.code) {
            values[o.c as usize] = n[5];
        }
        values[o.b as usize] = n[4];
        assert_eq!(written(o, &values), n[6] as u64, "{line}");
        assert_eq!(model::value(o, &values), n[6], "{line}");
        count[o.code as usize] += 1;
        stopped += (o.code == 4 && n[4] < n[5]) as usize;
    }
    assert!(count[2..].iter().all(|n| *n > 30) && stopped > 50, "only {count:?} vectors, {stopped} of which stop at 0");
}

/// Two assumptions (op a b c each), and whether the first never holds (0), implies the second (1) or does not (2).
const SIGNED: [([u32; 4], [u32; 4], u32); 24] = [
    // v0 <s 0 and v0 ≥ 2147483648 imply each other, and so do their opposites.
    ([26, 0, 0, 0], [21, 0, 0, 2147483648], 1),
    ([21, 0, 0, 2147483648], [26, 0, 0, 0], 1),
    ([29, 0, 0, 0], [18, 0, 0, 2147483648], 1),
    ([18, 0, 0, 2147483648], [29, 0, 0, 0], 1),
    // = and ≠ are the same in both orders.
    ([24, 0, 0, 7], [16, 0, 0, 7], 1),
    ([16, 0, 0, 7], [24, 0, 0, 7], 1),
    ([25, 0, 0, 4294967295], [17, 0, 0, 4294967295], 1),
    ([40, 0, 1, 0], [32, 0, 1, 0], 1),
    ([33, 0, 1, 0], [41, 1, 0, 0], 1),
    // The others are not: a number from 2147483648 on is below 100 in one order, above it in the other.
    ([18, 0, 0, 100], [26, 0, 0, 100], 1),
    ([26, 0, 0, 100], [18, 0, 0, 100], 2),
    ([29, 0, 0, 100], [21, 0, 0, 100], 1),
    ([21, 0, 0, 100], [29, 0, 0, 100], 2),
    ([42, 0, 1, 0], [34, 0, 1, 0], 2),
    ([34, 0, 1, 0], [42, 0, 1, 0], 2),
    ([42, 0, 1, 0], [33, 0, 1, 0], 1),
    ([32, 0, 1, 0], [43, 0, 1, 0], 1),
    // The ends of the signed order, of which the constant 4294967295, read as −1, is none.
    ([26, 0, 0, 2147483648], [16, 1, 0, 7], 0),
    ([28, 0, 0, 2147483647], [16, 1, 0, 7], 0),
    ([28, 0, 0, 4294967295], [16, 1, 0, 7], 2),
    ([42, 0, 1, 0], [25, 1, 0, 2147483648], 1),
    ([42, 0, 1, 0], [27, 0, 0, 2147483646], 1),
    ([42, 0, 1, 0], [17, 1, 0, 0], 2),
    ([24, 0, 0, 2147483648], [43, 0, 1, 0], 1),
];

/// The two assumptions of such a line.
fn both(f: [u32; 4], g: [u32; 4]) -> [Operation; 2] {
    [f, g].map(|[code, a, b, c]| Operation { code, a, b, c })
}

#[test]
fn signed_comparisons_as_rendered() {
    for (f, g, answer) in SIGNED {
        let [f, g] = both(f, g);
        assert_eq!([model::implies(f, g), algorithms::implies(f, g)], [answer; 2], "{f:?} {g:?}");
    }
}

#[test]
fn signed_comparisons() {
    for (f, g, answer) in SIGNED {
        let [f, g] = both(f, g);
        assert_eq!(implies(f, g), answer, "{f:?} {g:?}");
    }
}

#[test]
fn assumptions_as_modelled() {
    let mut random = Random::new(20261);
    for _ in 0..cases(3000) {
        let f = model::operation(&mut random, &model::CODES[6..]);
        let g = model::operation(&mut random, &model::CODES[6..]);
        assert_eq!(implies(f, g), model::implies(f, g), "{f:?} {g:?}");
        assert_eq!(exactly_one(f, g), model::exactly_one(f, g), "{f:?} {g:?}");
    }
}

/// Against the quick renderings, which agree with the slow one on these.
#[test]
fn every_pair_of_assumptions() {
    let all = model::assumptions();
    for &f in &all {
        for &g in &all {
            assert_eq!(implies(f, g), algorithms::implies(f, g), "{f:?} {g:?}");
            assert_eq!(exactly_one(f, g), texts::opposite(f, g), "{f:?} {g:?}");
        }
    }
}

#[test]
fn operations_as_modelled() {
    let mut random = Random::new(20262);
    let mut values = [0u32; 64];
    let mut signed = [0; 2];
    for _ in 0..cases(20000) {
        for v in values.iter_mut() {
            let any = random.word();
            *v = random.one_of(&[0, 1, 2, 99, 100, HALF - 1, HALF, HALF + 1, u32::MAX, u32::MAX - 1, any]);
        }
        let mut o = model::operation(&mut random, &model::CODES);
        if random.below(10) == 0 {
            o.code = random.one_of(&[6, 15, 22, 23, 30, 31, 38, 39, 46, 47, u32::MAX]);
        }
        if random.below(10) == 0 {
            o.b = random.one_of(&[1, 64, u32::MAX]);
        }
        let refused = |sort: bool| {
            if !sort {
                Some(6)
            } else if !model::operands_fit(o) {
                Some(7)
            } else {
                None
            }
        };
        let expected = refused(model::is_assignment(o)).map_or_else(|| model::value(o, &values) as u64, |n| (1 << 32) + n);
        assert_eq!(written(o, &values), expected, "{o:?}");
        let expected = refused(model::is_assumption(o)).map_or_else(|| model::holds(o, &values) as u64, |n| (1 << 32) + n);
        assert_eq!(meets(o, &values), expected, "{o:?}");
        if model::is_signed(o) && model::operands_fit(o) {
            let differs = model::holds(o, &values) != model::holds(Operation { code: o.code - 8, ..o }, &values);
            signed[differs as usize] += 1;
        }
    }
    assert!(signed[0] > 1000 && signed[1] > 1000, "signed comparisons that are as the unsigned ones, and that are not: {signed:?}");
    let o = Operation { code: 0, a: 0, b: 0, c: 7 };
    assert_eq!(written(o, &values[..63]), (1 << 32) + 21);
    assert_eq!(meets(o, &[0; 65]), (1 << 32) + 21);
}

#[test]
fn faults_and_lookup_as_modelled() {
    let mut random = Random::new(20263);
    let mut seen = [0usize; 22];
    for _ in 0..cases(4000) {
        let (old, new) = (model::chart(&mut random), model::chart(&mut random));
        let expected = model::fault(&old);
        assert_eq!(fault(&old), expected, "{old:?}");
        judged(&old, expected);
        seen[expected.0 as usize] += 1;
        for which in 0..3 {
            for place in 0..=old.places.max(new.places) {
                let part = model::lookup(&old, &new, which, place);
                handed_over(&old, &new, which, place, &part);
            }
        }
    }
    for number in [0, 1, 4, 5, 6, 7, 8] {
        assert!(seen[number] > 0, "no chart with refusal {number} was drawn");
    }
}

/// The judge of the C interface: zeros, or the refusal with chart 0; and 21 for a table that lacks an entry.
fn judged(chart: &Chart, (number, position): (u32, usize)) {
    let expected = if number == 0 { Ok([0; 4]) } else { Err((number, 0, position)) };
    assert_eq!(conditions::judge(chart), expected, "{chart:?}");
    let mut short = chart.clone();
    if short.rows.pop().is_some() {
        assert_eq!(conditions::judge(&short), Err((21, 0, 0)), "{short:?}");
    }
}

/// The lookup of the C interface: the part at the front of 12 entries, the rest as it was; another length is 21 and writes nothing.
fn handed_over(old: &Chart, new: &Chart, which: u32, place: u32, part: &[u32]) {
    let rubbish: Vec<u32> = (0..12).map(|i| 0xDEAD_0000 + i).collect();
    let mut rows = rubbish.clone();
    assert_eq!(conditions::lookup(old, new, which, place, &mut rows), Ok([part.len() as u64 / 6, 0, 0, 0]), "{old:?} {new:?} {which} {place}");
    assert!(rows[..part.len()] == *part && rows[part.len()..] == rubbish[part.len()..], "{old:?} {new:?} {which} {place}");
    for lent in [0, 6, 11, 13] {
        let mut rows = vec![0xDEAD; lent];
        assert_eq!(conditions::lookup(old, new, which, place, &mut rows), Err((21, 0, 0)));
        assert!(rows.iter().all(|x| *x == 0xDEAD));
    }
}

/// A table that is not whole rows makes its chart faulty: every part of it is empty. The other chart's parts are as ever.
#[test]
fn lookup_on_a_table_that_is_not_whole_rows() {
    let whole = Chart { places: 3, alarm: 2, rows: vec![0, 1, 16, 0, 0, 1, 0, 2, 17, 0, 0, 1, 1, 0, 0, 5, 0, 9] };
    let parts: [&[u32]; 4] = [&whole.rows[..12], &whole.rows[12..], &[], &[]];
    for entries in (1..24).filter(|entries| entries % 6 != 0) {
        let mut rows = whole.rows.clone();
        rows.resize(entries, 0);
        let cut = Chart { rows, ..whole.clone() };
        assert_eq!(fault(&cut), (21, 0), "{cut:?}");
        for (place, part) in (0..).zip(parts) {
            handed_over(&cut, &whole, 0, place, &[]);
            handed_over(&cut, &whole, 1, place, part);
            handed_over(&whole, &cut, 0, place, part);
            handed_over(&whole, &cut, 1, place, &[]);
            handed_over(&cut, &cut, 0, place, &[]);
        }
    }
}

/// The edges that the specification names, and heads and lengths at fault.
#[test]
fn edges() {
    let chart = |places, alarm, rows: &[u32]| Chart { places, alarm, rows: rows.to_vec() };
    let one = [0, 0, 0, 0, 0, 0];
    assert_eq!(fault(&chart(64, 63, &one)), (0, 0));
    assert_eq!(fault(&chart(65, 64, &one)), (2, 0));
    assert_eq!(fault(&chart(65, 64, &[])), (1, 0));
    assert_eq!(fault(&chart(0, 0, &one)), (1, 0));
    assert_eq!(fault(&chart(1, 1, &one)), (3, 0));
    assert_eq!(fault(&chart(1, 0, &one[..5])), (21, 0));
    let both: Vec<u32> = (0..64).flat_map(|p| [p, 0, 16, 0, 0, 1, p, 0, 17, 0, 0, 1]).collect();
    assert_eq!(fault(&chart(64, 0, &both)), (0, 0));
    let mut more = both.clone();
    more.extend([63, 0, 16, 0, 0, 1]);
    assert_eq!(fault(&chart(64, 0, &more)), (2, 0));
    assert_eq!(fault(&chart(1, 0, &[0, 0, 0, 63, 0, 0])), (0, 0));
    assert_eq!(fault(&chart(1, 0, &[0, 0, 0, 64, 0, 0])), (7, 0));
    for code in 0..100 {
        let number = if matches!(code, 0..=5 | 16..=21 | 24..=29 | 32..=37 | 40..=45) { 0 } else { 6 };
        assert_eq!(fault(&chart(1, 0, &[0, 0, code, 0, 0, 0])), (number, 0), "{code}");
    }
    // v0 < 0 beside v1 ≥ 0 passes, beside v1 < 0 it does not; a third row of a place is always in conflict.
    assert_eq!(fault(&chart(1, 0, &[0, 0, 18, 0, 0, 0, 0, 0, 21, 1, 0, 0])), (0, 0));
    assert_eq!(fault(&chart(1, 0, &[0, 0, 18, 0, 0, 0, 0, 0, 18, 1, 0, 0])), (8, 1));
    assert_eq!(fault(&chart(1, 0, &[0, 0, 16, 0, 0, 1, 0, 0, 17, 0, 0, 1, 0, 0, 16, 0, 0, 1])), (8, 2));
    // v0 <s 0 beside v0 < 2147483648 passes, beside v0 ≥ 0 it does not; v0 <s −2147483648 beside v1 ≥ 0 passes.
    assert_eq!(fault(&chart(1, 0, &[0, 0, 26, 0, 0, 0, 0, 0, 18, 0, 0, HALF])), (0, 0));
    assert_eq!(fault(&chart(1, 0, &[0, 0, 26, 0, 0, 0, 0, 0, 21, 0, 0, 0])), (8, 1));
    assert_eq!(fault(&chart(1, 0, &[0, 0, 26, 0, 0, HALF, 0, 0, 21, 1, 0, 0])), (0, 0));
}
