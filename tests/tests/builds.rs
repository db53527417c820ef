//! Algorithms 1 and 2 and the checker in plain Rust against the vectors; and the proved builder and checker, through the C interface,
//! against both.

use picker_tests::algorithms::{self, printed, Footnotes};
use picker_tests::checker::{self, Record};
use picker_tests::drawn::{self, Sort, SORTS};
use picker_tests::model::HALF;
use picker_tests::texts::{self, plain_read, Refusal, Wrong};
use picker_tests::{cases, model, vectors, Chart, Operation, Random, EDITIONS};

/// A chart's text as the vectors give it.
fn text_of(line: &str) -> Vec<u8> {
    (line.replace(' ', "\r\n") + "\r\n").into_bytes()
}

fn chart_of(line: &str) -> Chart {
    plain_read(&text_of(line), Wrong::Not).unwrap_or_else(|refused| panic!("{refused:?}: {line}"))
}

/// The blocks of a file of vectors, each line without its first word, which is checked.
fn blocks<'a>(file: &'a str, words: &'a [&str]) -> impl Iterator<Item = Vec<&'a str>> + 'a {
    file.split("\n\n").filter(|block| !block.trim().is_empty()).map(move |block| {
        let lines: Vec<&str> = block.trim_matches('\n').lines().collect();
        assert_eq!(lines.len(), words.len(), "{block}");
        lines.iter().zip(words).map(|(line, word)| line.strip_prefix(word).unwrap_or_else(|| panic!("{line}")).trim()).collect()
    })
}

/// The blocks of a few files, of each no fewer than it had.
fn blocks_of(files: &[(&'static str, usize)], words: &'static [&str]) -> Vec<Vec<&'static str>> {
    let mut all = Vec::new();
    for &(file, least) in files {
        let before = all.len();
        all.extend(blocks(file, words));
        assert!(all.len() >= before + least, "only {} blocks of {least}", all.len() - before);
    }
    all
}

/// A vector of a build: the edition, the texts of both charts, what is or would be printed, and, where its file says
/// them, the sets that are not 0.
struct PairVector {
    edition: u32,
    old: &'static str,
    new: &'static str,
    out: &'static str,
    sets: Option<&'static str>,
}

/// Those of document 01 (as #101 amends it), of rows that never hold, of signed comparisons, and of edition 2.
fn pairs() -> Vec<PairVector> {
    let first = [
        (include_str!("../vectors/pairs.txt"), 300),
        (include_str!("../vectors/101/pairs.txt"), 150),
        (include_str!("../vectors/102/pairs.txt"), 150),
    ];
    let second = [(include_str!("../vectors/104/pairs.txt"), 150)];
    let edge = [(include_str!("../vectors/104/edge-pairs.txt"), 78)];
    let of = |edition, blocks: Vec<Vec<&'static str>>| {
        let vector = move |lines: Vec<&'static str>| {
            PairVector { edition, old: lines[0], new: lines[1], out: lines[2], sets: lines.get(3).copied() }
        };
        blocks.into_iter().map(vector)
    };
    of(1, blocks_of(&first, &["old", "new", "out"]))
        .chain(of(2, blocks_of(&second, &["old", "new", "out"])))
        .chain(of(2, blocks_of(&edge, &["old", "new", "out", "sets"])))
        .collect()
}

impl PairVector {
    /// A record for it has these sets.
    fn has_sets(&self, sets: &[u64]) {
        if let Some(expected) = self.sets {
            let there = (0..).zip(sets).filter(|(_, set)| **set != 0).map(|(pair, set)| format!("{pair} {set}"));
            assert_eq!(there.collect::<Vec<_>>().join("; "), expected, "{} {}", self.old, self.new);
        }
    }
}

/// Edition, old chart, new chart, the edits of the built record and the checker's answer: of document 01 (as #101
/// amends it), of rows that never hold, and of edition 2.
fn records() -> Vec<(u32, Chart, Chart, &'static str, Result<(), Refusal>)> {
    let first = [
        (include_str!("../vectors/records.txt"), 400),
        (include_str!("../vectors/101/records.txt"), 200),
        (include_str!("../vectors/101/edge-records.txt"), 12),
    ];
    let second = [
        (include_str!("../vectors/104/records.txt"), 150),
        (include_str!("../vectors/104/edge-records.txt"), 40),
    ];
    let words = &["old", "new", "edits", "answer"];
    let of = |edition, blocks: Vec<Vec<&'static str>>| blocks.into_iter().map(move |lines| (edition, lines));
    of(1, blocks_of(&first, words))
        .chain(of(2, blocks_of(&second, words)))
        .map(|(edition, lines)| {
            let answer = match lines[3].split_whitespace().collect::<Vec<_>>()[..] {
                ["passed"] => Ok(()),
                ["refused", number, chart, position] => Err((number.parse().unwrap(), chart.parse().unwrap(), position.parse().unwrap())),
                _ => panic!("{}", lines[3]),
            };
            (edition, chart_of(lines[0]), chart_of(lines[1]), lines[2], answer)
        })
        .collect()
}

fn edit(record: &mut Record, edits: &str) {
    for change in edits.split(';').map(str::trim).filter(|change| !change.is_empty()) {
        match change.split_whitespace().collect::<Vec<_>>()[..] {
            ["start", v] => record.start = v.parse().unwrap(),
            ["mark", node, v] => record.marks[node.parse::<usize>().unwrap()] = v.parse().unwrap(),
            ["target", index, v] => record.targets[index.parse::<usize>().unwrap()] = v.parse().unwrap(),
            ["set", pair, v] => record.sets[pair.parse::<usize>().unwrap()] = v.parse().unwrap(),
            _ => panic!("{change}"),
        }
    }
}

// ---- the plain Rust by itself

#[test]
fn vectors_of_pairs_as_rendered() {
    for vector in pairs() {
        let record = rendered(vector.edition, vector.old, vector.new, vector.out);
        vector.has_sets(&record.sets);
    }
}

/// What the algorithms of an edition make of two charts is what is printed, and the plain checker of that edition
/// passes it.
fn rendered(edition: u32, old: &str, new: &str, out: &str) -> Record {
    let (old, new) = (chart_of(old), chart_of(new));
    let built = algorithms::build(edition, &old, &new);
    let counts = [built.open, built.kept, built.covered];
    let all = printed(&new, built.start, counts, &built.marks, &built.targets);
    assert_eq!(all.join(" "), out, "{edition} {old:?} {new:?}");
    let record = built.into();
    assert_eq!(checker::check(edition, &old, &new, &record), Ok(()), "{edition} {old:?} {new:?}");
    record
}

#[test]
fn vectors_of_records_as_rendered() {
    for (edition, old, new, edits, answer) in records() {
        let mut record = Record::from(algorithms::build(edition, &old, &new));
        edit(&mut record, edits);
        assert_eq!(checker::check(edition, &old, &new, &record), answer, "{edition} {edits} {old:?} {new:?}");
    }
}

/// Rows that never hold, and rows that are none. Old chart, new chart, what is printed, and what a wrong program
/// prints: one that explores such rows, or one that takes assignments for them.
const NEVER: [[&str; 4]; 7] = [
    // The worked session of #101: v0 < 0 comes to the new alarm beside an old place that isn't the old one.
    [
        "3,2,3,0,0,0 0,1,18,0,0,0 0,2,21,0,0,0 1,2,0,0,0,1",
        "3,2,3,0,0,0 0,2,18,0,0,0 0,1,21,0,0,0 1,2,0,0,0,1",
        "0,1,0,1 0,1,129,3",
        "0,1,1,1 0,0,4098,2 0,1,129,3",
    ],
    // The same with such a row second, and signed: v0 ≤s 2147483647, then v0 >s 2147483647.
    [
        "3,2,3,0,0,0 0,2,27,0,0,2147483647 0,1,28,0,0,2147483647 1,2,0,0,0,1",
        "3,2,3,0,0,0 0,1,27,0,0,2147483647 0,2,28,0,0,2147483647 1,2,0,0,0,1",
        "0,1,0,1 0,0,129,3",
        "0,1,1,1 0,0,129,3 0,1,4098,2",
    ],
    // Alone at its place, of a variable and itself, beside an old assignment that comes back to its place.
    ["2,1,1,0,0,0 0,0,0,0,0,1", "3,2,2,0,0,0 0,1,41,5,5,0 1,2,0,0,0,7", "0,1,0,0", "0,1,1,0 0,0,4097,2"],
    // v5 := v5 + 1, v5 := v5, v5 := v5 − v1 and v5 := v6 + 0: by the code's remainder by 8 and the operands alone, as
    // if they were v5 < v5, v5 ≠ v5, v5 > v5 and v5 < 0, they would never hold.
    ["2,1,1,0,0,0 0,0,0,0,0,1", "2,1,1,0,0,0 0,0,2,5,5,1", "0,1,0,0 0,0,0,1", "0,1,0,0"],
    ["2,1,1,0,0,0 0,0,0,0,0,1", "2,1,1,0,0,0 0,0,1,5,5,0", "0,1,0,0 0,0,0,1", "0,1,0,0"],
    ["2,1,1,0,0,0 0,0,0,0,0,1", "2,1,1,0,0,0 0,0,4,5,5,1", "0,1,0,0 0,0,0,1", "0,1,0,0"],
    ["2,1,1,0,0,0 0,0,0,0,0,1", "2,1,1,0,0,0 0,0,2,5,6,0", "0,1,0,0 0,0,0,1", "0,1,0,0"],
];

/// What one would say who asks of an assignment too whether it never holds, as of a comparison of va with vb or with c.
fn never_by_operands(o: Operation) -> bool {
    algorithms::never_holds(o) || ([1, 2, 4].contains(&o.code) && o.a == o.b) || (o.code == 2 && o.c == 0)
}

#[test]
fn rows_that_never_hold_as_rendered() {
    for [old, new, out, wrong] in NEVER {
        rendered(1, old, new, out);
        let (old, new) = (chart_of(old), chart_of(new));
        let built = if rows_that_never_hold(&new).is_empty() {
            algorithms::build_by(Footnotes::of(1), &old, &new, |o| !never_by_operands(o))
        } else {
            algorithms::build_by(Footnotes::of(1), &old, &new, |_| true)
        };
        assert_eq!(as_it_stands(&new, &built).join(" "), wrong, "{old:?} {new:?}");
    }
}

/// What one would print who takes every target as it stands.
fn as_it_stands(new: &Chart, built: &algorithms::Built) -> Vec<String> {
    let mut records = vec![format!("{},{},{},{}", built.start, built.open, built.kept, built.covered)];
    for from in (0..4096).filter(|n| built.marks[*n] == 1) {
        let rows = (0..new.rows.len() / 6).filter(|i| new.rows[6 * i] as usize == from % 64);
        for (row, &to) in rows.zip(&built.targets[2 * from..]).filter(|(_, to)| **to != 65535) {
            records.push(format!("{from},{row},{to},{}", built.marks[to as usize]));
        }
    }
    records
}

/// The worked sessions of document 01.
#[test]
fn worked_sessions_as_rendered() {
    let old = chart_of("6,5,5,0,0,0 0,1,0,1,0,5 1,2,18,0,0,100 1,3,21,0,0,100 3,5,20,1,0,50 3,4,19,1,0,50");
    let changed = chart_of("6,5,5,0,0,0 0,1,0,1,0,6 1,2,18,0,0,100 1,3,21,0,0,100 3,5,20,1,0,50 3,4,19,1,0,50");
    let alarm = Chart { alarm: 0, ..old.clone() };
    for (new, expected) in
        [(&changed, "0,3,2,1 0,0,1,1 1,1,130,3 1,2,195,1 195,3,4101,2 195,4,4100,2"), (&old, "0,1,0,1 0,0,65,3"), (&alarm, "4096,0,1,0")]
    {
        let built = algorithms::build(1, &old, new);
        let counts = [built.open, built.kept, built.covered];
        assert_eq!(printed(new, built.start, counts, &built.marks, &built.targets).join(" "), expected);
    }
}

/// Old chart, new chart and what would be printed of each edition's record.
const BY_EDITION: [(&str, &str, [&str; 2]); 6] = [
    // Document 01's first session: both charts move, and the rest is as it was.
    (
        "6,5,5,0,0,0 0,1,0,1,0,5 1,2,18,0,0,100 1,3,21,0,0,100 3,5,20,1,0,50 3,4,19,1,0,50",
        "6,5,5,0,0,0 0,1,0,1,0,6 1,2,18,0,0,100 1,3,21,0,0,100 3,5,20,1,0,50 3,4,19,1,0,50",
        [
            "0,3,2,1 0,0,1,1 1,1,130,3 1,2,195,1 195,3,4101,2 195,4,4100,2",
            "0,3,2,1 0,0,65,1 65,1,130,3 65,2,195,1 195,3,4101,2 195,4,4100,2",
        ],
    ),
    // The old alarm comes after an assignment more: footnote 8 finds it.
    (
        "4,3,4,0,0,0 0,1,18,0,0,9 0,2,21,0,0,9 1,3,0,1,0,5 2,2,0,2,0,0",
        "4,3,3,0,0,0 0,3,18,0,0,9 0,2,21,0,0,9 2,2,0,2,0,0",
        ["0,1,1,1 0,0,4099,2 0,1,130,3", "0,1,0,2 0,0,195,3 0,1,130,3"],
    ),
    // The same where that assignment comes back to its place, and where it leads elsewhere: the step fails as before.
    (
        "4,3,4,0,0,0 0,1,18,0,0,9 0,2,21,0,0,9 1,1,0,1,0,5 2,2,0,2,0,0",
        "4,3,3,0,0,0 0,3,18,0,0,9 0,2,21,0,0,9 2,2,0,2,0,0",
        ["0,1,1,1 0,0,4099,2 0,1,130,3"; 2],
    ),
    // Old v1 < 9 beside new v1 := 6: an assumption writes nothing, and the old chart stays.
    ("3,2,2,0,0,0 0,1,18,1,0,9 0,2,21,1,0,9", "3,2,1,0,0,0 0,1,0,1,0,6", ["0,1,0,1 0,0,1,3"; 2]),
    // The start at the old alarm: edition 2 leaves it, and keeps a place that edition 1 does not.
    ("2,0,1,0,0,0 0,1,0,1,0,5", "2,1,1,0,0,0 0,1,0,1,0,6", ["0,1,0,1 0,0,1,3", "0,1,1,0 0,0,4097,2"]),
    // v1 := 6 put in before v1 := 5: edition 1 waits for the equal row, edition 2 goes past it and keeps two places.
    (
        "4,2,3,0,0,0 0,1,0,1,0,5 1,2,18,1,0,9 1,3,21,1,0,9",
        "5,3,4,0,0,0 0,1,0,1,0,6 1,2,0,1,0,5 2,3,18,1,0,9 2,4,21,1,0,9",
        ["0,1,0,1 0,0,1,3", "0,3,2,0 0,0,65,1 65,1,66,1 66,2,4099,2 66,3,4100,2"],
    ),
];

/// The second of these is the worked case whose set document 02's request names too.
#[test]
fn editions_as_rendered() {
    for (which, (old, new, out)) in BY_EDITION.into_iter().enumerate() {
        let records = [0, 1].map(|i| rendered(EDITIONS[i], old, new, out[i]));
        if which == 1 {
            assert_eq!(records.map(|record| record.sets[195]), [0, 2]);
        }
    }
}

/// The quick test of two assumptions agrees with the vectors and with the slow one, and so does that of one of them.
#[test]
fn implication_by_differences() {
    for (f, g, answer) in vectors::implications() {
        assert_eq!([algorithms::implies(f, g), model::implies(f, g)], [answer; 2], "{f:?} {g:?}");
        assert_eq!([algorithms::never_holds(f), model::never_holds(f)], [answer == 0; 2], "{f:?}");
    }
    // No assignment is an assumption that no values meet, whatever its operands.
    for code in 0..6 {
        let (b, c) = (if code == 0 { 0 } else { 5 }, if code == 3 || code == 4 { 5 } else { 0 });
        let o = Operation { code, a: 5, b, c };
        assert_eq!([algorithms::never_holds(o), model::never_holds(o)], [false; 2], "{o:?}");
    }
    let mut random = Random::new(20267);
    for _ in 0..cases(3000) {
        let f = model::operation(&mut random, &model::CODES[6..]);
        let g = model::operation(&mut random, &model::CODES[6..]);
        assert_eq!(algorithms::implies(f, g), model::implies(f, g), "{f:?} {g:?}");
    }
}

/// Every pair of assumptions at the ends of both orders: the tests by differences and by what is let through agree with
/// the trial of values. Of every two orders some pairs never hold, are implied, are not, and are opposite.
#[test]
fn every_pair_of_assumptions_as_modelled() {
    let all = model::assumptions();
    let mut seen = [[[0; 4]; 2]; 2];
    for &f in &all {
        for &g in &all {
            let (answer, opposite) = (model::implies(f, g), model::exactly_one(f, g));
            assert_eq!(algorithms::implies(f, g), answer, "{f:?} {g:?}");
            assert_eq!(texts::opposite(f, g), opposite, "{f:?} {g:?}");
            let of = &mut seen[model::is_signed(f) as usize][model::is_signed(g) as usize];
            of[answer as usize] += 1;
            of[3] += opposite as usize;
        }
    }
    println!("by the order of both: never, implied, not; opposite: {seen:?}");
    assert!(seen.iter().flatten().flatten().all(|n| *n > 100));
}

/// Old chart, new chart and what is printed.
const SIGNED: [(&str, &str, &str); 9] = [
    // The same rows in the other order are not equal; they match where the new one implies the old one. = and ≠ do.
    ("3,2,2,0,0,0 0,1,16,0,0,5 0,2,17,0,0,5", "3,2,2,0,0,0 0,1,24,0,0,5 0,2,25,0,0,5", "0,1,0,2 0,0,65,3 0,1,130,3"),
    ("3,2,2,0,0,0 0,1,24,0,0,5 0,2,25,0,0,5", "3,2,2,0,0,0 0,1,16,0,0,5 0,2,17,0,0,5", "0,1,0,2 0,0,65,3 0,1,130,3"),
    ("3,2,2,0,0,0 0,1,32,0,1,0 0,2,33,0,1,0", "3,2,2,0,0,0 0,1,40,0,1,0 0,2,41,0,1,0", "0,1,0,2 0,0,65,3 0,1,130,3"),
    // v0 <s 0 does not imply v0 < 0 but its opposite, which does not lead to the old alarm.
    ("3,1,2,0,0,0 0,1,18,0,0,0 0,2,21,0,0,0", "3,1,2,0,0,0 0,1,26,0,0,0 0,2,29,0,0,0", "0,1,1,1 0,0,4097,2 0,1,130,3"),
    // v0 <s v1 implies neither v0 < v1 nor its opposite, nor does v0 < v1 a signed one: the old place stays.
    ("4,3,2,0,0,0 0,1,34,0,1,0 0,2,37,0,1,0", "4,3,2,0,0,0 0,1,42,0,1,0 0,2,45,0,1,0", "0,1,0,2 0,0,1,3 0,1,2,3"),
    ("4,3,2,0,0,0 0,1,42,0,1,0 0,2,45,0,1,0", "4,3,2,0,0,0 0,1,34,0,1,0 0,2,37,0,1,0", "0,1,0,2 0,0,1,3 0,1,2,3"),
    // Codes 24 to 29 read va, and not v0 for their b; codes 40 to 45 read vb too.
    ("3,1,2,0,0,0 0,1,26,5,0,7 0,2,29,5,0,7", "4,2,3,0,0,0 0,1,0,0,0,1 1,2,26,5,0,7 1,3,29,5,0,7", "0,1,0,1 0,0,1,3"),
    ("3,1,2,0,0,0 0,1,26,5,0,7 0,2,29,5,0,7", "4,2,3,0,0,0 0,1,0,5,0,1 1,2,26,5,0,7 1,3,29,5,0,7", "0,2,2,0 0,0,1,1 1,1,4098,2 1,2,4099,2"),
    ("3,1,2,0,0,0 0,1,42,5,6,0 0,2,45,5,6,0", "4,2,3,0,0,0 0,1,0,6,0,1 1,2,42,5,6,0 1,3,45,5,6,0", "0,2,2,0 0,0,1,1 1,1,4098,2 1,2,4099,2"),
];

#[test]
fn signed_rows_as_rendered() {
    for (old, new, out) in SIGNED {
        rendered(1, old, new, out);
    }
}

/// The assumptions of a chart, each with the place that it leaves.
fn asked(chart: &Chart) -> Vec<(u32, Operation)> {
    let rows = (0..chart.rows.len() / 6).map(|i| model::row(&chart.rows, i));
    rows.filter(|(_, _, o)| model::is_assumption(*o)).map(|(from, _, o)| (from, o)).collect()
}

/// What is drawn has what the comparisons are for: every mark and answer, builds of all sizes, places that ask in both
/// orders, and amended ones that ask in the other.
#[test]
fn drawn_charts_are_varied() {
    let mut random = Random::new(20268);
    let (mut signed, mut both_orders, mut other_order) = (0, 0, 0);
    for sort in SORTS {
        let (mut marks, mut lone, mut most) = ([0usize; 5], 0, 0);
        for _ in 0..cases(if sort == Sort::Wide { 20 } else { 200 }) {
            let (old, new) = drawn::pair(&mut random, sort);
            let built = algorithms::build(1, &old, &new);
            for &mark in &built.marks {
                marks[mark as usize] += 1;
            }
            lone += (built.start == 4096) as usize;
            let (before, after) = (asked(&old), asked(&new));
            for &(from, o) in &after {
                signed += model::is_signed(o) as usize;
                both_orders += after.iter().any(|&(at, e)| at == from && model::is_signed(e) != model::is_signed(o)) as usize;
                other_order += before.contains(&(from, Operation { code: o.code ^ 8, ..o })) as usize;
            }
            most = most.max(built.marks.iter().filter(|m| **m != 0).count());
            assert_eq!(checker::check(1, &old, &new, &built.into()), Ok(()), "{old:?} {new:?}");
        }
        println!("{sort:?}: marks {marks:?}, lone starts {lone}, nodes of the largest {most}");
        assert!(marks[1] > 0 && marks[2] > 0 && marks[3] > 0 && (sort != Sort::Wide || most > 3000));
    }
    println!("signed rows {signed}; rows beside one of the other order {both_orders}, amended to the other order {other_order}");
    assert!(signed > 3000 && both_orders > 500 && other_order > 50);
}

/// How a row that never holds stands in a chart.
#[derive(Clone, Copy, Debug, PartialEq, Eq, PartialOrd, Ord)]
enum Stand {
    Alone,
    First,
    Second,
}

/// The rows of a chart that never hold, each with its number.
fn rows_that_never_hold(chart: &Chart) -> Vec<(usize, Stand, Operation)> {
    let from = |i: usize| chart.rows.get(6 * i);
    let stand = |i: usize| match (i > 0 && from(i - 1) == from(i), from(i) == from(i + 1)) {
        (false, false) => Stand::Alone,
        (false, true) => Stand::First,
        _ => Stand::Second,
    };
    let all = (0..chart.rows.len() / 6).map(|i| (i, stand(i), model::row(&chart.rows, i).2));
    all.filter(|(_, _, o)| model::never_holds(*o)).collect()
}

/// The indices in targets of the new rows that never hold, at pairs with any old place.
fn targets_that_are_ignored(new: &Chart) -> Vec<usize> {
    let rows = rows_that_never_hold(new);
    let which = |stand: Stand| (stand == Stand::Second) as usize;
    let of = |p: usize| rows.iter().map(move |&(i, stand, _)| 2 * (64 * p + new.rows[6 * i] as usize) + which(stand));
    (0..64).flat_map(of).collect()
}

/// Both drawn charts have rows that never hold: alone, first and second at their place, in both orders, beyond an end
/// and of a variable and itself. And the charts tell wrong builds: one that explores such rows, one that passes over
/// assignments too, and one that counts ranks without the rows passed over.
#[test]
fn drawn_rows_that_never_hold() {
    let mut random = Random::new(20297);
    let mut stands = std::collections::BTreeMap::new();
    let [mut explored, mut assigned, mut ranked, mut amended] = [0; 4];
    for sort in SORTS {
        for _ in 0..cases(if sort == Sort::Wide { 10 } else { 100 }) {
            let (old, new) = drawn::pair(&mut random, sort);
            for (which, chart) in [&old, &new].into_iter().enumerate() {
                for (_, stand, o) in rows_that_never_hold(chart) {
                    *stands.entry((which, stand, model::is_signed(o), o.code >= 32)).or_insert(0) += 1;
                }
            }
            let was = rows_that_never_hold(&old);
            amended += rows_that_never_hold(&new).iter().filter(|row| !was.contains(row)).count();
            let built = algorithms::build(1, &old, &new);
            let first = Footnotes::of(1);
            explored += (algorithms::build_by(first, &old, &new, |_| true) != built) as usize;
            assigned += (algorithms::build_by(first, &old, &new, |o| !never_by_operands(o)) != built) as usize;
            // The second row, where the first never holds, leads somewhere: without that row it would be the first.
            let firsts = targets_that_are_ignored(&new).into_iter().filter(|i| i % 2 == 0);
            ranked += firsts.filter(|i| built.targets[i + 1] != 65535).count();
        }
    }
    println!("rows that never hold, by chart, stand, signed, of two variables: {stands:?}");
    println!("in the new chart alone {amended}");
    println!("other builds if explored {explored}, if assignments are passed over {assigned}");
    println!("second rows that lead somewhere, after a first one that never holds: {ranked}");
    assert!(stands.len() == 24 && stands.values().all(|n| *n > 20) && amended > 100);
    assert!(explored > 50 && assigned > 50 && ranked > 100);
}

/// How many pairs of a sort a comparison takes.
fn share(sort: Sort, usual: usize) -> usize {
    cases(match sort {
        Sort::Wide => usual / 50,
        Sort::Dense => usual / 10,
        _ => usual,
    })
}

/// What the records of two charts by edition are counted by.
const DIFFERENCES: [&str; 9] = [
    "differ",
    "other without footnote 6",
    "other without footnote 8",
    "edition 2 keeps fewer",
    "of these edition 1 the start",
    "edition 2 keeps more",
    "of these with the start at the old alarm",
    "of edition 1 refused by 2",
    "of edition 2 refused by 1",
];

/// Which of these hold of two charts. Where the start is kept, all new places count as kept.
fn differences(old: &Chart, new: &Chart) -> [bool; DIFFERENCES.len()] {
    let by = |sixth, eighth| {
        algorithms::build_by(Footnotes { sixth, eighth }, old, new, |o| !algorithms::never_holds(o))
    };
    let built = EDITIONS.map(|edition| algorithms::build(edition, old, new));
    let [first, second] = built.each_ref().map(|b| if b.start == 0 { b.kept } else { new.places });
    let [differ, sixth, eighth] = [&built[0], &by(false, true), &by(true, false)].map(|other| *other != built[1]);
    let starts_kept = built[0].start == 4096;
    let records = built.map(Record::from);
    let refused = [(2, &records[0]), (1, &records[1])].map(|(edition, record)| {
        let answer = checker::check(edition, old, new, record);
        assert!(matches!(answer, Ok(()) | Err((32, ..))), "{answer:?} {edition} {old:?} {new:?}");
        answer.is_err()
    });
    let (fewer, more) = (second < first, second > first);
    [differ, sixth, eighth, fewer, fewer && starts_kept, more, more && old.alarm == 0, refused[0], refused[1]]
}

fn shown(counts: [usize; DIFFERENCES.len()]) -> String {
    DIFFERENCES.iter().zip(counts).map(|(what, n)| format!("{what} {n}")).collect::<Vec<_>>().join(", ")
}

/// The drawn charts tell the editions apart, by each footnote; of either edition some records are not the other's.
/// Prints how often edition 2 keeps fewer new places than edition 1, and how often more, of which docs/REFERENCE.md has
/// figures.
#[test]
fn drawn_charts_tell_the_editions() {
    let mut random = Random::new(20304);
    let mut all = [0; DIFFERENCES.len()];
    for sort in SORTS {
        let pairs = share(sort, 1000);
        let mut counts = [0; DIFFERENCES.len()];
        for _ in 0..pairs {
            let (old, new) = drawn::pair(&mut random, sort);
            counts.iter_mut().zip(differences(&old, &new)).for_each(|(count, is)| *count += is as usize);
        }
        println!("{sort:?}, {pairs} pairs: {}", shown(counts));
        all.iter_mut().zip(counts).for_each(|(count, n)| *count += n);
    }
    println!("together: {}", shown(all));
    assert!([0, 1, 7, 8].iter().all(|i| all[*i] > 300) && all[2] > 30, "{all:?}");
    assert!(all[3] > 50 && all[4] > 3 && all[5] > 3, "{all:?}");
}

// ---- the proved code

mod proved {
    use super::*;
    use picker_tests::conditions::{build, check, Buffers};
    use picker_tests::written;

    /// Buffers of the stated lengths, holding anything.
    fn rubbish(random: &mut Random) -> Buffers {
        Buffers {
            marks: (0..4160).map(|_| random.next() as u8).collect(),
            targets: (0..8192).map(|_| random.next() as u16).collect(),
            sets: (0..4096).map(|_| random.next()).collect(),
            waiting: (0..4096).map(|_| random.next() as u8).collect(),
        }
    }

    fn record(start: u64, buffers: Buffers) -> Record {
        Record { start: start as u32, marks: buffers.marks, targets: buffers.targets, sets: buffers.sets }
    }

    /// Builds in an edition on given buffers, compares answer and all four buffers with the rendering, has the record
    /// passed by that edition's check, and hands it back.
    fn compare(edition: u32, old: &Chart, new: &Chart, mut buffers: Buffers) -> Record {
        let expected = algorithms::build(edition, old, new);
        let answer = build(edition, old, new, &mut buffers);
        let counts = [expected.start, expected.open, expected.kept, expected.covered].map(u64::from);
        assert_eq!(answer, Ok(counts), "{edition} {old:?} {new:?}");
        assert!(buffers.marks == expected.marks, "marks: {edition} {old:?} {new:?}");
        assert!(buffers.targets == expected.targets, "targets: {edition} {old:?} {new:?}");
        assert!(buffers.sets == expected.sets, "sets: {edition} {old:?} {new:?}");
        assert!(buffers.waiting == expected.waiting, "waiting: {edition} {old:?} {new:?}");
        let record = record(answer.unwrap()[0], buffers);
        assert_eq!(compare_check(edition, old, new, &record), Ok(()));
        record
    }

    /// Has a record checked in an edition, compares the answer with the plain checker's, and sees that nothing was
    /// written.
    fn compare_check(edition: u32, old: &Chart, new: &Chart, record: &Record) -> Result<(), Refusal> {
        let (charts, before) = ((old.rows.clone(), new.rows.clone()), record.clone());
        let answer = check(edition, old, new, record);
        let expected = checker::check(edition, old, new, record);
        assert_eq!(answer.map(|values| assert_eq!(values, [0; 4])), expected, "{edition} {old:?} {new:?} {record:?}");
        assert!(*record == before && (&old.rows, &new.rows) == (&charts.0, &charts.1), "the checker wrote to what it was lent");
        answer.map(|_| ())
    }

    #[test]
    fn vectors_of_pairs() {
        let mut random = Random::new(20270);
        let mut barred = 0;
        for vector in pairs() {
            let edition = vector.edition;
            let mut read = |text: &str| {
                let mut table = vec![random.word(); 768];
                let [places, alarm, rows, _] = texts::read(&text_of(text), &mut table).unwrap();
                Chart { places: places as u32, alarm: alarm as u32, rows: table[..6 * rows as usize].to_vec() }
            };
            let (old, new) = (read(vector.old), read(vector.new));
            let mut buffers = rubbish(&mut random);
            let answer = build(edition, &old, &new, &mut buffers).unwrap().map(|x| x as u32);
            let out = printed(&new, answer[0], [answer[1], answer[2], answer[3]], &buffers.marks, &buffers.targets);
            assert_eq!(out.join(" "), vector.out, "{edition} {old:?} {new:?}");
            vector.has_sets(&buffers.sets);
            // What is printed says nothing of these, whatever stands there.
            let ignored = targets_that_are_ignored(&new);
            assert!(ignored.iter().all(|i| buffers.targets[*i] == 65535), "{old:?} {new:?}");
            barred += (!ignored.is_empty()) as usize;
            assert_eq!(compare_check(edition, &old, &new, &record(answer[0] as u64, buffers)), Ok(()));
        }
        assert!(barred >= 287, "only {barred} new charts with rows that never hold");
    }

    #[test]
    fn vectors_of_records() {
        let mut random = Random::new(20271);
        for (edition, old, new, edits, answer) in records() {
            let mut buffers = rubbish(&mut random);
            let start = build(edition, &old, &new, &mut buffers).unwrap()[0];
            let mut record = record(start, buffers);
            edit(&mut record, edits);
            let said = check(edition, &old, &new, &record).map(|values| assert_eq!(values, [0; 4]));
            assert_eq!(said, answer, "{edition} {edits} {old:?} {new:?}");
        }
    }

    #[test]
    fn editions() {
        let mut random = Random::new(20305);
        for (old, new, _) in BY_EDITION {
            for edition in EDITIONS {
                compare(edition, &chart_of(old), &chart_of(new), rubbish(&mut random));
            }
        }
    }

    #[test]
    fn builds_as_rendered() {
        let mut random = Random::new(20272);
        for sort in SORTS {
            for _ in 0..share(sort, 4000) {
                let (old, new) = drawn::pair(&mut random, sort);
                let before = rubbish(&mut random);
                for edition in EDITIONS {
                    compare(edition, &old, &new, before.clone());
                }
            }
        }
    }

    /// What a build leaves for one pair of charts is what the next one finds, in another edition; and both charts may
    /// be one.
    #[test]
    fn builds_one_after_another() {
        let mut random = Random::new(20273);
        let mut buffers = rubbish(&mut random);
        for round in 0..cases(300) {
            let sort = SORTS[round % SORTS.len()];
            if sort == Sort::Wide && round / SORTS.len() % 7 != 0 {
                continue;
            }
            let (old, new) = drawn::pair(&mut random, sort);
            let turns = [(1, &old, &new), (2, &old, &new), (1, &new, &old), (2, &old, &old), (1, &old, &old)];
            for (edition, old, new) in turns {
                let left = compare(edition, old, new, buffers);
                let waiting = if round % 2 == 0 { vec![0; 4096] } else { vec![255; 4096] };
                buffers = Buffers { marks: left.marks, targets: left.targets, sets: left.sets, waiting };
            }
        }
    }

    #[test]
    fn spoilt_records_as_modelled() {
        let mut random = Random::new(20274);
        let (mut passed, mut refused, mut told) = ([0; 2], std::collections::BTreeMap::new(), [0; 2]);
        for sort in SORTS {
            for round in 0..share(sort, 400) {
                let (old, new) = drawn::pair(&mut random, sort);
                let built = Record::from(algorithms::build(EDITIONS[round % 2], &old, &new));
                for _ in 0..6 {
                    let mut record = built.clone();
                    for _ in 0..1 + random.below(3) {
                        drawn::spoil(&mut random, &mut record);
                    }
                    let answers = EDITIONS.map(|edition| compare_check(edition, &old, &new, &record));
                    for (i, answer) in answers.into_iter().enumerate() {
                        match answer {
                            Ok(()) => passed[i] += (record != built) as usize,
                            Err((number, _, at)) => *refused.entry((i, number, at == 8192)).or_insert(0) += 1,
                        }
                        told[i] += (answer.is_ok() && answers[1 - i].is_err()) as usize;
                    }
                }
            }
        }
        println!("by edition: passed though spoilt {passed:?}, by this one alone {told:?}");
        println!("refused by edition, number, and whether at the start: {refused:?}");
        assert!(passed.iter().all(|n| *n > 100) && told.iter().all(|n| *n > 20));
        let due = |i| [(i, 31, false), (i, 32, false), (i, 32, true)];
        assert!([due(0), due(1)].concat().iter().all(|of| refused.get(of) > Some(&100)));
    }

    /// Records of charts of two places, made of nothing: either start, the alarms anywhere, any marks and targets.
    #[test]
    fn small_records_as_modelled() {
        let mut random = Random::new(20278);
        // The last two have rows that never hold: first, second and alone.
        let charts: [&[u32]; 7] = [
            &[0, 1, 0, 0, 0, 7],
            &[0, 1, 0, 0, 0, 8],
            &[0, 0, 0, 0, 0, 7, 1, 0, 0, 1, 0, 7],
            &[0, 1, 18, 0, 0, 5, 0, 0, 21, 0, 0, 5],
            &[0, 0, 18, 1, 0, 5, 0, 1, 21, 1, 0, 5, 1, 1, 0, 0, 0, 7],
            &[0, 1, 18, 0, 0, 0, 0, 0, 21, 0, 0, 0, 1, 0, 0, 1, 0, 7],
            &[0, 1, 35, 1, 1, 0, 0, 0, 36, 1, 1, 0, 1, 0, 42, 0, 0, 0],
        ];
        let mut record = Record::from(algorithms::build(1, &faultless(), &faultless()));
        let (mut passed, mut at_start, mut elsewhere, mut covered, mut barred) = ([0; 8], [0; 8], 0, 0, 0);
        let mut told = [0; 2];
        for _ in 0..cases(60_000) {
            let mut drawn = || Chart { places: 2, alarm: random.below(2) as u32, rows: random.one_of(&charts).to_vec() };
            let (old, new) = (drawn(), drawn());
            record.start = random.one_of(&[0, 4096]);
            for pair in [0, 1, 64, 65] {
                record.marks[pair] = random.one_of(&[0, 0, 1, 1, 3, 4]);
                record.sets[pair] = random.one_of(&[0, 1, 2, 3, 3]);
                for which in 0..2 {
                    record.targets[2 * pair + which] = random.one_of(&[65535, 0, 1, 64, 65, 4096, 4097]);
                }
            }
            for kept in [4096, 4097] {
                record.marks[kept] = random.one_of(&[0, 2, 2]);
            }
            let kind = (record.start / 2048 + old.alarm) as usize * 2 + new.alarm as usize;
            let answers = EDITIONS.map(|edition| compare_check(edition, &old, &new, &record));
            for (i, answer) in answers.into_iter().enumerate() {
                match answer {
                    Ok(()) => passed[kind] += 1,
                    Err((_, _, 8192)) => at_start[kind] += 1,
                    Err(_) => elsewhere += 1,
                }
                told[i] += (answer.is_ok() && answers[1 - i].is_err()) as usize;
            }
            if answers.contains(&Ok(())) {
                let ignored = targets_that_are_ignored(&new);
                barred += ignored.iter().any(|i| record.marks[i / 2] != 0 && record.targets[*i] != 65535) as usize;
                for values in [[0; 64], [4; 64], [5; 64], [u32::MAX; 64]] {
                    covered += keeps_promise(&old, &new, &record, &values, &checker::run(&new, &values, 20)) as usize;
                }
            }
        }
        println!("by start, old alarm and new alarm: passed {passed:?}, refused at the start {at_start:?}; refused elsewhere {elsewhere}; covered runs {covered}; targets that are ignored {barred}");
        println!("passed by edition 1 and 2 alone {told:?}");
        // A start pair at the new alarm alone is never passed; everything else is, now and then.
        assert!((0..8).all(|kind| at_start[kind] > 0 && (passed[kind] > 0) == (kind != 2)) && elsewhere > 1000 && covered > 20);
        assert!(barred > 100 && told.iter().all(|n| *n > 0));
    }

    /// Whether a run of the new chart reaches its alarm and is covered; then the old chart's run from the same values reaches its own.
    fn keeps_promise(old: &Chart, new: &Chart, record: &Record, values: &[u32; 64], run: &checker::Run) -> bool {
        let due = run.reached && checker::covers(new, record, &run.rows);
        // At most 64 old assignments and one old assumption are taken for each new row.
        if due && !checker::run(old, values, 65 * (1 + run.rows.len())).reached {
            panic!("a covered run is a new fault: {old:?} {new:?} {values:?} {record:?}");
        }
        due
    }

    /// A record that an edition built, and what is left of four spoilt ones that its check passes all the same.
    fn passed_records(random: &mut Random, edition: u32, old: &Chart, new: &Chart) -> Vec<Record> {
        let mut buffers = rubbish(random);
        let start = build(edition, old, new, &mut buffers).unwrap()[0];
        let mut all = vec![record(start, buffers)];
        for _ in 0..4 {
            let mut other = all[0].clone();
            drawn::spoil(random, &mut other);
            if other != all[0] && check(edition, old, new, &other).is_ok() {
                all.push(other);
            }
        }
        all
    }

    /// The promise, tried, on built records and on spoilt ones that are passed all the same, of both editions.
    #[test]
    fn covered_runs_reach_the_old_alarm() {
        let mut random = Random::new(20275);
        let mut tried = 0;
        // By edition: the runs that its records cover, some of them, and those that its built one covers, or it alone.
        let [mut covered, mut stopped, mut signed, mut by_built, mut alone] = [[0; 2]; 5];
        for sort in SORTS.into_iter().filter(|sort| *sort != Sort::Wide) {
            for _ in 0..share(sort, 500) {
                let (old, new) = drawn::pair(&mut random, sort);
                let records = EDITIONS.map(|edition| passed_records(&mut random, edition, &old, &new));
                for _ in 0..60 {
                    let mut values = [0; 64];
                    for v in &mut values {
                        let any = random.word();
                        *v = random.one_of(&[0, 0, 1, 1, 2, 3, 4, 99, 100, 101, HALF - 1, HALF, HALF + 1, u32::MAX, u32::MAX - 1, any]);
                    }
                    let run = checker::run(&new, &values, 200);
                    tried += run.reached as usize;
                    let kept = |record: &Record| keeps_promise(&old, &new, record, &values, &run);
                    let by = records.each_ref().map(|all| all.iter().filter(|record| kept(record)).count());
                    let built = records.each_ref().map(|all| kept(&all[0]));
                    for i in 0..2 {
                        covered[i] += by[i];
                        stopped[i] += if run.stopped { by[i] } else { 0 };
                        signed[i] += if run.signed { by[i] } else { 0 };
                        by_built[i] += built[i] as usize;
                        alone[i] += (built[i] && !built[1 - i]) as usize;
                    }
                }
            }
        }
        println!("runs to the new alarm {tried}; by edition:");
        println!("covered by the built record {by_built:?}, by it alone {alone:?}");
        println!("by any record {covered:?}, of which {stopped:?} stop at 0, {signed:?} need a signed reading");
        let due = [(covered, 1000), (stopped, 100), (signed, 100)];
        assert!(due.iter().all(|(counts, least)| counts.iter().all(|n| n > least)));
        assert!(alone[1] > 100);
    }

    /// Code 4 stops at 0, and the runs of both charts with it: where the burn is larger both come to the alarm of fuel
    /// below 50, to which no difference that wraps would lead from these values. All runs with a row are covered.
    #[test]
    fn fuel_stops_at_nought() {
        let old = chart_of("4,2,3,0,0,0 0,1,4,0,1,2 1,2,18,0,0,50 1,3,21,0,0,50");
        let new = chart_of("5,3,4,0,0,0 0,1,0,5,0,7 1,2,4,0,1,2 2,3,18,0,0,50 2,4,21,0,0,50");
        let record = compare(1, &old, &new, rubbish(&mut Random::new(20282)));
        assert!(checker::covers(&new, &record, &[0]));
        let less = Operation { code: 4, a: 0, b: 1, c: 2 };
        for (fuel, burn, left) in [(5, 100, 0), (0, 1, 0), (100, 100, 0), (100, 5, 95)] {
            let mut values = [0; 64];
            (values[1], values[2]) = (fuel, burn);
            assert_eq!(written(less, &values), left);
            let runs = [&old, &new].map(|chart| checker::run(chart, &values, 100));
            let last = if left < 50 { 1 } else { 2 };
            assert_eq!(runs.each_ref().map(|run| run.rows.clone()), [vec![0, last], vec![0, 1, last + 1]]);
            assert_eq!(runs.each_ref().map(|run| run.reached), [left < 50; 2]);
        }
    }

    /// The worked session of #101 among them. Would catch the wrong programs of `NEVER`, which leave other records.
    #[test]
    fn rows_that_never_hold_in_builds() {
        let mut random = Random::new(20298);
        for [old, new, out, _] in NEVER {
            let (old, new) = (chart_of(old), chart_of(new));
            let record = compare(1, &old, &new, rubbish(&mut random));
            let count = |mark| record.marks.iter().filter(|m| **m == mark).count() as u32;
            let all = printed(&new, record.start, [count(1), count(2), count(3)], &record.marks, &record.targets);
            assert_eq!(all.join(" "), out, "{old:?} {new:?}");
        }
    }

    /// A built record has 65535 for every new row that never holds, whatever the lent targets held. Would catch a build
    /// that explores such a row, that stores a target for it, that leaves what it found there, or that stores the other
    /// row's target in its place.
    #[test]
    fn targets_of_rows_that_never_hold() {
        let mut random = Random::new(20299);
        let (mut taken_up, mut at_alarm, mut beside) = (0, 0, 0);
        for sort in SORTS {
            for round in 0..share(sort, 500) {
                let (old, new) = drawn::pair(&mut random, sort);
                let mut buffers = rubbish(&mut random);
                build(EDITIONS[round % 2], &old, &new, &mut buffers).unwrap();
                for index in targets_that_are_ignored(&new) {
                    assert_eq!(buffers.targets[index], 65535, "{index} {old:?} {new:?}");
                    let pair = index / 2;
                    let present = buffers.marks[pair] != 0;
                    taken_up += (present && pair as u32 / 64 != old.alarm) as usize;
                    at_alarm += (present && pair as u32 / 64 == old.alarm) as usize;
                    beside += (present && buffers.targets[index ^ 1] != 65535) as usize;
                }
            }
        }
        println!("at pairs taken up {taken_up}, beside a row with a target {beside}, at the old alarm {at_alarm}");
        assert!(taken_up > 1000 && beside > 1000 && at_alarm > 20);
    }

    /// The record with any targets that fit refusal 31 in place of those that are ignored.
    fn retargeted(random: &mut Random, record: &Record, ignored: &[usize]) -> Record {
        let mut other = record.clone();
        for &index in ignored {
            let any = random.below(4160) as u16;
            other.targets[index] = random.one_of(&[any, any, 65535, 0, 4095, 4096, 4159]);
        }
        other
    }

    /// Rows of the new chart that follow each other from place 0, at most so many, whether or not they hold.
    fn chained(random: &mut Random, new: &Chart, most: usize) -> Vec<usize> {
        let (mut place, mut list) = (0, Vec::new());
        while list.len() < most {
            let rows: Vec<usize> = (0..new.rows.len() / 6).filter(|i| new.rows[6 * i] == place).collect();
            if rows.is_empty() {
                break;
            }
            list.push(random.one_of(&rows));
            place = new.rows[6 * list.last().unwrap() + 1];
        }
        list
    }

    /// Of two records that differ only in targets of rows that never hold, and whose targets fit refusal 31, the
    /// check's answer is the same, position and all, be the record a built or a spoilt one. Would catch a check that
    /// looks at such a target by the rule of targets, at the old alarm or elsewhere, or by that of marks.
    #[test]
    fn checks_ignore_targets_of_rows_that_never_hold() {
        let mut random = Random::new(20300);
        // Of built records the targets ignored, by whether their pair is at the old alarm, and by its mark.
        let (mut passed, mut refused, mut judged) = (0, 0, [[0; 5]; 2]);
        for sort in SORTS {
            for round in 0..share(sort, 400) {
                let edition = EDITIONS[round % 2];
                let (old, new) = drawn::pair(&mut random, sort);
                let ignored = targets_that_are_ignored(&new);
                if ignored.is_empty() {
                    continue;
                }
                let built = Record::from(algorithms::build(edition, &old, &new));
                for changes in 0..4 {
                    let mut record = built.clone();
                    (0..changes).for_each(|_| drawn::spoil(&mut random, &mut record));
                    if ignored.iter().any(|i| (4160..65535).contains(&record.targets[*i])) {
                        continue;
                    }
                    let other = retargeted(&mut random, &record, &ignored);
                    let answers = [&record, &other].map(|r| compare_check(edition, &old, &new, r));
                    assert_eq!(answers[0], answers[1], "{old:?} {new:?} {other:?}");
                    match answers[0] {
                        Ok(()) => passed += (other != record) as usize,
                        Err((number, ..)) => refused += (number == 32 && other != record) as usize,
                    }
                    // 65535 would be right at the old alarm if anybody looked, and so it is not counted there.
                    for &index in ignored.iter().filter(|_| changes == 0) {
                        let at_alarm = index as u32 / 128 == old.alarm;
                        let counts = !at_alarm || other.targets[index] != 65535;
                        judged[at_alarm as usize][record.marks[index / 2] as usize] += counts as usize;
                    }
                }
            }
        }
        println!("passed {passed}, refused by 32 {refused}; not at the old alarm and at it, by mark: {judged:?}");
        assert!(passed > 300 && refused > 100);
        assert!([1, 3, 4].iter().all(|mark| judged[0][*mark] > 50) && judged[1][3] + judged[1][4] > 20);
    }

    /// Refusal 31 looks at every target, those of rows that never hold too: any from 4,160 to 65,534 is refused, in a
    /// record that is passed without it. Would catch a check that passes over such rows before it looks at their form.
    #[test]
    fn odd_targets_of_rows_that_never_hold() {
        let mut random = Random::new(20301);
        let (mut present, mut absent) = (0, 0);
        for sort in SORTS {
            for round in 0..share(sort, 100) {
                let edition = EDITIONS[round % 2];
                let (old, new) = drawn::pair(&mut random, sort);
                let built = Record::from(algorithms::build(edition, &old, &new));
                let ignored = targets_that_are_ignored(&new);
                let here = ignored.iter().filter(|i| built.marks[*i / 2] != 0).take(4);
                for &index in here.chain(ignored.first()) {
                    let mut record = built.clone();
                    let any = 4160 + random.below(65535 - 4160) as u16;
                    for odd in [4160, 4161, 32768, 65534, any] {
                        record.targets[index] = odd;
                        let answer = compare_check(edition, &old, &new, &record);
                        assert_eq!(answer, Err((31, 0, 0)), "{index} {odd}: {new:?}");
                    }
                    present += (built.marks[index / 2] != 0) as usize;
                    absent += (built.marks[index / 2] == 0) as usize;
                }
            }
        }
        println!("at present pairs {present}, at absent ones {absent}");
        assert!(present > 100 && absent > 100);
    }

    /// The row beside one that never holds is looked at as any other, and the position is its own. Would catch a check
    /// that passes over the whole place, that takes the one row for the other, or that counts ranks without such rows.
    #[test]
    fn the_row_beside_one_that_never_holds() {
        let mut random = Random::new(20302);
        let mut beside = [0; 2];
        for sort in SORTS {
            for round in 0..share(sort, 200) {
                let edition = EDITIONS[round % 2];
                let (old, new) = drawn::pair(&mut random, sort);
                let built = Record::from(algorithms::build(edition, &old, &new));
                let ignored = targets_that_are_ignored(&new);
                // At the old alarm 65535 would be right.
                let elsewhere = |i: &&usize| **i as u32 / 128 != old.alarm && built.marks[**i / 2] != 0;
                let here = ignored.iter().filter(elsewhere).filter(|i| built.targets[**i ^ 1] != 65535);
                for &index in here.take(4) {
                    let mut record = retargeted(&mut random, &built, &ignored);
                    record.targets[index ^ 1] = 65535;
                    let answer = compare_check(edition, &old, &new, &record);
                    assert_eq!(answer, Err((32, 0, index ^ 1)), "{edition} {old:?} {new:?}");
                    beside[index % 2] += 1;
                }
            }
        }
        println!("rows beside a first and a second one that never holds: {beside:?}");
        assert!(beside.iter().all(|n| *n > 100));
    }

    /// Whether a list of rows is covered does not depend on targets of rows that never hold, as readers take 65535
    /// there; and for runs nobody needs to look: they take no such row. Would catch a build that stores a target there,
    /// or a check that refuses one; of the reading itself it shows only that these lists tell the two readings apart.
    #[test]
    fn following_past_rows_that_never_hold() {
        let mut random = Random::new(20303);
        let [mut lists, mut misled, mut runs, mut covered] = [0; 4];
        for sort in SORTS.into_iter().filter(|sort| *sort != Sort::Wide) {
            for round in 0..share(sort, 200) {
                let edition = EDITIONS[round % 2];
                let (old, new) = drawn::pair(&mut random, sort);
                let ignored = targets_that_are_ignored(&new);
                let never = checker::never_held(&new);
                if ignored.is_empty() {
                    continue;
                }
                let mut buffers = rubbish(&mut random);
                let start = build(edition, &old, &new, &mut buffers).unwrap()[0];
                let built = record(start, buffers);
                let other = retargeted(&mut random, &built, &ignored);
                assert_eq!(compare_check(edition, &old, &new, &other), Ok(()));
                for _ in 0..60 {
                    let list = chained(&mut random, &new, 12);
                    let said = checker::covers(&new, &built, &list);
                    assert_eq!(checker::covers(&new, &other, &list), said, "{list:?} {old:?} {new:?} {other:?}");
                    // A built record says it by itself.
                    assert_eq!(checker::covers_as_it_stands(&new, &built, &list), said, "{list:?} {old:?} {new:?}");
                    lists += list.iter().any(|row| never[*row]) as usize;
                    misled += (checker::covers_as_it_stands(&new, &other, &list) != said) as usize;
                    let values = std::array::from_fn(|_| random.one_of(&[0, 1, 2, 100, HALF, u32::MAX]));
                    let run = checker::run(&new, &values, 50).rows;
                    assert!(!run.iter().any(|row| never[*row]));
                    let said = checker::covers(&new, &built, &run);
                    let read = [&built, &other].map(|r| checker::covers_as_it_stands(&new, r, &run));
                    assert_eq!(read, [said; 2], "{run:?} {old:?} {new:?} {other:?}");
                    runs += 1;
                    covered += said as usize;
                }
            }
        }
        println!("lists with such rows {lists}, misled if targets are read as they stand {misled}");
        println!("runs {runs}, covered {covered}");
        assert!(lists > 1000 && misled > 50 && covered > 500);
    }

    #[test]
    fn signed_rows() {
        let mut random = Random::new(20283);
        for (old, new, _) in SIGNED {
            compare(1, &chart_of(old), &chart_of(new), rubbish(&mut random));
        }
    }

    /// v0 <s 0 and v0 ≥ 2147483648 imply each other: where one chart asks the one and the other chart the other, both
    /// come to the alarm from the same values. All runs with a row are covered.
    #[test]
    fn temperatures_below_zero() {
        let signed = ["26,0,0,0", "29,0,0,0"];
        let unsigned = ["21,0,0,2147483648", "18,0,0,2147483648"];
        for ([was_cold, was_warm], [is_cold, is_warm]) in [(signed, unsigned), (unsigned, signed)] {
            let old = chart_of(&format!("3,1,2,0,0,0 0,1,{was_cold} 0,2,{was_warm}"));
            let new = chart_of(&format!("4,2,3,0,0,0 0,1,0,5,0,7 1,2,{is_cold} 1,3,{is_warm}"));
            let record = compare(1, &old, &new, rubbish(&mut Random::new(20284)));
            assert!(checker::covers(&new, &record, &[0]));
            for (degrees, below) in [(0, false), (1, false), (i32::MAX, false), (i32::MIN, true), (i32::MIN + 1, true), (-1, true)] {
                let mut values = [0; 64];
                values[0] = degrees as u32;
                let runs = [&old, &new].map(|chart| checker::run(chart, &values, 100));
                assert_eq!(runs.each_ref().map(|run| run.rows.len()), [1, 2]);
                assert_eq!(runs.each_ref().map(|run| run.reached), [below; 2], "{degrees}");
            }
        }
    }

    // ---- refusals

    fn faultless() -> Chart {
        Chart { places: 2, alarm: 1, rows: vec![0, 1, 18, 0, 0, 5, 0, 0, 21, 0, 0, 5] }
    }

    /// Numbers that are no edition: next to one, or one if all but its lowest bits were dropped.
    const NO_EDITIONS: [u32; 9] = [0, 3, 4, 257, 258, 65537, 65538, HALF + 1, u32::MAX];

    /// A build refused in an edition leaves all four buffers as they were.
    fn refused_in(edition: u32, old: &Chart, new: &Chart, buffers: &Buffers, refusal: Refusal) {
        let mut lent = buffers.clone();
        assert_eq!(build(edition, old, new, &mut lent), Err(refusal), "{edition} {old:?} {new:?}");
        assert!(lent == *buffers, "a refusal wrote to a buffer: {edition} {old:?} {new:?}");
    }

    /// So is one in both editions; and where there is no such edition this is 21, whatever else is due.
    fn refused(old: &Chart, new: &Chart, buffers: &Buffers, refusal: Refusal) {
        EDITIONS.iter().for_each(|edition| refused_in(*edition, old, new, buffers, refusal));
        NO_EDITIONS.iter().for_each(|edition| refused_in(*edition, old, new, buffers, (21, 0, 0)));
    }

    /// The same of a check.
    fn check_refused(old: &Chart, new: &Chart, record: &Record, refusal: Refusal) {
        for (edition, due) in EDITIONS.map(|e| (e, refusal)).into_iter().chain(NO_EDITIONS.map(|e| (e, (21, 0, 0)))) {
            assert_eq!(compare_check(edition, old, new, record), Err(due), "{edition}");
        }
    }

    /// 21 where nothing else is wrong, of charts of every sort and of their own record.
    #[test]
    fn other_editions() {
        let mut random = Random::new(20306);
        for sort in SORTS {
            for _ in 0..share(sort, 100) {
                let (old, new) = drawn::pair(&mut random, sort);
                let (buffers, any) = (rubbish(&mut random), random.word().max(3));
                let record = Record::from(algorithms::build(random.one_of(&EDITIONS), &old, &new));
                for edition in NO_EDITIONS.into_iter().chain([any]) {
                    refused_in(edition, &old, &new, &buffers, (21, 0, 0));
                    assert_eq!(compare_check(edition, &old, &new, &record), Err((21, 0, 0)));
                }
            }
        }
    }

    #[test]
    fn faulty_charts() {
        let mut random = Random::new(20276);
        let buffers = rubbish(&mut random);
        let mut record = Record::from(algorithms::build(1, &faultless(), &faultless()));
        // A record at fault: the charts are judged before it.
        record.start = 7;
        for (bad, (number, position)) in model::faulty() {
            for (old, new, chart) in [(&bad, &faultless(), 0), (&faultless(), &bad, 1), (&bad, &bad, 0)] {
                refused(old, new, &buffers, (number, chart, position));
                check_refused(old, new, &record, (number, chart, position));
            }
            for (other, (first, at)) in model::faulty() {
                refused(&other, &bad, &buffers, (first, 0, at));
                check_refused(&other, &bad, &record, (first, 0, at));
            }
        }
        let mut seen = [0usize; 9];
        for _ in 0..cases(3000) {
            let (old, new) = (model::chart(&mut random), model::chart(&mut random));
            let (first, second) = (texts::fault(&old), texts::fault(&new));
            let refusal = if first.0 != 0 { (first.0, 0, first.1) } else { (second.0, 1, second.1) };
            seen[refusal.0 as usize] += 1;
            if refusal.0 == 0 {
                EDITIONS.iter().for_each(|edition| drop(compare(*edition, &old, &new, buffers.clone())));
            } else {
                refused(&old, &new, &buffers, refusal);
                check_refused(&old, &new, &record, refusal);
            }
        }
        assert!([0, 1, 4, 5, 6, 7, 8].iter().all(|n| seen[*n] > 0), "{seen:?}");
    }

    #[test]
    fn wrong_lengths() {
        let mut random = Random::new(20277);
        let buffers = rubbish(&mut random);
        let record = Record::from(algorithms::build(1, &faultless(), &faultless()));
        let bad = Chart { places: 0, alarm: 9, rows: vec![9; 6] };
        let length = |right: usize| [0, 1, right / 2, right - 1, right + 1, 2 * right];
        // Before the faults of charts and records too.
        for (old, new, start) in [(faultless(), faultless(), 0), (bad.clone(), faultless(), 0), (faultless(), bad, 7)] {
            for which in 0..4 {
                for turn in 0..6 {
                    let mut lent = buffers.clone();
                    let mut checked = Record { start, ..record.clone() };
                    match which {
                        0 => {
                            lent.marks.resize(length(4160)[turn], 0xA5);
                            checked.marks.resize(length(4160)[turn], 0);
                        }
                        1 => {
                            lent.targets.resize(length(8192)[turn], 0xA5A5);
                            checked.targets.resize(length(8192)[turn], 65535);
                        }
                        2 => {
                            lent.sets.resize(length(4096)[turn], 0xA5A5);
                            checked.sets.resize(length(4096)[turn], 0);
                        }
                        _ => lent.waiting.resize(length(4096)[turn], 0xA5),
                    }
                    refused(&old, &new, &lent, (21, 0, 0));
                    if which < 3 {
                        check_refused(&old, &new, &checked, (21, 0, 0));
                    }
                }
            }
            for extra in 1..6 {
                let longer = |chart: &Chart| Chart { rows: [&chart.rows[..], &vec![0; extra]].concat(), ..chart.clone() };
                for (old, new) in [(longer(&old), new.clone()), (old.clone(), longer(&new)), (longer(&old), longer(&new))] {
                    refused(&old, &new, &buffers, (21, 0, 0));
                    check_refused(&old, &new, &Record { start, ..record.clone() }, (21, 0, 0));
                }
            }
        }
    }

    /// Every mark at every node, and every odd target at both ends of the buffer.
    #[test]
    fn every_mark_and_odd_targets() {
        let (old, new) = (faultless(), Chart { places: 3, ..faultless() });
        let record = Record::from(algorithms::build(1, &old, &new));
        for node in 0..4160 {
            for mark in [0, 1, 2, 3, 4, 5, 255] {
                let mut record = record.clone();
                record.marks[node] = mark;
                compare_check(EDITIONS[node % 2], &old, &new, &record).ok();
            }
        }
        for index in [0, 1, 2, 127, 128, 4095, 4096, 8190, 8191] {
            for target in [0, 1, 64, 65, 4095, 4096, 4097, 4159, 4160, 4161, 32768, 65534, 65535] {
                let mut record = record.clone();
                record.targets[index] = target;
                compare_check(1, &old, &new, &record).ok();
            }
        }
        for start in [0, 1, 64, 4095, 4096, 4097, 65535, 65536, 65536 + 4096, u32::MAX] {
            compare_check(1, &old, &new, &Record { start, ..record.clone() }).ok();
        }
    }
}
