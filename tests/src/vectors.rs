//! The files of vectors that more than one file of tests compares with, those of document 01 and of requests, taken apart.

use crate::texts::Refusal;
use crate::Operation;

/// Each line: two assumptions, then `never` (no values meet the first), `implied` or `not`: 0, 1 or 2.
pub fn implications() -> Vec<(Operation, Operation, u32)> {
    [(include_str!("../vectors/implies.txt"), 3000), (include_str!("../vectors/102/implies.txt"), 4000)]
        .into_iter()
        .flat_map(|(file, least)| lines(file, least))
        .map(|line| {
            let words: Vec<&str> = line.split_whitespace().collect();
            let n: Vec<u32> = words[..8].iter().map(|w| w.parse().unwrap()).collect();
            let answer = match words[8] {
                "never" => 0,
                "implied" => 1,
                "not" => 2,
                other => panic!("unknown answer {other}"),
            };
            (Operation { code: n[0], a: n[1], b: n[2], c: n[3] }, Operation { code: n[4], a: n[5], b: n[6], c: n[7] }, answer)
        })
        .collect()
}

/// Each line: a text in hex, then its chart's places, alarm and count of rows, or its refusal.
pub fn texts() -> Vec<(Vec<u8>, Result<[u64; 3], Refusal>)> {
    [
        (include_str!("../vectors/texts.txt"), 600),
        (include_str!("../vectors/102/texts.txt"), 200),
        (include_str!("../vectors/102/edge-texts.txt"), 35),
    ]
    .into_iter()
    .flat_map(|(file, least)| lines(file, least))
    .map(|line| {
        let words: Vec<&str> = line.split_whitespace().collect();
        let hex = if words[0] == "-" { "" } else { words[0] };
        let text = (0..hex.len() / 2).map(|i| u8::from_str_radix(&hex[2 * i..2 * i + 2], 16).unwrap()).collect();
        let n: Vec<u64> = words[2..].iter().map(|w| w.parse().unwrap()).collect();
        let answer = match words[1] {
            "chart" => Ok([n[0], n[1], n[2]]),
            "refused" => Err((n[0] as u32, n[1] as u32, n[2] as usize)),
            other => panic!("unknown answer {other}"),
        };
        (text, answer)
    })
    .collect()
}

/// The lines of a file, no fewer than it had.
fn lines(file: &'static str, least: usize) -> impl Iterator<Item = &'static str> {
    let count = file.lines().count();
    assert!(count >= least, "only {count} vectors of {least}");
    file.lines()
}
