//! Contenders that take turns on the same work, over several draws of charts, and the line of the table for it.

use std::time::{Duration, Instant};

/// The seeds of the draws.
pub const DRAWS: [u64; 5] = [20281, 20291, 20301, 20311, 20321];

/// How long the contenders of one draw of a line take turns.
const TOGETHER: Duration = Duration::from_millis(1000);

/// How long a turn is, roughly, in nanoseconds.
const TURN: f64 = 200_000.0;

/// What lies within so many per cent of each other is level.
const LEVEL: i64 = 2;

/// One of those who take turns; all work in the same memory, as its place in the caches is worth several per cent.
pub type Contender<'a, M> = Box<dyn FnMut(&mut M) + 'a>;

/// A call's nanoseconds, and the ratio of the first contender's to them.
#[derive(Clone, Copy)]
pub struct Time {
    pub nanos: f64,
    pub ratio: f64,
}

/// The times of each contender: medians over rounds in which all take a turn. Whoever begins changes from round to
/// round, and after each has begun so does the direction, so that nobody always comes after the same one. Before
/// those that are timed each has a call that is not, since it finds the caches as another left them.
pub fn turns<M>(memory: &mut M, mut all: Vec<Contender<M>>) -> Vec<Time> {
    let mut once = |work: &mut Contender<M>, calls: usize| {
        work(memory);
        let began = Instant::now();
        for _ in 0..calls {
            work(memory);
        }
        began.elapsed().as_nanos() as f64 / calls as f64
    };
    let calls: Vec<usize> = all.iter_mut().map(|work| (TURN / once(work, 1)).clamp(1.0, 1000.0) as usize).collect();
    let began = Instant::now();
    let mut rounds: Vec<Vec<f64>> = Vec::new();
    while rounds.len() < 2 * all.len() || began.elapsed() < TOGETHER {
        let mut times = vec![0.0; all.len()];
        for i in order(rounds.len(), all.len()) {
            times[i] = once(&mut all[i], calls[i]);
        }
        rounds.push(times);
    }
    let times = |i: usize| Time {
        nanos: median(rounds.iter().map(|round| round[i]).collect()),
        ratio: median(rounds.iter().map(|round| round[0] / round[i]).collect()),
    };
    (0..all.len()).map(times).collect()
}

/// Who comes when in a round.
fn order(round: usize, contenders: usize) -> impl Iterator<Item = usize> {
    let backwards = round / contenders % 2 == 1;
    (0..contenders).map(move |turn| (round + if backwards { contenders - turn } else { turn }) % contenders)
}

fn median(mut of: Vec<f64>) -> f64 {
    of.sort_by(f64::total_cmp);
    of[of.len() / 2]
}

/// The columns of ratios: which contender each is about.
pub type Columns = [Option<usize>; 4];

pub fn head() {
    println!("| Work | Nodes | Proved | Plain Rust | To plain Rust | To plain, sets | To plain, lists | To everyday Rust | Beside plain Rust |");
    println!("|---|---|---|---|---|---|---|---|---|");
}

/// A line: the times of each draw's contenders, the first of them the proved code, the second plain Rust.
pub fn line(what: &str, nodes: Option<usize>, draws: &[Vec<Time>], columns: Columns) {
    let nodes = nodes.map_or(String::new(), |n| n.to_string());
    let time = |i: usize| shown(median(draws.iter().map(|times| times[i].nanos).collect()));
    let ratios = |i: usize| Spread::of(draws.iter().map(|times| times[i].ratio).collect());
    let columns = columns.map(|column| column.map_or(String::new(), |i| ratios(i).shown()));
    println!("| {what} | {nodes} | {} | {} | {} | {} |", time(0), time(1), columns.join(" | "), ratios(1).verdict());
}

fn shown(nanos: f64) -> String {
    match nanos {
        _ if nanos < 10_000.0 => format!("{:.2} µs", nanos / 1000.0),
        _ if nanos < 300_000.0 => format!("{:.0} µs", nanos / 1000.0),
        _ => format!("{:.2} ms", nanos / 1_000_000.0),
    }
}

/// A ratio over the draws.
struct Spread {
    least: f64,
    median: f64,
    most: f64,
}

impl Spread {
    fn of(ratios: Vec<f64>) -> Spread {
        let least = ratios.iter().copied().fold(f64::INFINITY, f64::min);
        let most = ratios.iter().copied().fold(0.0, f64::max);
        Spread { least, median: median(ratios), most }
    }

    fn shown(&self) -> String {
        format!("{:.2} ({:.2} to {:.2})", self.median, self.least, self.most)
    }

    /// How the proved code stands, by the figures shown: faster or slower where every draw says so.
    fn verdict(&self) -> &'static str {
        let [least, median, most] = [self.least, self.median, self.most].map(|ratio| (100.0 * ratio).round() as i64 - 100);
        match median {
            _ if most < -LEVEL => "faster",
            _ if least > LEVEL => "slower",
            _ if median.abs() <= LEVEL => "level",
            ..0 => "faster, not in every draw",
            _ => "slower, not in every draw",
        }
    }
}

#[cfg(test)]
mod tests {
    use super::*;

    #[test]
    fn everyone_begins_and_comes_after_both_neighbours() {
        let rounds: Vec<Vec<usize>> = (0..6).map(|round| order(round, 3).collect()).collect();
        assert_eq!(rounds, [[0, 1, 2], [1, 2, 0], [2, 0, 1], [0, 2, 1], [1, 0, 2], [2, 1, 0]]);
    }

    #[test]
    fn verdicts() {
        for (ratios, expected) in [
            ([0.90, 0.95, 0.97], "faster"),
            ([0.90, 0.95, 0.99], "faster, not in every draw"),
            ([0.90, 0.99, 1.30], "level"),
            ([0.99, 1.02, 1.03], "level"),
            ([0.99, 1.05, 1.10], "slower, not in every draw"),
            ([1.03, 1.05, 1.10], "slower"),
        ] {
            assert_eq!(Spread::of(ratios.to_vec()).verdict(), expected, "{ratios:?}");
        }
        assert_eq!(Spread::of(vec![1.1, 0.9, 0.95]).shown(), "0.95 (0.90 to 1.10)");
    }
}
