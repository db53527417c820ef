//! The builder and the checker as one would write them in Rust for everyday use: std's collections where they come
//! naturally, nothing cloned that need not be, and no layout or memory given. A set of variables is a word, as a record
//! has it; charts are judged and assumptions compared as by the plain Rust beside it. The record stays in the
//! collections: nobody lays it out in buffers, which the others have to do.

use crate::plain_build::{can_be_taken, implied, judged, read_by, Refusal};
use picker_tests::Chart;
use std::collections::hash_map::Entry;
use std::collections::{BTreeSet, HashMap, HashSet};

/// An old place and a new one.
#[derive(Clone, Copy, Debug, PartialEq, Eq, PartialOrd, Ord, Hash)]
pub struct Pair {
    pub old: usize,
    pub new: usize,
}

#[derive(Clone, Copy, Debug, PartialEq, Eq)]
pub enum Node {
    Pair(Pair),
    Kept(usize),
}

#[derive(Clone, Copy, Debug, PartialEq, Eq)]
pub enum Mark {
    Open,
    Covered,
    Beyond,
}

/// What is known of a pair in the graph: the affected variables, where its rows lead, its mark.
#[derive(Debug)]
pub struct State {
    pub set: u64,
    pub targets: [Option<Node>; 2],
    pub mark: Mark,
}

#[derive(Debug)]
pub struct Condition {
    pub start: Node,
    pub pairs: HashMap<Pair, State>,
    pub kept: HashSet<usize>,
}

const START: Pair = Pair { old: 0, new: 0 };

/// A chart's rows by the place that they leave.
struct Graph<'a> {
    rows: Vec<Vec<&'a [u32]>>,
    alarm: usize,
}

impl<'a> Graph<'a> {
    fn new(chart: &'a Chart) -> Graph<'a> {
        let mut rows = vec![Vec::new(); chart.places as usize];
        for row in chart.rows.chunks_exact(6) {
            rows[row[0] as usize].push(row);
        }
        Graph { rows, alarm: chart.alarm as usize }
    }
}

/// What a step is made by.
struct Steps<'a> {
    edition: u32,
    old: Graph<'a>,
    new_alarm: usize,
}

impl Steps<'_> {
    /// One aligned step: the pair that it comes to and its set, none where it fails.
    fn step(&self, from: Pair, mut set: u64, row: &[u32]) -> Option<(Pair, u64)> {
        let old = &self.old;
        let mut p = from.old;
        if row[2] < 16 {
            let written = 1 << row[3];
            let writes_it = |e: &&&[u32]| self.edition == 2 && e[2] < 16 && e[3] == row[3];
            if let Some(e) = old.rows[p].iter().find(|e| e[2..] == row[2..]) {
                set = if set & read_by(row) != 0 { set | written } else { set & !written };
                p = e[1] as usize;
            } else {
                set |= written;
                p = old.rows[p].iter().find(writes_it).map_or(p, |e| e[1] as usize);
            }
        } else {
            (p, set) = self.followed(p, set)?;
            let here: &[&[u32]] = if p == old.alarm { &[] } else { &old.rows[p] };
            let equal = here.iter().find(|e| e[2..] == row[2..]);
            if let Some(e) = equal.or_else(|| here.iter().find(|e| implied(row, e))) {
                if set & (read_by(row) | read_by(e)) != 0 {
                    return None;
                }
                p = e[1] as usize;
            }
        }
        if row[1] as usize == self.new_alarm && p != old.alarm {
            let saved = if self.edition == 2 { self.followed(p, set) } else { None };
            (p, set) = saved.filter(|(p, _)| *p == old.alarm)?;
        }
        Some((Pair { old: p, new: row[1] as usize }, set))
    }

    /// Where the old assignments from a place end, and the set with what they write; none where they come to a place
    /// twice.
    fn followed(&self, mut p: usize, mut set: u64) -> Option<(usize, u64)> {
        let mut come_to = vec![p];
        while p != self.old.alarm {
            let Some(e) = self.old.rows[p].first().filter(|e| e[2] < 16) else { break };
            set |= 1 << e[3];
            p = e[1] as usize;
            if come_to.contains(&p) {
                return None;
            }
            come_to.push(p);
        }
        Some((p, set))
    }

    /// Whether a row leads from a pair with a set to another with another.
    fn leads(&self, from: Pair, set: u64, row: &[u32], to: Pair, holds: u64) -> bool {
        if from.old == self.old.alarm {
            return to.new == row[1] as usize;
        }
        self.step(from, set, row).is_some_and(|(pair, set)| pair == to && set & !holds == 0)
    }
}

/// The condition of two charts.
pub fn build(edition: u32, old: &Chart, new: &Chart) -> Result<Condition, Refusal> {
    judged(edition, old, new)?;
    let new = Graph::new(new);
    let steps = Steps { edition, old: Graph::new(old), new_alarm: new.alarm };
    let (mut pairs, kept) = explore(&steps, &new);
    if kept.contains(&0) || (new.alarm == 0 && steps.old.alarm != 0) {
        return Ok(Condition { start: Node::Kept(0), pairs: HashMap::new(), kept: HashSet::from([0]) });
    }
    mark(&mut pairs, &kept);
    Ok(Condition { start: Node::Pair(START), pairs, kept })
}

/// What Algorithm 2 keeps while it runs.
struct Explorer {
    pairs: HashMap<Pair, State>,
    waiting: BTreeSet<Pair>,
    kept: HashSet<usize>,
}

impl Explorer {
    /// Keeps a new place: its pairs leave.
    fn keep(&mut self, place: usize) {
        if self.kept.insert(place) {
            self.pairs.retain(|pair, _| pair.new != place);
            self.waiting.retain(|pair| pair.new != place);
        }
    }

    /// Joins a set to a pair's; whether the pair is new or its set grew.
    fn join(&mut self, pair: Pair, set: u64) -> bool {
        match self.pairs.entry(pair) {
            Entry::Vacant(entry) => {
                entry.insert(State { set, targets: [None; 2], mark: Mark::Beyond });
                true
            }
            Entry::Occupied(entry) => {
                let known = &mut entry.into_mut().set;
                let grows = set & !*known != 0;
                *known |= set;
                grows
            }
        }
    }
}

/// Algorithm 2: the pairs in the graph, and the kept places.
fn explore(steps: &Steps, new: &Graph) -> (HashMap<Pair, State>, HashSet<usize>) {
    let mut all = Explorer { pairs: HashMap::new(), waiting: BTreeSet::from([START]), kept: HashSet::new() };
    all.join(START, 0);
    while let Some(pair) = all.waiting.pop_first() {
        let mut set = 0;
        for (which, row) in new.rows[pair.new].iter().enumerate().filter(|(_, row)| can_be_taken(row)) {
            // A pair that has left the graph is finished under the set it had.
            if let Some(state) = all.pairs.get(&pair) {
                set = state.set;
            }
            let q = row[1] as usize;
            let target = match steps.step(pair, set, row) {
                Some((to, joined)) if !all.kept.contains(&q) => {
                    if all.join(to, joined) && to.old != steps.old.alarm {
                        all.waiting.insert(to);
                    }
                    Node::Pair(to)
                }
                Some(_) => Node::Kept(q),
                None => {
                    all.keep(q);
                    Node::Kept(q)
                }
            };
            if let Some(state) = all.pairs.get_mut(&pair) {
                state.targets[which] = Some(target);
            }
        }
    }
    (all.pairs, all.kept)
}

/// Algorithm 1: targets that are kept by now, and every pair's mark.
fn mark(pairs: &mut HashMap<Pair, State>, kept: &HashSet<usize>) {
    let mut before: HashMap<Pair, Vec<Pair>> = HashMap::new();
    let mut open = vec![START];
    for (&pair, state) in pairs.iter_mut() {
        for target in state.targets.iter_mut().flatten() {
            match *target {
                Node::Pair(to) if !kept.contains(&to.new) => before.entry(to).or_default().push(pair),
                Node::Pair(Pair { new, .. }) | Node::Kept(new) => {
                    *target = Node::Kept(new);
                    open.push(pair);
                }
            }
        }
    }
    let mut edge = Vec::new();
    while let Some(pair) = open.pop() {
        let state = pairs.get_mut(&pair).unwrap();
        if state.mark != Mark::Open {
            state.mark = Mark::Open;
            edge.extend(state.targets.iter().flatten().copied());
            open.extend(before.get(&pair).into_iter().flatten());
        }
    }
    for target in edge {
        if let Node::Pair(to) = target {
            let state = pairs.get_mut(&to).unwrap();
            if state.mark == Mark::Beyond {
                state.mark = Mark::Covered;
            }
        }
    }
}

/// Whether a condition keeps the rules; charts at fault are a refusal. What is no place or mark it can't hold.
pub fn check(edition: u32, old: &Chart, new: &Chart, condition: &Condition) -> Result<bool, Refusal> {
    judged(edition, old, new)?;
    let new = Graph::new(new);
    let steps = Steps { edition, old: Graph::new(old), new_alarm: new.alarm };
    let Condition { start, pairs, kept } = condition;
    let fits = new.alarm != 0 || steps.old.alarm == 0;
    let starts = match start {
        Node::Pair(pair) => fits && pairs.get(pair).is_some_and(|s| s.mark == Mark::Open),
        Node::Kept(place) => kept.contains(place),
    };
    let keeps = |(&pair, state): (&Pair, &State)| {
        new.rows[pair.new].iter().zip(state.targets).filter(|(row, _)| can_be_taken(row)).all(|(row, target)| match target {
            None => pair.old == steps.old.alarm,
            Some(Node::Kept(q)) => q == row[1] as usize && kept.contains(&q) && state.mark == Mark::Open,
            Some(Node::Pair(to)) => pairs.get(&to).is_some_and(|reached| {
                allowed(state.mark, reached.mark) && steps.leads(pair, state.set, row, to, reached.set)
            }),
        })
    };
    Ok(starts && pairs.iter().all(keeps))
}

/// Whether a pair with the first mark may lead to one with the second.
fn allowed(from: Mark, to: Mark) -> bool {
    match from {
        Mark::Open => to != Mark::Beyond,
        Mark::Covered | Mark::Beyond => to != Mark::Open,
    }
}

#[cfg(test)]
mod tests {
    use super::*;
    use crate::{plain_build, signed};
    use picker_tests::checker::{self, Record};
    use picker_tests::conditions::Buffers;
    use picker_tests::drawn::{self, Sort, SORTS};
    use picker_tests::{algorithms, cases, model, Random, EDITIONS};

    fn number(node: Node) -> usize {
        match node {
            Node::Pair(Pair { old, new }) => 64 * old + new,
            Node::Kept(place) => 4096 + place,
        }
    }

    fn node(number: usize) -> Node {
        if number < 4096 {
            Node::Pair(Pair { old: number / 64, new: number % 64 })
        } else {
            Node::Kept(number - 4096)
        }
    }

    /// A condition laid out as a record.
    fn record(condition: &Condition) -> Record {
        let mut r = Record {
            start: number(condition.start) as u32,
            marks: vec![0; 4160],
            targets: vec![65535; 8192],
            sets: vec![0; 4096],
        };
        for &place in &condition.kept {
            r.marks[4096 + place] = 2;
        }
        for (&pair, state) in &condition.pairs {
            let at = number(Node::Pair(pair));
            r.marks[at] = match state.mark {
                Mark::Open => 1,
                Mark::Covered => 3,
                Mark::Beyond => 4,
            };
            r.sets[at] = state.set;
            for (which, target) in state.targets.iter().enumerate() {
                r.targets[2 * at + which] = target.map_or(65535, |to| number(to) as u16);
            }
        }
        r
    }

    /// A record as a condition.
    fn condition(r: &Record) -> Condition {
        let mut made = Condition { start: node(r.start as usize), pairs: HashMap::new(), kept: HashSet::new() };
        for (at, &mark) in r.marks.iter().enumerate() {
            let mark = match mark {
                0 => continue,
                1 => Mark::Open,
                3 => Mark::Covered,
                _ => Mark::Beyond,
            };
            match node(at) {
                Node::Kept(place) => drop(made.kept.insert(place)),
                Node::Pair(pair) => {
                    let to = |which| r.targets[2 * at + which] as usize;
                    let targets = [0, 1].map(|which| (to(which) != 65535).then(|| node(to(which))));
                    made.pairs.insert(pair, State { set: r.sets[at], targets, mark });
                }
            }
        }
        made
    }

    /// How many answers of either kind the checks of each edition gave.
    type Answers = [[usize; 2]; 2];

    /// Builds what was built, and answers as expected where that and the same more and more spoilt is checked.
    fn compare(
        random: &mut Random,
        answers: &mut Answers,
        (edition, old, new): (u32, &Chart, &Chart),
        built: Record,
        expected: impl Fn(u32, &Record) -> Result<(), Refusal>,
    ) {
        assert!(record(&build(edition, old, new).unwrap()) == built, "{edition} {old:?} {new:?}");
        for changes in 0..4 {
            let mut r = built.clone();
            (0..changes).for_each(|_| drawn::spoil(random, &mut r));
            for by in EDITIONS {
                let expected = expected(by, &r);
                // What is no record at all has no condition.
                if !matches!(expected, Err((31, ..))) {
                    assert_eq!(check(by, old, new, &condition(&r)), Ok(expected.is_ok()), "{by} {old:?} {new:?} {r:?}");
                    answers[by as usize - 1][expected.is_ok() as usize] += 1;
                }
            }
        }
    }

    #[test]
    fn builds_and_checks() {
        let mut random = Random::new(20285);
        let mut answers = Answers::default();
        for sort in SORTS {
            for _ in 0..cases(if sort == Sort::Wide { 4 } else { 200 }) {
                let (old, new) = drawn::pair(&mut random, sort);
                for edition in EDITIONS {
                    let built = algorithms::build(edition, &old, &new).into();
                    let expected = |by, r: &Record| checker::check(by, &old, &new, r);
                    compare(&mut random, &mut answers, (edition, &old, &new), built, expected);
                }
            }
        }
        assert!(answers.iter().flatten().all(|n| *n > 100), "{answers:?}");
    }

    /// With signed comparisons, in one of the two charts and beside unsigned ones too: as the plain Rust beside it.
    #[test]
    fn signed_charts() {
        let mut random = Random::new(20295);
        let mut answers = Answers::default();
        for sort in SORTS {
            for _ in 0..cases(if sort == Sort::Wide { 2 } else { 40 }) {
                let (old, new) = drawn::pair(&mut random, sort);
                let all = signed::pairs(&old, &new);
                for (edition, (old, new)) in EDITIONS.into_iter().flat_map(|e| all.iter().map(move |pair| (e, pair))) {
                    let mut b = Buffers { marks: vec![9; 4160], targets: vec![9; 8192], sets: vec![9; 4096], waiting: vec![9; 4096] };
                    let start = plain_build::build::<true>(edition, old, new, &mut b).unwrap()[0];
                    let built = Record { start, marks: b.marks, targets: b.targets, sets: b.sets };
                    let expected = |by, r: &Record| plain_build::check(by, old, new, r);
                    compare(&mut random, &mut answers, (edition, old, new), built, expected);
                }
            }
        }
        assert!(answers.iter().flatten().all(|n| *n > 100), "{answers:?}");
    }

    #[test]
    fn faulty_charts() {
        let good = Chart { places: 1, alarm: 0, rows: vec![0, 0, 0, 0, 0, 0] };
        for (bad, (number, position)) in model::faulty() {
            for edition in EDITIONS {
                assert_eq!(build(edition, &bad, &good).unwrap_err(), (number, 0, position));
                assert_eq!(build(edition, &good, &bad).unwrap_err(), (number, 1, position));
            }
            assert_eq!(build(3, &bad, &good).unwrap_err(), (21, 0, 0));
        }
    }
}
