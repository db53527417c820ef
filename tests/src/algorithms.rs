//! Algorithms 1 and 2 of the source, written line by line from it over sets and lists of their own, and made total by document 01's order
//! (the lowest waiting pair first) and cut (a place come to twice). They are given the new chart without its rows that
//! never hold (document 02, #101), and edition 2 follows footnotes 6 and 8 in place of lines 10 and 27 where these
//! apply (#104). They share nothing with the proved code.

use crate::{model, Chart, Operation, EDITIONS};
use std::collections::{BTreeMap, BTreeSet, HashMap, HashSet};

/// A location of L, the old chart's.
#[derive(Clone, Copy, Debug, PartialEq, Eq, PartialOrd, Ord, Hash)]
pub struct Old(pub u32);

/// A location of L', the new chart's.
#[derive(Clone, Copy, Debug, PartialEq, Eq, PartialOrd, Ord, Hash)]
pub struct New(pub u32);

/// Aligned locations; their order is that of their node numbers.
pub type Pair = (Old, New);

/// A node of a difference graph.
#[derive(Clone, Copy, Debug, PartialEq, Eq, PartialOrd, Ord, Hash)]
pub enum Node {
    Aligned(Pair),
    Kept(New),
}

impl Node {
    pub fn number(self) -> usize {
        match self {
            Node::Aligned((p, q)) => 64 * p.0 as usize + q.0 as usize,
            Node::Kept(q) => 4096 + q.0 as usize,
        }
    }
}

type Variables = BTreeSet<u32>;

/// The variables that an operation reads.
fn rd(o: Operation) -> Variables {
    match o.code {
        0 => Variables::new(),
        1 | 2 | 5 => Variables::from([o.b]),
        3 | 4 => Variables::from([o.b, o.c]),
        16..=21 | 24..=29 => Variables::from([o.a]),
        _ => Variables::from([o.a, o.b]),
    }
}

/// The variables that an operation writes.
fn wrt(o: Operation) -> Variables {
    if model::is_assignment(o) {
        Variables::from([o.a])
    } else {
        Variables::new()
    }
}

/// An edge g = (ℓ, op, ℓ') with its row number.
#[derive(Clone, Copy)]
struct Edge<L> {
    row: usize,
    op: Operation,
    to: L,
}

/// A control-flow automaton: its edges by the location they leave, in table order, and its error location.
struct Automaton<L> {
    edges: BTreeMap<L, Vec<Edge<L>>>,
    err: L,
}

impl<L: Copy + Ord> Automaton<L> {
    /// That of a chart without the rows that are not asked for. An edge has its row number in the whole table.
    fn new(chart: &Chart, location: impl Fn(u32) -> L, asked_for: impl Fn(Operation) -> bool) -> Automaton<L> {
        let mut edges: BTreeMap<L, Vec<Edge<L>>> = BTreeMap::new();
        for row in 0..chart.rows.len() / 6 {
            let (from, to, op) = model::row(&chart.rows, row);
            if asked_for(op) {
                edges.entry(location(from)).or_default().push(Edge { row, op, to: location(to) });
            }
        }
        Automaton { edges, err: location(chart.alarm) }
    }

    fn leaving(&self, location: L) -> &[Edge<L>] {
        self.edges.get(&location).map_or(&[], |edges| &edges[..])
    }
}

/// Which of two footnotes of Algorithm 2 are followed: in edition 1 neither, in edition 2 both. To follow one alone is
/// to be wrong, so as to see what each of them does.
#[derive(Clone, Copy, Debug, PartialEq, Eq)]
pub struct Footnotes {
    pub sixth: bool,
    pub eighth: bool,
}

impl Footnotes {
    pub fn of(edition: u32) -> Footnotes {
        assert!(EDITIONS.contains(&edition), "there is no edition {edition}");
        Footnotes { sixth: edition == 2, eighth: edition == 2 }
    }
}

/// DG(P, P') = (N, E, n0, Δ), with V_δ. An edge stands as the pair that it leaves, its row and the node that it comes to.
pub struct DifferenceGraph {
    pub pairs: BTreeSet<Pair>,
    pub kept: BTreeSet<New>,
    pub edges: BTreeSet<(Pair, usize, Node)>,
    pub start: Node,
    pub affected: HashMap<Pair, Variables>,
}

/// Algorithm 2 with what it keeps while it runs.
struct Detector<'a> {
    footnotes: Footnotes,
    old: &'a Automaton<Old>,
    new: &'a Automaton<New>,
    waitlist: BTreeSet<Pair>,
    nodes: HashSet<Pair>,
    edges: HashSet<(Pair, usize, Node)>,
    delta: BTreeSet<New>,
    affected: HashMap<Pair, Variables>,
}

impl Detector<'_> {
    fn run(mut self) -> DifferenceGraph {
        let start = (Old(0), New(0));
        // 1
        self.waitlist.insert(start);
        self.nodes.insert(start);
        // 2, 3
        while let Some((l1, m1)) = self.waitlist.pop_first() {
            // 4
            for g in self.new.leaving(m1) {
                self.explore((l1, m1), *g);
            }
        }
        // 19
        if self.delta.contains(&New(0)) || (self.new.err == New(0) && self.old.err != Old(0)) {
            return DifferenceGraph {
                pairs: BTreeSet::new(),
                kept: BTreeSet::from([New(0)]),
                edges: BTreeSet::new(),
                start: Node::Kept(New(0)),
                affected: HashMap::new(),
            };
        }
        // 20
        let mut edges = BTreeSet::new();
        for &(n, g, to) in &self.edges {
            if !self.nodes.contains(&n) {
                continue;
            }
            match to {
                Node::Aligned((_, q)) if self.delta.contains(&q) => edges.insert((n, g, Node::Kept(q))),
                Node::Aligned(pair) => self.nodes.contains(&pair) && edges.insert((n, g, to)),
                Node::Kept(q) => self.delta.contains(&q) && edges.insert((n, g, to)),
            };
        }
        // 21
        DifferenceGraph { pairs: self.nodes.into_iter().collect(), kept: self.delta, edges, start: Node::Aligned(start), affected: self.affected }
    }

    /// Lines 5 to 18 for one edge g' of the new chart.
    fn explore(&mut self, (l1, m1): Pair, g: Edge<New>) {
        let at = (l1, m1);
        let mut diff = self.affected.get(&at).cloned().unwrap_or_default();
        // 5
        if model::is_assignment(g.op) {
            // 6
            match self.old.leaving(l1).iter().find(|e| e.op == g.op) {
                Some(e) => {
                    // 7, 8
                    if diff.is_disjoint(&rd(g.op)) {
                        diff.retain(|v| !wrt(g.op).contains(v));
                    } else {
                        diff.extend(wrt(g.op));
                    }
                    // 9
                    self.process(at, g, Node::Aligned((e.to, g.to)), diff);
                }
                // 10, or footnote 6: "also keeps the alignment if an assignment exists that changes the same variables"
                None => {
                    let changes_the_same = |e: &&Edge<Old>| self.footnotes.sixth && wrt(e.op) == wrt(g.op);
                    let l2 = self.old.leaving(l1).iter().find(changes_the_same).map_or(l1, |e| e.to);
                    diff.extend(wrt(g.op));
                    self.process(at, g, Node::Aligned((l2, g.to)), diff);
                }
            }
            return;
        }
        // 12 to 14
        let Some((lp, diff)) = self.assignments_from(l1, diff) else {
            // Document 01's cut: "Coming to a place twice here is a failed step."
            return self.process(at, g, Node::Kept(g.to), Variables::new());
        };
        // 15
        let matching = if lp == self.old.err {
            None
        } else {
            let there = self.old.leaving(lp);
            there.iter().find(|e| e.op == g.op).or_else(|| there.iter().find(|e| implies(g.op, e.op) == 1))
        };
        match matching {
            // 16
            Some(e) if !diff.is_disjoint(&rd(e.op)) || !diff.is_disjoint(&rd(g.op)) => self.process(at, g, Node::Kept(g.to), Variables::new()),
            // 17
            Some(e) => self.process(at, g, Node::Aligned((e.to, g.to)), diff),
            // 18
            None => self.process(at, g, Node::Aligned((lp, g.to)), diff),
        }
    }

    /// Lines 12 to 14: where the old assignments from a location end, and the variables with those that they write;
    /// none where they come to a location twice.
    fn assignments_from(&self, mut lp: Old, mut diff: Variables) -> Option<(Old, Variables)> {
        let mut come_to = HashSet::from([lp]);
        while lp != self.old.err {
            let Some(e) = self.old.leaving(lp).iter().find(|e| model::is_assignment(e.op)) else { break };
            diff.extend(wrt(e.op));
            lp = e.to;
            if !come_to.insert(lp) {
                return None;
            }
        }
        Some((lp, diff))
    }

    /// Lines 22 to 33.
    fn process(&mut self, pred: Pair, g: Edge<New>, succ: Node, diff: Variables) {
        match succ {
            // 23 to 25
            Node::Kept(q) => {
                self.delta.insert(q);
                self.edges.insert((pred, g.row, succ));
                self.nodes.retain(|n| n.1 != q);
                self.waitlist.retain(|n| n.1 != q);
            }
            // 27, or footnote 8: "first searches for an error location of the original program in its follow-up
            // sequence of assignments"
            Node::Aligned((p, q)) if p != self.old.err && q == self.new.err => {
                let found = if self.footnotes.eighth { self.assignments_from(p, diff) } else { None };
                match found.filter(|(lp, _)| *lp == self.old.err) {
                    Some((lp, diff)) => self.process(pred, g, Node::Aligned((lp, q)), diff),
                    None => self.process(pred, g, Node::Kept(q), Variables::new()),
                }
            }
            Node::Aligned(pair) => {
                if !self.delta.contains(&pair.1) {
                    // 29, 30
                    let grows = !self.affected.get(&pair).is_some_and(|known| diff.is_subset(known)) && !diff.is_empty();
                    if pair.0 != self.old.err && (!self.nodes.contains(&pair) || grows) {
                        self.waitlist.insert(pair);
                    }
                    // 31, 32
                    self.nodes.insert(pair);
                    self.affected.entry(pair).or_default().extend(diff);
                }
                // 33
                self.edges.insert((pred, g.row, succ));
            }
        }
    }
}

/// Algorithm 2, given the old chart whole and the new one without the rows that are not asked for.
fn difference_graph(
    footnotes: Footnotes,
    old: &Chart,
    new: &Chart,
    asked_for: impl Fn(Operation) -> bool,
) -> DifferenceGraph {
    let (old, new) = (Automaton::new(old, Old, |_| true), Automaton::new(new, New, asked_for));
    Detector {
        footnotes,
        old: &old,
        new: &new,
        waitlist: BTreeSet::new(),
        nodes: HashSet::new(),
        edges: HashSet::new(),
        delta: BTreeSet::new(),
        affected: HashMap::new(),
    }
    .run()
}

/// The states of the condition that Algorithm 1 makes of a difference graph.
pub struct Condition {
    pub q: HashSet<Node>,
    pub f: HashSet<Node>,
}

/// Algorithm 1.
pub fn condition(graph: &DifferenceGraph) -> Condition {
    let mut into: HashMap<Node, Vec<Node>> = HashMap::new();
    for &(n, _, to) in &graph.edges {
        into.entry(to).or_default().push(Node::Aligned(n));
    }
    // 1
    let mut q: HashSet<Node> = graph.kept.iter().map(|&l| Node::Kept(l)).collect();
    q.insert(graph.start);
    let mut waitlist: Vec<Node> = q.iter().copied().collect();
    // 2, 3
    while let Some(s) = waitlist.pop() {
        // 4, 5
        for &p in into.get(&s).into_iter().flatten() {
            if q.insert(p) {
                waitlist.push(p);
            }
        }
    }
    // 6
    let f = graph.edges.iter().filter(|(p, _, s)| q.contains(&Node::Aligned(*p)) && !q.contains(s)).map(|(_, _, s)| *s).collect();
    Condition { q, f }
}

/// What a build leaves in the lent buffers, and its answer.
#[derive(Clone, Debug, PartialEq, Eq)]
pub struct Built {
    pub start: u32,
    pub open: u32,
    pub kept: u32,
    pub covered: u32,
    pub marks: Vec<u8>,
    pub targets: Vec<u16>,
    pub sets: Vec<u64>,
    pub waiting: Vec<u8>,
}

/// Both algorithms in an edition, for two faultless charts, given the new one without its rows that never hold.
pub fn build(edition: u32, old: &Chart, new: &Chart) -> Built {
    build_by(Footnotes::of(edition), old, new, |o| !never_holds(o))
}

/// Both algorithms for two faultless charts, given the new one without the rows that are not asked for, laid out as
/// document 01 says: a target stands where the whole table has its row, as the place's first or second one. To ask for
/// other rows than `build` does is to be wrong, so as to see that charts tell it from what is right.
pub fn build_by(footnotes: Footnotes, old: &Chart, new: &Chart, asked_for: impl Fn(Operation) -> bool) -> Built {
    let graph = difference_graph(footnotes, old, new, asked_for);
    let states = condition(&graph);
    let mut built = Built {
        start: graph.start.number() as u32,
        open: 0,
        kept: 0,
        covered: 0,
        marks: vec![0; 4160],
        targets: vec![65535; 8192],
        sets: vec![0; 4096],
        waiting: vec![0; 4096],
    };
    for &q in &graph.kept {
        built.marks[Node::Kept(q).number()] = 2;
        built.kept += 1;
    }
    for &pair in &graph.pairs {
        let node = Node::Aligned(pair);
        built.marks[node.number()] = if states.q.contains(&node) {
            built.open += 1;
            1
        } else if states.f.contains(&node) {
            built.covered += 1;
            3
        } else {
            4
        };
        for v in graph.affected.get(&pair).into_iter().flatten() {
            built.sets[node.number()] |= 1 << v;
        }
    }
    for &(n, row, to) in &graph.edges {
        let first = (0..row).find(|i| new.rows[6 * i] == n.1 .0).unwrap_or(row);
        built.targets[2 * Node::Aligned(n).number() + row - first] = to.number() as u16;
    }
    built
}

/// The records that the program prints, without their CRLF. Whoever reads a record takes 65535 for the target of a row
/// that never holds.
pub fn printed(new: &Chart, start: u32, counts: [u32; 3], marks: &[u8], targets: &[u16]) -> Vec<String> {
    let mut records = vec![format!("{start},{},{},{}", counts[0], counts[1], counts[2])];
    for from in (0..4096).filter(|&n| marks[n] == 1) {
        let rows = (0..new.rows.len() / 6).filter(|i| new.rows[6 * i] as usize == from % 64);
        for (which, row) in rows.enumerate() {
            let to = targets[2 * from + which];
            if to != 65535 && !never_holds(model::row(&new.rows, row).2) {
                records.push(format!("{from},{row},{to},{}", marks[to as usize]));
            }
        }
    }
    records
}

// ---- the test of two assumptions, by differences

/// The ways in which x r y can be true, each as the largest x − y and the largest y − x that it allows.
fn ways(r: u32) -> &'static [(Option<i64>, Option<i64>)] {
    match r {
        0 => &[(Some(0), Some(0))],
        1 => &[(Some(-1), None), (None, Some(-1))],
        2 => &[(Some(-1), None)],
        3 => &[(Some(0), None)],
        4 => &[(None, Some(-1))],
        _ => &[(None, Some(0))],
    }
}

/// The assumption that is met exactly where this one is not.
fn opposite(o: Operation) -> Operation {
    Operation { code: o.code / 8 * 8 + [1, 0, 5, 4, 3, 2][(o.code % 8) as usize], ..o }
}

/// How many numbers there are; two's complement reads a number of the upper half, from 2^31 on, as so much less.
const ROUND: i64 = 1 << 32;

/// A variable where it stands among the bounds, and how much it is above what two's complement reads in it.
#[derive(Clone, Copy)]
struct Seat {
    variable: u32,
    at: usize,
    above: i64,
}

/// The largest differences x − y that are allowed, by the seats of x and y; that of 0 is 0.
type Bounds = [[i64; 5]; 5];

/// Whether some values meet all of a few assumptions. Where one of them is signed, each variable is in the lower half or
/// in the upper one, and every choice of halves is tried; where none is, a variable is anywhere.
fn met_together(all: &[Operation]) -> bool {
    let mut variables: Vec<u32> = all.iter().flat_map(|o| rd(*o)).collect();
    variables.sort_unstable();
    variables.dedup();
    let signed = all.iter().any(|o| matches!(o.code, 24..=29 | 40..=45));
    let choices = if signed { 1 << variables.len() } else { 1 };
    (0..choices).any(|upper: u32| {
        const FAR: i64 = 1 << 40;
        let mut bounds = [[FAR; 5]; 5];
        let mut seats = Vec::new();
        for (at, &variable) in (1..).zip(&variables) {
            let (least, most, above) = match (signed, upper >> (at - 1) & 1) {
                (false, _) => (0, ROUND - 1, 0),
                (true, 0) => (0, ROUND / 2 - 1, 0),
                (true, _) => (ROUND / 2, ROUND - 1, ROUND),
            };
            bounds[at][0] = most;
            bounds[0][at] = -least;
            seats.push(Seat { variable, at, above });
        }
        met_within(all, bounds, &seats)
    })
}

/// Whether some values within bounds meet all of a few assumptions. With every half chosen each of these is a bound on
/// differences of variables and 0 (or a choice of two such bounds), a signed one too; such bounds can be met by whole
/// numbers exactly if no round of differences has a negative bound.
fn met_within(all: &[Operation], mut bounds: Bounds, seats: &[Seat]) -> bool {
    let Some((o, rest)) = all.split_first() else {
        for k in 0..5 {
            for i in 0..5 {
                for j in 0..5 {
                    bounds[i][j] = bounds[i][j].min(bounds[i][k] + bounds[k][j]);
                }
            }
        }
        return (0..5).all(|i| bounds[i][i] >= 0);
    };
    let seat = |v: u32| *seats.iter().find(|s| s.variable == v).unwrap();
    let x = seat(o.a);
    // The assumption compares x with y + c.
    let (y, c) = match o.code {
        16..=21 => (0, o.c as i64),
        24..=29 => (0, x.above + o.c as i64 - if o.c < 1 << 31 { 0 } else { ROUND }),
        32..=37 => (seat(o.b).at, 0),
        _ => (seat(o.b).at, x.above - seat(o.b).above),
    };
    ways(o.code % 8).iter().any(|&(up, down)| {
        let mut bounds = bounds;
        if let Some(d) = up {
            bounds[x.at][y] = bounds[x.at][y].min(c + d);
        }
        if let Some(d) = down {
            bounds[y][x.at] = bounds[y][x.at].min(d - c);
        }
        met_within(rest, bounds, seats)
    })
}

/// Whether an operation is an assumption that no values meet.
pub fn never_holds(o: Operation) -> bool {
    model::is_assumption(o) && !met_together(&[o])
}

/// 0 where no values meet the first, 1 where all that meet it meet the second, else 2.
pub fn implies(f: Operation, g: Operation) -> u32 {
    if !met_together(&[f]) {
        0
    } else if !met_together(&[f, opposite(g)]) {
        1
    } else {
        2
    }
}
