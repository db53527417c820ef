//! Pairs of faultless charts drawn at random, of the sorts that the builder meets, and records spoilt at random.

use crate::checker::Record;
use crate::model::{self, HALF};
use crate::{texts, Chart, Operation, Random};

#[derive(Clone, Copy, Debug, PartialEq, Eq)]
pub enum Sort {
    /// Two graphs that have nothing to do with each other.
    Graphs,
    /// A graph and the same with a few rows changed.
    AmendedGraphs,
    /// A structured procedure and the same with a few statements changed.
    Procedures,
    /// A procedure, amended or not, with its places renumbered and rows of a place turned round.
    Renumbered,
    /// 64 places, one row each or none.
    Sparse,
    /// 64 places and 128 rows, all of them assumptions.
    Dense,
    /// 64 places whose pairs are nearly all visited, with few or many sets.
    Wide,
    /// A small graph and the same with assignments that write the same otherwise, and often an alarm that is met
    /// sooner: what the editions differ about.
    Rewritten,
}

pub const SORTS: [Sort; 8] = [
    Sort::Graphs,
    Sort::AmendedGraphs,
    Sort::Procedures,
    Sort::Renumbered,
    Sort::Sparse,
    Sort::Dense,
    Sort::Wide,
    Sort::Rewritten,
];

pub fn pair(random: &mut Random, sort: Sort) -> (Chart, Chart) {
    let (old, new) = match sort {
        Sort::Graphs => {
            let taste = Taste::any(random);
            let most = random.one_of(&[4, 20, 64]);
            let (m, n) = (1 + random.below(most) as u32, 1 + random.below(most) as u32);
            let choices = random.one_of(&[3, 10, 40]);
            let old = graph(random, taste, m, choices);
            (old, graph(random, taste, n, choices))
        }
        Sort::AmendedGraphs => {
            let taste = Taste::any(random);
            let n = random.one_of(&[2, 4, 8, 16, 32, 64]);
            let choices = random.one_of(&[3, 10, 40]);
            let old = graph(random, taste, n, choices);
            let new = amended_graph(random, taste, &old);
            (old, new)
        }
        Sort::Procedures => {
            let size = random.one_of(&[8, 16, 32, 64]);
            procedures(random, size, Orders::Both)
        }
        Sort::Renumbered => {
            let size = random.one_of(&[8, 16, 32, 64]);
            let (old, mut new) = procedures(random, size, Orders::Both);
            if random.below(2) == 0 {
                new = old.clone();
            }
            (old, renumbered(random, &new))
        }
        Sort::Sparse => {
            let taste = Taste::both(random.one_of(&[2, 8]), 3);
            let old = graph(random, taste, 64, 0);
            (old.clone(), amended_graph(random, taste, &old))
        }
        Sort::Dense => {
            let taste = Taste::both(2, 2);
            let old = graph(random, taste, 64, ALL);
            let new = if random.below(2) == 0 { graph(random, taste, 64, ALL) } else { amended_graph(random, taste, &old) };
            (old, new)
        }
        Sort::Wide => {
            let (assigned, asked) = random.one_of(&[(0, 0), (5, 0), (30, 0), (10, 5), (30, 5)]);
            let mut both = [wide(random, 64, assigned, asked), wide(random, 64, assigned, asked)];
            for chart in &mut both {
                if random.below(3) == 0 {
                    compare_in_the_other_order(chart);
                }
                if random.below(4) == 0 {
                    bar_some_rows(random, chart);
                }
            }
            let [old, new] = both;
            (old, new)
        }
        Sort::Rewritten => {
            let taste = Taste::both(random.one_of(&[1, 2, 3]), random.one_of(&[1, 3]));
            let places = random.one_of(&[3, 4, 6, 10]);
            let choices = random.one_of(&[3, 10]);
            let old = graph(random, taste, places, choices);
            let new = if random.below(2) == 0 { old.clone() } else { amended_graph(random, taste, &old) };
            (old, rewritten(random, taste, &new))
        }
    };
    for chart in [&old, &new] {
        assert_eq!(texts::fault(chart), (0, 0), "a drawn chart is faulty: {chart:?}");
    }
    (old, new)
}

/// In which orders comparisons are drawn.
#[derive(Clone, Copy, PartialEq, Eq)]
pub enum Orders {
    Unsigned,
    Both,
}

/// Which constants and comparisons operations draw from, and how many variables: the fewer, the more of them meet.
#[derive(Clone, Copy)]
struct Taste {
    variables: u64,
    constants: &'static [u32],
    orders: Orders,
}

impl Taste {
    fn any(random: &mut Random) -> Taste {
        Taste::both(random.one_of(&[1, 2, 3, 8, 64]), random.one_of(&[1, 3, 5, CONSTANTS.len()]))
    }

    fn both(variables: u64, constants: usize) -> Taste {
        Taste { variables, constants: &CONSTANTS[..constants], orders: Orders::Both }
    }

    /// The codes of comparisons.
    fn codes(self) -> &'static [u32] {
        match self.orders {
            Orders::Unsigned => &model::CODES[6..18],
            Orders::Both => &model::CODES[6..],
        }
    }
}

/// The constants, the ends of both orders and their neighbours among them; a taste takes the first few.
const CONSTANTS: [u32; 12] = [1, 0, u32::MAX, HALF, HALF - 1, 2, 3, 99, 100, 101, u32::MAX - 1, HALF + 1];

/// Those of charts without signed comparisons.
const UNSIGNED_CONSTANTS: [u32; 10] = [1, 0, u32::MAX, 2, 3, 99, 100, 101, u32::MAX - 1, HALF];

fn operation(random: &mut Random, taste: Taste, codes: &[u32]) -> Operation {
    let constant = random.one_of(taste.constants);
    let (a, b, c) = (random.below(taste.variables) as u32, random.below(taste.variables) as u32, random.below(taste.variables) as u32);
    let code = random.one_of(codes);
    match code {
        0 | 16..=21 | 24..=29 => Operation { code, a, b: 0, c: constant },
        1 | 5 | 32..=37 | 40..=45 => Operation { code, a, b, c: 0 },
        2 => Operation { code, a, b, c: constant },
        _ => Operation { code, a, b, c },
    }
}

fn assignment(random: &mut Random, taste: Taste) -> Operation {
    operation(random, taste, &model::CODES[..6])
}

/// The operation of a row that is alone at its place: an assignment, or where both orders are drawn now and then an
/// assumption that no values meet.
fn alone(random: &mut Random, taste: Taste) -> Operation {
    if taste.orders == Orders::Both && random.below(60) == 0 {
        impossible(random, taste)
    } else {
        assignment(random, taste)
    }
}

/// A signed assumption and an unsigned one of one variable, of which exactly one holds, each as its code and constant:
/// one half of the numbers beside the other, or one number beside all others.
const MIXED: [[(u32, u32); 2]; 8] = [
    [(26, 0), (18, HALF)],
    [(27, u32::MAX), (19, HALF - 1)],
    [(28, u32::MAX), (20, HALF - 1)],
    [(29, 0), (21, HALF)],
    [(26, HALF + 1), (17, HALF)],
    [(26, HALF - 1), (16, HALF - 1)],
    [(25, 0), (18, 1)],
    [(24, u32::MAX), (18, u32::MAX)],
];

/// An assumption that no values meet: beyond an end of either order, or of a variable and itself.
fn impossible(random: &mut Random, taste: Taste) -> Operation {
    let a = random.below(taste.variables) as u32;
    let beyond = random.one_of(&[(18, 0), (20, u32::MAX), (26, HALF), (28, HALF - 1)]);
    let itself = random.one_of(&[33, 34, 36, 41, 42, 44]);
    if random.below(2) == 0 {
        Operation { code: beyond.0, a, b: 0, c: beyond.1 }
    } else {
        Operation { code: itself, a, b: a, c: 0 }
    }
}

/// An assumption that no values meet and one that all do, its opposite or that of another one, in either order.
fn barred(random: &mut Random, taste: Taste) -> (Operation, Operation) {
    let never = impossible(random, taste);
    let of = if random.below(2) == 0 { never } else { impossible(random, taste) };
    let always = Operation { code: of.code / 8 * 8 + [1, 0, 5, 4, 3, 2][of.code as usize % 8], ..of };
    random.one_of(&[(never, always), (always, never)])
}

/// Two assumptions of which exactly one holds, now and then of different operands or in different orders, or such that
/// one of them never holds.
fn choice(random: &mut Random, taste: Taste) -> (Operation, Operation) {
    let o = operation(random, taste, taste.codes());
    let (over, r) = (o.code / 8 * 8, o.code as usize % 8);
    let other = Operation { code: over + [1, 0, 5, 4, 3, 2][r], ..o };
    let turned = Operation { code: over + [1, 0, 3, 2, 5, 4][r], a: o.b, b: o.a, c: 0 };
    match (random.below(12), o.code) {
        (0, 32..=37 | 40..=45) => (o, turned),
        (1, 18) if o.c > 0 => (o, Operation { code: 20, c: o.c - 1, ..o }),
        (1, 26) if o.c != HALF => (o, Operation { code: 28, c: o.c.wrapping_sub(1), ..o }),
        (2, _) => (Operation { code: 18, a: o.a, b: 0, c: 0 }, Operation { code: 35, a: o.b, b: o.b, c: 0 }),
        _ if taste.orders == Orders::Unsigned => (o, other),
        (3, _) => (Operation { code: 26, a: o.a, b: 0, c: HALF }, Operation { code: 43, a: o.b, b: o.b, c: 0 }),
        (4, _) => {
            let [f, g] = random.one_of(&MIXED).map(|(code, c)| Operation { code, a: o.a, b: 0, c });
            random.one_of(&[(f, g), (g, f)])
        }
        (5 | 6, _) if r < 2 => (o, in_the_other_order(other)),
        (7, _) => barred(random, taste),
        _ => (o, other),
    }
}

/// Bars one of the two rows, by v0 alone, at a few places of a wide chart.
fn bar_some_rows(random: &mut Random, chart: &mut Chart) {
    let taste = Taste::both(1, 1);
    for i in 1..chart.rows.len() / 6 {
        if chart.rows[6 * i] == chart.rows[6 * i - 6] && random.below(16) == 0 {
            let (f, g) = barred(random, taste);
            set_operation(chart, i - 1, f);
            set_operation(chart, i, g);
        }
    }
}

fn set_operation(chart: &mut Chart, row: usize, o: Operation) {
    chart.rows[6 * row + 2..6 * row + 6].copy_from_slice(&[o.code, o.a, o.b, o.c]);
}

/// Turns every comparison of a wide chart, which has v < 5 beside v ≥ 5 alone, to the other order.
fn compare_in_the_other_order(chart: &mut Chart) {
    for row in chart.rows.chunks_exact_mut(6).filter(|row| row[2] > 5) {
        row[2] ^= 8;
    }
}

/// The same comparison in the other order: 16 becomes 24, and 24 becomes 16.
fn in_the_other_order(o: Operation) -> Operation {
    Operation { code: o.code ^ 8, ..o }
}

/// Another choice in place of f and g; or, where both orders are drawn, now and then f and g in the other one, if still
/// exactly one of them holds.
fn instead(random: &mut Random, taste: Taste, another: (Operation, Operation), f: Operation, g: Operation) -> (Operation, Operation) {
    let (f2, g2) = (in_the_other_order(f), in_the_other_order(g));
    if taste.orders == Orders::Both && random.below(2) == 0 && texts::opposite(f2, g2) {
        (f2, g2)
    } else {
        another
    }
}

/// Nothing but choices.
const ALL: u64 = u64::MAX;

/// Per place, of ten and so many: no row, one assumption, an assignment (eight of them, now and then an assumption that
/// never holds), or a choice of two assumptions.
fn graph(random: &mut Random, taste: Taste, places: u32, choices: u64) -> Chart {
    let mut rows = Vec::new();
    for from in 0..places {
        let to = [random.below(places as u64) as u32, random.below(places as u64) as u32];
        match if choices == ALL { ALL } else { random.below(10 + choices) } {
            0 => {}
            1 => put(&mut rows, from, to[0], operation(random, taste, taste.codes())),
            2..=9 => put(&mut rows, from, to[0], alone(random, taste)),
            _ => {
                let (f, g) = choice(random, taste);
                put(&mut rows, from, to[0], f);
                put(&mut rows, from, to[1], g);
            }
        }
    }
    if rows.is_empty() {
        put(&mut rows, 0, 0, assignment(random, taste));
    }
    Chart { places, alarm: random.below(places as u64) as u32, rows }
}

fn put(rows: &mut Vec<u32>, from: u32, to: u32, o: Operation) {
    rows.extend([from, to, o.code, o.a, o.b, o.c]);
}

/// One to three changes: another assignment, another choice, another order, another place to go, a place's rows turned
/// round, another alarm.
fn amended_graph(random: &mut Random, taste: Taste, old: &Chart) -> Chart {
    let mut new = old.clone();
    for _ in 0..1 + random.below(3) {
        let i = random.below(new.rows.len() as u64 / 6) as usize;
        let (from, _, o) = model::row(&new.rows, i);
        let first = (0..=i).find(|j| new.rows[6 * j] == from).unwrap();
        let both = new.rows.get(6 * first + 6) == Some(&from);
        match random.below(6) {
            0 => new.rows[6 * i + 1] = random.below(new.places as u64) as u32,
            1 if both => {
                let [f, g] = [first, first + 1].map(|j| model::row(&new.rows, j).2);
                let another = choice(random, taste);
                let (f, g) = instead(random, taste, another, f, g);
                set_operation(&mut new, first, f);
                set_operation(&mut new, first + 1, g);
            }
            2 if both => {
                for k in 0..6 {
                    new.rows.swap(6 * first + k, 6 * first + 6 + k);
                }
            }
            3 if random.below(4) == 0 => new.alarm = random.below(new.places as u64) as u32,
            _ if model::is_assignment(o) => {
                let o = alone(random, taste);
                set_operation(&mut new, i, o);
            }
            4 if !both && taste.orders == Orders::Both => new.rows[6 * i + 2] = in_the_other_order(o).code,
            _ => {}
        }
    }
    new
}

/// A third of the assignments write their variable otherwise, and up to twice the alarm moves to before an assignment
/// that leads to it.
fn rewritten(random: &mut Random, taste: Taste, chart: &Chart) -> Chart {
    let mut new = chart.clone();
    for row in 0..new.rows.len() / 6 {
        let o = model::row(&new.rows, row).2;
        if model::is_assignment(o) && random.below(3) == 0 {
            let other = assignment(random, taste);
            set_operation(&mut new, row, Operation { a: o.a, ..other });
        }
    }
    for _ in 0..random.one_of(&[0, 1, 1, 2]) {
        let rows = (0..new.rows.len() / 6).map(|i| model::row(&new.rows, i));
        let before = rows.filter(|(_, to, o)| *to == new.alarm && model::is_assignment(*o)).map(|(from, ..)| from);
        let before: Vec<u32> = before.collect();
        if !before.is_empty() {
            new.alarm = random.one_of(&before);
        }
    }
    new
}

// ---- structured procedures

#[derive(Clone)]
enum Statement {
    /// An assignment, or an assumption that never holds.
    Alone(Operation),
    /// The first assumption leads to the alarm.
    Check(Operation, Operation),
    If(Operation, Operation, Vec<Statement>, Vec<Statement>),
    While(Operation, Operation, Vec<Statement>),
}

fn statement(random: &mut Random, taste: Taste, depth: u32) -> Statement {
    let (f, g) = choice(random, taste);
    match random.below(if depth == 0 { 6 } else { 9 }) {
        0 => Statement::Check(f, g),
        1..=5 => Statement::Alone(alone(random, taste)),
        6 | 7 => Statement::If(f, g, block(random, taste, depth - 1), block(random, taste, depth - 1)),
        _ => Statement::While(f, g, block(random, taste, depth - 1)),
    }
}

fn block(random: &mut Random, taste: Taste, depth: u32) -> Vec<Statement> {
    (0..random.below(4)).map(|_| statement(random, taste, depth)).collect()
}

/// The places that a block takes.
fn places_of(block: &[Statement]) -> u32 {
    block
        .iter()
        .map(|s| match s {
            Statement::Alone(_) | Statement::Check(..) => 1,
            Statement::If(_, _, yes, no) => 3 + places_of(yes) + places_of(no),
            Statement::While(_, _, body) => 2 + places_of(body),
        })
        .sum()
}

/// Changes one statement somewhere in a block.
fn amend(random: &mut Random, taste: Taste, block: &mut Vec<Statement>) {
    if block.is_empty() || random.below(8) == 0 {
        let at = random.below(block.len() as u64 + 1) as usize;
        let added = statement(random, taste, 0);
        return block.insert(at, added);
    }
    let at = random.below(block.len() as u64) as usize;
    if random.below(8) == 0 {
        block.remove(at);
        return;
    }
    let another = choice(random, taste);
    match &mut block[at] {
        Statement::Alone(o) => *o = alone(random, taste),
        Statement::Check(f, g) => (*f, *g) = instead(random, taste, another, *f, *g),
        Statement::If(f, g, yes, no) => match random.below(4) {
            0 => (*f, *g) = instead(random, taste, another, *f, *g),
            1 => amend(random, taste, yes),
            _ => amend(random, taste, no),
        },
        Statement::While(f, g, body) => match random.below(4) {
            0 => (*f, *g) = instead(random, taste, another, *f, *g),
            _ => amend(random, taste, body),
        },
    }
}

/// The chart of a procedure: start 0, alarm 1.
fn chart_of(procedure: &[Statement]) -> Chart {
    const IDLE: Operation = Operation { code: 32, a: 0, b: 0, c: 0 };
    struct Laid {
        places: u32,
        rows: Vec<(u32, u32, Operation)>,
    }
    impl Laid {
        fn place(&mut self) -> u32 {
            self.places += 1;
            self.places - 1
        }
        /// Lays a block from a place; the place where it ends.
        fn lay(&mut self, block: &[Statement], mut at: u32) -> u32 {
            for s in block {
                at = match s {
                    Statement::Alone(o) => {
                        let end = self.place();
                        self.rows.push((at, end, *o));
                        end
                    }
                    Statement::Check(f, g) => {
                        let end = self.place();
                        self.rows.extend([(at, 1, *f), (at, end, *g)]);
                        end
                    }
                    Statement::If(f, g, yes, no) => {
                        let sides = [self.place(), self.place()];
                        self.rows.extend([(at, sides[0], *f), (at, sides[1], *g)]);
                        let ends = [self.lay(yes, sides[0]), self.lay(no, sides[1])];
                        let end = self.place();
                        self.rows.extend(ends.map(|e| (e, end, IDLE)));
                        end
                    }
                    Statement::While(f, g, body) => {
                        let (inside, end) = (self.place(), self.place());
                        self.rows.extend([(at, inside, *f), (at, end, *g)]);
                        let back = self.lay(body, inside);
                        self.rows.push((back, at, IDLE));
                        end
                    }
                };
            }
            at
        }
    }
    let mut laid = Laid { places: 2, rows: Vec::new() };
    laid.lay(procedure, 0);
    if laid.rows.is_empty() {
        laid.rows.push((0, 0, IDLE));
    }
    laid.rows.sort_by_key(|r| r.0);
    let mut rows = Vec::new();
    for (from, to, o) in laid.rows {
        put(&mut rows, from, to, o);
    }
    Chart { places: laid.places, alarm: 1, rows }
}

/// A procedure of nearly so many places, and the same with one to three amendments, each of at most one place more.
pub fn procedures(random: &mut Random, places: u32, orders: Orders) -> (Chart, Chart) {
    let all: &'static [u32] = if orders == Orders::Both { &CONSTANTS } else { &UNSIGNED_CONSTANTS };
    let taste = Taste { variables: random.one_of(&[2, 4, 8, 20]), constants: random.one_of(&[&all[..3], all]), orders };
    let mut procedure = Vec::new();
    while places_of(&procedure) < places - 5 {
        let next = statement(random, taste, 3);
        if places_of(&procedure) + places_of(std::slice::from_ref(&next)) <= places - 5 {
            procedure.push(next);
        }
    }
    let mut new = procedure.clone();
    for _ in 0..1 + random.below(3) {
        amend(random, taste, &mut new);
    }
    (chart_of(&procedure), chart_of(&new))
}

/// The same chart with its places renumbered, the start apart, and the rows of some places turned round.
pub fn renumbered(random: &mut Random, chart: &Chart) -> Chart {
    let mut names: Vec<u32> = (0..chart.places).collect();
    for i in (2..names.len()).rev() {
        names.swap(i, 1 + random.below(i as u64) as usize);
    }
    let mut rows: Vec<(u32, u64, usize)> = (0..chart.rows.len() / 6).map(|i| (names[chart.rows[6 * i] as usize], random.below(2), i)).collect();
    rows.sort();
    let renamed = rows.iter().flat_map(|&(from, _, i)| {
        let (_, to, o) = model::row(&chart.rows, i);
        [from, names[to as usize], o.code, o.a, o.b, o.c]
    });
    Chart { places: chart.places, alarm: names[chart.alarm as usize], rows: renamed.collect() }
}

/// A chart whose places nearly all ask the same question, of a variable that nobody writes, and go on or anywhere, each place to another
/// one: with another such chart, nearly all pairs are visited. So many in a hundred of its places write a variable, and sets grow; so
/// many of the others ask of a variable that may be in a set, and places become kept. The alarm is out of reach.
pub fn wide(random: &mut Random, places: u32, assigned: u64, asked: u64) -> Chart {
    let rest = places - 1;
    let mut anywhere: Vec<u32> = (0..rest).collect();
    for i in (1..anywhere.len()).rev() {
        anywhere.swap(i, random.below(i as u64 + 1) as usize);
    }
    let mut rows = Vec::new();
    for from in 0..rest {
        let on = (from + 1) % rest;
        if from > 0 && random.below(100) < assigned {
            let a = 1 + random.below(if asked > 0 { 5 } else { 63 }) as u32;
            put(&mut rows, from, on, Operation { code: 0, a, b: 0, c: 7 });
        } else {
            let a = if random.below(100) < asked { 1 + random.below(5) as u32 } else { 0 };
            put(&mut rows, from, on, Operation { code: 18, a, b: 0, c: 5 });
            put(&mut rows, from, anywhere[from as usize], Operation { code: 21, a, b: 0, c: 5 });
        }
    }
    Chart { places, alarm: rest, rows }
}

/// One change of a record: mostly of nodes that are there, now and then anything anywhere.
pub fn spoil(random: &mut Random, record: &mut Record) {
    let present: Vec<usize> = (0..4160).filter(|&n| record.marks[n] != 0).collect();
    let node = if present.is_empty() || random.below(8) == 0 { random.below(4160) as usize } else { random.one_of(&present) };
    let index = 2 * (node % 4096) + random.below(2) as usize;
    match random.below(16) {
        0 => record.start = random.one_of(&[0, 4096, 0, 4096, 1, 65, 4097, 65535, u32::MAX]),
        1..=4 => record.marks[node] = random.one_of(&[0, 1, 2, 3, 4, 1, 3, 4, 5, 255]),
        5 => record.marks[node] = if node < 4096 { random.one_of(&[1, 3, 4]) } else { 2 },
        6 => record.marks[4096 + node % 64] = 2,
        // A target that is kept: mark and target change together.
        7 | 8 => {
            let t = record.targets[index] as usize % 4096 % 64 + 4096;
            record.targets[index] = t as u16;
            record.marks[t] = 2;
        }
        9 => record.targets[index] = 65535,
        10 => record.targets[index] = random.below(4160) as u16,
        11 if !present.is_empty() => record.targets[index] = random.one_of(&present) as u16,
        12 => record.targets[index] = random.one_of(&[4159, 4160, 65534, 65535, 4096]),
        13 => record.sets[node % 4096] |= 1 << random.below(64),
        14 => record.sets[node % 4096] &= random.next(),
        _ => record.sets[node % 4096] = random.one_of(&[0, u64::MAX, 1, 5]),
    }
}
