//! The checker once more, in plain Rust, written from "One aligned step", "The checker" and "Who can cause a refusal"
//! of document 01, with the editions of document 02 (#104), and following a run. It shares nothing with the proved
//! code, its step nothing with the detector of `algorithms`, and what it does not look at (#101) is found by the trial
//! of values.

use crate::texts::{self, Refusal};
use crate::{algorithms, model, Chart, Operation, EDITIONS};

/// A record, whoever made it: any start and any lengths.
#[derive(Clone, Debug, PartialEq, Eq)]
pub struct Record {
    pub start: u32,
    pub marks: Vec<u8>,
    pub targets: Vec<u16>,
    pub sets: Vec<u64>,
}

impl From<algorithms::Built> for Record {
    fn from(built: algorithms::Built) -> Record {
        Record { start: built.start, marks: built.marks, targets: built.targets, sets: built.sets }
    }
}

/// A row: its number, where it leads, its operation.
type Row = (usize, u32, Operation);

/// The rows that leave each place.
fn rows_by_place(chart: &Chart) -> Vec<Vec<Row>> {
    let mut all = vec![Vec::new(); chart.places as usize];
    for i in 0..chart.rows.len() / 6 {
        let (from, to, o) = model::row(&chart.rows, i);
        all[from as usize].push((i, to, o));
    }
    all
}

fn bit(v: u32) -> u64 {
    1 << v
}

fn read_by(o: Operation) -> u64 {
    match o.code {
        0 => 0,
        1 | 2 | 5 => bit(o.b),
        3 | 4 => bit(o.b) | bit(o.c),
        16..=21 | 24..=29 => bit(o.a),
        _ => bit(o.a) | bit(o.b),
    }
}

/// What a step is made by: the edition, the old rows by place, and both alarms.
struct Steps {
    edition: u32,
    old: Vec<Vec<Row>>,
    old_alarm: u32,
    new_alarm: u32,
}

impl Steps {
    /// "One aligned step": the old place it comes to and its set, none where it fails.
    fn step(&self, p: u32, set: u64, row: Row) -> Option<(u32, u64)> {
        let (_, q2, o) = row;
        let (to, set) = if model::is_assignment(o) { self.assigned(p, set, o) } else { self.assumed(p, set, o)? };
        if q2 != self.new_alarm || to == self.old_alarm {
            return Some((to, set));
        }
        // "before a step fails only for meeting the new alarm without the old one, old assignments are followed from
        // the old place it came to"
        let saved = if self.edition == 2 { self.followed(to, set) } else { None };
        saved.filter(|(to, _)| *to == self.old_alarm)
    }

    /// A new assignment: an equal old row, in edition 2 else one that writes the same variable, else none.
    fn assigned(&self, p: u32, set: u64, o: Operation) -> (u32, u64) {
        let here = &self.old[p as usize];
        if let Some(&(_, p2, _)) = here.iter().find(|r| r.2 == o) {
            return (p2, if set & read_by(o) != 0 { set | bit(o.a) } else { set & !bit(o.a) });
        }
        let writes_it = |r: &&Row| self.edition == 2 && model::is_assignment(r.2) && r.2.a == o.a;
        (here.iter().find(writes_it).map_or(p, |r| r.1), set | bit(o.a))
    }

    /// A new assumption, after the old assignments.
    fn assumed(&self, p: u32, set: u64, o: Operation) -> Option<(u32, u64)> {
        let (p, set) = self.followed(p, set)?;
        let here = if p == self.old_alarm { &[] } else { &self.old[p as usize][..] };
        let equal = here.iter().find(|r| r.2 == o);
        match equal.or_else(|| here.iter().find(|r| algorithms::implies(o, r.2) == 1)) {
            Some(&(_, _, e)) if set & (read_by(o) | read_by(e)) != 0 => None,
            Some(&(_, p2, _)) => Some((p2, set)),
            None => Some((p, set)),
        }
    }

    /// Where the old assignments from a place end, and the set with what they write; none where they come to a place
    /// twice.
    fn followed(&self, mut p: u32, mut set: u64) -> Option<(u32, u64)> {
        let mut come_to = vec![p];
        while p != self.old_alarm {
            let [(_, p2, e)] = self.old[p as usize][..] else { break };
            if !model::is_assignment(e) {
                break;
            }
            set |= bit(e.a);
            p = p2;
            if come_to.contains(&p) {
                return None;
            }
            come_to.push(p);
        }
        Some((p, set))
    }
}

/// Whether the checker of an edition passes a record, else its refusal.
pub fn check(edition: u32, old: &Chart, new: &Chart, record: &Record) -> Result<(), Refusal> {
    let lengths =
        [record.marks.len() == 4160, record.targets.len() == 8192, record.sets.len() == 4096, old.rows.len() % 6 == 0, new.rows.len() % 6 == 0];
    if lengths.contains(&false) || !EDITIONS.contains(&edition) {
        return Err((21, 0, 0));
    }
    for (which, chart) in [old, new].into_iter().enumerate() {
        let (number, position) = texts::fault(chart);
        if number != 0 {
            return Err((number, which as u32, position));
        }
    }
    if !in_form(old, new, record) {
        return Err((31, 0, 0));
    }
    match broken_rule(edition, old, new, record) {
        Some(position) => Err((32, 0, position)),
        None => Ok(()),
    }
}

/// No refusal 31 is due.
fn in_form(old: &Chart, new: &Chart, record: &Record) -> bool {
    let mark_fits = |(node, &mark): (usize, &u8)| {
        let (p, q) = (node as u32 / 64, node as u32 % 64);
        if node < 4096 {
            mark == 0 || (p < old.places && q < new.places && [1, 3, 4].contains(&mark))
        } else {
            mark == 0 || (q < new.places && mark == 2)
        }
    };
    (record.start == 0 || record.start == 4096)
        && record.marks.iter().enumerate().all(mark_fits)
        && record.targets.iter().all(|&t| t < 4160 || t == 65535)
}

/// The position of refusal 32.
fn broken_rule(edition: u32, old: &Chart, new: &Chart, record: &Record) -> Option<usize> {
    let marks = &record.marks;
    let started = if record.start == 0 { marks[0] == 1 && (new.alarm != 0 || old.alarm == 0) } else { marks[4096] == 2 };
    if !started {
        return Some(8192);
    }
    let steps = Steps { edition, old: rows_by_place(old), old_alarm: old.alarm, new_alarm: new.alarm };
    let new_rows = rows_by_place(new);
    let never = never_held(new);
    for pair in (0..4096).filter(|&n| marks[n] != 0) {
        let (p, q) = (pair as u32 / 64, pair % 64);
        for (which, &row) in new_rows[q].iter().enumerate() {
            // "refusal 32 ignores its target", by either rule and at the old alarm too.
            if never[row.0] {
                continue;
            }
            let index = 2 * pair + which;
            let target = record.targets[index] as usize;
            let q2 = row.1 as usize;
            let is_kept = target == 4096 + q2 && marks[target] == 2;
            let leads = if p == old.alarm {
                target == 65535 || is_kept || (target < 4096 && target % 64 == q2 && marks[target] != 0)
            } else {
                is_kept
                    || steps
                        .step(p, record.sets[pair], row)
                        .is_some_and(|(p2, set)| target == 64 * p2 as usize + q2 && marks[target] != 0 && set & !record.sets[target] == 0)
            };
            let allowed: &[u8] = if marks[pair] == 1 { &[1, 2, 3] } else { &[3, 4] };
            if !leads || (target != 65535 && !allowed.contains(&marks[target])) {
                return Some(index);
            }
        }
    }
    None
}

/// By row of a chart: whether it never holds.
pub fn never_held(chart: &Chart) -> Vec<bool> {
    (0..chart.rows.len() / 6).map(|row| model::never_holds(model::row(&chart.rows, row).2)).collect()
}

/// Whether a list of rows of the new chart, given by their numbers, is covered by a record. "readers of a record take
/// 65535" for the target of a row that never holds, whatever stands there.
pub fn covers(new: &Chart, record: &Record, rows: &[usize]) -> bool {
    follows(new, record, rows, |row| model::never_holds(model::row(&new.rows, row).2))
}

/// The same for one who takes the targets as they stand: no matter for a run, which takes no row that never holds.
pub fn covers_as_it_stands(new: &Chart, record: &Record, run: &[usize]) -> bool {
    follows(new, record, run, |_| false)
}

/// Whether rows lead to a node with mark 3, those that lead nowhere said by their number.
fn follows(new: &Chart, record: &Record, rows: &[usize], nowhere: impl Fn(usize) -> bool) -> bool {
    let mut node = record.start as usize;
    if record.marks[node] == 3 {
        return true;
    }
    for &row in rows {
        if node >= 4096 || record.marks[node] != 1 || nowhere(row) {
            return false;
        }
        let from = new.rows[6 * row];
        let first = (0..row).find(|i| new.rows[6 * i] == from).unwrap_or(row);
        let target = record.targets[2 * node + row - first];
        if target == 65535 {
            return false;
        }
        node = target as usize;
        if record.marks[node] == 3 {
            return true;
        }
    }
    false
}

/// What a chart does from given values.
pub struct Run {
    /// The rows that it takes, by number.
    pub rows: Vec<usize>,
    /// They reach its alarm.
    pub reached: bool,
    /// One of them subtracted more than there was, and so stopped at 0 (code 4).
    pub stopped: bool,
    /// One of them is a signed assumption which the same values, read unsigned, do not meet.
    pub signed: bool,
}

/// The run of a chart from given values, of at most so many rows. A faultless chart lets at most one row go on from
/// any place and values.
pub fn run(chart: &Chart, values: &[u32; 64], most: usize) -> Run {
    let rows = rows_by_place(chart);
    let (mut place, mut values) = (0, *values);
    let mut run = Run { rows: Vec::new(), reached: chart.alarm == 0, stopped: false, signed: false };
    while run.rows.len() < most {
        let next = rows[place as usize].iter().find(|r| model::is_assignment(r.2) || model::holds(r.2, &values));
        let Some(&(i, to, o)) = next else { break };
        let too_much = o.code == 4 && values[o.b as usize] < values[o.c as usize];
        run.signed |= model::is_signed(o) && !model::holds(Operation { code: o.code - 8, ..o }, &values);
        if model::is_assignment(o) {
            values[o.a as usize] = model::value(o, &values);
        }
        run.stopped |= too_much && values[o.a as usize] == 0;
        place = to;
        run.rows.push(i);
        run.reached |= place == chart.alarm;
    }
    run
}
