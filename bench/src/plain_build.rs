//! The builder and the checker in plain Rust, over the same buffers, written for speed and not for proof: rows found by an index of places,
//! pairs that are there and pairs that wait in bit sets of a word for each old place. There are three builders:
//! - over the same buffers: between turns marks and waiting say who is in the graph, kept and waiting, as those of the proved code do;
//! - with sets instead: marks and waiting are left alone until the end, and only the bit sets know;
//! - with lists: the same, and open marks are propagated over lists of predecessors, which takes 8 KiB more on the stack and two lists on the
//!   heap. The two others pass over the pairs that are not open yet, which needs no memory but the lent buffers and those words.
//!
//! What is done for every row is compiled once for each edition, so that none is slower for knowing the other.

use crate::plain::judge;
use picker_tests::checker::Record;
use picker_tests::conditions::Buffers;
use picker_tests::{Chart, EDITIONS};
use std::slice::ChunksExact;

/// Number, chart and position.
pub type Refusal = (u32, u32, usize);

/// Of a build: start and counts of marks 1, 2 and 3.
pub type Answer = Result<[u32; 4], Refusal>;

/// A build in an edition, of the old chart and the new one.
pub type Builder = fn(u32, &Chart, &Chart, &mut Buffers) -> Answer;

/// A chart with the first row of each place.
struct Index<'a> {
    rows: &'a [u32],
    first: [u8; 65],
    alarm: usize,
}

impl<'a> Index<'a> {
    fn new(chart: &'a Chart) -> Index<'a> {
        let mut first = [0u8; 65];
        for row in chart.rows.chunks_exact(6) {
            first[row[0] as usize + 1] += 1;
        }
        for p in 0..64 {
            first[p + 1] += first[p];
        }
        Index { rows: &chart.rows, first, alarm: chart.alarm as usize }
    }

    /// The rows of a place: none, one or two.
    #[inline]
    fn rows(&self, place: usize) -> ChunksExact<'a, u32> {
        self.rows[6 * self.first[place] as usize..6 * self.first[place + 1] as usize].chunks_exact(6)
    }
}

pub fn judged(edition: u32, old: &Chart, new: &Chart) -> Result<(), Refusal> {
    if !EDITIONS.contains(&edition) || old.rows.len() % 6 != 0 || new.rows.len() % 6 != 0 {
        return Err((21, 0, 0));
    }
    for (which, chart) in [old, new].into_iter().enumerate() {
        let (number, position) = judge(chart.places, chart.alarm, &chart.rows);
        if number != 0 {
            return Err((number, which as u32, position));
        }
    }
    Ok(())
}

// ---- two assumptions

/// Which of below (1), at (2) and above (4) a relation lets through: the code's remainder by 8, of which 6 and 7 are none.
const LETS: [u8; 8] = [2, 5, 1, 3, 4, 6, 0, 0];

/// The code of the assumption that holds exactly where one with this code does not, of the same operands and in the same order.
#[inline]
pub fn opposite(code: u32) -> u32 {
    const OTHERWISE: [u32; 8] = [1, 0, 5, 4, 3, 2, 6, 7];
    code & !7 | OTHERWISE[(code & 7) as usize]
}

/// The bit that a code's order turns round: with it turned on both sides, signed values compare as unsigned ones.
#[inline]
fn turn(o: &[u32]) -> u32 {
    (o[2] & 8) << 28
}

/// Which of them there are: for the comparison of a variable with itself or with a constant at an end of the order, not all.
#[inline]
fn there(o: &[u32]) -> u8 {
    if o[2] >= 32 {
        if o[3] == o[4] {
            2
        } else {
            7
        }
    } else {
        let c = o[5] ^ turn(o);
        (c > 0) as u8 | 2 | ((c < u32::MAX) as u8) << 2
    }
}

/// The only value that a comparison with a constant lets through, if there is one.
fn sole(lets: u8, o: &[u32]) -> Option<u32> {
    let c = o[5] ^ turn(o);
    match (lets, c) {
        (2, _) => Some(c),
        (3, 0) | (1, 1) => Some(0),
        (6, u32::MAX) | (4, 4294967294) => Some(u32::MAX),
        _ => None,
    }
    .map(|x| x ^ turn(o))
}

fn turned(lets: u8) -> u8 {
    lets & 2 | lets >> 2 | (lets & 1) << 2
}

/// What a comparison of two variables lets through, as the other order has it: equal values are equal there, others below or above.
fn in_the_other_order(lets: u8) -> u8 {
    if lets & 5 == 0 {
        lets
    } else {
        lets | 5
    }
}

/// Whether a row can be taken: other than an assumption that no values meet. With no jump, as it is asked of all rows.
#[inline]
pub fn can_be_taken(row: &[u32]) -> bool {
    let (code, r) = (row[2], row[2] % 8);
    let end = (row[5] ^ turn(row)).wrapping_add(r >> 2) == 0;
    let constant = (code & !15 == 16) & end & (0x14 >> r & 1 == 1);
    let variables = (code & !15 == 32) & (row[3] == row[4]) & (0x16 >> r & 1 == 1);
    !(constant | variables)
}

/// Some values meet the first assumption, and all that do meet the second.
pub fn implied(f: &[u32], g: &[u32]) -> bool {
    let (f_lets, g_lets) = (LETS[(f[2] % 8) as usize], LETS[(g[2] % 8) as usize]);
    let (f_there, g_there) = (there(f), there(g));
    if f_lets & f_there == 0 {
        return false;
    }
    if g_lets & g_there == g_there {
        return true;
    }
    if g_lets & g_there == 0 || f_lets & f_there == f_there {
        return false;
    }
    match (f[2] < 32, g[2] < 32) {
        (true, true) => {
            let lets = |lets: u8, o: &[u32], x: u32| {
                let (x, c) = (x ^ turn(o), o[5] ^ turn(o));
                lets >> (1 + (x > c) as u8 - (x < c) as u8) & 1 == 1
            };
            // Where an answer can change, going up from 0: at the least value of an order, at a constant and after it.
            let points = [0, 1 << 31, f[5], f[5].wrapping_add(1), g[5], g[5].wrapping_add(1)];
            f[3] == g[3] && points.iter().all(|&x| !lets(f_lets, f, x) || lets(g_lets, g, x))
        }
        // The variable that is compared with nothing else has any value: so the other has the least or the greatest one.
        (true, false) => {
            let lets = if f[3] == g[3] {
                g_lets
            } else if f[3] == g[4] {
                turned(g_lets)
            } else {
                return false;
            };
            matches!((lets, sole(f_lets, f).map(|x| x ^ turn(g))), (3, Some(0)) | (6, Some(u32::MAX)))
        }
        (false, true) => {
            let lets = if g[3] == f[3] {
                f_lets
            } else if g[3] == f[4] {
                turned(f_lets)
            } else {
                return false;
            };
            matches!((lets, sole(7 - g_lets, g).map(|x| x ^ turn(f))), (1, Some(u32::MAX)) | (4, Some(0)))
        }
        (false, false) => {
            let lets = if f[3..5] == g[3..5] {
                f_lets
            } else if f[3] == g[4] && f[4] == g[3] {
                turned(f_lets)
            } else {
                return false;
            };
            let lets = if turn(f) == turn(g) { lets } else { in_the_other_order(lets) };
            lets & !g_lets == 0
        }
    }
}

/// Exactly one of two assumptions holds, for all values.
pub fn exactly_one(f: &[u32], g: &[u32]) -> bool {
    let not = |o: &[u32]| [o[0], o[1], opposite(o[2]), o[3], o[4], o[5]];
    let never = |o: &[u32]| LETS[(o[2] % 8) as usize] & there(o) == 0;
    let (not_f, not_g) = (not(f), not(g));
    (never(f) || implied(f, &not_g)) && (never(&not_f) || implied(&not_f, g))
}

// ---- the step

/// The variables that an operation of a faultless chart reads.
#[inline]
pub fn read_by(o: &[u32]) -> u64 {
    match o[2] {
        0 => 0,
        1 | 2 | 5 => 1 << o[4],
        3 | 4 => 1 << o[4] | 1 << o[5],
        16..=31 => 1 << o[3],
        _ => 1 << o[3] | 1 << o[4],
    }
}

/// Where the old assignments from a place end, the set with what they write, and the rows there; none where they come
/// to a place twice.
#[inline(always)]
fn followed<'a>(old: &Index<'a>, mut p: usize, mut set: u64) -> Option<(usize, u64, ChunksExact<'a, u32>)> {
    let mut come_to = 1u64 << p;
    let mut here = old.rows(p);
    while p != old.alarm {
        match here.clone().next() {
            Some(e) if e[2] < 16 => {
                set |= 1 << e[3];
                p = e[1] as usize;
                if come_to >> p & 1 == 1 {
                    return None;
                }
                come_to |= 1 << p;
                here = old.rows(p);
            }
            _ => break,
        }
    }
    Some((p, set, here))
}

/// The old place that a step comes to and its set; none where it fails.
#[inline(always)]
fn step<const EDITION: u32>(
    old: &Index,
    new_alarm: usize,
    mut p: usize,
    mut set: u64,
    row: &[u32],
) -> Option<(usize, u64)> {
    if row[2] < 16 {
        let written = 1u64 << row[3];
        match old.rows(p).next() {
            Some(e) if e[2..] == row[2..] => {
                set = if set & read_by(row) != 0 { set | written } else { set & !written };
                p = e[1] as usize;
            }
            Some(e) if EDITION == 2 && e[2] < 16 && e[3] == row[3] => {
                set |= written;
                p = e[1] as usize;
            }
            _ => set |= written,
        }
    } else {
        let here;
        (p, set, here) = followed(old, p, set)?;
        if p != old.alarm {
            let read = read_by(row);
            if let Some(e) = here.clone().find(|e| e[2..] == row[2..]) {
                // Equal operations read the same.
                if set & read != 0 {
                    return None;
                }
                p = e[1] as usize;
            } else if let Some(e) = here.clone().find(|e| implied(row, e)) {
                if set & (read | read_by(e)) != 0 {
                    return None;
                }
                p = e[1] as usize;
            }
        }
    }
    if EDITION == 2 && row[1] as usize == new_alarm && p != old.alarm {
        return saved(old, p, set);
    }
    (row[1] as usize != new_alarm || p == old.alarm).then_some((p, set))
}

/// The old alarm and the set with what is written on the way there, if old assignments lead to it. Seldom asked, and so
/// kept apart from the step.
#[cold]
fn saved(old: &Index, p: usize, set: u64) -> Option<(usize, u64)> {
    followed(old, p, set).filter(|(p, ..)| *p == old.alarm).map(|(p, set, _)| (p, set))
}

// ---- the builder

/// The places whose bits are set, lowest first.
fn bits(mut word: u64) -> impl Iterator<Item = usize> {
    std::iter::from_fn(move || {
        let at = word.trailing_zeros() as usize;
        word &= word.wrapping_sub(1);
        (at < 64).then_some(at)
    })
}

/// What Algorithm 2 leaves beside the buffers.
struct Explored {
    /// Words by old place, a bit for each new place.
    present: [u64; 64],
    kept: u64,
    /// The new start is kept, or is the new alarm without the old one being the old alarm.
    alone: bool,
}

/// Algorithm 2. `KEPT_UP`: whether marks and waiting are kept up between turns.
fn explore<const KEPT_UP: bool>(edition: u32, old: &Chart, new: &Chart, b: &mut Buffers) -> Result<Explored, Refusal> {
    if b.marks.len() != 4160 || b.targets.len() != 8192 || b.sets.len() != 4096 || b.waiting.len() != 4096 {
        return Err((21, 0, 0));
    }
    judged(edition, old, new)?;
    Ok(if edition == 1 { explored::<KEPT_UP, 1>(old, new, b) } else { explored::<KEPT_UP, 2>(old, new, b) })
}

/// Algorithm 2 of an edition, where nothing is refused.
fn explored<const KEPT_UP: bool, const EDITION: u32>(old: &Chart, new: &Chart, b: &mut Buffers) -> Explored {
    let (marks, targets, sets, waiting) = (&mut b.marks[..], &mut b.targets[..], &mut b.sets[..], &mut b.waiting[..]);
    let all_taken = new.rows.chunks_exact(6).fold(true, |all, row| all & can_be_taken(row));
    let (old, new) = (Index::new(old), Index::new(new));
    marks.fill(0);
    targets.fill(65535);
    sets.fill(0);
    waiting.fill(0);

    // Words by old place, a bit for each new place; `some` has a bit for each word that waits.
    let (mut present, mut waits) = ([0u64; 64], [0u64; 64]);
    let (mut some, mut kept) = (1u64, 0u64);
    present[0] = 1;
    waits[0] = 1;
    if KEPT_UP {
        marks[0] = 1;
        waiting[0] = 1;
    }
    while some != 0 {
        let p = some.trailing_zeros() as usize;
        let q = waits[p].trailing_zeros() as usize;
        waits[p] &= waits[p] - 1;
        if waits[p] == 0 {
            some &= !(1 << p);
        }
        let pair = 64 * p + q;
        if KEPT_UP {
            waiting[pair] = 0;
        }
        let mut set = sets[pair];
        for (which, row) in new.rows(q).enumerate().filter(|(_, row)| all_taken || can_be_taken(row)) {
            let q2 = row[1] as usize;
            if kept >> q & 1 == 0 {
                set = sets[pair];
            }
            let to = match step::<EDITION>(&old, new.alarm, p, set, row) {
                None => {
                    if kept >> q2 & 1 == 0 {
                        kept |= 1 << q2;
                        if KEPT_UP {
                            marks[4096 + q2] = 1;
                        }
                        for p in 0..64 {
                            if present[p] >> q2 & 1 == 1 {
                                present[p] &= !(1 << q2);
                                waits[p] &= !(1 << q2);
                                if waits[p] == 0 {
                                    some &= !(1 << p);
                                }
                                let gone = 64 * p + q2;
                                if KEPT_UP {
                                    marks[gone] = 0;
                                    waiting[gone] = 0;
                                }
                                sets[gone] = 0;
                                targets[2 * gone..2 * gone + 2].fill(65535);
                            }
                        }
                    }
                    4096 + q2
                }
                Some(_) if kept >> q2 & 1 == 1 => 4096 + q2,
                Some((p2, joined)) => {
                    let to = 64 * p2 + q2;
                    let is_new = present[p2] >> q2 & 1 == 0;
                    if p2 != old.alarm && (is_new || joined & !sets[to] != 0) {
                        waits[p2] |= 1 << q2;
                        some |= 1 << p2;
                        if KEPT_UP {
                            waiting[to] = 1;
                        }
                    }
                    present[p2] |= 1 << q2;
                    if KEPT_UP {
                        marks[to] = 1;
                    }
                    sets[to] |= joined;
                    to
                }
            };
            if kept >> q & 1 == 0 {
                targets[2 * pair + which] = to as u16;
            }
        }
    }
    Explored { present, kept, alone: kept & 1 == 1 || (new.alarm == 0 && old.alarm != 0) }
}

/// The new start alone, kept: what the pairs had is taken back.
fn leave_alone(present: &[u64; 64], b: &mut Buffers) -> [u32; 4] {
    for p in 0..64 {
        for q in bits(present[p]) {
            let pair = 64 * p + q;
            b.marks[pair] = 0;
            b.sets[pair] = 0;
            b.targets[2 * pair..2 * pair + 2].fill(65535);
        }
    }
    b.marks[4096..].fill(0);
    b.marks[4096] = 2;
    [4096, 0, 1, 0]
}

/// Opens a pair from which an open or kept node is a target.
#[inline]
fn opens(marks: &mut [u8], targets: &[u16], pair: usize) -> bool {
    let in_q = |to: u16| marks.get(to as usize).is_some_and(|mark| *mark == 1 || *mark == 2);
    let opens = in_q(targets[2 * pair]) | in_q(targets[2 * pair + 1]);
    if opens {
        marks[pair] = 1;
    }
    opens
}

/// Nothing but the buffers and a few words.
pub fn build<const KEPT_UP: bool>(edition: u32, old: &Chart, new: &Chart, b: &mut Buffers) -> Answer {
    let Explored { present, kept, alone } = explore::<KEPT_UP>(edition, old, new, b)?;
    if alone {
        return Ok(leave_alone(&present, b));
    }
    let (marks, targets) = (&mut b.marks[..], &mut b.targets[..]);
    for q in bits(kept) {
        marks[4096 + q] = 2;
    }
    for p in 0..64 {
        for q in bits(present[p]) {
            let pair = 64 * p + q;
            marks[pair] = 4;
            for target in &mut targets[2 * pair..2 * pair + 2] {
                if *target != 65535 && kept >> (*target % 64) & 1 == 1 {
                    *target = 4096 + *target % 64;
                }
            }
        }
    }
    marks[0] = 1;
    // Pairs that may still be opened: from the last on, as rows mostly lead to later nodes, then from the first on, until a pass opens none.
    let mut rest = present;
    rest[0] &= !1;
    let mut opened = 1;
    loop {
        let before = opened;
        for p in (0..64).rev() {
            let mut word = rest[p];
            while word != 0 {
                let q = 63 - word.leading_zeros() as usize;
                word &= !(1 << q);
                if opens(marks, targets, 64 * p + q) {
                    rest[p] &= !(1 << q);
                    opened += 1;
                }
            }
        }
        if opened == before {
            break;
        }
        let between = opened;
        for p in 0..64 {
            for q in bits(rest[p]) {
                if opens(marks, targets, 64 * p + q) {
                    rest[p] &= !(1 << q);
                    opened += 1;
                }
            }
        }
        if opened == between {
            break;
        }
    }
    let mut covered = 0;
    for p in 0..64 {
        for q in bits(present[p] & !rest[p]) {
            let pair = 64 * p + q;
            for &to in &targets[2 * pair..2 * pair + 2] {
                if to < 4096 && marks[to as usize] == 4 {
                    marks[to as usize] = 3;
                    covered += 1;
                }
            }
        }
    }
    Ok([0, opened, kept.count_ones(), covered])
}

/// The same with lists of predecessors, marks and waiting not kept up.
pub fn build_with_lists(edition: u32, old: &Chart, new: &Chart, b: &mut Buffers) -> Answer {
    let Explored { present, kept, alone } = explore::<false>(edition, old, new, b)?;
    if alone {
        return Ok(leave_alone(&present, b));
    }
    let (marks, targets) = (&mut b.marks[..], &mut b.targets[..]);

    // Targets that are kept by now, and who leads to whom: for each pair the last edge to it, for each edge its pair and the one before.
    let mut last = [0u16; 4096];
    let mut edges: Vec<(u16, u16)> = Vec::with_capacity(512);
    let mut open: Vec<u16> = Vec::with_capacity(256);
    marks[0] = 1;
    open.push(0);
    for p in 0..64 {
        for q in bits(present[p]) {
            let pair = 64 * p + q;
            if marks[pair] == 0 {
                marks[pair] = 4;
            }
            for target in &mut targets[2 * pair..2 * pair + 2] {
                let to = *target as usize;
                if to == 65535 {
                    continue;
                }
                if kept >> (to % 64) & 1 == 1 {
                    *target = (4096 + to % 64) as u16;
                    if marks[pair] != 1 {
                        marks[pair] = 1;
                        open.push(pair as u16);
                    }
                } else {
                    edges.push((pair as u16, last[to]));
                    last[to] = edges.len() as u16;
                }
            }
        }
    }
    let mut taken = 0;
    while taken < open.len() {
        let mut edge = last[open[taken] as usize];
        taken += 1;
        while edge != 0 {
            let (pair, before) = edges[edge as usize - 1];
            if marks[pair as usize] != 1 {
                marks[pair as usize] = 1;
                open.push(pair);
            }
            edge = before;
        }
    }
    let mut covered = 0;
    for &pair in &open {
        for &to in &targets[2 * pair as usize..2 * pair as usize + 2] {
            if to < 4096 && marks[to as usize] == 4 {
                marks[to as usize] = 3;
                covered += 1;
            }
        }
    }
    for q in bits(kept) {
        marks[4096 + q] = 2;
    }
    Ok([0, open.len() as u32, kept.count_ones(), covered])
}

// ---- the checker

pub fn check(edition: u32, old: &Chart, new: &Chart, record: &Record) -> Result<(), Refusal> {
    if record.marks.len() != 4160 || record.targets.len() != 8192 || record.sets.len() != 4096 {
        return Err((21, 0, 0));
    }
    judged(edition, old, new)?;
    if edition == 1 { checked::<1>(old, new, record) } else { checked::<2>(old, new, record) }
}

/// The check of an edition, of faultless charts and buffers of the stated lengths.
fn checked<const EDITION: u32>(old: &Chart, new: &Chart, record: &Record) -> Result<(), Refusal> {
    let (start, marks, targets, sets) = (record.start, &record.marks[..], &record.targets[..], &record.sets[..]);
    let (m, n) = (old.places as usize, new.places as usize);
    let (old, new) = (Index::new(old), Index::new(new));
    if start != 0 && start != 4096 {
        return Err((31, 0, 0));
    }
    for (p, of_p) in marks.chunks_exact(64).enumerate() {
        let here = if p == 64 || p < m { n } else { 0 };
        // Without an early end, so that many are tested at once.
        let odd = if p == 64 {
            of_p[..here].iter().fold(false, |odd, &mark| odd | (mark & !2 != 0))
        } else {
            of_p[..here].iter().fold(false, |odd, &mark| odd | (mark > 4) | (mark == 2))
        };
        if of_p[here..].iter().fold(odd, |odd, &mark| odd | (mark != 0)) {
            return Err((31, 0, 0));
        }
    }
    if targets.iter().fold(false, |odd, &t| odd | ((t >= 4160) & (t != 65535))) {
        return Err((31, 0, 0));
    }
    let started = if start == 0 { marks[0] == 1 && (new.alarm != 0 || old.alarm == 0) } else { marks[4096] == 2 };
    if !started {
        return Err((32, 0, 8192));
    }
    for p in 0..m {
        let mut here = 0u64;
        for (eighth, marks) in marks[64 * p..64 * p + 64].chunks_exact(8).enumerate() {
            if marks != [0; 8] {
                for (q, &mark) in marks.iter().enumerate() {
                    here |= ((mark != 0) as u64) << (8 * eighth + q);
                }
            }
        }
        for q in bits(here) {
            let pair = 64 * p + q;
            let mark = marks[pair];
            for (which, row) in new.rows(q).enumerate() {
                let index = 2 * pair + which;
                let to = targets[index] as usize;
                let q2 = row[1] as usize;
                if to == 65535 {
                    if p == old.alarm || !can_be_taken(row) {
                        continue;
                    }
                    return Err((32, 0, index));
                }
                let reached = marks[to];
                let allowed = if mark == 1 { (1..=3).contains(&reached) } else { reached >= 3 };
                let leads = if to >= 4096 {
                    to == 4096 + q2 && reached == 2
                } else if p == old.alarm {
                    to % 64 == q2 && reached != 0
                } else {
                    match step::<EDITION>(&old, new.alarm, p, sets[pair], row) {
                        Some((p2, set)) => to == 64 * p2 + q2 && reached != 0 && set & !sets[to] == 0,
                        None => false,
                    }
                };
                if !(allowed && leads) && can_be_taken(row) {
                    return Err((32, 0, index));
                }
            }
        }
    }
    Ok(())
}

#[cfg(test)]
mod tests {
    use super::*;
    use crate::signed;
    use picker_tests::checker;
    use picker_tests::drawn::{self, Sort, SORTS};
    use picker_tests::model::HALF;
    use picker_tests::{algorithms, cases, conditions, model, texts, Operation, Random};

    fn row(o: Operation) -> [u32; 6] {
        [0, 0, o.code, o.a, o.b, o.c]
    }

    /// The rows that never hold are those of the trial of values, and no assignment is one.
    #[test]
    fn rows_that_can_be_taken() {
        let mut random = Random::new(20296);
        let mut never = [0; 2];
        for _ in 0..cases(20_000) {
            let o = model::operation(&mut random, &model::CODES);
            assert_eq!(can_be_taken(&row(o)), !model::never_holds(o), "{o:?}");
            never[model::is_signed(o) as usize] += model::never_holds(o) as usize;
        }
        assert!(never.iter().all(|n| *n > 500), "{never:?} never hold, unsigned and signed");
    }

    #[test]
    fn assumptions() {
        let mut random = Random::new(20283);
        for _ in 0..cases(300_000) {
            let f = model::operation(&mut random, &model::CODES[6..]);
            let g = model::operation(&mut random, &model::CODES[6..]);
            assert_eq!(implied(&row(f), &row(g)), algorithms::implies(f, g) == 1, "{f:?} {g:?}");
            assert_eq!(exactly_one(&row(f), &row(g)), texts::opposite(f, g), "{f:?} {g:?}");
        }
    }

    // ---- both orders

    /// A comparison of any kind, in either order, of three variables or with a constant that mostly is at an end of an order.
    fn comparison(random: &mut Random) -> Operation {
        let any = random.word();
        let constant = random.one_of(&[0, 1, 2, 100, 101, HALF - 2, HALF - 1, HALF, HALF + 1, u32::MAX - 1, u32::MAX, any]);
        let (a, b) = (random.below(3) as u32, random.below(3) as u32);
        let code = random.one_of(&[16, 24, 32, 40]) + random.below(6) as u32;
        if code < 32 {
            Operation { code, a, b: 0, c: constant }
        } else {
            Operation { code, a, b, c: 0 }
        }
    }

    /// Whether values meet a comparison, by Rust's own reading of two's complement.
    fn holds(o: Operation, v: [u32; 3]) -> bool {
        let (x, y) = (v[o.a as usize], if o.code < 32 { o.c } else { v[o.b as usize] });
        let order = if o.code / 8 % 2 == 0 { x.cmp(&y) } else { (x as i32).cmp(&(y as i32)) };
        [order.is_eq(), order.is_ne(), order.is_lt(), order.is_le(), order.is_gt(), order.is_ge()][o.code as usize % 8]
    }

    /// Which answers two comparisons can have together, at 2 × the first's + the second's: tried at the ends of both orders and at the
    /// constants, each with numbers around it.
    fn together(f: Operation, g: Operation) -> [bool; 4] {
        let mut points: Vec<u32> = [0, HALF, f.c, g.c].iter().flat_map(|c| [-2, -1, 0, 1, 2].map(|d| c.wrapping_add_signed(d))).collect();
        points.sort_unstable();
        points.dedup();
        let mut seen = [false; 4];
        for &x in &points {
            for &y in &points {
                for &z in &points {
                    seen[2 * holds(f, [x, y, z]) as usize + holds(g, [x, y, z]) as usize] = true;
                }
            }
        }
        seen
    }

    /// Whether the first implies the second, as `implied` has it, and whether always exactly one holds: by trial.
    #[test]
    fn assumptions_of_both_orders() {
        let mut random = Random::new(20290);
        let mut mixed = [0; 2];
        for _ in 0..cases(20_000) {
            let (f, g) = (comparison(&mut random), comparison(&mut random));
            let [neither, second, first, both] = together(f, g);
            let expected = [both && !first, (first || second) && !neither && !both];
            assert_eq!([implied(&row(f), &row(g)), exactly_one(&row(f), &row(g))], expected, "{f:?} {g:?}");
            if turn(&row(f)) != turn(&row(g)) {
                (0..2).for_each(|k| mixed[k] += expected[k] as usize);
            }
        }
        assert!(mixed[0] > 500 && mixed[1] > 50, "{mixed:?} of different orders");
        let below = [0, 0, 26, 0, 0, 0];
        assert!(implied(&below, &[0, 0, 21, 0, 0, HALF]) && exactly_one(&below, &[0, 0, 18, 0, 0, HALF]), "v0 <s 0");
    }

    /// The same as the proved code says it.
    #[test]
    fn assumptions_of_both_orders_as_proved() {
        let mut random = Random::new(20292);
        for _ in 0..cases(300_000) {
            let (f, g) = (comparison(&mut random), comparison(&mut random));
            assert_eq!(implied(&row(f), &row(g)), picker_tests::implies(f, g) == 1, "{f:?} {g:?}");
            assert_eq!(exactly_one(&row(f), &row(g)), picker_tests::exactly_one(f, g), "{f:?} {g:?}");
        }
    }

    // ---- charts

    const BUILDERS: [Builder; 3] = [build::<true>, build::<false>, build_with_lists];

    fn lent() -> Buffers {
        Buffers { marks: vec![9; 4160], targets: vec![9; 8192], sets: vec![9; 4096], waiting: vec![9; 4096] }
    }

    /// A built record, and three that are spoilt more and more.
    fn spoilt(random: &mut Random, built: &Record) -> Vec<Record> {
        let one = |changes| {
            let mut r = built.clone();
            (0..changes).for_each(|_| drawn::spoil(random, &mut r));
            r
        };
        (0..4).map(one).collect()
    }

    #[test]
    fn builds_and_checks() {
        let mut random = Random::new(20284);
        for sort in SORTS {
            for _ in 0..cases(if sort == Sort::Wide { 4 } else { 200 }) {
                let (old, new) = drawn::pair(&mut random, sort);
                for edition in EDITIONS {
                    let expected = algorithms::build(edition, &old, &new);
                    for build in BUILDERS {
                        let mut b = lent();
                        let counts = [expected.start, expected.open, expected.kept, expected.covered];
                        assert_eq!(build(edition, &old, &new, &mut b), Ok(counts), "{edition} {old:?} {new:?}");
                        let Buffers { marks, targets, sets, waiting } = b;
                        assert!(marks == expected.marks && targets == expected.targets, "{edition} {old:?} {new:?}");
                        assert!(sets == expected.sets && waiting == expected.waiting, "{edition} {old:?} {new:?}");
                    }
                    for r in spoilt(&mut random, &Record::from(expected)) {
                        for by in EDITIONS {
                            let answer = checker::check(by, &old, &new, &r);
                            assert_eq!(check(by, &old, &new, &r), answer, "{by} {old:?} {new:?} {r:?}");
                        }
                    }
                }
            }
        }
    }

    /// What is built of two charts in the other order, and how a check answers, is what it was.
    #[test]
    fn charts_in_the_other_order() {
        let mut random = Random::new(20293);
        for sort in SORTS {
            for _ in 0..cases(if sort == Sort::Wide { 4 } else { 200 }) {
                let (old, new) = drawn::pair(&mut random, sort);
                let (signed_old, signed_new) = (signed::signed(&old), signed::signed(&new));
                for edition in EDITIONS {
                    let mut expected = lent();
                    let answer = build::<true>(edition, &old, &new, &mut expected);
                    for build in BUILDERS {
                        let mut b = lent();
                        let signed = build(edition, &signed_old, &signed_new, &mut b);
                        assert_eq!(signed, answer, "{edition} {signed_old:?} {signed_new:?}");
                        assert!(b == expected, "{edition} {signed_old:?} {signed_new:?}");
                    }
                    let Buffers { marks, targets, sets, .. } = expected;
                    for r in spoilt(&mut random, &Record { start: answer.unwrap()[0], marks, targets, sets }) {
                        let answers = [(&signed_old, &signed_new), (&old, &new)].map(|(o, n)| check(edition, o, n, &r));
                        assert_eq!(answers[0], answers[1], "{edition} {old:?} {new:?} {r:?}");
                    }
                }
            }
        }
    }

    /// What the proved code builds of charts with signed comparisons, in one of the two and beside unsigned ones too, and how it checks.
    #[test]
    fn signed_charts_as_proved() {
        let mut random = Random::new(20294);
        for sort in SORTS {
            for _ in 0..cases(if sort == Sort::Wide { 2 } else { 40 }) {
                let (old, new) = drawn::pair(&mut random, sort);
                let all = signed::pairs(&old, &new);
                for (edition, (old, new)) in EDITIONS.into_iter().flat_map(|e| all.iter().map(move |pair| (e, pair))) {
                    let mut expected = lent();
                    let answer = conditions::build(edition, old, new, &mut expected).map(|all| all.map(|n| n as u32));
                    for build in BUILDERS {
                        let mut b = lent();
                        assert_eq!(build(edition, old, new, &mut b), answer, "{edition} {old:?} {new:?}");
                        assert!(b == expected, "{edition} {old:?} {new:?}");
                    }
                    let Buffers { marks, targets, sets, .. } = expected;
                    for r in spoilt(&mut random, &Record { start: answer.unwrap()[0], marks, targets, sets }) {
                        let expected = conditions::check(edition, old, new, &r).map(|_| ());
                        assert_eq!(check(edition, old, new, &r), expected, "{edition} {old:?} {new:?} {r:?}");
                    }
                }
            }
        }
    }
}
