//! How much stack each call of the C interface takes, over charts of every sort: docs/API.md has the figures.

use picker_tests::checker::Record;
use picker_tests::conditions::{linked, Buffers};
use picker_tests::drawn::{self, Sort, SORTS};
use picker_tests::stack::measured;
use picker_tests::{algorithms, cases, texts, Chart, Random, EDITIONS};
use std::hint::black_box;

/// Places, alarm, table and its length, twice.
fn both(old: &Chart, new: &Chart) -> Vec<u64> {
    [old, new].iter().flat_map(|c| [c.places as u64, c.alarm as u64, c.rows.as_ptr() as u64, c.rows.len() as u64]).collect()
}

fn lent<T>(memory: &mut [T]) -> [u64; 2] {
    [memory.as_mut_ptr() as u64, memory.len() as u64]
}

/// The stack that a build takes.
fn building(edition: u32, old: &Chart, new: &Chart) -> usize {
    let mut b = Buffers { marks: vec![7; 4160], targets: vec![7; 8192], sets: vec![7; 4096], waiting: vec![7; 4096] };
    let mut arguments = [vec![edition as u64], both(old, new)].concat();
    arguments.extend([lent(&mut b.marks), lent(&mut b.targets), lent(&mut b.sets), lent(&mut b.waiting)].concat());
    unsafe { measured(linked::picker_build as *const () as usize, &arguments).1 }
}

/// The stack that a check takes.
fn checking(edition: u32, old: &Chart, new: &Chart, record: &mut Record) -> usize {
    let mut arguments = [vec![edition as u64], both(old, new)].concat();
    arguments.push(record.start as u64);
    arguments.extend([lent(&mut record.marks), lent(&mut record.targets), lent(&mut record.sets)].concat());
    unsafe { measured(linked::picker_check as *const () as usize, &arguments).1 }
}

/// The stack that judging a chart takes.
fn judging(chart: &Chart) -> usize {
    let arguments = &both(chart, chart)[..4];
    unsafe { measured(linked::picker_judge as *const () as usize, arguments).1 }
}

/// The stack that a lookup takes.
fn looking_up(old: &Chart, new: &Chart, chart: u32, place: u32) -> usize {
    let mut rows = [0u32; 12];
    let mut arguments = both(old, new);
    arguments.extend([chart as u64, place as u64]);
    arguments.extend(lent(&mut rows));
    unsafe { measured(linked::picker_lookup as *const () as usize, &arguments).1 }
}

/// The stack that reading a text takes.
fn reading(text: &mut [u8]) -> usize {
    let mut table = [0u32; 768];
    let arguments = [lent(text), lent(&mut table)].concat();
    unsafe { measured(texts::linked::picker_read as *const () as usize, &arguments).1 }
}

/// The stack that writing a chart takes.
fn writing(chart: &Chart) -> usize {
    let mut bytes = vec![0u8; 8643];
    let mut arguments = both(chart, chart)[..4].to_vec();
    arguments.extend(lent(&mut bytes));
    unsafe { measured(texts::linked::picker_write as *const () as usize, &arguments).1 }
}

/// Pairs of faultless charts of every sort.
fn pairs(random: &mut Random) -> Vec<(Chart, Chart)> {
    let most = |sort| cases(if sort == Sort::Wide { 20 } else { 60 });
    SORTS.into_iter().flat_map(|sort| (0..most(sort)).map(move |_| sort)).map(|sort| drawn::pair(random, sort)).collect()
}

extern "C" fn takes_4096(n: u64) -> u64 {
    let mut memory = [n; 512];
    black_box(&mut memory);
    memory[0]
}

extern "C" fn takes_little(a: u64, b: u64, c: u64, d: u64, e: u64, f: u64, g: u64, h: u64, i: u64) -> u64 {
    black_box(a + b + c + d + e + f + 10 * g + 100 * h + 1000 * i)
}

/// What takes more than 4,096 bytes is seen to, and by little more; arguments beyond six arrive, and are counted.
#[test]
fn the_paint_tells() {
    let (answer, taken) = unsafe { measured(takes_4096 as *const () as usize, &[5]) };
    assert_eq!(answer, 5);
    assert!((4097..4352).contains(&taken), "{taken} bytes");
    let (answer, taken) = unsafe { measured(takes_little as *const () as usize, &[1, 1, 1, 1, 1, 1, 2, 3, 4]) };
    assert_eq!(answer, 4326);
    assert!((32..256).contains(&taken), "{taken} bytes");
}

/// The calls that are measured, and what each may take.
const CALLS: [(&str, usize); 6] =
    [("build", 4096), ("check", 1280), ("lookup", 1024), ("write", 1024), ("read", 4096), ("judge", 1024)];

/// What each call took at most.
struct Most([usize; 6]);

impl Most {
    fn saw(&mut self, call: usize, taken: usize) {
        self.0[call] = self.0[call].max(taken);
    }

    fn pair(&mut self, random: &mut Random, old: &Chart, new: &Chart) {
        for edition in EDITIONS {
            self.saw(0, building(edition, old, new));
            let mut record = Record::from(algorithms::build(edition, old, new));
            self.saw(1, checking(edition, old, new, &mut record));
            drawn::spoil(random, &mut record);
            self.saw(1, checking(edition, old, new, &mut record));
        }
    }

    fn chart(&mut self, random: &mut Random, name: u32, both: [&Chart; 2]) {
        self.saw(2, looking_up(both[0], both[1], name, random.below(66) as u32));
        self.saw(3, writing(both[name as usize]));
        let mut text = texts::plain_write(both[name as usize]);
        self.saw(4, reading(&mut text));
        texts::damage(random, &mut text);
        self.saw(4, reading(&mut text));
        self.saw(5, judging(both[name as usize]));
    }
}

/// A build takes at most 4,096 bytes of stack, a check, a lookup, a judged chart, a text written or read what stands beside them.
#[test]
fn calls_take_little_stack() {
    let mut random = Random::new(20271);
    let mut most = Most([0; 6]);
    for (old, new) in pairs(&mut random) {
        most.pair(&mut random, &old, &new);
        most.chart(&mut random, 0, [&old, &new]);
        most.chart(&mut random, 1, [&old, &new]);
    }
    for ((call, may), taken) in CALLS.into_iter().zip(most.0) {
        println!("{call}: {taken} bytes");
        assert!(taken <= may, "a {call} takes {taken} bytes of stack, more than {may}");
    }
}
