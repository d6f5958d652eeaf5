//! Workloads on both sides in one run: median and least ns an operation, as rows of bench/README.md's table. Each workload is written once, for either side.
mod sides;

use sides::{Original, Ours, Room, Side};
use std::{hint::black_box, time::Instant};

const KEYS: u64 = 30_000;
const LARGEST: Room = Room { values: 65_536, entries: 32_768, index: 65_536 };
// Entries for which the least index and the largest are far apart, and keys that fit.
const FEW: u64 = 4_000;
const SMALL: Room = Room { values: 0, entries: 4_096, index: 8_192 };
const SMALL_IN_LARGEST: Room = Room { index: 65_536, ..SMALL };
// The original's map is full then, and half of them fit here with MORE.
const CLEARED: u64 = 28_672;
const MORE: usize = 5_000;

// One, two, three; the addresses of objects of 48 bytes in a row; spread over all 64 bits.
const HANDLES: [(&str, fn(u64) -> u64); 3] = [("1, 2, 3", |i| i), ("by 48", |i| 0x5000_0000_0000 + 48 * i), ("spread", |i| splitmix64(i) | 1)];

fn splitmix64(i: u64) -> u64 {
    let x = i.wrapping_mul(0x9E37_79B9_7F4A_7C15);
    let x = (x ^ (x >> 30)).wrapping_mul(0xBF58_476D_1CE4_E5B9);
    let x = (x ^ (x >> 27)).wrapping_mul(0x94D0_49BB_1331_11EB);
    x ^ (x >> 31)
}

struct Line {
    name: String,
    operations: u64,
    nanoseconds: Vec<u64>,
}

#[derive(Default)]
struct Lines(Vec<Line>);

impl Lines {
    fn timed<R>(&mut self, name: &str, operations: u64, work: impl FnOnce() -> R) -> R {
        let start = Instant::now();
        let answer = work();
        let taken = start.elapsed().as_nanos() as u64;
        match self.0.iter_mut().find(|line| line.name == name) {
            Some(line) => line.nanoseconds.push(taken),
            None => self.0.push(Line { name: name.into(), operations, nanoseconds: vec![taken] }),
        }
        answer
    }

    fn set_all<T: Side>(&mut self, name: &str, table: &mut T, keys: &[T::Key]) {
        self.timed(name, keys.len() as u64, || keys.iter().for_each(|&key| table.set(key)));
        assert!(table.is_sound());
    }

    fn count<T: Side>(&mut self, name: &str, table: &T, keys: &[T::Key]) -> usize {
        self.timed(name, keys.len() as u64, || keys.iter().filter(|&&key| table.has(key)).count())
    }
}

impl Line {
    fn middle_and_least(&self) -> (f64, f64) {
        let mut sorted = self.nanoseconds.clone();
        sorted.sort();
        let each = |nanoseconds: u64| nanoseconds as f64 / self.operations as f64;
        (each(sorted[sorted.len() / 2]), each(sorted[0]))
    }
}

fn shuffled<K: Copy>(keys: &[K]) -> Vec<K> {
    let mut keys = keys.to_vec();
    for i in (1..keys.len()).rev() {
        keys.swap(i, (splitmix64(i as u64) % (i as u64 + 1)) as usize);
    }
    keys
}

fn integers<T: Side>(lines: &mut Lines, fresh: impl Fn(Room) -> T) {
    let mut keys: Vec<T::Key> = (1..=KEYS).map(T::integer).collect();
    let mut t = fresh(LARGEST);
    lines.set_all("Integers set, rising", &mut t, &keys);
    lines.set_all("Integers overwritten", &mut t, &keys);
    assert_eq!(lines.count("Integers found", &t, &keys), keys.len());
    assert_eq!(lines.timed("walk, Integers", KEYS, || t.walk()), KEYS);
    assert_eq!(lines.timed("length", KEYS, || (0..KEYS).map(|_| black_box(&t).length()).max()), Some(KEYS));
    keys.reverse();
    lines.set_all("Integers set, falling", &mut fresh(LARGEST), &keys);
}

fn strings<T: Side>(lines: &mut Lines, fresh: impl Fn(Room) -> T) {
    for (sort, handle) in HANDLES {
        let keys: Vec<T::Key> = (1..=KEYS).map(|i| T::string(handle(i))).collect();
        let others: Vec<T::Key> = (KEYS + 1..=2 * KEYS).map(|i| T::string(handle(i))).collect();
        let mut t = fresh(LARGEST);
        lines.set_all(&format!("Strings set, {sort}"), &mut t, &keys);
        lines.set_all(&format!("Strings overwritten, {sort}"), &mut t, &keys);
        assert_eq!(lines.count(&format!("Strings found, {sort}"), &t, &keys), keys.len());
        assert_eq!(lines.count(&format!("Strings found, shuffled, {sort}"), &t, &shuffled(&keys)), keys.len());
        assert_eq!(lines.count(&format!("Strings not found, {sort}"), &t, &others), 0);
        assert_eq!(lines.timed(&format!("walk, Strings, {sort}"), KEYS, || t.walk()), KEYS);
    }
}

// What the index's length does to a get and a set: ours has it lent, the original its own.
fn index_lengths<T: Side>(lines: &mut Lines, fresh: impl Fn(Room) -> T) {
    let keys: Vec<T::Key> = (1..=FEW).map(|i| T::string(splitmix64(i) | 1)).collect();
    for room in [SMALL, SMALL_IN_LARGEST] {
        let mut t = fresh(room);
        lines.set_all(&format!("{FEW} Strings set, index of {}", room.index), &mut t, &keys);
        assert_eq!(lines.count(&format!("{FEW} Strings found, shuffled, index of {}", room.index), &t, &shuffled(&keys)), keys.len());
    }
}

// A Number: a key that no array takes, and no object whose dead key would make the original panic.
fn churn<T: Side>(lines: &mut Lines, fresh: impl Fn(Room) -> T) {
    let keys: Vec<T::Key> = (1..=KEYS).map(|i| T::number(i as f64 + 0.5)).collect();
    let mut t = fresh(LARGEST);
    let set_and_clear = |&key: &T::Key| {
        t.set(key);
        t.clear(key);
    };
    lines.timed("churn: set one, clear one", KEYS, || keys.iter().for_each(set_and_clear));
    assert!(t.is_sound());
}

fn reserves<T: Side>(lines: &mut Lines, fresh: impl Fn(Room) -> T) {
    let keys: Vec<T::Key> = (1..=CLEARED).map(T::string).collect();
    let mut t = fresh(LARGEST);
    keys.iter().for_each(|&key| t.set(key));
    lines.timed("reserve, nothing to do", KEYS, || (0..KEYS).for_each(|_| t.reserve(black_box(0))));
    keys.iter().step_by(2).for_each(|&key| t.clear(key));
    lines.timed("reserve, half cleared, an entry", CLEARED, || t.reserve(MORE));
    assert!(t.is_sound());
    assert_eq!(t.walk(), CLEARED / 2);
}

fn run<T: Side>(lines: &mut Lines, fresh: impl Fn(Room) -> T + Copy) {
    integers(lines, fresh);
    strings(lines, fresh);
    index_lengths(lines, fresh);
    churn(lines, fresh);
    reserves(lines, fresh);
}

fn main() {
    let runs: usize = std::env::args().nth(1).map_or(51, |x| x.parse().expect("the number of runs"));
    let (mut ours, mut original) = (Lines::default(), Lines::default());
    for _ in 0..runs {
        run(&mut ours, Ours::new);
        oracle::mutate(|mc| run(&mut original, |_| Original::new(mc)));
    }
    println!("{runs} runs; ns an operation: median (least)\n\n| | ours | the original | ratio |\n|---|---|---|---|");
    for (line, other) in ours.0.iter().zip(&original.0) {
        let ((a, b), (c, d)) = (line.middle_and_least(), other.middle_and_least());
        println!("| {} | {a:.1} ({b:.1}) | {c:.1} ({d:.1}) | {:.2} |", line.name, a / c);
    }
}
