// A stored take's search, building and rough reading against plain Rust: a scan of the range, a sparse table, and the same reading with iterators. The same replies, the time and the instructions
// of a call, and the longest call.
// tools/bench-takes builds this with the library for C, and runs it; docs/BENCH.md says what is measured.
use std::hint::black_box;
use std::time::Instant;

// What include/filkotar.h declares.
#[repr(C)]
#[derive(Clone, Copy, Debug, PartialEq)]
pub struct Found {
    number: u32,
    value: i32,
    place: u64,
}

#[repr(C)]
#[derive(Clone, Copy)]
pub struct Reading {
    looks: u64,
    number: u32,
    known: u32,
    high: i32,
    low: i32,
}

extern "C" {
    fn filkotar_build(take: *const i32, length: u64, index: *mut i32, blocks: u64) -> u32;
    fn filkotar_search(take: *const i32, length: u64, index: *const i32, blocks: u64, i: u64, j: u64) -> Found;
    fn filkotar_rough(take: *const i32, length: u64, index: *const i32, blocks: u64, i: u64, j: u64, budget: u64) -> Reading;
}

pub struct Ours<'a> {
    take: &'a [i32],
    index: Vec<i32>,
}

impl<'a> Ours<'a> {
    fn new(take: &'a [i32]) -> Ours<'a> {
        let mut index = vec![0x5555_5555; take.len().div_ceil(64)];
        assert_eq!(build_ours(take, &mut index), 0, "the building of {} values is refused", take.len());
        Ours { take, index }
    }

    #[inline(always)]
    fn search(&self, i: usize, j: usize) -> (i32, usize) {
        let (take, index) = (self.take, &self.index);
        let found = unsafe { filkotar_search(take.as_ptr(), take.len() as u64, index.as_ptr(), index.len() as u64, i as u64, j as u64) };
        assert_eq!(found.number, 0);
        (found.value, found.place as usize)
    }
}

// The plain scan, in one go: the least value, of equal ones the first.
#[no_mangle]
#[inline(never)]
pub fn scan_once(take: &[i32], i: usize, j: usize) -> (i32, usize) {
    let (place, &value) = take[i..=j].iter().enumerate().min_by_key(|&(_, value)| value).unwrap();
    (value, i + place)
}

// And in two: the least value, then its place. `copied` makes the first a loop over values, which rustc makes vectors of; over references it does not.
#[no_mangle]
#[inline(never)]
pub fn scan_twice(take: &[i32], i: usize, j: usize) -> (i32, usize) {
    let range = &take[i..=j];
    let value = range.iter().copied().min().unwrap();
    (value, i + range.iter().position(|&v| v == value).unwrap())
}

// The usual sparse table: at level k, for each i, the place of the least of the 2^k values from i on. Two entries answer any range.
pub struct Table<'a> {
    take: &'a [i32],
    levels: Vec<Vec<u32>>,
}

impl<'a> Table<'a> {
    fn new(take: &'a [i32]) -> Table<'a> {
        assert!(take.len() <= 1 << 32);
        let mut levels: Vec<Vec<u32>> = vec![];
        let mut half = 1;
        while 2 * half <= take.len() {
            // level 0, where each place is its own, is left out
            let level = (0..=take.len() - 2 * half)
                .map(|i| match levels.last() {
                    None => lower(take, i as u32, i as u32 + 1),
                    Some(before) => lower(take, before[i], before[i + half]),
                })
                .collect();
            levels.push(level);
            half *= 2;
        }
        Table { take, levels }
    }

    fn bytes(&self) -> usize {
        self.levels.iter().map(|level| 4 * level.len()).sum()
    }
}

// Of two places, the second one later: where the lower value stands, the earlier of equal ones.
#[inline(always)]
fn lower(take: &[i32], a: u32, b: u32) -> u32 {
    if take[b as usize] < take[a as usize] {
        b
    } else {
        a
    }
}

#[no_mangle]
#[inline(never)]
pub fn table_search(table: &Table, i: usize, j: usize) -> (i32, usize) {
    let place = if i == j {
        i as u32
    } else {
        let k = (j - i + 1).ilog2() as usize;
        let level = &table.levels[k - 1];
        lower(table.take, level[i], level[j + 1 - (1 << k)])
    };
    (table.take[place as usize], place as usize)
}

// A rough reading as Rust has it: the looks that were used, the high figure where there is one, and the low figure. A refusal is its number.
#[derive(Clone, Copy, Debug, PartialEq)]
pub struct Rough {
    looks: usize,
    high: Option<i32>,
    low: i32,
}

#[inline(always)]
fn rough_ours(take: &[i32], index: &[i32], i: usize, j: usize, budget: usize) -> Result<Rough, u32> {
    let r = unsafe { filkotar_rough(take.as_ptr(), take.len() as u64, index.as_ptr(), index.len() as u64, i as u64, j as u64, budget as u64) };
    match r.number {
        0 => Ok(Rough { looks: r.looks as usize, high: (r.known == 1).then_some(r.high), low: r.low }),
        number => Err(number),
    }
}

// The plain program: the least of what the budget allows of the entries of blocks wholly inside, and then of the values on the left and on the right of these.
#[no_mangle]
#[inline(never)]
pub fn rough_peer(take: &[i32], index: &[i32], i: usize, j: usize, budget: usize) -> Result<Rough, u32> {
    if index.len() != take.len().div_ceil(64) {
        return Err(15);
    }
    if i > j || j >= take.len() {
        return Err(14);
    }
    // the blocks that meet the range go from `first` to before `end`, those wholly inside from `inner` to before `outer`
    let (first, end) = (i / 64, j / 64 + 1);
    let inner = i.div_ceil(64);
    let outer = if j + 1 == take.len() { end } else { (j + 1) / 64 }.max(inner);
    let entries = end - first;
    let whole = index[inner..outer].iter().copied().take(budget.saturating_sub(inner - first)).min();
    if budget < entries {
        return Ok(Rough { looks: budget, high: whole, low: i32::MIN });
    }
    let (left, right) = (&take[i..(64 * inner).min(j + 1)], &take[(64 * outer).min(j + 1)..=j]);
    let full = entries + left.len() + right.len();
    let rest = budget - entries;
    let edges = least(left.iter().copied().take(rest).min(), right.iter().copied().take(rest.saturating_sub(left.len())).min());
    let high = least(whole, edges);
    if budget < full {
        let partly = index[first..inner].iter().chain(&index[outer..end]).copied().min();
        return Ok(Rough { looks: budget, high, low: least(whole, partly).unwrap() });
    }
    Ok(Rough { looks: full, high, low: high.unwrap() })
}

#[inline(always)]
fn least(a: Option<i32>, b: Option<i32>) -> Option<i32> {
    match (a, b) {
        (Some(a), Some(b)) => Some(a.min(b)),
        _ => a.or(b),
    }
}

// Building, by the names that the counts go by; and what it is compared with, the least of the whole take: of the values, and, as `min` is mostly written, of references to them.
#[no_mangle]
#[inline(never)]
pub fn build_ours(take: &[i32], index: &mut [i32]) -> u32 {
    unsafe { filkotar_build(take.as_ptr(), take.len() as u64, index.as_mut_ptr(), index.len() as u64) }
}

#[no_mangle]
#[inline(never)]
pub fn build_scan(take: &[i32]) -> i32 {
    take.iter().copied().min().unwrap()
}

#[no_mangle]
#[inline(never)]
pub fn build_references(take: &[i32]) -> i32 {
    *take.iter().min().unwrap()
}

const TAKES: [&str; 4] = ["random", "constant", "rising", "falling"];
const VALUES: usize = 10_000_000;

// how many random ranges are counted
const SEARCHES: usize = 100;

// xorshift64*
struct Random(u64);

impl Random {
    fn next(&mut self) -> u64 {
        self.0 ^= self.0 >> 12;
        self.0 ^= self.0 << 25;
        self.0 ^= self.0 >> 27;
        self.0.wrapping_mul(0x2545_f491_4f6c_dd1d) >> 32
    }
}

fn take(kind: &str, length: usize) -> Vec<i32> {
    let mut random = Random(0x9e37_79b9_7f4a_7c15);
    (0..length as i32)
        .map(|i| match kind {
            "random" => random.next() as i32,
            "constant" => 12,
            "rising" => i,
            "falling" => -i,
            _ => panic!("no take is called {kind}"),
        })
        .collect()
}

// Random ranges of a length: where each begins.
fn ranges(length: usize, of: usize, count: usize) -> Vec<usize> {
    let mut random = Random(0x1234_5678_9abc_def1);
    (0..count).map(|_| random.next() as usize % (of - length + 1)).collect()
}

// The sides of a search, by the names that the counts go by: each goes through the ranges.
fn fold(starts: &[usize], length: usize, search: impl Fn(usize, usize) -> (i32, usize)) -> u64 {
    starts.iter().fold(0u64, |sum, &i| {
        let (value, place) = search(i, i + length - 1);
        sum.wrapping_mul(3).wrapping_add(value as u32 as u64).wrapping_add(place as u64)
    })
}

#[no_mangle]
#[inline(never)]
pub fn side_ours(ours: &Ours, starts: &[usize], length: usize) -> u64 {
    fold(starts, length, |i, j| ours.search(i, j))
}

#[no_mangle]
#[inline(never)]
pub fn side_once(take: &[i32], starts: &[usize], length: usize) -> u64 {
    fold(starts, length, |i, j| scan_once(take, i, j))
}

#[no_mangle]
#[inline(never)]
pub fn side_twice(take: &[i32], starts: &[usize], length: usize) -> u64 {
    fold(starts, length, |i, j| scan_twice(take, i, j))
}

#[no_mangle]
#[inline(never)]
pub fn side_table(table: &Table, starts: &[usize], length: usize) -> u64 {
    fold(starts, length, |i, j| table_search(table, i, j))
}

// The sides of a rough reading: both read the ranges with a budget, and ours searches them, too.
fn shown(reading: Result<Rough, u32>) -> (i32, usize) {
    let rough = reading.unwrap();
    (rough.high.unwrap_or(0) ^ rough.low, rough.looks)
}

#[no_mangle]
#[inline(never)]
pub fn side_rough_ours(ours: &Ours, starts: &[usize], length: usize, budget: usize) -> u64 {
    fold(starts, length, |i, j| shown(rough_ours(ours.take, &ours.index, i, j, budget)))
}

#[no_mangle]
#[inline(never)]
pub fn side_rough_peer(ours: &Ours, starts: &[usize], length: usize, budget: usize) -> u64 {
    fold(starts, length, |i, j| shown(rough_peer(ours.take, &ours.index, i, j, budget)))
}

fn read(side: &str, ours: &Ours, starts: &[usize], length: usize, budget: usize) -> u64 {
    black_box(match side {
        "ours" => side_rough_ours(ours, starts, length, budget),
        "peer" => side_rough_peer(ours, starts, length, budget),
        "search" => side_ours(ours, starts, length),
        _ => panic!("no side is called {side}"),
    })
}

const READERS: [&str; 3] = ["ours", "peer", "search"];
// which ranges are read, how many of them in a round, and with which budgets
const READ: [(usize, usize); 3] = [(10_000, 2000), (1_000_000, 1000), (VALUES, 1000)];
const BUDGETS: [&str; 4] = ["1", "100", "10000", "all"];

const SIDES: [&str; 4] = ["ours", "once", "twice", "table"];
const LENGTHS: [usize; 4] = [100, 10_000, 1_000_000, VALUES];
// how many values an index is built of
const BUILT: [usize; 4] = [1000, 10_000, 1_000_000, VALUES];

struct Sides<'a> {
    take: &'a [i32],
    ours: Ours<'a>,
    table: Option<Table<'a>>,
}

impl<'a> Sides<'a> {
    fn new(take: &'a [i32]) -> Sides<'a> {
        Sides { take, ours: Ours::new(take), table: Some(Table::new(take)) }
    }

    // A side's searches of the ranges: what it makes of their replies, and the seconds.
    fn run(&self, side: &str, starts: &[usize], length: usize) -> (u64, f64) {
        let start = Instant::now();
        let sum = black_box(match side {
            "ours" => side_ours(&self.ours, starts, length),
            "once" => side_once(self.take, starts, length),
            "twice" => side_twice(self.take, starts, length),
            "table" => side_table(self.table.as_ref().unwrap(), starts, length),
            _ => panic!("no side is called {side}"),
        });
        (sum, start.elapsed().as_secs_f64())
    }
}

fn differ(what: &str, kind: &str, of: usize, i: usize, j: usize, replies: impl std::fmt::Debug) -> ! {
    eprintln!("{what} of {of} values, {kind}, range {i} to {j}: {replies:?}");
    std::process::exit(1);
}

fn same(sides: &Sides, kind: &str, i: usize, j: usize) {
    let (a, b, c, d) = (sides.ours.search(i, j), scan_once(sides.take, i, j), scan_twice(sides.take, i, j), table_search(sides.table.as_ref().unwrap(), i, j));
    if a != b || a != c || a != d {
        differ("ours, the scans, the table", kind, sides.take.len(), i, j, (a, b, c, d));
    }
}

// Every reply of ours, of both scans and of the table: for all ranges of short takes, and for random ranges of the take that is timed. And every entry of each index.
fn compare() {
    for kind in TAKES {
        for (length, spread) in (1..=200).map(|n| (n, i32::MAX)).chain([(1, 2), (64, 2), (65, 2), (200, 2), (200, 5), (513, 3)]) {
            let values: Vec<i32> = take(kind, length).iter().map(|v| v % spread).collect();
            let sides = Sides::new(&values);
            if !values.chunks(64).map(|block| block.iter().min().unwrap()).eq(sides.ours.index.iter()) {
                differ("the index", kind, length, 0, length - 1, &sides.ours.index);
            }
            for i in 0..length {
                for j in i..length {
                    same(&sides, kind, i, j);
                }
            }
        }
        let values = take(kind, VALUES);
        let sides = Sides::new(&values);
        if !values.chunks(64).map(|block| block.iter().min().unwrap()).eq(sides.ours.index.iter()) {
            differ("the index", kind, VALUES, 0, VALUES - 1, ());
        }
        for (length, count) in [(1, 1000), (100, 1000), (10_000, 200), (VALUES / 2, 3), (VALUES - 1, 2), (VALUES, 1)] {
            for i in ranges(length, VALUES, count) {
                same(&sides, kind, i, i + length - 1);
            }
        }
    }
    TAKES.iter().for_each(|kind| compare_readings(kind));
    println!("every reply is the same");
}

fn same_reading(take: &[i32], index: &[i32], kind: &str, i: usize, j: usize, budget: usize) -> Result<Rough, u32> {
    let (a, b) = (rough_ours(take, index, i, j, budget), rough_peer(take, index, i, j, budget));
    if a != b {
        differ("a rough reading by ours and by the peer", kind, take.len(), i, j, (index.len(), budget, a, b));
    }
    a
}

// An index of as many entries, whatever these are: few different ones, or any.
fn altered(index: &[i32], spread: i32) -> Vec<i32> {
    let mut random = Random(0x0fed_cba9_8765_4321);
    index.iter().map(|_| random.next() as i32 % spread).collect()
}

// Every rough reading of ours and of the peer: for all ranges of short takes, with every budget up to one more than all looks and with the largest; for random ranges of the take that is timed, with
// random budgets; and what is refused. Over the index that was built, and over others.
fn compare_readings(kind: &str) {
    for (length, spread) in (1..=70).chain([127, 128, 129, 191, 192, 200]).map(|n| (n, i32::MAX)).chain([(64, 2), (65, 2), (130, 2), (200, 5)]) {
        let values: Vec<i32> = take(kind, length).iter().map(|v| v % spread).collect();
        let built = Ours::new(&values).index;
        for index in [altered(&built, 3), altered(&built, i32::MAX), built] {
            for i in 0..length {
                for j in i..length {
                    let all = same_reading(&values, &index, kind, i, j, usize::MAX).unwrap().looks;
                    for budget in 0..=all + 1 {
                        let used = same_reading(&values, &index, kind, i, j, budget).unwrap().looks;
                        assert_eq!(used, budget.min(all));
                    }
                }
            }
            let longer = [&index[..], &[0]].concat();
            for budget in [0, 1, 100, usize::MAX] {
                for (i, j) in [(0, length), (0, usize::MAX), (length, length), (usize::MAX, usize::MAX), (1, 0), (length - 1, length - 2.min(length)), (usize::MAX, 0)] {
                    if i > j || j >= length {
                        assert_eq!(same_reading(&values, &index, kind, i, j, budget), Err(14));
                    }
                    for other in [&longer[..], &index[1..]] {
                        assert_eq!(same_reading(&values, other, kind, i, j, budget), Err(15));
                    }
                }
            }
        }
    }
    let values = take(kind, VALUES);
    let built = Ours::new(&values).index;
    let mut random = Random(0x1357_9bdf_0246_8ace);
    for index in [altered(&built, 1000), altered(&built, i32::MAX), built] {
        for (length, count) in [(1, 1000), (100, 1000), (10_000, 1000), (1_000_000, 100), (VALUES / 2, 10), (VALUES - 1, 2), (VALUES, 10)] {
            for i in ranges(length, VALUES, count) {
                let j = i + length - 1;
                let all = same_reading(&values, &index, kind, i, j, usize::MAX).unwrap().looks;
                for budget in [0, 1, 100, 10_000, random.next() as usize % all, all - 1, all, all + 1] {
                    same_reading(&values, &index, kind, i, j, budget).unwrap();
                }
            }
        }
    }
}

// The quickest of the rounds, since what else the machine does can only slow a round, and their median.
fn quickest(mut all: Vec<f64>) -> (f64, f64) {
    all.sort_by(f64::total_cmp);
    (all[0], all[all.len() / 2])
}

// How many ranges a round of a side has: the same for all sides, but that the whole take is one range, which is searched several times where that is short.
fn count_of(side: &str, length: usize) -> usize {
    match (side, length) {
        (_, 100) => 10_000,
        (_, 10_000) => 2000,
        (_, 1_000_000) => 100,
        ("ours", _) => 100,
        ("table", _) => 10_000,
        _ => 1,
    }
}

// A side's seconds in each round. In a round the sides take turns, and in every other round in the opposite order; the first round warms up.
fn rounds_of<const N: usize>(rounds: usize, sides: [&str; N], seconds: impl Fn(&str) -> f64) -> [Vec<f64>; N] {
    let mut times = sides.map(|_| vec![]);
    for round in 0..=rounds {
        for turn in 0..N {
            let side = if round % 2 == 0 { turn } else { N - 1 - turn };
            let took = seconds(sides[side]);
            if round > 0 {
                times[side].push(took);
            }
        }
    }
    times
}

const BUILDERS: [&str; 3] = ["ours", "scan", "references"];

// Microseconds a building, and a scan: several times in a round where that is short.
fn time_building(rounds: usize, values: &[i32], kind: &str) {
    let times = rounds_of(rounds, BUILDERS, |side| {
        let mut index = vec![0; values.len().div_ceil(64)];
        build_ours(values, &mut index);
        let often = (VALUES / 10 / values.len()).max(1);
        let start = Instant::now();
        for _ in 0..often {
            match side {
                "ours" => black_box(build_ours(black_box(values), &mut index)) as i32,
                "scan" => black_box(build_scan(black_box(values))),
                _ => black_box(build_references(black_box(values))),
            };
        }
        start.elapsed().as_secs_f64() * 1e6 / often as f64
    });
    for (side, all) in BUILDERS.iter().zip(times) {
        let (least, median) = quickest(all);
        println!("build {side} {} {kind} {least:.4} {median:.4}", values.len());
    }
}

// Nanoseconds a rough reading with a budget, and a search of the same ranges; and how many looks were used, of all readings.
fn time_readings(rounds: usize) {
    let values = take("random", VALUES);
    let ours = Ours::new(&values);
    for (length, count) in READ {
        let starts = ranges(length, VALUES, count);
        for word in BUDGETS {
            let budget = allowed(word);
            let looks: usize = starts.iter().map(|&i| rough_ours(&values, &ours.index, i, i + length - 1, budget).unwrap().looks).sum();
            let times = rounds_of(rounds, READERS, |side| {
                let start = Instant::now();
                read(side, &ours, &starts, length, budget);
                start.elapsed().as_secs_f64() * 1e9 / count as f64
            });
            for (side, all) in READERS.iter().zip(times) {
                let (least, median) = quickest(all);
                println!("rough {side} {length} {word} {} {least:.3} {median:.3}", looks as f64 / count as f64);
            }
        }
    }
}

// Nanoseconds a search.
fn time(rounds: usize) {
    for kind in TAKES {
        let values = take(kind, VALUES);
        for length in BUILT {
            time_building(rounds, &values[..length], kind);
        }
        let start = Instant::now();
        let table = Table::new(&values);
        println!("table {kind} {} {:.3}", table.bytes(), start.elapsed().as_secs_f64() * 1e3);
        let sides = Sides { take: &values, ours: Ours::new(&values), table: Some(table) };
        for length in LENGTHS {
            let starts = SIDES.map(|side| (side, ranges(length, VALUES, count_of(side, length))));
            let times = rounds_of(rounds, SIDES, |side| {
                let starts = &starts.iter().find(|of| of.0 == side).unwrap().1;
                sides.run(side, starts, length).1 * 1e9 / starts.len() as f64
            });
            for (side, all) in SIDES.iter().zip(times) {
                let (least, median) = quickest(all);
                println!("search {side} {length} {kind} {least:.3} {median:.3}");
            }
        }
    }
    time_readings(rounds);
}

// Searches of random ranges of a take, for a count of their instructions; and one building.
fn count(side: &str, length: usize, kind: &str, of: usize) {
    let values = take(kind, of);
    let starts = ranges(length, of, SEARCHES);
    let (ours, table) = (Ours::new(&values), if side == "table" { Some(Table::new(&values)) } else { None });
    Sides { take: &values, ours, table }.run(side, if length < of { &starts } else { &starts[..1] }, length);
}

// Rough readings of the same ranges.
fn count_reading(side: &str, length: usize, kind: &str, budget: usize) {
    let values = take(kind, VALUES);
    let starts = ranges(length, VALUES, SEARCHES);
    read(side, &Ours::new(&values), if length < VALUES { &starts } else { &starts[..1] }, length, budget);
}

fn count_building(side: &str, length: usize) {
    let values = take("random", length);
    let mut index = vec![0; length.div_ceil(64)];
    match side {
        "ours" => black_box(build_ours(&values, &mut index)) as i32,
        "scan" => black_box(build_scan(black_box(&values))),
        _ => panic!("no side is called {side}"),
    };
}

// The longest searches of ranges of a length, for each place of a block where a range can begin, of a take that goes on behind the range and of one that ends with it. The least value of each
// part of the range stands last in it, so that it is the last that is looked at; so it is with the entry among its block of entries, and with the value in the block of that entry. And where
// there is such an entry, the same again with one that no value of its block equals, so that all of them are looked at in vain.
fn calls(length: usize) {
    for begin in 64..128usize {
        for behind in [64, 0] {
            let end = begin + length;
            let mut values = vec![7; end + behind];
            // the blocks that are wholly inside go from `first` to before `last`
            let (first, last) = (begin.div_ceil(64), if behind == 0 { end.div_ceil(64) } else { end / 64 });
            let entry = (first + 63).min(last.max(1) - 1);
            if first < last {
                values[64 * first - 1] = 3;
                values[(64 * entry + 63).min(end - 1)] = 2;
            }
            if last <= first || 64 * last < end {
                values[end - 1] = 1;
            }
            let mut ours = Ours::new(&values);
            assert_eq!(ours.search(begin, end - 1), scan_once(&values, begin, end - 1));
            if first < last {
                ours.index[entry] = -9;
                black_box(ours.search(begin, end - 1));
            }
        }
    }
}

// The longest rough readings with so many looks. A range begins at each place of a block, and ends with up to 16 values of another; or it ends where the take does, with a whole block or a
// shorter one. As many blocks are wholly inside as make it so many looks in all; one more, which the budget does not allow; and 128 more, so that the budget ends among the entries. And the
// ranges within a block. All values are equal, so that of two parts always the earlier one's least is kept, which takes longest.
fn readings(looks: usize) {
    let (values, index) = (vec![7; 64 * (looks + 131)], vec![7; looks + 131]);
    let take = |n: usize| (&values[..n], &index[..n.div_ceil(64)]);
    let all = |n: usize, i: usize, j: usize| rough_peer(take(n).0, take(n).1, i, j, usize::MAX).unwrap().looks;
    let read = |n: usize, i: usize, j: usize| assert_eq!(rough_ours(take(n).0, take(n).1, i, j, looks).unwrap().looks, looks);
    for begin in 0..64usize {
        for (tail, behind) in (0..=16).map(|tail| (tail, 64)).chain([(0, 0), (1, 0)]) {
            let near = begin.next_multiple_of(64) + tail;
            let fewest = if begin < near { all(near + behind, begin, near - 1) } else { 0 };
            for wanted in [looks, looks + 1, looks + 128] {
                if fewest <= wanted {
                    let end = near + 64 * (wanted - fewest);
                    read(end + behind, begin, end - 1);
                }
            }
        }
        for end in (begin..64).filter(|&end| all(128, begin, end) >= looks) {
            read(128, begin, end);
        }
    }
}

fn number(word: &str) -> usize {
    word.parse().expect("a number")
}

// How many looks a word allows.
fn allowed(word: &str) -> usize {
    match word {
        "all" => usize::MAX,
        _ => number(word),
    }
}

fn main() {
    let arguments: Vec<String> = std::env::args().skip(1).collect();
    let words: Vec<&str> = arguments.iter().map(String::as_str).collect();
    match words[..] {
        ["compare"] => compare(),
        ["time", rounds] => time(number(rounds)),
        ["count", side, length, kind, of] => count(side, number(length), kind, number(of)),
        ["build", side, length] => count_building(side, number(length)),
        ["calls", length] => calls(number(length)),
        ["rough", side, length, kind, budget] => count_reading(side, number(length), kind, allowed(budget)),
        ["readings", looks] => readings(number(looks)),
        _ => {
            eprintln!("usage: driver compare | time ROUNDS | count SIDE LENGTH TAKE VALUES | build ours|scan LENGTH | calls LENGTH | rough SIDE LENGTH TAKE LOOKS|all | readings LOOKS");
            std::process::exit(2);
        }
    }
}
