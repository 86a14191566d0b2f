// The level engine against a plain Rust program with a `Vec` for the stack and a `HashMap` for the marks: the same replies, the time and the instructions of a command, and the longest calls.
// tools/bench-engine builds this with the library for C and with looped.rt.txt, and runs it; docs/BENCH.md says what is measured.
use std::collections::{BTreeSet, HashMap, VecDeque};
use std::hint::black_box;
use std::time::Instant;

// What include/filkotar.h has: filkotar_session and filkotar_answer.
#[repr(C)]
#[derive(Clone, Copy, Debug, PartialEq)]
pub struct Session {
    words: u64,
    limit: u64,
    active: u64,
    present: u32,
    last: i32,
    standing: u32,
}

#[repr(C)]
#[derive(Clone, Copy)]
pub struct Answer {
    session: Session,
    number: u32,
    value: i32,
    place: u32,
}

// What looped.rt.txt has.
#[repr(C)]
pub struct Ran {
    session: Session,
    sum: u64,
}

extern "C" {
    fn filkotar_open(area: *mut u64, length: u64) -> Answer;
    fn filkotar_value(s: Session, area: *mut u64, length: u64, v: i32) -> Answer;
    fn filkotar_mark(s: Session, area: *mut u64, length: u64) -> Answer;
    fn filkotar_query(s: Session, area: *const u64, length: u64, i: u32) -> Answer;
    fn filkotar_close(s: Session, area: *mut u64, length: u64, i: u32) -> Answer;
    // gives the engine each command of a stream, in a loop of Rattle
    fn bench_run(s: Session, area: *mut u64, length: u64, stream: *const u64, commands: u64) -> Ran;
}

// A reply: its number, and the value and place that it shows, or zeros.
type Reply = (u32, i32, u32);

// A command as a word: its lower half is a position, or a value offset by 2 ^ 31; then come 2 bits for the kind, and 30 for the positions that are skipped before a Value.
// To skip positions is what so many Values above all others would do: they lower no minimum.
const VALUE: u64 = 0;
const MARK: u64 = 1;
const QUERY: u64 = 2;
const CLOSE: u64 = 3;
const KINDS: [&str; 4] = ["Value", "Mark", "Query", "Close"];

fn command(kind: u64, argument: u32) -> u64 {
    kind << 32 | argument as u64
}

fn value_after(skip: u32, v: i32) -> u64 {
    (skip as u64) << 34 | (v as u32 ^ 0x8000_0000) as u64
}

#[inline(always)]
fn kind_of(word: u64) -> u64 {
    word >> 32 & 3
}

#[inline(always)]
fn value_of(word: u64) -> i32 {
    (word as u32 ^ 0x8000_0000) as i32
}

#[inline(always)]
fn skip_of(word: u64) -> u32 {
    (word >> 34) as u32
}

pub struct Ours {
    session: Session,
    area: Vec<u64>,
}

impl Ours {
    // An opening for K marks, on as few words as that takes.
    fn new(limit: usize) -> Ours {
        let mut ours = Ours { session: Session { words: 0, limit: 0, active: 0, present: 0, last: 0, standing: 0 }, area: vec![0x5555_5555_5555_5555u64; 512 + 64 * limit] };
        ours.open();
        assert_eq!(ours.session.limit, limit as u64);
        ours
    }

    fn open(&mut self) {
        let answer = unsafe { filkotar_open(self.area.as_mut_ptr(), self.area.len() as u64) };
        assert_eq!(answer.number, 0, "the opening is refused");
        self.session = answer.session;
    }

    // A call through C.
    fn call(&mut self, word: u64) -> Reply {
        let (s, area, length, i) = (self.session, self.area.as_mut_ptr(), self.area.len() as u64, word as u32);
        let answer = unsafe {
            match kind_of(word) {
                VALUE => filkotar_value(Session { present: s.present.wrapping_add(skip_of(word)), ..s }, area, length, value_of(word)),
                MARK => filkotar_mark(s, area, length),
                QUERY => filkotar_query(s, area, length, i),
                _ => filkotar_close(s, area, length, i),
            }
        };
        self.session = answer.session;
        (answer.number, answer.value, answer.place)
    }

    // The loop in Rattle.
    fn run(&mut self, stream: &[u64]) -> u64 {
        let ran = unsafe { bench_run(self.session, self.area.as_mut_ptr(), self.area.len() as u64, stream.as_ptr(), stream.len() as u64) };
        self.session = ran.session;
        ran.sum
    }
}

#[derive(Clone, Copy, PartialEq)]
enum Standing {
    None,
    Unmarked,
    Marked,
    Closed,
}

// A run of marks that share a range minimum, from the first of them on.
#[derive(Clone, Copy)]
struct Entry {
    value: i32,
    place: u32,
    first: u32,
}

// The plain program: a stack of runs in a `Vec`, and the active marks in the standard map. It has room for all marks from the start.
#[derive(Clone)]
pub struct Peer {
    stack: Vec<Entry>,
    marks: HashMap<u32, ()>,
    limit: usize,
    present: u32,
    last: i32,
    standing: Standing,
}

impl Peer {
    fn new(limit: usize) -> Peer {
        Peer { stack: Vec::with_capacity(limit), marks: HashMap::with_capacity(limit), limit, present: 0, last: 0, standing: Standing::None }
    }

    // As after an opening, with the room that it has.
    fn open(&mut self) {
        self.stack.clear();
        self.marks.clear();
        (self.present, self.last, self.standing) = (0, 0, Standing::None);
    }

    #[inline(always)]
    fn value(&mut self, v: i32) -> Reply {
        if self.present == u32::MAX {
            return (6, 0, 0);
        }
        self.present += 1;
        self.last = v;
        self.standing = Standing::Unmarked;
        let mut run = None;
        while let Some(top) = self.stack.last() {
            if top.value <= v {
                break;
            }
            run = Some(top.first);
            self.stack.pop();
        }
        if let Some(first) = run {
            self.stack.push(Entry { value: v, place: self.present, first });
        }
        (0, 0, 0)
    }

    #[inline(always)]
    fn mark(&mut self) -> Reply {
        match self.standing {
            Standing::None => return (7, 0, 0),
            Standing::Marked => return (8, 0, 0),
            Standing::Closed => return (9, 0, 0),
            Standing::Unmarked => {}
        }
        if self.marks.len() == self.limit {
            return (10, 0, 0);
        }
        self.marks.insert(self.present, ());
        if self.stack.last().is_none_or(|top| top.place != self.present) {
            self.stack.push(Entry { value: self.last, place: self.present, first: self.present });
        }
        self.standing = Standing::Marked;
        (0, 0, 0)
    }

    #[inline(always)]
    fn query(&self, i: u32) -> Reply {
        if !self.marks.contains_key(&i) {
            return (11, 0, 0);
        }
        let run = self.stack[self.stack.partition_point(|entry| entry.first <= i) - 1];
        (0, run.value, run.place)
    }

    #[inline(always)]
    fn close(&mut self, i: u32) -> Reply {
        if self.marks.remove(&i).is_none() {
            return (11, 0, 0);
        }
        if i == self.present {
            self.standing = Standing::Closed;
        }
        (0, 0, 0)
    }

    #[inline(always)]
    fn apply(&mut self, word: u64) -> Reply {
        match kind_of(word) {
            VALUE => {
                self.present = self.present.wrapping_add(skip_of(word));
                self.value(value_of(word))
            }
            MARK => self.mark(),
            QUERY => self.query(word as u32),
            _ => self.close(word as u32),
        }
    }
}

// As functions of their own, for the longest calls.
#[no_mangle]
#[inline(never)]
pub fn peer_value(peer: &mut Peer, v: i32) -> Reply {
    peer.value(v)
}

#[no_mangle]
#[inline(never)]
pub fn peer_mark(peer: &mut Peer) -> Reply {
    peer.mark()
}

#[no_mangle]
#[inline(never)]
pub fn peer_query(peer: &Peer, i: u32) -> Reply {
    peer.query(i)
}

#[no_mangle]
#[inline(never)]
pub fn peer_close(peer: &mut Peer, i: u32) -> Reply {
    peer.close(i)
}

impl Peer {
    fn call(&mut self, word: u64) -> Reply {
        match kind_of(word) {
            VALUE => {
                self.present = self.present.wrapping_add(skip_of(word));
                peer_value(self, value_of(word))
            }
            MARK => peer_mark(self),
            QUERY => peer_query(self, word as u32),
            _ => peer_close(self, word as u32),
        }
    }
}

// What each loop does with a reply; looped.rt.txt does the same.
#[inline(always)]
fn fold(sum: u64, reply: Reply) -> u64 {
    let told = if reply.2 == 0 { reply.0 as u64 } else { (reply.1 as i64 + 0x8000_0000) as u64 + reply.2 as u64 };
    sum.wrapping_add(sum).wrapping_add(told)
}

// The loops, by the names that the counts go by.
#[no_mangle]
#[inline(never)]
pub fn side_ours(side: &mut Ours, stream: &[u64]) -> u64 {
    side.run(stream)
}

#[no_mangle]
#[inline(never)]
pub fn side_peer(side: &mut Peer, stream: &[u64]) -> u64 {
    stream.iter().fold(0, |sum, &word| fold(sum, side.apply(word)))
}

// No engine: what the loop itself costs.
#[no_mangle]
#[inline(never)]
pub fn side_none(stream: &[u64]) -> u64 {
    let mut present = 0u32;
    stream.iter().fold(0, |sum, &word| {
        let reply = match kind_of(word) {
            VALUE => {
                present = present.wrapping_add(skip_of(word)).wrapping_add(1);
                black_box(value_of(word));
                (0, 0, 0)
            }
            MARK => black_box((0, 0, 0)),
            QUERY => (0, black_box(word as i32), present),
            _ => {
                black_box(word as u32);
                (0, 0, 0)
            }
        };
        fold(sum, reply)
    })
}

const SIDES: [&str; 3] = ["ours", "peer", "none"];

// A side's whole run from an opening on, over words that a first run has written: the loop's result, and its seconds.
fn run(side: &str, limit: usize, stream: &[u64]) -> (u64, f64) {
    fn timed(loop_of: impl FnOnce() -> u64) -> (u64, f64) {
        let start = Instant::now();
        let sum = black_box(loop_of());
        (sum, start.elapsed().as_secs_f64())
    }
    match side {
        "ours" => {
            let mut ours = Ours::new(limit);
            ours.run(stream);
            ours.open();
            timed(|| side_ours(&mut ours, stream))
        }
        "peer" => {
            let mut peer = Peer::new(limit);
            stream.iter().for_each(|&word| {
                black_box(peer.call(word));
            });
            peer.open();
            timed(|| side_peer(&mut peer, stream))
        }
        "none" => timed(|| side_none(stream)),
        _ => panic!("no side is called {side}"),
    }
}

struct Chance(u64);

impl Chance {
    // xorshift64*
    fn next(&mut self) -> u64 {
        self.0 ^= self.0 >> 12;
        self.0 ^= self.0 << 25;
        self.0 ^= self.0 >> 27;
        self.0.wrapping_mul(0x2545_f491_4f6c_dd1d) >> 16
    }

    fn below(&mut self, n: u64) -> u64 {
        self.next() % n
    }
}

// Which positions the marks stand at.
struct Places {
    kind: &'static str,
    colliding: Vec<u32>,
}

// The positions whose bucket is the first one among any number of buckets that a lane can have, in order: by crates/table's `bucket`, those with (q + q / 2048) × 2654435769 mod 2^32
// below 2^32 / 8207. For each such product there is at most one q.
fn colliding() -> Vec<u32> {
    // the inverse of 2654435769 modulo 2^32, by Newton's steps
    let inverse = (0..5).fold(1u32, |x, _| x.wrapping_mul(2u32.wrapping_sub(2654435769u32.wrapping_mul(x))));
    assert_eq!(inverse.wrapping_mul(2654435769), 1);
    let mut all: Vec<u32> = (0..(1u64 << 32) / 8207)
        .filter_map(|product| {
            let sum = (product as u32).wrapping_mul(inverse) as u64;
            let near = sum * 2048 / 2049;
            (near.saturating_sub(1)..=near + 1).find(|q| q + q / 2048 == sum && *q > 0).map(|q| q as u32)
        })
        .collect();
    all.sort();
    assert!(all.iter().all(|&q| (q as u64 + q as u64 / 2048) * 2654435769 % (1 << 32) * 8207 >> 32 == 0));
    all
}

impl Places {
    fn new(kind: &str) -> Places {
        let kind = *["next", "regular", "fibonacci", "colliding"].iter().find(|known| **known == kind).expect("a kind of places");
        Places { kind, colliding: if kind == "colliding" { colliding() } else { vec![] } }
    }

    // How many positions are skipped before the next Value.
    fn skip(&self, present: u32) -> u32 {
        let apart = |distance: u32| (present / distance + 1) * distance - present - 1;
        match self.kind {
            "next" => 0,
            // half a second
            "regular" => apart(24_000),
            // a Fibonacci number: where the product alone is the hash, its multiples stand in one bucket
            "fibonacci" => apart(28_657),
            _ => self.colliding[self.colliding.partition_point(|q| *q <= present)] - present - 1,
        }
    }
}

// Commands that are all accepted, of each kind the share that document 02, point 13, was measured with: 28% Values, 22% Marks, 28% Queries and 22% Closes, with about n marks active. Queries
// and Closes are of random active marks. So that a Mark is never refused, one that is due at a marked position comes with the next Value; that makes no difference to the shares.
fn mixed(n: usize, places: &Places) -> Vec<u64> {
    let commands = commands_of(places.kind);
    let mut chance = Chance(0x9e37_79b9_7f4a_7c15);
    let (mut stream, mut active, mut present) = (Vec::with_capacity(commands), Vec::<u32>::new(), 0u32);
    let (mut marked, mut owed) = (true, 0usize);
    while stream.len() < commands {
        let drawn = chance.below(100);
        let mut kind = if drawn < 28 {
            VALUE
        } else if drawn < 56 && !active.is_empty() {
            QUERY
        } else if active.len() + 4 < n || (active.len() < n + 4 && chance.below(8) < (n + 4 - active.len()) as u64) {
            MARK
        } else {
            CLOSE
        };
        if kind == MARK && marked {
            (kind, owed) = (VALUE, owed + 1);
        } else if kind == VALUE && !marked && owed > 0 && active.len() < limit_of(n) {
            (kind, owed) = (MARK, owed - 1);
        }
        let which = if active.is_empty() { 0 } else { chance.below(active.len() as u64) as usize };
        stream.push(match kind {
            VALUE => {
                let skip = places.skip(present);
                present = present.checked_add(skip + 1).expect("there are positions left");
                marked = false;
                value_after(skip, chance.below(2000) as i32 - 1000)
            }
            MARK => {
                marked = true;
                active.push(present);
                command(MARK, 0)
            }
            QUERY => command(QUERY, active[which]),
            _ => command(CLOSE, active.swap_remove(which)),
        });
    }
    stream
}

// Any commands: Marks at any standing, Queries and Closes of any position from 0 to just after the present one, mostly of late ones, and values of a narrow range with both ends of i32.
fn wild(commands: usize, spread: u64, seed: u64) -> Vec<u64> {
    let mut chance = Chance(seed);
    let mut present = 0u32;
    (0..commands)
        .map(|_| {
            let back = if chance.below(4) == 0 { chance.below(present as u64 + 2) } else { chance.below(24) } as u32;
            match chance.below(8) {
                0..=2 => {
                    present += 1;
                    let v = chance.below(spread + 2);
                    value_after(0, if v == spread { i32::MIN } else if v == spread + 1 { i32::MAX } else { v as i32 - spread as i32 / 2 })
                }
                3..=4 => command(MARK, 0),
                5..=6 => command(QUERY, (present + 1).saturating_sub(back)),
                _ => command(CLOSE, (present + 1).saturating_sub(back)),
            }
        })
        .collect()
}

const PLACES: [&str; 4] = ["next", "regular", "fibonacci", "colliding"];
const ACTIVE: [usize; 4] = [8, 60, 500, 4000];

// How long a stream is: where positions are far apart there are too few of them for a million commands.
fn commands_of(kind: &str) -> usize {
    if kind == "next" { 1_000_000 } else { 500_000 }
}

// The limit that a stream with about n active marks is opened for.
fn limit_of(n: usize) -> usize {
    n + 4
}

// The limits that the longest calls are counted for.
const LIMITS: [usize; 4] = [8, 60, 500, 4096];

fn differ(what: &str, at: usize, word: u64, ours: Reply, peer: Reply) -> ! {
    eprintln!("{what}, command {at}, {} of {}: ours tells {ours:?}, the peer {peer:?}", KINDS[kind_of(word) as usize], word as u32);
    std::process::exit(1);
}

// Every reply, one by one; and of the loops what they make of them all. How many of each kind were accepted, and how many were refused, by their numbers.
fn same(limit: usize, stream: &[u64], what: &str) -> ([usize; 4], [usize; 12]) {
    let (mut ours, mut peer) = (Ours::new(limit), Peer::new(limit));
    let (mut accepted, mut refused) = ([0; 4], [0; 12]);
    for (i, &word) in stream.iter().enumerate() {
        let (a, b) = (ours.call(word), peer.call(word));
        if a != b {
            differ(what, i + 1, word, a, b);
        }
        if a.0 == 0 {
            accepted[kind_of(word) as usize] += 1;
        } else {
            refused[a.0 as usize] += 1;
        }
    }
    let sums = ["ours", "peer"].map(|side| run(side, limit, stream).0);
    if sums[0] != sums[1] {
        eprintln!("{what}: the loops' results differ: {sums:?}");
        std::process::exit(1);
    }
    (accepted, refused)
}

fn compare() {
    for kind in PLACES {
        let places = Places::new(kind);
        for n in ACTIVE {
            let (accepted, refused) = same(limit_of(n), &mixed(n, &places), &format!("about {n} marks, {kind}"));
            assert_eq!(refused.iter().sum::<usize>(), 0);
            println!("mix {kind} {n} {}", accepted.map(|count| format!("{:.1}", count as f64 * 100.0 / commands_of(kind) as f64)).join(" "));
        }
    }
    let mut all = [0; 12];
    for limit in (1..=12).chain([60, 500, 4096]) {
        for (seed, spread) in [2, 5, 100, 1_000_000].into_iter().enumerate() {
            let (_, refused) = same(limit, &wild(100_000, spread, 7 + limit as u64 * 8 + seed as u64), &format!("any commands, K = {limit}"));
            (0..12).for_each(|number| all[number] += refused[number]);
        }
    }
    assert!((7..=11).all(|number| all[number] > 0), "each of the refusals 7 to 11 is compared: {all:?}");
    for limit in LIMITS {
        for crowding in ["spread", "colliding"] {
            plays(limit, crowding, None);
        }
    }
    println!("every reply is the same");
}

// Nanoseconds a command: the quickest of the rounds, since what else the machine does can only slow a round, and their median. In a round the sides take turns, and in every other round in
// the opposite order.
fn time(rounds: usize) {
    for kind in PLACES {
        let places = Places::new(kind);
        for n in ACTIVE {
            let stream = mixed(n, &places);
            let mut times = SIDES.map(|_| vec![]);
            // the first round warms up
            for round in 0..=rounds {
                for turn in 0..SIDES.len() {
                    let side = if round % 2 == 0 { turn } else { SIDES.len() - 1 - turn };
                    let took = run(SIDES[side], limit_of(n), &stream).1;
                    if round > 0 {
                        times[side].push(took * 1e9 / stream.len() as f64);
                    }
                }
            }
            for (side, mut all) in SIDES.iter().zip(times) {
                all.sort_by(f64::total_cmp);
                println!("{side} {n} {kind} {:.3} {:.3}", all[0], all[all.len() / 2]);
            }
        }
    }
}

// The longest calls. What is played brings the words to where a call may be long: the stack as high as it gets, lanes full, a merge about to end, all marks in one bucket.
// Not every call is counted, for the sake of time; those that are go through C (`Ours::call`, `Peer::call`), all others through the loop in Rattle.
struct Play {
    ours: Ours,
    peer: Option<Peer>,
    // whose calls are counted; else all are compared
    counts: Option<&'static str>,
    what: String,
    commands: usize,
}

impl Play {
    fn new(limit: usize, counts: Option<&'static str>, what: String) -> Play {
        let peer = if counts == Some("ours") { None } else { Some(Peer::new(limit)) };
        Play { ours: Ours::new(limit), peer, counts, what, commands: 0 }
    }

    // A command; of its reply only the number is told.
    fn give(&mut self, word: u64, counted: bool) -> u32 {
        self.commands += 1;
        let ours = if counted && self.counts != Some("peer") {
            self.ours.call(word)
        } else {
            let was = self.ours.session;
            let sum = self.ours.run(&[word]);
            let told = self.peer_reply_as_summed(word, counted);
            if told.is_some_and(|told| told != sum) {
                eprintln!("{}, command {}, {word:#x} on {was:?}: the loop made {sum} of it, the peer {told:?}", self.what, self.commands);
                std::process::exit(1);
            }
            return sum as u32;
        };
        if let Some(peer) = self.peer.as_mut() {
            let told = peer.call(word);
            if told != ours {
                differ(&self.what, self.commands, word, ours, told);
            }
        }
        ours.0
    }

    fn peer_reply_as_summed(&mut self, word: u64, counted: bool) -> Option<u64> {
        self.peer.as_mut().map(|peer| fold(0, if counted { peer.call(word) } else { peer.apply(word) }))
    }

    // A word of a role's header.
    fn header(&self, role: usize, n: usize) -> usize {
        self.ours.area[8 * role + n] as usize
    }

    // The active lane is full: the next Mark turns.
    fn full(&self) -> bool {
        self.header(0, 1) >= self.header(0, 2)
    }

    // The rows that are left to carry.
    fn left(&self) -> usize {
        if self.header(1, 1) == 0 { 0 } else { self.header(1, 1) - self.header(1, 5) + self.header(2, 1) - self.header(2, 5) }
    }

    // Calls from here, each on these words and this session: Values that take over to several places of the stack, Queries and Closes of several marks, and of some that are closed.
    fn probe(&mut self, active: &VecDeque<u32>, closed: &[u32]) {
        let (session, area) = (self.ours.session, self.ours.area.clone());
        let some = |of: usize, most: usize| -> BTreeSet<usize> {
            let step = (of / most).max(1);
            (0..of).step_by(step).chain(0..of.min(8)).chain(of.saturating_sub(8)..of).collect()
        };
        // where the mark of a position stands in the words, in the lanes that have it: the rows of a lane are in the order of their positions
        let stands = |i: u32| -> Vec<usize> {
            (0..4)
                .filter_map(|role| {
                    let (lane, rows) = (area[8 * role] as usize, area[8 * role + 1] as usize);
                    let at = |row: usize| 32 + 8 * lane + 32 * row + 1;
                    let (mut low, mut size) = (0, rows);
                    while size > 1 {
                        let half = size / 2;
                        if area[at(low + half)] / 2 <= i as u64 {
                            low += half;
                        }
                        size -= half;
                    }
                    (rows > 0 && area[at(low)] / 2 == i as u64).then(|| at(low))
                })
                .collect()
        };
        let marks = some(active.len(), 60).into_iter().map(|n| active[n]);
        let gone = some(closed.len(), 16).into_iter().map(|n| closed[n]);
        for i in marks.chain(gone).chain([1, session.present]) {
            self.give(command(QUERY, i), true);
            assert_eq!(self.ours.session, session);
            let standing = self.peer.as_ref().map(|peer| peer.standing);
            if self.give(command(CLOSE, i), true) == 0 {
                stands(i).into_iter().for_each(|at| self.ours.area[at] = area[at]);
                self.ours.session = session;
                if let Some(peer) = self.peer.as_mut() {
                    peer.marks.insert(i, ());
                    peer.standing = standing.expect("a peer's standing");
                }
            }
        }
        let (lane, height) = (self.header(0, 0), self.header(0, 3));
        for place in some(height, 40) {
            let below = ((area[32 + 8 * lane + 32 * place + 4] >> 32) as i64 - 0x8000_0000 - 1) as i32;
            for v in [below, below + 1] {
                let was = self.peer.as_ref().map(|peer| (peer.stack.clone(), peer.last, peer.standing));
                self.give(value_after(0, v), true);
                let top = self.ours.area[3].saturating_sub(1) as usize;
                for at in [3, 32 + 8 * lane + 32 * top + 4] {
                    self.ours.area[at] = area[at];
                }
                self.ours.session = session;
                if let (Some(peer), Some((stack, last, standing))) = (self.peer.as_mut(), was) {
                    (peer.stack, peer.last, peer.standing, peer.present) = (stack, last, standing, session.present);
                }
            }
        }
        assert!(self.ours.area == area, "the words are as they were");
    }
}

const SHAPES: [&str; 5] = ["rising", "falling", "sawtooth", "constant", "random"];
const CLOSED: [&str; 3] = ["oldest", "newest", "random"];

// As many marks as may be, a Mark after each Value, and a Close before it where the board is full; up to some turns with a full board.
fn play(limit: usize, shape: &str, places: &Places, closing: &str, counts: Option<&'static str>) {
    let what = format!("K = {limit}, {shape} values, {} positions, the {closing} mark closed", places.kind);
    let mut play = Play::new(limit, counts, what);
    let mut chance = Chance(0x1234_5678_9abc_def1);
    let (mut active, mut closed) = (VecDeque::<u32>::new(), Vec::<u32>::new());
    let (mut v, mut turns) = (0i32, 0);
    for i in 0u64.. {
        v = match shape {
            "rising" => v + 2,
            "falling" => v - 2,
            "sawtooth" => if i % (limit as u64 / 2 + 9) == 0 { -(i as i32) } else { v + 2 },
            "constant" => 12,
            _ => chance.next() as i32,
        };
        let present = play.ours.session.present;
        let often = limit <= 60 || i % 241 == 0;
        play.give(value_after(places.skip(present), v), often);
        let crowded = active.len() == limit;
        if crowded {
            let n = match closing {
                "oldest" => 0,
                "newest" => limit - 1,
                _ => chance.below(limit as u64) as usize,
            };
            closed.push(active.remove(n).expect("a mark"));
            play.give(command(CLOSE, closed[closed.len() - 1]), often);
        }
        let (full, left) = (play.full(), play.left());
        // with a full board: before a turn, and before the merge ends
        if crowded && (full || left == 1 || left == 2) {
            let late = closed.len().saturating_sub(64);
            play.probe(&active, &closed[late..]);
        }
        play.give(command(MARK, 0), often || full || (1..=4).contains(&left));
        active.push_back(play.ours.session.present);
        turns += (crowded && full) as usize;
        if turns == 3 {
            break;
        }
    }
}

// All that is played at a limit: with the marks in one bucket, or else spread over all, and then also commands as they come.
fn plays(limit: usize, crowding: &str, counts: Option<&'static str>) {
    let kinds: &[&str] = if crowding == "colliding" { &["colliding"] } else { &["next", "regular"] };
    for kind in kinds {
        let places = Places::new(kind);
        for shape in SHAPES {
            for closing in CLOSED {
                play(limit, shape, &places, closing, counts);
            }
        }
    }
    if crowding != "colliding" {
        let stream = mixed(limit - 4, &Places::new("next"));
        let mut play = Play::new(limit, counts, format!("K = {limit}, a mix"));
        let first = 10 * limit + 1000;
        stream.iter().take(first + 3000).enumerate().for_each(|(i, &word)| {
            play.give(word, i >= first);
        });
    }
}

fn main() {
    let arguments: Vec<String> = std::env::args().skip(1).collect();
    let words: Vec<&str> = arguments.iter().map(String::as_str).collect();
    match words[..] {
        ["compare"] => compare(),
        ["time", rounds] => time(rounds.parse().expect("a number of rounds")),
        ["count", side, n, kind] => {
            let n = n.parse().expect("a number of marks");
            run(side, limit_of(n), &mixed(n, &Places::new(kind)));
        }
        ["calls", side, limit, crowding] => plays(limit.parse().expect("a limit"), crowding, SIDES[..2].iter().copied().find(|known| *known == side)),
        _ => {
            eprintln!("usage: driver compare | time ROUNDS | count SIDE N PLACES | calls ours|peer K spread|colliding");
            std::process::exit(2);
        }
    }
}
