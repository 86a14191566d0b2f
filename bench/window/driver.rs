// The look-ahead window against a plain Rust program with `VecDeque`: the same replies, the time and the instructions of a value, and the longest call.
// tools/bench-window builds this with the library for C and with looped.rt.txt, and runs it; docs/BENCH.md says what is measured.
use std::collections::VecDeque;
use std::hint::black_box;
use std::time::Instant;

// What include/filkotar.h declares.
#[repr(C)]
#[derive(Clone, Copy)]
pub struct Session {
    words: u64,
    width: u64,
    present: u32,
}

#[repr(C)]
#[derive(Clone, Copy)]
pub struct Answer {
    session: Session,
    number: u32,
    value: i32,
    place: u32,
}

extern "C" {
    fn filkotar_window_open(area: *mut u64, length: u64, width: u64) -> Answer;
    fn filkotar_window_value(s: Session, area: *mut u64, length: u64, v: i32) -> Answer;
    // looped.rt.txt: opens a window and gives it each value of a stream
    fn bench_loop(area: *mut u64, length: u64, width: u64, stream: *const i32, values: u64) -> u64;
}

pub struct Ours {
    session: Session,
    area: Vec<u64>,
}

impl Ours {
    // An opening on 2 × W words, as few as a window of W works on.
    fn new(width: usize) -> Ours {
        let mut area = vec![0x5555_5555_5555_5555u64; 2 * width];
        let answer = unsafe { filkotar_window_open(area.as_mut_ptr(), area.len() as u64, width as u64) };
        assert_eq!(answer.number, 0, "the opening for W = {width} is refused");
        Ours { session: answer.session, area }
    }

    #[inline(always)]
    fn value(&mut self, v: i32) -> (i32, u32) {
        let answer = unsafe { filkotar_window_value(self.session, self.area.as_mut_ptr(), self.area.len() as u64, v) };
        self.session = answer.session;
        (answer.value, answer.place)
    }
}

// The usual monotone deque. It has room for W + 1 entries from the start, so that it never grows.
pub struct Peer {
    entries: VecDeque<(i32, u32)>,
    width: u32,
    present: u32,
}

impl Peer {
    fn new(width: usize) -> Peer {
        Peer { entries: VecDeque::with_capacity(width + 1), width: width as u32, present: 0 }
    }

    #[inline(always)]
    fn inlined(&mut self, v: i32) -> (i32, u32) {
        self.present += 1;
        while let Some(&(back, _)) = self.entries.back() {
            if back > v {
                self.entries.pop_back();
            } else {
                break;
            }
        }
        self.entries.push_back((v, self.present));
        if self.present - self.entries[0].1 >= self.width {
            self.entries.pop_front();
        }
        self.entries[0]
    }
}

// As a function of its own, with its state behind a reference.
#[no_mangle]
#[inline(never)]
pub fn peer_value(peer: &mut Peer, v: i32) -> (i32, u32) {
    peer.inlined(v)
}

// Behind the same signature as ours: the session by value in, an answer out, and the same refusals.
#[no_mangle]
#[inline(never)]
pub extern "C" fn peer_c_value(s: Session, entries: &mut VecDeque<(i32, u32)>, length: u64, v: i32) -> Answer {
    let refused = |number| Answer { session: s, number, value: 0, place: 0 };
    if s.words == 0 {
        return refused(4);
    }
    if length != s.words {
        return refused(5);
    }
    if s.present == u32::MAX {
        return refused(6);
    }
    let present = s.present + 1;
    while let Some(&(back, _)) = entries.back() {
        if back > v {
            entries.pop_back();
        } else {
            break;
        }
    }
    entries.push_back((v, present));
    if (present - entries[0].1) as u64 >= s.width {
        entries.pop_front();
    }
    let (value, place) = entries[0];
    Answer { session: Session { present, ..s }, number: 0, value, place }
}

pub struct PeerC {
    session: Session,
    entries: VecDeque<(i32, u32)>,
}

impl PeerC {
    fn new(width: usize) -> PeerC {
        PeerC { session: Session { words: 2 * width as u64, width: width as u64, present: 0 }, entries: VecDeque::with_capacity(width + 1) }
    }

    #[inline(always)]
    fn value(&mut self, v: i32) -> (i32, u32) {
        let answer = peer_c_value(self.session, &mut self.entries, self.session.words, v);
        self.session = answer.session;
        (answer.value, answer.place)
    }
}

// What each loop does with a reply; looped.rt.txt does the same.
#[inline(always)]
fn fold(sum: u64, reply: (i32, u32)) -> u64 {
    sum.wrapping_add(sum).wrapping_add((reply.0 as i64 + 0x8000_0000) as u64).wrapping_add(reply.1 as u64)
}

// The loops, by the names that the counts go by.
#[no_mangle]
#[inline(never)]
pub fn side_ours(side: &mut Ours, stream: &[i32]) -> u64 {
    let (area, width) = (&mut side.area, side.session.width);
    unsafe { bench_loop(area.as_mut_ptr(), area.len() as u64, width, stream.as_ptr(), stream.len() as u64) }
}

#[no_mangle]
#[inline(never)]
pub fn side_peer(side: &mut Peer, stream: &[i32]) -> u64 {
    stream.iter().fold(0, |sum, &v| fold(sum, side.inlined(v)))
}

#[no_mangle]
#[inline(never)]
pub fn side_called(side: &mut Peer, stream: &[i32]) -> u64 {
    stream.iter().fold(0, |sum, &v| fold(sum, peer_value(side, v)))
}

#[no_mangle]
#[inline(never)]
pub fn side_ours_c(side: &mut Ours, stream: &[i32]) -> u64 {
    stream.iter().fold(0, |sum, &v| fold(sum, side.value(v)))
}

#[no_mangle]
#[inline(never)]
pub fn side_peer_c(side: &mut PeerC, stream: &[i32]) -> u64 {
    stream.iter().fold(0, |sum, &v| fold(sum, side.value(v)))
}

// No window: what the loop itself costs.
#[no_mangle]
#[inline(never)]
pub fn side_none(stream: &[i32]) -> u64 {
    let mut present = 0u32;
    stream.iter().fold(0, |sum, &v| {
        present += 1;
        fold(sum, (black_box(v), present))
    })
}

const SIDES: [&str; 6] = ["ours", "peer", "called", "ours_c", "peer_c", "none"];

// A side's whole run from an opening on: the loop's result, and its seconds.
fn run(side: &str, width: usize, values: &[i32]) -> (u64, f64) {
    fn timed(loop_of: impl FnOnce() -> u64) -> (u64, f64) {
        let start = Instant::now();
        let sum = black_box(loop_of());
        (sum, start.elapsed().as_secs_f64())
    }
    let (mut ours, mut peer, mut peer_c) = (Ours::new(width), Peer::new(width), PeerC::new(width));
    match side {
        "ours" => timed(|| side_ours(&mut ours, values)),
        "peer" => timed(|| side_peer(&mut peer, values)),
        "called" => timed(|| side_called(&mut peer, values)),
        "ours_c" => timed(|| side_ours_c(&mut ours, values)),
        "peer_c" => timed(|| side_peer_c(&mut peer_c, values)),
        "none" => timed(|| side_none(values)),
        _ => panic!("no side is called {side}"),
    }
}

const STREAMS: [&str; 4] = ["falling", "rising", "constant", "random"];
const WIDTHS: [usize; 2] = [144, 4096];
const VALUES: usize = 1_000_000;

fn stream(kind: &str, length: usize) -> Vec<i32> {
    let mut state = 0x9e37_79b9_7f4a_7c15u64;
    (0..length as i32)
        .map(|i| match kind {
            "falling" => -i,
            "rising" => i,
            "constant" => 12,
            "random" => {
                // xorshift64*: every value of the range
                state ^= state >> 12;
                state ^= state << 25;
                state ^= state >> 27;
                (state.wrapping_mul(0x2545_f491_4f6c_dd1d) >> 32) as i32
            }
            _ => panic!("no stream is called {kind}"),
        })
        .collect()
}

// Every reply, one by one; and of a whole loop what it makes of them all.
fn same(width: usize, values: &[i32], what: &str) {
    let (mut ours, mut peer, mut peer_c) = (Ours::new(width), Peer::new(width), PeerC::new(width));
    for (i, &v) in values.iter().enumerate() {
        let (a, b, c) = (ours.value(v), peer_value(&mut peer, v), peer_c.value(v));
        if a != b || c != b {
            eprintln!("W = {width}, {what}, value {}: ours tells {a:?}, the peer {b:?}, the peer behind the C call {c:?}", i + 1);
            std::process::exit(1);
        }
    }
    let sums = SIDES[..5].iter().map(|side| run(side, width, values).0).collect::<Vec<_>>();
    if sums.iter().any(|sum| *sum != sums[0]) {
        eprintln!("W = {width}, {what}: the loops' results differ: {sums:?}");
        std::process::exit(1);
    }
}

fn compare() {
    for width in WIDTHS {
        for kind in STREAMS {
            same(width, &stream(kind, VALUES), kind);
        }
    }
    // other widths, and streams with many equal values
    let random = stream("random", 100_000);
    for width in (1..=20).chain([1000, 4095]) {
        same(width, &random, "random");
        for spread in [2, 5, 100] {
            same(width, &random.iter().map(|v| v.rem_euclid(spread)).collect::<Vec<_>>(), "few values");
        }
    }
    println!("every reply is the same");
}

// Nanoseconds a value: the quickest of the rounds, since what else the machine does can only slow a round, and their median. In a round the sides take turns, and in every other round in
// the opposite order.
fn time(rounds: usize) {
    for width in WIDTHS {
        for kind in STREAMS {
            let values = stream(kind, VALUES);
            let mut times = SIDES.map(|_| vec![]);
            // the first round warms up
            for round in 0..=rounds {
                for turn in 0..SIDES.len() {
                    let side = if round % 2 == 0 { turn } else { SIDES.len() - 1 - turn };
                    let took = run(SIDES[side], width, &values).1;
                    if round > 0 {
                        times[side].push(took * 1e9 / VALUES as f64);
                    }
                }
            }
            for (side, mut all) in SIDES.iter().zip(times) {
                all.sort_by(f64::total_cmp);
                println!("{side} {width} {kind} {:.3} {:.3}", all[0], all[all.len() / 2]);
            }
        }
    }
}

// Calls for a count of each: those that may be long. All the rest of a call's work is outside the counted function.
fn calls(side: &str, width: usize) {
    // values that rise, so that each of the last W stays in the deque
    let rising = |length: usize| (0..length as i32).map(|i| 2 * i);
    match side {
        // A value that takes over all but j entries, for each j, with the front at several slots, once with the oldest leaving and once not; and each value of a random stream.
        "ours" => {
            let mut fronts = vec![0, 1, width / 3, width / 2, width - 2.min(width), width - 1];
            fronts.dedup();
            for front in fronts {
                for before in [width - 1 + front, width + front] {
                    let kept = before.min(width);
                    let mut ours = Ours::new(width);
                    rising(before).for_each(|v| {
                        ours.value(v);
                    });
                    let (session, area) = (ours.session, ours.area.clone());
                    for j in 0..=kept {
                        ours.session = session;
                        ours.area.copy_from_slice(&area);
                        black_box(ours.value(2 * (before - kept + j) as i32 - 1));
                    }
                }
            }
            side_ours_c(&mut Ours::new(width), &stream("random", 10_000));
        }
        // A value that takes over all entries.
        "peer" => {
            for before in [width - 1, width] {
                let mut peer = Peer::new(width);
                rising(before).for_each(|v| {
                    peer.inlined(v);
                });
                black_box(peer_value(&mut peer, -1));
            }
        }
        _ => panic!("no side is called {side}"),
    }
}

fn main() {
    let arguments: Vec<String> = std::env::args().skip(1).collect();
    let words: Vec<&str> = arguments.iter().map(String::as_str).collect();
    match words[..] {
        ["compare"] => compare(),
        ["time", rounds] => time(rounds.parse().expect("a number of rounds")),
        ["count", side, width, kind] => {
            run(side, width.parse().expect("a width"), &stream(kind, VALUES));
        }
        ["calls", side, width] => calls(side, width.parse().expect("a width")),
        _ => {
            eprintln!("usage: driver compare | time ROUNDS | count SIDE W STREAM | calls ours|peer W");
            std::process::exit(2);
        }
    }
}
