// ns a frame through a gate: the proved step beside plain Rust of the same rules, in one run.
// Eight entries, a frame in every interval; the same octets, gate and frames for both. Before that, both answer two million random frames alike.
mod random;
mod rounds;

use random::Random;
use rounds::{race, round};
use std::hint::black_box;

extern "C" {
    // crates/bench_steps: the list as pointer and length, the gate as nine words.
    fn bench_gate_step(list: *const u8, length: usize, words: *mut [u64; 9], time: u64, msdu: u64) -> u64;
}

fn proved(list: &[u8], words: &mut [u64; 9], time: u64, msdu: u64) -> u64 {
    unsafe { bench_gate_step(list.as_ptr(), list.len(), words, time, msdu) }
}

// The words of a gate, in the order of `gate::Gate`.
const OPENED: usize = 0;
const IPV: usize = 1;
const INVALID_RECEIVE_BLOCK: usize = 2;
const OCTETS_BLOCK: usize = 3;
const BASE: usize = 4;
const INVALID_RECEIVE_FLAG: usize = 5;
const OCTETS_FLAG: usize = 6;
const SINCE: usize = 7;
const SPENT: usize = 8;

fn word(octets: &[u8]) -> u64 {
    u32::from_be_bytes([octets[0], octets[1], octets[2], octets[3]]) as u64
}

struct Found<'a> {
    start: u64,
    entry: &'a [u8],
}

fn in_force(list: &[u8], base: u64, time: u64) -> Option<Found<'_>> {
    if time < base {
        return None;
    }
    let cycle: u64 = list.chunks_exact(11).take(8).map(|e| word(&e[3..7])).sum();
    if cycle == 0 {
        return None;
    }
    let mut x = (time - base) % cycle;
    for entry in list.chunks_exact(11).take(8) {
        let interval = word(&entry[3..7]);
        if x < interval {
            return Some(Found { start: time - x, entry });
        }
        x -= interval;
    }
    None
}

#[inline(never)]
fn plain(list: &[u8], gate: &mut [u64; 9], time: u64, msdu: u64) -> u64 {
    if gate[INVALID_RECEIVE_FLAG] != 0 || gate[OCTETS_FLAG] != 0 {
        return 3 * 256;
    }
    let found = in_force(list, gate[BASE], time);
    let (opened, ipv) = match &found {
        None => (gate[OPENED] != 0, gate[IPV]),
        Some(f) => (f.entry[1] != 0, f.entry[2] as u64),
    };
    if !opened {
        gate[INVALID_RECEIVE_FLAG] |= gate[INVALID_RECEIVE_BLOCK];
        return 4 * 256;
    }
    if let Some(f) = found {
        let maximum = word(&f.entry[7..11]);
        if maximum != u32::MAX as u64 {
            let spent = if gate[SINCE] == f.start { gate[SPENT] } else { 0 };
            if msdu > maximum.saturating_sub(spent) {
                gate[OCTETS_FLAG] |= gate[OCTETS_BLOCK];
                return 5 * 256;
            }
            gate[SINCE] = f.start;
            gate[SPENT] = spent + msdu;
        }
    }
    ipv
}

const ENTRIES: [(u8, u8, u32, u32); 8] = [
    (1, 8, 1000, 600),
    (0, 8, 700, u32::MAX),
    (1, 3, 1300, 1500),
    (1, 4, 400, u32::MAX),
    (0, 0, 900, 2000),
    (1, 5, 1100, 64),
    (1, 6, 800, 1518),
    (0, 8, 600, u32::MAX),
];

fn octets() -> Vec<u8> {
    let mut list = Vec::new();
    for (state, ipv, interval, maximum) in ENTRIES {
        list.extend([0, state, ipv]);
        list.extend(interval.to_be_bytes());
        list.extend(maximum.to_be_bytes());
    }
    list
}

// Open, IPV null, no blocks, base time 5000.
const FRESH: [u64; 9] = [1, 8, 0, 0, 5000, 0, 0, 0, 0];

// One frame in every interval, at a place in it and of a length that vary.
fn frames(count: usize) -> Vec<(u64, u64)> {
    let mut random = Random(1);
    let mut frames = Vec::with_capacity(count);
    let mut start = FRESH[BASE];
    for k in 0..count {
        let interval = ENTRIES[k % 8].2 as u64;
        frames.push((start + random.below(interval), 64 + random.below(1455)));
        start += interval;
    }
    frames
}

// Lists of every length from none to nine entries, whole or cut, in range or not; gates and frames likewise. Both give the same answers and gates.
fn agree(runs: usize) {
    let mut random = Random(2);
    for run in 0..runs {
        let mut list = vec![0; random.below(100) as usize];
        let top = [2, 4, 256][random.below(3) as usize];
        for (k, octet) in list.iter_mut().enumerate() {
            // the upper octets of interval and maximum are mostly 0
            let upper = matches!(k % 11, 3..=5 | 7..=9) && random.below(8) != 0;
            *octet = if upper { 0 } else { random.below(top) as u8 };
        }
        let mut gate = [random.below(2), random.below(256), random.below(2), random.below(2), random.below(50), 0, 0, 0, 0];
        let mut other = gate;
        let mut time = random.below(100);
        for frame in 0..20 {
            let msdu = random.below(top);
            let (a, b) = (proved(&list, &mut gate, time, msdu), plain(&list, &mut other, time, msdu));
            assert_eq!((a, gate), (b, other), "run {run}, frame {frame}: {list:?} at {time}, {msdu} octets");
            let step = [1, 8, 300, 1 << 30][random.below(4) as usize];
            time += random.below(step);
            if gate[INVALID_RECEIVE_FLAG] + gate[OCTETS_FLAG] != 0 && random.below(3) == 0 {
                (gate[INVALID_RECEIVE_FLAG], gate[OCTETS_FLAG]) = (0, 0);
                other = gate;
            }
        }
    }
}

fn main() {
    let list = octets();
    let frames = frames(4096);
    agree(100_000);
    println!("ns a frame, best of 40 rounds of 4096 frames, a frame in every interval; ratio proved / plain Rust");
    race(
        "eight entries",
        "plain",
        || round(&frames, FRESH, |gate, _, &(time, msdu)| proved(black_box(&list), gate, time, msdu)),
        || round(&frames, FRESH, |gate, _, &(time, msdu)| plain(black_box(&list), gate, time, msdu)),
    );
}
