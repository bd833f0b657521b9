// One scheduler step: the proved one, from the static library, beside an ordinary Rust version of the same rules, in the same run.
// Both are called through a function that is not inlined; both refuse numbers out of range; both see the same frames.
// Before anything is timed, a million frames of every kind are compared, answers and states.
// `bench/run.sh scheduler` builds and runs it.
mod random;
mod rounds;

use random::Random;
use rounds::{race, round};

extern "C" {
    fn bench_scheduler_step(words: *mut [u64; 8], residence: u64, arrival: u64, length: u32) -> u64;
}

fn proved(words: &mut [u64; 8], residence: u64, arrival: u64, length: u32) -> u64 {
    // Safety: the pointer is that of eight words, as the function's signature asks.
    unsafe { bench_scheduler_step(words, residence, arrival, length) }
}

const GRAINS: u64 = 8_000_000_000;
const TIMES: u64 = 1 << 62;
const LAST: u64 = TIMES + 1_000_000_000;

// As one writes it: the products in 128 bits, the wait plainly divided.
#[derive(Clone, Copy)]
struct Scheduler {
    rate: u64,
    burst: u32,
    level: u64,
    last: u64,
    group: u64,
}

impl Scheduler {
    #[inline(never)]
    fn step(&mut self, residence: u64, arrival: u64, length: u32) -> u64 {
        if self.rate < 1
            || self.rate > 10_000_000_000
            || self.burst < 1
            || self.burst > 1_000_000
            || self.level > self.burst as u64 * GRAINS
            || length > self.burst
            || self.last > LAST
            || self.group > LAST
            || arrival > TIMES
            || !(1..=1_000_000_000).contains(&residence)
        {
            return 3;
        }
        let full = self.burst as u64 * GRAINS;
        let need = length as u64 * GRAINS;
        let wait = need.saturating_sub(self.level).div_ceil(self.rate);
        let at = arrival.max(self.group).max(self.last + wait);
        if at > arrival + residence {
            return 8;
        }
        let grown = self.level as u128 + self.rate as u128 * (at - self.last) as u128;
        self.level = grown.min(full as u128) as u64 - need;
        self.last = at;
        self.group = at;
        0
    }

    fn words(&self) -> [u64; 8] {
        [self.rate, self.burst as u64, self.level, self.last, self.group, 0, 0, 0]
    }
}

fn scheduler(r: &mut Random) -> Scheduler {
    let rates = [1, 999, 1_000_000, 100_000_000, 1_000_000_000, 9_999_999_999, 10_000_000_000, 0, 10_000_000_001, u64::MAX];
    let bursts = [1, 64, 1500, 2000, 20_000, 999_999, 1_000_000, 0, 1_000_001, u32::MAX as u64];
    let most = if r.below(8) == 0 { 10 } else { 7 };
    let burst = r.one_of(&bursts[..most]) as u32;
    Scheduler {
        rate: r.one_of(&rates[..most]),
        burst,
        level: burst.min(1_000_000) as u64 * GRAINS + (r.below(100) == 0) as u64,
        last: r.one_of(&[0, 0, 0, 1_000_000, LAST, LAST + 1]),
        group: r.one_of(&[0, 0, 0, 1_000_000, LAST, LAST + 1]),
    }
}

fn compare(frames: u64) -> [u64; 9] {
    let mut r = Random(0x9E37_79B9_7F4A_7C15);
    let mut seen = [0; 9];
    let mut done = 0;
    while done < frames {
        let mut s = scheduler(&mut r);
        let mut w = s.words();
        let mut time = s.last.min(TIMES);
        let residence = r.one_of(&[1, 1000, 10_000, 1_000_000, 1_000_000_000, 0, 1_000_000_001]);
        for _ in 0..64 {
            let step = r.spell(TIMES);
            time = time.saturating_add(step).min(TIMES + r.below(2) * r.below(2));
            let length = if s.burst == 0 { 0 } else { (r.below(2100) as u32).min(s.burst.saturating_add((r.below(40) == 0) as u32)) };
            let a = s.step(residence, time, length);
            let b = proved(&mut w, residence, time, length);
            assert!(a == b && w == s.words(), "{a} {b} {w:?}");
            seen[a as usize] += 1;
            done += 1;
        }
    }
    seen
}

// Thirty-two schedulers in turn, as a bridge has them; frames of 64 to 1500 octets.
fn load(rate: u64, spell: u64) -> (Vec<Scheduler>, Vec<(u64, u32)>) {
    let mut r = Random(7);
    let schedulers = (0..32)
        .map(|i| Scheduler { rate: rate + i * 50_000, burst: 3000 + 100 * i as u32, level: (3000 + 100 * i) * GRAINS, last: 0, group: 0 })
        .collect();
    let mut time = 0;
    let frames = (0..4096)
        .map(|_| {
            time += r.below(spell);
            (time, 64 + r.below(1437) as u32)
        })
        .collect();
    (schedulers, frames)
}

fn main() {
    let seen = compare(1_000_000);
    println!("compared: {} admitted, {} drop 8, {} refused 3: all alike", seen[0], seen[8], seen[3]);
    println!("ns a step, best of 40 rounds of 4096 frames over 32 schedulers; ratio proved / plain Rust");
    for (name, rate, spell) in [
        ("no frame waits             ", 1_000_000_000, 2000),
        ("most frames wait           ", 50_000_000, 4000),
        ("a frame every four seconds ", 1_000_000_000, 8_000_000_000),
    ] {
        let (schedulers, frames) = load(rate, spell);
        race(
            name,
            "plain",
            || round(&frames, schedulers.iter().map(Scheduler::words).collect::<Vec<_>>(), |words, i, &(time, length)| proved(&mut words[i % 32], 10_000_000, time, length)),
            || round(&frames, schedulers.clone(), |plain, i, &(time, length)| plain[i % 32].step(10_000_000, time, length)),
        );
    }
}
