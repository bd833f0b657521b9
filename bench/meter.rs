// One meter step: the proved one, from the static library, beside an ordinary Rust version of the same rules, in the same run.
// Both are called through a function that is not inlined; both refuse numbers out of range; both see the same frames.
// Before anything is timed, a million frames of every kind are compared, answers and states.
// `bench/run.sh meter` builds and runs it.
mod random;
mod rounds;

use random::Random;
use rounds::{race, round};

extern "C" {
    fn bench_meter_step(words: *mut [u64; 16], time: u64, msdu: u32, drop_eligible: bool) -> u64;
}

fn proved(words: &mut [u64; 16], time: u64, msdu: u32, drop_eligible: bool) -> u64 {
    // Safety: the pointer is that of sixteen words, as the function's signature asks.
    unsafe { bench_meter_step(words, time, msdu, drop_eligible) }
}

const GRAINS: u64 = 8_000_000_000;
const TIMES: u64 = 1 << 62;

// As one writes it: the products in 128 bits.
#[derive(Clone, Copy)]
struct Meter {
    cir: u64,
    cbs: u32,
    eir: u64,
    ebs: u32,
    coupling: bool,
    colour_aware: bool,
    drop_on_yellow: bool,
    red_block: bool,
    red_flag: bool,
    committed: u64,
    excess: u64,
    last: u64,
}

impl Meter {
    #[inline(never)]
    fn step(&mut self, time: u64, msdu: u32, drop_eligible: bool) -> u64 {
        let full_c = self.cbs as u128 * GRAINS as u128;
        let full_e = self.ebs as u128 * GRAINS as u128;
        if self.cir > 10_000_000_000
            || self.eir > 10_000_000_000
            || self.cbs > 1_000_000
            || self.ebs > 1_000_000
            || self.committed as u128 > full_c
            || self.excess as u128 > full_e
            || self.last > TIMES
            || time > TIMES
            || msdu > 2000
        {
            return 3;
        }
        if time < self.last {
            return 9;
        }
        let d = (time - self.last) as u128;
        let c = self.committed as u128 + self.cir as u128 * d;
        let mut e = self.excess as u128 + self.eir as u128 * d;
        if c > full_c && self.coupling {
            e += c - full_c;
        }
        self.committed = c.min(full_c) as u64;
        self.excess = e.min(full_e) as u64;
        self.last = time;
        if self.red_flag {
            return 7;
        }
        let need = msdu as u64 * GRAINS;
        if (!drop_eligible || !self.colour_aware) && need <= self.committed {
            self.committed -= need;
            0
        } else if need <= self.excess {
            self.excess -= need;
            if self.drop_on_yellow { 6 } else { 1 }
        } else {
            self.red_flag |= self.red_block;
            7
        }
    }

    fn words(&self) -> [u64; 16] {
        [
            self.cir, self.cbs as u64, self.eir, self.ebs as u64,
            self.coupling as u64, self.colour_aware as u64, self.drop_on_yellow as u64, self.red_block as u64,
            self.red_flag as u64, self.committed, self.excess, self.last,
            0, 0, 0, 0,
        ]
    }
}

fn meter(r: &mut Random) -> Meter {
    let rates = [0, 1, 999, 1_000_000, 100_000_000, 1_000_000_000, 9_999_999_999, 10_000_000_000, 10_000_000_001, u64::MAX];
    let bursts = [0, 1, 64, 1500, 2000, 20_000, 999_999, 1_000_000, 1_000_001, u32::MAX as u64];
    let most = if r.below(8) == 0 { 10 } else { 8 };
    let cbs = r.one_of(&bursts[..most]) as u32;
    let ebs = r.one_of(&bursts[..most]) as u32;
    let full_c = cbs.min(1_000_000) as u64 * GRAINS;
    let full_e = ebs.min(1_000_000) as u64 * GRAINS;
    Meter {
        cir: r.one_of(&rates[..most]),
        cbs,
        eir: r.one_of(&rates[..most]),
        ebs,
        coupling: r.below(2) == 1,
        colour_aware: r.below(2) == 1,
        drop_on_yellow: r.below(2) == 1,
        red_block: r.below(4) == 1,
        red_flag: false,
        committed: full_c + (r.below(100) == 0) as u64,
        excess: full_e + (r.below(100) == 0) as u64,
        last: r.one_of(&[0, 0, 0, 1_000_000, TIMES, TIMES + 1]),
    }
}

fn compare(frames: u64) -> [u64; 10] {
    let mut r = Random(0x9E37_79B9_7F4A_7C15);
    let mut seen = [0; 10];
    let mut done = 0;
    while done < frames {
        let mut m = meter(&mut r);
        let mut w = m.words();
        let mut time = m.last.min(TIMES);
        for _ in 0..64 {
            let step = r.spell(TIMES);
            time = if r.below(200) == 0 { time.wrapping_sub(step) } else { time.saturating_add(step).min(TIMES + r.below(2) * r.below(2)) };
            let msdu = match r.below(40) { 0 => 2001, 1 => u32::MAX, 2 => 2000, 3 => 0, _ => r.below(2000) as u32 };
            let eligible = r.below(3) == 0;
            let a = m.step(time, msdu, eligible);
            let b = proved(&mut w, time, msdu, eligible);
            assert!(a == b && w == m.words(), "{a} {b} {w:?}");
            seen[a as usize] += 1;
            done += 1;
        }
    }
    seen
}

// Sixteen meters in turn, as a bridge has them; frames of 64 to 1500 octets at about the rate of a port.
fn load(coupling: bool, colour_aware: bool, spell: u64) -> (Vec<Meter>, Vec<(u64, u32, bool)>) {
    let mut r = Random(7);
    let meters = (0..16)
        .map(|i| Meter {
            cir: 100_000_000 + i * 50_000_000,
            cbs: 3000 + 100 * i as u32,
            eir: 20_000_000 * i,
            ebs: 2000,
            coupling,
            colour_aware,
            drop_on_yellow: i % 4 == 0,
            red_block: false,
            red_flag: false,
            committed: (3000 + 100 * i) * GRAINS,
            excess: 2000 * GRAINS,
            last: 0,
        })
        .collect();
    let mut time = 0;
    let frames = (0..4096)
        .map(|_| {
            time += r.below(spell);
            (time, 46 + r.below(1455) as u32, r.below(4) == 0)
        })
        .collect();
    (meters, frames)
}

fn main() {
    let seen = compare(1_000_000);
    println!("compared: {} green, {} yellow, {} drop 6, {} drop 7, {} refused 3, {} refused 9: all alike",
        seen[0], seen[1], seen[6], seen[7], seen[3], seen[9]);
    println!("ns a step, best of 40 rounds of 4096 frames over 16 meters; ratio proved / plain Rust");
    for (name, coupling, aware, spell) in [
        ("a frame a microsecond      ", false, false, 2000),
        ("coupling, colour-aware     ", true, true, 2000),
        ("a frame every four seconds ", true, true, 8_000_000_000),
    ] {
        let (meters, frames) = load(coupling, aware, spell);
        race(
            name,
            "plain",
            || round(&frames, meters.iter().map(Meter::words).collect::<Vec<_>>(), |words, i, &(time, msdu, eligible)| proved(&mut words[i % 16], time, msdu, eligible)),
            || round(&frames, meters.clone(), |plain, i, &(time, msdu, eligible)| plain[i % 16].step(time, msdu, eligible)),
        );
    }
}
