// The C library beside the second program's engine, call by call: calls that go on after a refusal, spoiled rows, and tables of another
// length. Every answer is compared, and every counter and flag after each stream. The last line says how many calls were alike.
mod proved;

use proved::{numbers, Proved, Row, ROWS};
use second::bridge::Bridge;
use second::fields;
use second::filter::Filter;
use second::generator;
use second::random::Random;

const STREAMS: u64 = 6000;

fn main() {
    let seed = std::env::args().nth(1).map_or(1, |word| word.parse().expect("a seed, in decimal"));
    let (mut calls, mut refusals) = (0u64, [0u64; 12]);
    for stream in 0..STREAMS {
        let mut random = Random::of_stream(seed, stream);
        let input = generator::stream(seed, stream, None);
        let (mut a, mut table, mut b) = (Proved::fresh(), Filter::table().to_vec(), Bridge::new());
        let mut at = 0;
        while at < input.len() {
            match random.below(24) {
                0 => spoil(&mut random, &mut a, &mut table),
                1 => wrong_length(&mut random, &mut a, &mut b, &input[at..], &mut refusals),
                _ => {}
            }
            let before = a.clone();
            let one = a.take(&input[at..]);
            let two = b.take(&mut table, &input[at..]);
            calls += 1;
            assert_eq!(one.numbers(), numbers(two.outcome, two.used), "seed {seed}, stream {stream}, offset {at}");
            if one.verdict == 0 {
                assert!(a == before, "a refusal changed something: seed {seed}, stream {stream}, offset {at}");
                refusals[one.number as usize] += 1;
            }
            at += if one.used > 0 { one.used as usize } else { skipped(&input[at..]) };
        }
        same_state(&a, &b, seed, stream);
    }
    let least = refusals[1..].iter().min().expect("eleven numbers");
    assert!(*least >= 100, "too few of a refusal: {:?}", &refusals[1..]);
    println!("library: {STREAMS} streams, {calls} calls, refusals 1 to 11 {:?}, all alike", &refusals[1..]);
}

/// A row gets another field, the same in both tables; the field `used`, which the second program's rows do not have, makes the place empty or puts the
/// row that stands there to use.
fn spoil(random: &mut Random, a: &mut Proved, table: &mut [Filter]) {
    let place = random.below(ROWS as u64) as usize;
    let row = &mut a.table[place];
    let octet = random.below(256) as u8;
    match random.below(9) {
        0 => row.any_handle = octet,
        1 => row.handle = random.below(16) as u32,
        2 => row.priority = octet % 12,
        3 => row.gate = octet % 20,
        4 => row.max_sdu = random.below(2100) as u16,
        5 => row.oversize_block = octet % 3,
        6 => row.meter = octet,
        7 => row.scheduler = octet,
        _ => row.used = [0, 1, 2, octet][random.below(4) as usize],
    }
    table[place] = row.filter();
}

/// A table of another length is refused with 11, and nothing changes.
fn wrong_length(random: &mut Random, a: &mut Proved, b: &mut Bridge, input: &[u8], refusals: &mut [u64; 12]) {
    let length = [0, 1, ROWS - 1, ROWS + 1, 256][random.below(5) as usize];
    let whole = a.table.clone();
    a.table.resize(length, Row::default());
    let before = a.clone();
    let one = a.take(input);
    let mut table = vec![Filter::EMPTY; length];
    let two = b.take(&mut table, input);
    assert_eq!(one.numbers(), numbers(two.outcome, two.used));
    assert!(one.number == 11 && *a == before);
    refusals[11] += 1;
    a.table = whole;
}

/// The octets of the record at the front, or one where it is no whole record.
fn skipped(input: &[u8]) -> usize {
    match fields::kind(input[0]) {
        Some(kind) if 1 + kind.body_octets() <= input.len() => 1 + kind.body_octets(),
        _ => 1,
    }
}

fn same_state(a: &Proved, b: &Bridge, seed: u64, stream: u64) {
    for n in 0..ROWS as u32 {
        let c = b.counters(n as usize);
        let theirs = [
            c.matching_frames,
            c.passing_sdu,
            c.not_passing_sdu,
            c.passing_frames,
            c.not_passing_frames,
            c.red_frames,
            b.oversize(n as usize).into(),
        ];
        for (what, value) in theirs.into_iter().enumerate() {
            assert_eq!(a.read(what as u32 + 1, n), value, "filter {n}: seed {seed}, stream {stream}");
        }
    }
    for n in 0..16 {
        assert_eq!(a.read(8, n), b.invalid_receive(n as usize).into(), "gate {n}: seed {seed}, stream {stream}");
        assert_eq!(a.read(9, n), b.octets(n as usize).into(), "gate {n}: seed {seed}, stream {stream}");
        assert_eq!(a.read(10, n), b.red(n as usize).into(), "meter {n}: seed {seed}, stream {stream}");
    }
    for n in 0..8 {
        assert_eq!(a.read(11, n), b.discarded_frames(n as usize), "port {n}: seed {seed}, stream {stream}");
    }
}
