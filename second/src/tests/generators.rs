//! The generator keeps its promises: sound streams are taken to their end,
//! damage aimed at a refusal meets it.

use crate::generator::{octets, sound, stream, Damage, Mode};
use crate::print;
use crate::random::Random;

fn last_line(input: &[u8]) -> String {
    print::ingress(input).lines().last().expect("a last line").to_string()
}

#[test]
fn sound_streams_are_taken_to_their_end() {
    for seed in 0..300 {
        for mode in [Mode::Valid, Mode::Dense, Mode::Edge] {
            let records = sound(&mut Random::new(seed), mode);
            assert_eq!(last_line(&octets(&records)), format!("end {}", records.len()));
        }
    }
}

#[test]
fn aimed_damage_meets_its_refusal() {
    for number in 0..1000 {
        if let (Mode::Damaged, Damage::Aimed(refusal)) =
            (Mode::of_stream(number), Damage::of_stream(number))
        {
            let last = last_line(&stream(7, number, None));
            assert!(last.starts_with(&format!("refused {refusal} at ")), "stream {number}: {last}");
        }
    }
}

#[test]
fn damage_takes_turns() {
    let damaged = (0..2750).filter(|&number| Mode::of_stream(number) == Mode::Damaged);
    let damages: Vec<Damage> = damaged.map(Damage::of_stream).collect();
    for refusal in 1..=10 {
        let times = damages.iter().filter(|&&damage| damage == Damage::Aimed(refusal)).count();
        assert_eq!(times, 100);
    }
}

#[test]
fn a_stream_can_be_had_again() {
    assert_eq!(stream(1, 4, None), stream(1, 4, None));
    assert_ne!(stream(1, 4, None), stream(2, 4, None));
    assert_ne!(stream(1, 5, None), stream(1, 10, None));
}
