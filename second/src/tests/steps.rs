//! The meter and the scheduler step on their own.

use crate::fields::{ELIGIBILITY_MAX, TIME_MAX};
use crate::meter::{Colour, Meter, MeterRecord};
use crate::refusal::Refusal;
use crate::scheduler::{step, Group, Scheduler};
use crate::tokens::{Octets, Rate, Tokens};

fn meter() -> Meter {
    Meter::new(MeterRecord {
        committed_rate: Rate(3),
        committed_burst: Octets(10),
        excess_rate: Rate(5),
        excess_burst: Octets(7),
        coupling: true,
        colour_aware: false,
        drop_on_yellow: false,
        red_block: true,
    })
}

#[test]
fn r75_a_meter_with_a_number_out_of_range_gives_3() {
    let spoils: [fn(&mut Meter); 7] = [
        |meter| meter.record.committed_rate = Rate(10_000_000_001),
        |meter| meter.record.excess_rate = Rate(10_000_000_001),
        |meter| meter.record.committed_burst = Octets(1_000_001),
        |meter| meter.record.excess_burst = Octets(1_000_001),
        |meter| meter.committed.0 += 1,
        |meter| meter.excess.0 += 1,
        |meter| meter.last_fill = TIME_MAX + 1,
    ];
    for spoil in spoils {
        let mut spoiled = meter();
        spoil(&mut spoiled);
        assert_eq!(spoiled.take(TIME_MAX, 0, false), Err(Refusal::OutOfRange));
    }
    assert_eq!(meter().take(TIME_MAX + 1, 0, false), Err(Refusal::OutOfRange));
    assert_eq!(meter().take(0, 2001, false), Err(Refusal::OutOfRange));
}

#[test]
fn r75_a_meter_given_an_earlier_time_gives_9_after_3() {
    let (later, _) = meter().take(100, 0, false).expect("in range");
    assert_eq!(later.take(99, 0, false), Err(Refusal::TimeGoesBack));
    assert_eq!(later.take(99, 2001, false), Err(Refusal::OutOfRange));
    assert!(later.take(100, 0, false).is_ok());
}

#[test]
fn r70_one_fill_equals_many() {
    let (spent, colour) = meter().take(0, 9, false).expect("in range");
    assert_eq!(colour, Colour::Green);
    let (spent, colour) = spent.take(0, 6, false).expect("in range");
    assert_eq!(colour, Colour::Yellow);
    let (once, _) = spent.take(100_000, 0, false).expect("in range");
    let mut often = spent;
    for time in 1..=100_000 {
        often = often.take(time, 0, false).expect("in range").0;
    }
    assert_eq!(once, often);
}

#[test]
fn r50_the_meter_sets_its_own_red_flag() {
    let (red, colour) = meter().take(0, 11, false).expect("in range");
    assert_eq!((colour, red.red), (Colour::Red, true));
    let (still, colour) = red.take(0, 0, false).expect("in range");
    assert_eq!((colour, still), (Colour::Red, red));
}

fn parts() -> (Scheduler, Group) {
    (Scheduler::new(0, Rate(1), Octets(100)), Group { residence: 1_000_000_000, last: 0 })
}

#[test]
fn r75_the_step_with_a_number_out_of_range_gives_3_and_changes_nothing() {
    let spoils: [fn(&mut Scheduler, &mut Group); 9] = [
        |scheduler, _| scheduler.rate = Rate(0),
        |scheduler, _| scheduler.rate = Rate(10_000_000_001),
        |scheduler, _| scheduler.burst = Octets(0),
        |scheduler, _| scheduler.burst = Octets(1_000_001),
        |scheduler, _| scheduler.bucket.0 += 1,
        |scheduler, _| scheduler.last = ELIGIBILITY_MAX + 1,
        |_, group| group.last = ELIGIBILITY_MAX + 1,
        |_, group| group.residence = 0,
        |_, group| group.residence = 1_000_000_001,
    ];
    for spoil in spoils {
        let (mut scheduler, mut group) = parts();
        spoil(&mut scheduler, &mut group);
        let before = (scheduler, group);
        assert_eq!(step(&mut scheduler, &mut group, 0, Octets(0)), Err(Refusal::OutOfRange));
        assert_eq!((scheduler, group), before);
    }
    let (mut scheduler, mut group) = parts();
    assert_eq!(step(&mut scheduler, &mut group, TIME_MAX + 1, Octets(0)), Err(Refusal::OutOfRange));
    assert_eq!(step(&mut scheduler, &mut group, 0, Octets(101)), Err(Refusal::OutOfRange));
}

#[test]
fn r74_a_slow_scheduler_is_exact_and_dropped() {
    let (mut scheduler, mut group) = parts();
    assert_eq!(step(&mut scheduler, &mut group, TIME_MAX, Octets(100)), Ok(Some(TIME_MAX)));
    let before = (scheduler, group);
    assert_eq!(step(&mut scheduler, &mut group, TIME_MAX, Octets(100)), Ok(None));
    assert_eq!((scheduler, group), before);
}

#[test]
fn eligibility_reaches_its_last_value() {
    let (mut scheduler, mut group) = parts();
    scheduler.rate = Rate(800);
    assert_eq!(step(&mut scheduler, &mut group, TIME_MAX, Octets(100)), Ok(Some(TIME_MAX)));
    assert_eq!(step(&mut scheduler, &mut group, TIME_MAX, Octets(100)), Ok(Some(ELIGIBILITY_MAX)));
    assert_eq!(step(&mut scheduler, &mut group, TIME_MAX, Octets(0)), Ok(Some(ELIGIBILITY_MAX)));
    assert_eq!(step(&mut scheduler, &mut group, TIME_MAX, Octets(1)), Ok(None));
}

/// The fraction above a full bucket is lost at the rounded-up nanosecond.
#[test]
fn a_burst_of_one_frame_loses_the_fraction() {
    let mut scheduler = Scheduler::new(0, Rate(3_000_000_000), Octets(500));
    let mut group = Group { residence: 10_000, last: 0 };
    let times = [0; 4].map(|arrival| step(&mut scheduler, &mut group, arrival, Octets(500)));
    assert_eq!(times, [0, 1334, 2668, 4002].map(|time| Ok(Some(time))));
}

#[test]
fn tokens_count_in_parts_of_an_octet() {
    assert_eq!(Tokens::grown(Rate(8), 1_000_000_000), Tokens::of(Octets(1)));
    assert_eq!(Tokens(7).nanoseconds_to_grow(Rate(3)), 3);
    assert_eq!(Tokens(0).nanoseconds_to_grow(Rate(3)), 0);
}
