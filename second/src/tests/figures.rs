//! All of document 01's worked figures.

use super::*;
use crate::tokens::{Octets, Tokens};
use crate::traffic_class::traffic_class;

/// Scheduler S with the given rate and burst, residence 10,000, frames to 500.
fn scheduler(rate: u64, burst: u64) -> String {
    format!(
        "{GATE}group id=0 residence=10000\n\
         scheduler id=0 group=0 cir={rate} cbs={burst}\n\
         filter id=0 handle=7 priority=any gate=0 max-sdu=500 oversize-block=0 meter=none scheduler=0\n\
         {START}"
    )
}

fn s() -> String {
    scheduler(1_000_000_000, 1000)
}

#[test]
fn a_four_at_0() {
    assert_eq!(times(&s(), &[(0, 500); 4]), ["0", "0", "4000", "8000"]);
}

#[test]
fn b_a_fifth_at_0_is_dropped() {
    assert_eq!(times(&s(), &[(0, 500); 5])[4], "drop 8");
}

#[test]
fn c_the_next_at_2000_is_at_the_limit_exactly() {
    let mut arrivals = vec![(0, 500); 5];
    arrivals.push((2000, 500));
    assert_eq!(times(&s(), &arrivals)[4..], ["drop 8", "12000"]);
    assert_eq!(times(&s(), &[(0, 500), (0, 500), (0, 500), (0, 500), (1999, 500)])[4], "drop 8");
}

#[test]
fn d_thirds_of_a_nanosecond_are_kept() {
    let setup = scheduler(3_000_000_000, 1000);
    assert_eq!(times(&setup, &[(0, 500); 5]), ["0", "0", "1334", "2667", "4000"]);
}

#[test]
fn e_a_full_scheduler_waits_for_its_group() {
    let other = "scheduler id=1 group=0 cir=1000000000 cbs=1000\n\
         filter id=1 handle=8 priority=any gate=0 max-sdu=500 oversize-block=0 meter=none scheduler=1\n";
    let setup = format!("{other}{}", s());
    let frame = "arrival port=0 time=0 handle=8 priority=3 drop-eligible=0 msdu=500\n";
    let arrivals = [arrival(0, 500), arrival(0, 500), arrival(0, 500), frame.to_string()];
    assert_eq!(answers(&setup, &arrivals)[2..], ["pass 3 3 0 4000", "pass 3 3 0 4000"]);
}

/// The gate of F to I.
fn gate() -> String {
    format!(
        "gate id=0 state=1 ipv=null invalid-receive-block=0 octets-block=0 base-time=5000\n\
         gate-entry gate=0 state=1 ipv=null interval=1000 octet-maximum=600\n\
         gate-entry gate=0 state=0 ipv=null interval=1000 octet-maximum=none\n\
         {FILTER}{START}"
    )
}

#[test]
fn f_before_base_time_there_is_no_limit() {
    assert_eq!(times(&gate(), &[(4999, 2000), (4999, 2000)]), ["-", "-"]);
}

#[test]
fn g_at_base_time_600_octets_pass_and_leave_0() {
    assert_eq!(times(&gate(), &[(5000, 600), (5000, 1)]), ["-", "drop 5"]);
}

#[test]
fn h_in_the_last_nanosecond_1_octet_is_too_much_and_0_pass() {
    assert_eq!(times(&gate(), &[(5000, 600), (5999, 1), (5999, 0)]), ["-", "drop 5", "-"]);
}

#[test]
fn i_at_6000_the_gate_is_closed() {
    assert_eq!(times(&gate(), &[(5000, 600), (6000, 0), (6999, 0)]), ["-", "drop 4", "drop 4"]);
}

#[test]
fn at_7000_600_octets_are_left_again() {
    let arrivals = [(5000, 600), (5999, 1), (6000, 1), (7000, 600), (7000, 1), (7000, 0)];
    let expected = ["-", "drop 5", "drop 4", "-", "drop 5", "-"];
    assert_eq!(times(&gate(), &arrivals), expected);
}

/// The meter of J and K, with or without coupling.
fn meter(coupling: u8) -> String {
    format!(
        "{GATE}meter id=0 cir=1000000000 cbs=1000 eir=0 ebs=500 coupling={coupling} \
         colour-aware=0 drop-on-yellow=0 red-block=0\n\
         filter id=0 handle=7 priority=any gate=0 max-sdu=none oversize-block=0 meter=0 scheduler=none\n\
         {START}"
    )
}

const GREEN: &str = "pass 3 3 0 -";
const YELLOW: &str = "pass 3 3 1 -";

#[test]
fn j_green_yellow_green_red() {
    let arrivals = [600, 500, 400, 1].map(|msdu| arrival(0, msdu));
    assert_eq!(answers(&meter(0), &arrivals), [GREEN, YELLOW, GREEN, "drop 7"]);
}

#[test]
fn k_after_8_nanoseconds_1_octet_is_green() {
    let mut arrivals = [600, 500, 400, 1].map(|msdu| arrival(0, msdu)).to_vec();
    arrivals.extend([arrival(7, 1), arrival(8, 1), arrival(8, 1)]);
    assert_eq!(answers(&meter(0), &arrivals)[4..], ["drop 7", GREEN, "drop 7"]);
}

#[test]
fn coupling_fills_the_excess_bucket() {
    let records = format!("{}{}{}", meter(1), arrival(0, 600), arrival(0, 500));
    let mut caller = Caller::after(&records);
    assert_eq!(caller.take(&arrival(8800, 0)), GREEN);
    let filled = caller.bridge.meter(0).expect("meter 0");
    assert_eq!(filled.committed, Tokens::of(Octets(1000)));
    assert_eq!(filled.excess, Tokens::of(Octets(500)));
}

#[test]
fn without_coupling_the_excess_bucket_stays_empty() {
    let records = format!("{}{}{}", meter(0), arrival(0, 600), arrival(0, 500));
    let mut caller = Caller::after(&records);
    assert_eq!(caller.take(&arrival(8800, 0)), GREEN);
    assert_eq!(caller.bridge.meter(0).expect("meter 0").excess, Tokens(0));
}

#[test]
fn l_priority_0_of_8_classes_is_class_1() {
    assert_eq!(traffic_class(0, 8), 1);
    let frame = "arrival port=0 time=0 handle=1 priority=0 drop-eligible=0 msdu=0\n";
    assert_eq!(answers(START, &[frame.to_string()]), ["pass 0 1 0 -"]);
}

#[test]
fn the_traffic_classes_are_those_of_the_table() {
    let table = "0 0 0 0 0 1 1 1/0 0 0 0 0 0 0 0/0 0 0 1 1 2 2 2/0 0 0 1 1 2 3 3/\
                 0 1 1 2 2 3 4 4/0 1 1 2 2 3 4 5/0 1 2 3 3 4 5 6/0 1 2 3 4 5 6 7";
    for (priority, row) in table.split('/').enumerate() {
        for (place, class) in row.split(' ').enumerate() {
            let expected: u8 = class.parse().expect("a class");
            assert_eq!(traffic_class(priority as u8, place as u8 + 1), expected);
        }
    }
}

/// The records of the program's example.
fn program() -> String {
    let stranger = "arrival port=0 time=2000 handle=9 priority=0 drop-eligible=0 msdu=500\n";
    let setup = s().replace("oversize-block=0", "oversize-block=1");
    let five = arrival(0, 500).repeat(5);
    let (too_long, good) = (arrival(2000, 501), arrival(2000, 500));
    format!("{setup}{five}{too_long}{good}clear flag=1 id=0\n{good}{stranger}")
}

#[test]
fn the_program_prints_what_document_01_shows() {
    let expected = "1 pass 3 3 0 0\n2 pass 3 3 0 0\n3 pass 3 3 0 4000\n4 pass 3 3 0 8000\n\
                    5 drop 8\n6 drop 2\n7 drop 1\n8 pass 3 3 0 12000\n9 pass 0 1 0 -\nend 15\n";
    assert_eq!(print::ingress(&octets(&program())), expected);
}

#[test]
fn the_program_reports_its_counters() {
    let expected = "filter 0 MatchingFrames 8\nfilter 0 PassingSDU 6\nfilter 0 NotPassingSDU 2\n\
                    filter 0 PassingFrames 6\nport 0 DiscardedFrames 1\nend 15\n";
    assert_eq!(print::report(&octets(&program())), expected);
}
