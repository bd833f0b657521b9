//! The lent filter table, spoiled in ways that only its owner can.

use super::*;

/// Filters 0 and 1 for handle 7; filter 1 alone marks with gate 1's IPV 5.
const SETUP: &str = "\
gate id=0 state=1 ipv=null invalid-receive-block=0 octets-block=0 base-time=0
gate id=1 state=1 ipv=5 invalid-receive-block=0 octets-block=0 base-time=0
group id=0 residence=1000
scheduler id=0 group=0 cir=1 cbs=500
filter id=0 handle=7 priority=any gate=0 max-sdu=500 oversize-block=1 meter=none scheduler=none
filter id=1 handle=7 priority=any gate=1 max-sdu=none oversize-block=0 meter=none scheduler=none
start classes=8
";

const BY_FILTER_0: &str = "pass 3 3 0 -";
const BY_FILTER_1: &str = "pass 5 5 0 -";

type Spoil = fn(&mut Filter);

/// Ways to spoil a row: a field out of range, a part that isn't there, a
/// filter that start would refuse with 8.
const SPOILS: [Spoil; 12] = [
    |row| row.any_handle = 2,
    |row| row.any_handle = 1,
    |row| row.priority = 9,
    |row| row.gate = 16,
    |row| row.gate = 2,
    |row| row.max_sdu = 2001,
    |row| row.oversize_block = 2,
    |row| row.meter = 16,
    |row| row.meter = 0,
    |row| row.scheduler = 32,
    |row| row.scheduler = 1,
    |row| {
        row.scheduler = 0;
        row.max_sdu = 501;
    },
];

#[test]
fn r32_a_spoiled_row_counts_as_empty() {
    for spoil in SPOILS {
        let mut caller = Caller::after(SETUP);
        assert_eq!(caller.take(&arrival(0, 0)), BY_FILTER_0);
        spoil(&mut caller.table[0]);
        assert_eq!(caller.take(&arrival(0, 0)), BY_FILTER_1);
        assert_eq!(caller.take("clear flag=1 id=0"), "refused 10");
        assert_eq!(caller.bridge.counters(0).matching_frames, 1);
    }
}

#[test]
fn r32_a_scheduler_without_a_max_sdu_counts_as_empty() {
    let mut caller = Caller::after(SETUP);
    caller.table[0].scheduler = 0;
    caller.table[0].max_sdu = 0;
    assert_eq!(caller.take(&arrival(0, 0)), BY_FILTER_1);
    caller.table[0].max_sdu = 500;
    assert_eq!(caller.take(&arrival(0, 0)), "pass 3 3 0 0");
}

#[test]
fn r33_counters_and_flag_are_there_again_when_the_row_is_whole() {
    let mut caller = Caller::after(SETUP);
    assert_eq!(caller.take(&arrival(0, 501)), "drop 2");
    let whole = caller.table[0];
    caller.table[0].gate = 2;
    assert_eq!(caller.take(&arrival(0, 1)), BY_FILTER_1);
    caller.table[0] = whole;
    assert_eq!(caller.take(&arrival(0, 1)), "drop 1");
    assert_eq!(caller.bridge.counters(0).not_passing_sdu, 2);
}

#[test]
fn r34_a_sound_row_that_no_call_wrote_is_used() {
    let mut caller = Caller::after(&format!("{GATE}{START}"));
    caller.table[63] = Filter {
        any_handle: 1,
        handle: 0,
        priority: 8,
        gate: 0,
        max_sdu: 1,
        oversize_block: 0,
        meter: 255,
        scheduler: 255,
    };
    assert_eq!(caller.take(&arrival(0, 2)), "drop 2");
    assert_eq!(caller.take("clear flag=1 id=63"), "taken");
    assert_eq!(caller.bridge.counters(63).matching_frames, 1);
}

#[test]
fn r30_before_start_a_row_that_names_something_missing_is_a_filter() {
    let mut caller = Caller::after(FILTER);
    assert_eq!(caller.take(FILTER), "refused 5");
    assert_eq!(caller.take(START), "refused 7");
}

#[test]
fn r31_before_start_a_row_out_of_range_is_empty() {
    let mut caller = Caller::after(FILTER);
    caller.table[0].priority = 9;
    assert_eq!(caller.take(START), "taken");
    let mut caller = Caller::after(FILTER);
    caller.table[0].priority = 9;
    assert_eq!(caller.take(FILTER), "taken");
    assert_eq!(caller.take(START), "refused 7");
}
