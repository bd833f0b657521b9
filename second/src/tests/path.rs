//! A frame's path: the order of the steps, flags, counters.

use super::*;

fn filter_with(parts: &str) -> String {
    format!("filter id=0 handle=7 priority=any gate=0 {parts}\n")
}

const PLAIN: &str = "max-sdu=none oversize-block=0 meter=none scheduler=none";

/// A one-filter setup: gate record, what else there is, the filter's end.
fn setup(gate: &str, more: &str, filter: &str) -> String {
    format!("{gate}{more}{}{START}", filter_with(filter))
}

#[test]
fn an_unmatched_frame_passes_and_counts_nothing() {
    let frame = "arrival port=0 time=0 handle=9 priority=2 drop-eligible=1 msdu=2000\n";
    let records = format!("{}{frame}", setup(GATE, "", PLAIN));
    assert_eq!(ingress(&records), ["1 pass 2 2 1 -", "end 4"]);
    assert_eq!(report(&records), ["end 4"]);
}

#[test]
fn the_first_of_two_matching_filters_is_used() {
    let second = FILTER.replace("id=0", "id=1").replace("handle=7", "handle=any");
    let records = format!("{second}{GATE}{FILTER}{START}{}", arrival(0, 0));
    assert_eq!(report(&records)[0], "filter 0 MatchingFrames 1");
}

#[test]
fn handle_and_priority_must_both_match() {
    let one = "filter id=0 handle=7 priority=4 gate=0 max-sdu=1 oversize-block=0 meter=none scheduler=none\n";
    let two = "filter id=1 handle=8 priority=3 gate=0 max-sdu=1 oversize-block=0 meter=none scheduler=none\n";
    let records = format!("{GATE}{one}{two}{START}{}", arrival(0, 2));
    assert_eq!(ingress(&records), ["1 pass 3 3 0 -", "end 5"]);
}

#[test]
fn a_good_frame_or_a_quiet_spell_lifts_no_oversize_flag() {
    let setup = setup(GATE, "", "max-sdu=500 oversize-block=1 meter=none scheduler=none");
    let arrivals = [(0, 500), (0, 501), (0, 500), (1 << 62, 0)];
    assert_eq!(times(&setup, &arrivals), ["-", "drop 2", "drop 1", "drop 1"]);
}

#[test]
fn without_the_block_an_oversize_frame_sets_no_flag() {
    let setup = setup(GATE, "", "max-sdu=500 oversize-block=0 meter=none scheduler=none");
    assert_eq!(times(&setup, &[(0, 501), (0, 500)]), ["drop 2", "-"]);
}

#[test]
fn r42_without_a_max_sdu_nothing_is_oversize() {
    let setup = setup(GATE, "", "max-sdu=none oversize-block=1 meter=none scheduler=none");
    assert_eq!(times(&setup, &[(0, 2000), (0, 1)]), ["-", "-"]);
}

/// A gate closed for 10, then open for 10 with 5 octets; both blocks on.
const BLOCKING: &str = "\
gate id=0 state=1 ipv=null invalid-receive-block=1 octets-block=1 base-time=0
gate-entry gate=0 state=0 ipv=null interval=10 octet-maximum=0
gate-entry gate=0 state=1 ipv=null interval=10 octet-maximum=5
";

#[test]
fn r45_closed_comes_before_too_few_octets() {
    let records = format!("{}{}", setup(BLOCKING, "", PLAIN), arrival(0, 1));
    let printed = report(&records);
    assert!(printed.contains(&"gate 0 invalid-receive 1".to_string()));
    assert!(!printed.contains(&"gate 0 octets 1".to_string()));
}

#[test]
fn r44_a_standing_flag_comes_before_state_and_sets_no_other() {
    let frames = [arrival(10, 6), arrival(20, 6)].concat();
    let records = format!("{}{frames}", setup(BLOCKING, "", PLAIN));
    assert_eq!(ingress(&records)[..2], ["1 drop 5", "2 drop 3"]);
    let printed = report(&records);
    assert!(printed.contains(&"gate 0 octets 1".to_string()));
    assert!(!printed.contains(&"gate 0 invalid-receive 1".to_string()));
}

#[test]
fn r63_r64_a_clear_moves_the_flag_only_and_a_drop_subtracts_nothing() {
    let frames = [arrival(10, 3), arrival(10, 3), arrival(11, 2)];
    let records = format!(
        "{}{}{}clear flag=3 id=0\n{}{}",
        setup(BLOCKING, "", PLAIN),
        frames[0],
        frames[1],
        frames[2],
        arrival(12, 1)
    );
    assert_eq!(
        ingress(&records)[..4],
        ["1 pass 3 3 0 -", "2 drop 5", "3 pass 3 3 0 -", "4 drop 5"]
    );
}

#[test]
fn a_new_cycle_lifts_no_gate_flag() {
    let setup = setup(BLOCKING, "", PLAIN);
    assert_eq!(times(&setup, &[(0, 0), (30, 0), (1 << 40, 0)]), ["drop 4", "drop 3", "drop 3"]);
}

#[test]
fn clearing_the_other_gate_flag_lifts_nothing() {
    let records = format!(
        "{}{}clear flag=3 id=0\n{}",
        setup(BLOCKING, "", PLAIN),
        arrival(0, 0),
        arrival(10, 0)
    );
    assert_eq!(ingress(&records)[1], "2 drop 3");
}

fn meter_record(rest: &str) -> String {
    format!("meter id=0 {rest}\n")
}

const METERED: &str = "max-sdu=none oversize-block=0 meter=0 scheduler=none";

#[test]
fn r47_drop_on_yellow_spends_counts_and_sets_no_flag() {
    let meter = meter_record(
        "cir=0 cbs=0 eir=0 ebs=500 coupling=0 colour-aware=0 drop-on-yellow=1 red-block=1",
    );
    let setup = setup(GATE, &meter, METERED);
    assert_eq!(times(&setup, &[(0, 300), (0, 300), (0, 200)]), ["drop 6", "drop 7", "drop 7"]);
    let records = format!("{setup}{}{}", arrival(0, 300), arrival(0, 200));
    assert_eq!(ingress(&records)[..2], ["1 drop 6", "2 drop 6"]);
    assert!(report(&records).contains(&"filter 0 REDFrames 2".to_string()));
    assert!(!report(&records).contains(&"meter 0 red 1".to_string()));
}

#[test]
fn r48_a_red_meter_fills_and_spends_nothing() {
    let meter = meter_record("cir=8000000000 cbs=1000 eir=0 ebs=0 coupling=0 colour-aware=0 drop-on-yellow=0 red-block=1");
    let setup = setup(GATE, &meter, METERED);
    let records = format!(
        "{setup}{}{}{}clear flag=4 id=0\n{}{}",
        arrival(0, 1000),
        arrival(0, 1),
        arrival(600, 600),
        arrival(600, 600),
        arrival(600, 1)
    );
    assert_eq!(
        ingress(&records)[..5],
        ["1 pass 3 3 0 -", "2 drop 7", "3 drop 7", "4 pass 3 3 0 -", "5 drop 7"]
    );
}

#[test]
fn r41_r71_colours_and_the_drop_mark() {
    let frame = |mark: u8, msdu: u64| {
        format!("arrival port=0 time=0 handle=7 priority=3 drop-eligible={mark} msdu={msdu}\n")
    };
    let rest =
        "cir=0 cbs=10 eir=0 ebs=10 coupling=0 colour-aware=AWARE drop-on-yellow=0 red-block=0";
    let aware = setup(GATE, &meter_record(&rest.replace("AWARE", "1")), METERED);
    let blind = setup(GATE, &meter_record(&rest.replace("AWARE", "0")), METERED);
    let frames = [frame(1, 10), frame(1, 10), frame(0, 10)];
    assert_eq!(answers(&aware, &frames), ["pass 3 3 1 -", "drop 7", "pass 3 3 0 -"]);
    assert_eq!(answers(&blind, &frames), ["pass 3 3 1 -", "pass 3 3 1 -", "drop 7"]);
}

#[test]
fn r46_r51_a_later_drop_leaves_counters_octets_and_meter_moved() {
    let more = "gate-entry gate=0 state=1 ipv=null interval=1000 octet-maximum=250\n\
         meter id=0 cir=0 cbs=220 eir=0 ebs=0 coupling=0 colour-aware=0 drop-on-yellow=0 red-block=0\n\
         group id=0 residence=1\nscheduler id=0 group=0 cir=1 cbs=100\n";
    let setup = setup(GATE, more, "max-sdu=100 oversize-block=0 meter=0 scheduler=0");
    let arrivals = [(0, 100), (0, 100), (0, 30), (0, 20), (0, 20)];
    let expected = ["0", "drop 8", "drop 7", "drop 8", "drop 5"];
    assert_eq!(times(&setup, &arrivals), expected);
    let frames: String = arrivals.iter().map(|&(time, msdu)| arrival(time, msdu)).collect();
    assert_eq!(
        report(&format!("{setup}{frames}")),
        [
            "filter 0 MatchingFrames 5",
            "filter 0 PassingSDU 5",
            "filter 0 PassingFrames 4",
            "filter 0 NotPassingFrames 1",
            "filter 0 REDFrames 1",
            "port 0 DiscardedFrames 2",
            "end 12"
        ]
    );
}

#[test]
fn r52_the_match_goes_by_the_frames_priority_the_class_by_the_ipv() {
    let gate = GATE.replace("ipv=null", "ipv=6");
    let filter = FILTER.replace("priority=any", "priority=3");
    let classes = START.replace('8', "4");
    assert_eq!(ingress(&format!("{gate}{filter}{classes}{}", arrival(0, 0)))[0], "1 pass 6 3 0 -");
}

#[test]
fn r60_frames_before_base_time_do_not_eat_into_the_first_interval() {
    let gate = "gate id=0 state=1 ipv=2 invalid-receive-block=0 octets-block=0 base-time=100\n\
                gate-entry gate=0 state=1 ipv=5 interval=10 octet-maximum=10\n";
    let arrivals = [arrival(99, 2000), arrival(100, 10), arrival(109, 1), arrival(110, 10)];
    let expected = ["pass 2 2 0 -", "pass 5 5 0 -", "drop 5", "pass 5 5 0 -"];
    assert_eq!(answers(&setup(gate, "", PLAIN), &arrivals), expected);
}

#[test]
fn r62_two_entries_alike_are_two_intervals() {
    let entry = "gate-entry gate=0 state=1 ipv=null interval=10 octet-maximum=10\n";
    let setup = setup(GATE, &entry.repeat(2), PLAIN);
    assert_eq!(times(&setup, &[(9, 10), (10, 10), (19, 1), (20, 10)]), ["-", "-", "drop 5", "-"]);
}

#[test]
fn r65_base_time_at_the_last_moment() {
    let last = 1u64 << 62;
    let gate = format!(
        "gate id=0 state=1 ipv=null invalid-receive-block=0 octets-block=0 base-time={last}\n\
         gate-entry gate=0 state=0 ipv=null interval=1 octet-maximum=none\n"
    );
    assert_eq!(times(&setup(&gate, "", PLAIN), &[(last - 1, 0), (last, 0)]), ["-", "drop 4"]);
}

#[test]
fn counters_go_from_their_last_value_to_0() {
    let mut counter = u64::MAX;
    crate::filter::count(&mut counter);
    assert_eq!(counter, 0);
}

#[test]
fn the_counter_equations_hold() {
    let setup = setup(BLOCKING, "", "max-sdu=5 oversize-block=0 meter=none scheduler=none");
    let frames: String = (0..40).map(|time| arrival(time, time % 7)).collect();
    let caller = Caller::after(&format!("{setup}{frames}"));
    let counters = caller.bridge.counters(0);
    assert_eq!(counters.matching_frames, 40);
    assert_eq!(counters.matching_frames, counters.passing_sdu + counters.not_passing_sdu);
    assert_eq!(counters.passing_sdu, counters.passing_frames + counters.not_passing_frames);
}

#[test]
fn a_scheduler_drop_does_not_move_the_groups_time() {
    let more = "group id=0 residence=10\n\
         scheduler id=0 group=0 cir=1 cbs=100\n\
         scheduler id=1 group=0 cir=1 cbs=100\n\
         filter id=1 handle=8 priority=any gate=0 max-sdu=100 oversize-block=0 meter=none scheduler=1\n";
    let setup = setup(GATE, more, "max-sdu=100 oversize-block=0 meter=none scheduler=0");
    let other = "arrival port=2 time=5 handle=8 priority=3 drop-eligible=0 msdu=100\n".to_string();
    let arrivals = [arrival(0, 100), arrival(0, 100), other];
    assert_eq!(answers(&setup, &arrivals), ["pass 3 3 0 0", "drop 8", "pass 3 3 0 5"]);
}

#[test]
fn the_overhead_is_that_of_the_reception_port() {
    let more = "port port=1 overhead=50\ngroup id=0 residence=1000000000\n\
                scheduler id=0 group=0 cir=8000000000 cbs=100\n";
    let setup = setup(GATE, more, "max-sdu=50 oversize-block=0 meter=none scheduler=0");
    let frame = |port: u8| {
        format!("arrival port={port} time=0 handle=7 priority=3 drop-eligible=0 msdu=50\n")
    };
    let arrivals = [frame(0), frame(1), frame(1), frame(2)];
    let expected = ["pass 3 3 0 0", "pass 3 3 0 50", "pass 3 3 0 150", "pass 3 3 0 200"];
    assert_eq!(answers(&setup, &arrivals), expected);
}
