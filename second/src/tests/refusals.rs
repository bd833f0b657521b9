//! Refusals: each number, the order they are tried in, and what they leave.

use super::*;

/// Everything set up once: gate 0 with an entry, meter, group, scheduler.
const PARTS: &str = "\
gate id=0 state=1 ipv=null invalid-receive-block=1 octets-block=1 base-time=0
gate-entry gate=0 state=1 ipv=null interval=1000 octet-maximum=none
meter id=0 cir=0 cbs=0 eir=0 ebs=0 coupling=0 colour-aware=0 drop-on-yellow=0 red-block=1
group id=0 residence=1
scheduler id=0 group=0 cir=1 cbs=564
port port=3 overhead=64
filter id=0 handle=7 priority=any gate=0 max-sdu=500 oversize-block=1 meter=0 scheduler=0
";

fn started() -> Caller {
    Caller::after(&format!("{PARTS}{START}"))
}

/// The answer leaves everything as it was, uses nothing, shows no body.
fn refuses(caller: &mut Caller, input: &[u8], number: u8) {
    let (bridge, table) = (caller.bridge.clone(), caller.table);
    let answer = caller.call(input);
    match answer.outcome {
        Outcome::Refused(refusal) => assert_eq!(refusal.number(), number),
        other => panic!("{other:?}, not refusal {number}"),
    }
    assert_eq!((answer.used, answer.body.len()), (0, 0));
    assert_eq!(caller.bridge, bridge);
    assert_eq!(caller.table, table);
}

#[test]
fn r1_no_octet() {
    refuses(&mut Caller::new(), &[], 1);
    refuses(&mut started(), &[], 1);
}

#[test]
fn r1_a_body_cut_short_comes_after_the_kind() {
    refuses(&mut Caller::new(), &[1], 1);
    refuses(&mut Caller::new(), &[1, 0], 1);
    refuses(&mut Caller::new(), &[0], 2);
    refuses(&mut Caller::new(), &[11], 2);
}

#[test]
fn r1_every_kind_is_refused_at_every_cut() {
    for kind in &crate::fields::KINDS {
        let whole = vec![0u8; kind.body_octets()];
        for length in 0..kind.body_octets() {
            let mut input = vec![kind.number];
            input.extend_from_slice(&whole[..length]);
            refuses(&mut Caller::new(), &input, 1);
            refuses(&mut started(), &input, 1);
        }
    }
}

#[test]
fn r1_a_cut_body_comes_before_the_phase() {
    refuses(&mut started(), &[4, 0], 1);
    refuses(&mut Caller::new(), &[9, 0], 1);
}

#[test]
fn bodies_are_as_long_as_document_01_says() {
    let lengths: Vec<usize> = crate::fields::KINDS.iter().map(|kind| kind.body_octets()).collect();
    assert_eq!(lengths, [2, 13, 13, 11, 29, 5, 14, 1, 17, 2]);
}

#[test]
fn r2_kinds_0_and_above_10() {
    for kind in (0..=255u8).filter(|kind| !(1..=10).contains(kind)) {
        let input = [kind; 40];
        refuses(&mut Caller::new(), &input, 2);
        refuses(&mut started(), &input, 2);
    }
}

#[test]
fn r2_4_comes_before_3() {
    refuses(&mut started(), &[1, 8, 0], 4);
    refuses(&mut started(), &[8, 0], 4);
    refuses(&mut Caller::new(), &[10, 0, 0], 4);
}

#[test]
fn setup_after_start_and_arrivals_before_it_are_4() {
    for record in format!("{PARTS}{START}").lines() {
        refuses(&mut started(), &octets(record), 4);
    }
    refuses(&mut Caller::after(PARTS), &octets(&arrival(0, 0)), 4);
    refuses(&mut Caller::after(PARTS), &octets("clear flag=1 id=0"), 4);
}

/// Each field of each kind just outside its range is 3, at its ends is taken.
#[test]
fn every_field_has_its_range() {
    let base: [&str; 10] = [
        "port port=0 overhead=0",
        "filter id=1 handle=0 priority=0 gate=0 max-sdu=1 oversize-block=0 meter=0 scheduler=0",
        "gate id=1 state=0 ipv=0 invalid-receive-block=0 octets-block=0 base-time=0",
        "gate-entry gate=0 state=0 ipv=0 interval=1 octet-maximum=0",
        "meter id=1 cir=0 cbs=0 eir=0 ebs=0 coupling=0 colour-aware=0 drop-on-yellow=0 red-block=0",
        "group id=1 residence=1",
        "scheduler id=1 group=0 cir=1 cbs=1",
        "start classes=1",
        "arrival port=0 time=0 handle=0 priority=0 drop-eligible=0 msdu=0",
        "clear flag=1 id=0",
    ];
    for (kind, record) in crate::fields::KINDS.iter().zip(base) {
        let values = crate::reader::values(kind, &octets(record)[1..]).expect("in range");
        for place in 0..values.len() {
            let with = |value: u64| {
                let mut changed = values.clone();
                changed[place] = value;
                crate::reader::octets(kind, &changed)
            };
            let caller = || if kind.number < 9 { Caller::after(PARTS) } else { started() };
            let (inside, outside) = ends(kind.number, place);
            for value in outside {
                refuses(&mut caller(), &with(value), 3);
            }
            for value in inside {
                assert_ne!(caller().take_octets(&with(value)), "refused 3", "{record} {value}");
            }
        }
    }
}

/// Values inside and outside the range of a field, written out anew from
/// document 01 so that the field table is checked too.
fn ends(kind: u8, place: usize) -> (Vec<u64>, Vec<u64>) {
    let w4 = u64::from(u32::MAX);
    let w8 = u64::MAX;
    let ten_10 = 10_000_000_000;
    let (rate, burst) =
        ((vec![0, ten_10], vec![ten_10 + 1, w8]), (vec![0, 1_000_000], vec![1_000_001, w4]));
    let octet = |high: u64| (vec![0, high], vec![high + 1, 255]);
    let time = (vec![0, 1 << 62], vec![(1 << 62) + 1, w8]);
    let flag = octet(1);
    match (kind, place) {
        (1, 0) => octet(7),
        (1, 1) => octet(64),
        (2, 0) => octet(63),
        (2, 1) | (2, 6) => flag,
        (2, 2) => (vec![0, w4], vec![]),
        (2, 3) => octet(8),
        (2, 4) => octet(15),
        (2, 5) => (vec![0, 1, 2000], vec![2001, 65535]),
        (2, 7) => (vec![0, 15, 255], vec![16, 254]),
        (2, 8) => (vec![0, 31, 255], vec![32, 254]),
        (3, 0) => octet(15),
        (3, 1) | (3, 3) | (3, 4) => flag,
        (3, 2) => octet(8),
        (3, 5) => time,
        (4, 0) => octet(15),
        (4, 1) => flag,
        (4, 2) => octet(8),
        (4, 3) => (vec![1, 1_000_000_000], vec![0, 1_000_000_001, w4]),
        (4, 4) => (vec![0, w4 - 1, w4], vec![]),
        (5, 0) => octet(15),
        (5, 1) | (5, 3) => rate,
        (5, 2) | (5, 4) => burst,
        (5, _) => flag,
        (6, 0) => octet(15),
        (6, 1) => (vec![1, 1_000_000_000], vec![0, 1_000_000_001, w4]),
        (7, 0) => octet(31),
        (7, 1) => octet(15),
        (7, 2) => (vec![1, ten_10], vec![0, ten_10 + 1, w8]),
        (7, 3) => (vec![1, 1_000_000], vec![0, 1_000_001, w4]),
        (8, 0) => (vec![1, 8], vec![0, 9, 255]),
        (9, 0) => octet(7),
        (9, 1) => time,
        (9, 2) => (vec![0, w4], vec![]),
        (9, 3) => octet(7),
        (9, 4) => flag,
        (9, 5) => (vec![0, 2000], vec![2001, 65535]),
        (10, 0) => (vec![1, 4], vec![0, 5, 255]),
        (10, 1) => octet(63),
        _ => panic!("no such field"),
    }
}

#[test]
fn r3_r4_any_handle_wants_handle_0() {
    let row = |any: u8, handle: u8| [2, 1, any, 0, 0, 0, handle, 8, 0, 0, 0, 0, 255, 255];
    refuses(&mut Caller::new(), &row(1, 1), 3);
    assert_eq!(Caller::new().take_octets(&row(1, 0)), "taken");
    assert_eq!(Caller::new().take_octets(&row(0, 0)), "taken");
}

#[test]
fn r9_the_range_of_a_clears_id_goes_by_its_flag() {
    for flag in 2..=4u8 {
        refuses(&mut started(), &[10, flag, 16], 3);
        refuses(&mut started(), &[10, flag, 15], 10);
    }
    refuses(&mut started(), &[10, 1, 64], 3);
    refuses(&mut started(), &[10, 1, 63], 10);
    refuses(&mut started(), &[10, 0, 0], 3);
    refuses(&mut started(), &[10, 5, 200], 3);
}

#[test]
fn r10_clearing_a_flag_that_does_not_stand_is_taken() {
    for flag in 1..=4 {
        assert_eq!(started().take(&format!("clear flag={flag} id=0")), "taken");
    }
}

#[test]
fn r11_set_up_already_is_5_also_with_other_values() {
    let mut caller = Caller::after(PARTS);
    for record in PARTS.lines().filter(|record| !record.starts_with("gate-entry")) {
        refuses(&mut caller, &octets(record), 5);
    }
    refuses(&mut caller, &octets("port port=3 overhead=0"), 5);
    assert_eq!(caller.take("port port=2 overhead=0"), "taken");
    refuses(&mut caller, &octets("port port=2 overhead=0"), 5);
}

#[test]
fn r12_entries_may_come_before_their_gate_and_the_ninth_is_6() {
    let entry = "gate-entry gate=5 state=1 ipv=null interval=1 octet-maximum=none\n";
    let mut caller = Caller::after(&entry.repeat(8));
    refuses(&mut caller, &octets(entry), 6);
    refuses(&mut caller, &octets(START), 7);
    let gate = "gate id=5 state=1 ipv=null invalid-receive-block=0 octets-block=0 base-time=0";
    assert_eq!(caller.take(gate), "taken");
    refuses(&mut caller, &octets(entry), 6);
    assert_eq!(caller.take(START), "taken");
}

#[test]
fn start_with_something_missing_is_7() {
    for missing in ["gate id", "meter", "scheduler", "group"] {
        let whole = PARTS.lines().filter(|record| !record.starts_with(missing));
        let records: String = whole.map(|record| format!("{record}\n")).collect();
        refuses(&mut Caller::after(&records), &octets(START), 7);
    }
}

#[test]
fn r14_a_group_is_missed_though_no_filter_names_the_scheduler() {
    let mut caller = Caller::after("scheduler id=9 group=4 cir=1 cbs=1");
    refuses(&mut caller, &octets(START), 7);
    assert_eq!(caller.take("group id=4 residence=1"), "taken");
    assert_eq!(caller.take(START), "taken");
}

/// Filter 0 with a scheduler of that burst, and a port of overhead 64.
fn burst(max_sdu: &str, burst: u32) -> Caller {
    Caller::after(&format!(
        "{GATE}group id=0 residence=1\nport port=7 overhead=64\n\
         scheduler id=0 group=0 cir=1 cbs={burst}\n\
         filter id=0 handle=7 priority=any gate=0 max-sdu={max_sdu} oversize-block=0 meter=none scheduler=0"
    ))
}

#[test]
fn r15_max_sdu_and_the_largest_overhead_must_fit_the_burst() {
    refuses(&mut burst("500", 563), &octets(START), 8);
    assert_eq!(burst("500", 564).take(START), "taken");
    refuses(&mut burst("none", 1_000_000), &octets(START), 8);
}

#[test]
fn r13_7_comes_before_8() {
    let mut caller = burst("500", 563);
    assert_eq!(caller.take("scheduler id=1 group=1 cir=1 cbs=1"), "taken");
    refuses(&mut caller, &octets(START), 7);
    assert_eq!(caller.take("group id=1 residence=1"), "taken");
    refuses(&mut caller, &octets(START), 8);
}

#[test]
fn r16_start_without_filters_is_taken() {
    assert_eq!(Caller::new().take(START), "taken");
}

#[test]
fn r17_after_a_refused_start_setup_goes_on() {
    let mut caller = Caller::after(FILTER);
    refuses(&mut caller, &octets(START), 7);
    refuses(&mut caller, &octets(&arrival(0, 0)), 4);
    assert_eq!(caller.take(GATE), "taken");
    assert_eq!(caller.take(START), "taken");
    assert_eq!(caller.take(&arrival(0, 0)), "pass 3 3 0 -");
}

#[test]
fn r18_every_taken_arrival_moves_the_clock_and_no_other() {
    let mut caller = Caller::after(START);
    assert_eq!(caller.take(&arrival(1000, 0)), "pass 3 3 0 -");
    refuses(&mut caller, &octets(&arrival(999, 0)), 9);
    let mut out_of_range = octets(&arrival(2000, 0));
    out_of_range[1] = 8;
    refuses(&mut caller, &out_of_range, 3);
    assert_eq!(caller.take(&arrival(1000, 0)), "pass 3 3 0 -");
}

#[test]
fn r18_a_dropped_arrival_moves_the_clock() {
    let closed = GATE.replace("state=1", "state=0");
    let mut caller = Caller::after(&format!("{closed}{FILTER}{START}"));
    assert_eq!(caller.take(&arrival(1000, 0)), "drop 4");
    refuses(&mut caller, &octets(&arrival(999, 0)), 9);
}

#[test]
fn r20_the_body_is_the_very_part_of_the_input() {
    let mut caller = Caller::new();
    let mut input = octets("port port=1 overhead=2");
    input.extend_from_slice(&[0xff, 0xff]);
    let answer = caller.call(&input);
    assert_eq!((answer.used, answer.body), (3, &[1u8, 2][..]));
    assert_eq!(answer.body.as_ptr(), input[1..].as_ptr());
}

#[test]
fn r21_r22_the_last_line() {
    assert_eq!(ingress(""), ["end 0"]);
    assert_eq!(last("octets 00"), "refused 2 at 0");
    assert_eq!(
        ingress(&format!("{START}{}octets 09", arrival(0, 0))),
        ["1 pass 3 3 0 -", "refused 1 at 20"]
    );
}

#[test]
fn r35_r36_a_table_of_another_length_is_11_before_all_else() {
    for places in [0, 1, 63, 65, 256] {
        let mut table = vec![Filter::EMPTY; places];
        for input in [&[][..], &[0], &[1, 0, 0]] {
            let mut bridge = Bridge::new();
            let answer = bridge.take(&mut table, input);
            assert_eq!(answer.outcome, Outcome::Refused(crate::refusal::Refusal::TableSize));
            assert_eq!((answer.used, answer.body.len()), (0, 0));
            assert_eq!(bridge, Bridge::new());
        }
    }
}
