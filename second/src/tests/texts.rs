//! The text form: canonical text back and forth, and every kind of error.

use super::*;

const ALL: &str = "\
port port=0 overhead=12
filter id=0 handle=7 priority=any gate=0 max-sdu=500 oversize-block=1 meter=none scheduler=0
filter id=1 handle=any priority=3 gate=0 max-sdu=none oversize-block=0 meter=2 scheduler=none
gate id=0 state=1 ipv=null invalid-receive-block=0 octets-block=0 base-time=0
gate-entry gate=0 state=0 ipv=3 interval=1000 octet-maximum=none
meter id=0 cir=1000000000 cbs=1000 eir=0 ebs=500 coupling=0 colour-aware=0 drop-on-yellow=0 red-block=0
group id=0 residence=10000
scheduler id=0 group=0 cir=1000000000 cbs=1000
start classes=8
arrival port=0 time=0 handle=7 priority=3 drop-eligible=0 msdu=500
clear flag=1 id=0
";

#[test]
fn canonical_text_comes_back() {
    assert_eq!(text::records(&octets(ALL)), ALL);
}

#[test]
fn words_stand_for_their_numbers() {
    let filter = "filter id=1 handle=any priority=any gate=2 max-sdu=none oversize-block=1 meter=none scheduler=none";
    assert_eq!(octets(filter), [2, 1, 1, 0, 0, 0, 0, 8, 2, 0, 0, 1, 255, 255]);
    let entry = "gate-entry gate=1 state=0 ipv=null interval=258 octet-maximum=none";
    assert_eq!(octets(entry), [4, 1, 0, 8, 0, 0, 1, 2, 255, 255, 255, 255]);
}

#[test]
fn blanks_comments_and_octets_are_taken() {
    let text = "# all of it\n\n  \t\nport \t port=1   overhead=2 # twelve\noctets 0b 00 fF\nstart classes=1#!";
    assert_eq!(octets(text), [1, 1, 2, 0x0b, 0, 0xff, 8, 1]);
}

#[test]
fn an_empty_text_has_no_records() {
    assert_eq!(octets(""), [0u8; 0]);
    assert_eq!(text::records(&[]), "");
}

#[test]
fn records_stop_at_a_refusal_by_the_reader() {
    assert_eq!(text::records(&[1, 0, 12, 1, 8, 0]), "port port=0 overhead=12\nrefused 3 at 3\n");
    assert_eq!(text::records(&[8, 1, 0]), "start classes=1\nrefused 2 at 2\n");
    assert_eq!(text::records(&[8]), "refused 1 at 0\n");
}

fn fault(source: &str) -> String {
    text::assemble(source).expect_err("an error").to_string()
}

#[test]
fn an_unknown_record_is_an_error() {
    let names =
        "port, filter, gate, gate-entry, meter, group, scheduler, start, arrival, clear or octets";
    assert_eq!(fault("\n  prot port=0"), format!("2:3: expected {names}, found \"prot\""));
    assert_eq!(fault("Port"), format!("1:1: expected {names}, found \"Port\""));
}

#[test]
fn a_missing_or_misplaced_field_is_an_error() {
    assert_eq!(fault("port port=0"), "1:12: expected overhead=, found the end of the line");
    assert_eq!(fault("port port=0  # 12"), "1:12: expected overhead=, found a comment");
    assert_eq!(fault("port overhead=0 port=1"), "1:6: expected port=, found \"overhead=0\"");
    assert_eq!(fault("port port 0"), "1:6: expected port=, found \"port\"");
    assert_eq!(fault("start classes=8 8"), "1:17: expected the end of the line, found \"8\"");
    assert_eq!(fault("start"), "1:6: expected classes=, found the end of the line");
}

#[test]
fn a_value_that_is_no_number_is_an_error() {
    let expected = "1:15: expected a decimal number from 1 to 8, found";
    for value in ["", "+1", "-1", "01", "1.0", "0x1", "eight", "1e0", "٣", "8\r"] {
        let found = if value.is_empty() { "nothing".to_string() } else { format!("{value:?}") };
        assert_eq!(fault(&format!("start classes={value}")), format!("{expected} {found}"));
    }
}

#[test]
fn a_value_outside_its_range_is_an_error() {
    assert_eq!(
        fault("start classes=9"),
        "1:15: expected a decimal number from 1 to 8, found \"9\""
    );
    assert_eq!(
        fault("start classes=0"),
        "1:15: expected a decimal number from 1 to 8, found \"0\""
    );
    assert_eq!(
        fault("start classes=18446744073709551617"),
        "1:15: expected a decimal number from 1 to 8, found \"18446744073709551617\""
    );
}

#[test]
fn the_range_of_a_clears_id_goes_by_its_flag() {
    assert_eq!(octets("clear flag=1 id=63"), [10, 1, 63]);
    assert_eq!(
        fault("clear flag=1 id=64"),
        "1:17: expected a decimal number from 0 to 63, found \"64\""
    );
    assert_eq!(
        fault("clear flag=2 id=16"),
        "1:17: expected a decimal number from 0 to 15, found \"16\""
    );
}

#[test]
fn the_number_a_word_stands_for_is_an_error() {
    let gate = "gate id=0 state=1 ipv=8 invalid-receive-block=0 octets-block=0 base-time=0";
    assert_eq!(
        fault(gate),
        "1:23: expected a decimal number from 0 to 7 or null (for 8), found \"8\""
    );
    let filter =
        "filter id=0 handle=7 priority=P gate=0 max-sdu=M oversize-block=1 meter=255 scheduler=255";
    let with =
        |priority: &str, max_sdu: &str| fault(&filter.replace('P', priority).replace('M', max_sdu));
    assert_eq!(
        with("8", "1"),
        "1:31: expected a decimal number from 0 to 7 or any (for 8), found \"8\""
    );
    assert_eq!(
        with("any", "0"),
        "1:50: expected a decimal number from 1 to 2000 or none (for 0), found \"0\""
    );
    assert_eq!(
        with("any", "1"),
        "1:75: expected a decimal number from 0 to 15 or none (for 255), found \"255\""
    );
    let entry = "gate-entry gate=1 state=0 ipv=null interval=1 octet-maximum=4294967295";
    assert_eq!(
        fault(entry),
        "1:61: expected a decimal number from 0 to 4294967294 or none (for 4294967295), found \"4294967295\""
    );
}

#[test]
fn a_filters_handle_is_a_number_or_any() {
    let filter = "filter id=0 handle=none priority=any gate=0 max-sdu=1 oversize-block=1 meter=none scheduler=none";
    assert_eq!(
        fault(filter),
        "1:20: expected a decimal number from 0 to 4294967295 or any, found \"none\""
    );
    let arrival = "arrival port=0 time=0 handle=any priority=3 drop-eligible=0 msdu=500";
    assert_eq!(
        fault(arrival),
        "1:30: expected a decimal number from 0 to 4294967295, found \"any\""
    );
}

#[test]
fn octets_are_two_hex_digits_each() {
    assert_eq!(
        fault("octets"),
        "1:7: expected an octet as two hex digits, found the end of the line"
    );
    for word in ["0", "0g", "000", "+1", "é"] {
        assert_eq!(
            fault(&format!("octets 00\t{word}")),
            format!("1:11: expected an octet as two hex digits, found \"{word}\"")
        );
    }
}
