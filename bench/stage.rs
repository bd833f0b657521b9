// A whole frame through the C interface: the proved stage, from the static library, beside the second program's engine, in the same run.
// Both are set up by the same records and see the same arrivals, and every answer is compared before anything is timed.
// The second program is written to be plain and exact, not fast: the ratio says what the proof does not cost, the nanoseconds the rest.
// `bench/run.sh stage` builds and runs it.
#[allow(dead_code)]
#[path = "../tests/proved.rs"]
mod proved;
mod load;
mod rounds;

use load::{arrivals, setup};
use proved::{numbers, Proved};
use rounds::{race, round};
use second::bridge::Bridge;
use second::filter::Filter;
use std::hint::black_box;

const FRAMES: u64 = 4096;

fn main() {
    println!("ns a frame, best of 40 rounds of {FRAMES} frames; ratio proved / second program's engine");
    for (name, place, list, all, handle, spell) in [
        ("no match in 64 rows                       ", 0, false, false, 9, 1000),
        ("row 0, open gate                          ", 0, false, false, 7, 1000),
        ("row 0, list of eight, meter, scheduler    ", 0, true, true, 7, 100),
        ("row 63, list of eight, meter, scheduler   ", 63, true, true, 7, 100),
        ("row 0, a new interval at each frame       ", 0, true, true, 7, 1000),
    ] {
        let records = setup(place, list, all);
        let arrivals = arrivals(handle, spell, FRAMES);
        let fresh = || {
            let (mut a, mut table, mut b) = (Proved::fresh(), Filter::table(), Bridge::new());
            let mut at = 0;
            while at < records.len() {
                let one = a.take(&records[at..]);
                let two = b.take(&mut table, &records[at..]);
                assert_eq!(one.numbers(), numbers(two.outcome, two.used));
                assert!(one.used > 0, "refused {}", one.number);
                at += one.used as usize;
            }
            (a, table, b)
        };
        let (mut a, mut table, mut b) = fresh();
        for arrival in arrivals.chunks(18) {
            let two = b.take(&mut table, arrival);
            assert_eq!(a.take(arrival).numbers(), numbers(two.outcome, two.used));
        }
        let arrivals: Vec<&[u8]> = arrivals.chunks(18).collect();
        race(
            name,
            "second",
            || round(&arrivals, fresh().0, |bridge, _, arrival| black_box(bridge.take(arrival)).used),
            || {
                let (_, table, bridge) = fresh();
                round(&arrivals, (table, bridge), |(table, bridge), _, arrival| black_box(bridge.take(table, arrival)).used as u64)
            },
        );
    }
}
