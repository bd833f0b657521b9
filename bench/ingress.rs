// The program `ingress`, end to end: a million arrivals from a file, each with a list of eight, a meter and a scheduler; the lines go nowhere.
// `bench/run.sh ingress` builds and runs it.
mod load;

use load::{arrivals, setup};
use std::fs::{write, File};
use std::process::{Command, Stdio};
use std::time::Instant;

const ARRIVALS: u64 = 1_000_000;

fn main() {
    println!("ns a record, best of 10 runs over {ARRIVALS} arrivals, from the program's start to its end; at most 200");
    for place in [0, 63] {
        let mut records = setup(place, true, true);
        records.extend(arrivals(7, 600, ARRIVALS));
        let input = "target/bench/arrivals";
        write(input, &records).expect("the input");
        let mut best = f64::MAX;
        for _ in 0..10 {
            let start = Instant::now();
            let status = Command::new("target/bin/ingress").stdin(File::open(input).expect("the input")).stdout(Stdio::null()).status().expect("ingress");
            assert!(status.success());
            best = best.min(start.elapsed().as_nanos() as f64 / ARRIVALS as f64);
        }
        println!("row {place:2}  {best:.0}");
    }
}
