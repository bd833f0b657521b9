// Two versions of one step in the same run: forty rounds of each, in turn, over the same frames. What is told is the best round of each, in
// nanoseconds a frame, and their ratio, since the machine is shared and noisy.
use std::hint::black_box;
use std::time::Instant;

// One round over all frames, from `state` on: ns a frame, and the sum of the answers.
pub fn round<S, F>(frames: &[F], mut state: S, step: impl Fn(&mut S, usize, &F) -> u64) -> (f64, u64) {
    let mut sum = 0u64;
    let start = Instant::now();
    for (i, frame) in frames.iter().enumerate() {
        sum = sum.wrapping_add(black_box(step(&mut state, i, frame)));
    }
    (start.elapsed().as_nanos() as f64 / frames.len() as f64, sum)
}

// The proved step against another, called `other`.
pub fn race(name: &str, other: &str, mut proved: impl FnMut() -> (f64, u64), mut second: impl FnMut() -> (f64, u64)) {
    let (mut ns, mut other_ns) = (f64::MAX, f64::MAX);
    for _ in 0..40 {
        let (a, b) = (proved(), second());
        assert_eq!(a.1, b.1, "{name}: the answers differ");
        ns = ns.min(a.0);
        other_ns = other_ns.min(b.0);
    }
    println!("{name} proved {ns:.2}  {other} {other_ns:.2}  ratio {:.2}", ns / other_ns);
}
