//! How often each verdict and each refusal occurred.

use second::bridge::Verdict;
use second::run::End;
use second::trace::Trace;

/// Each verdict and refusal is to occur at least this often in a default run.
const LEAST: u64 = 100;

#[derive(Default)]
pub struct Tally {
    passes: u64,
    drops: [u64; 8],
    refusals: [u64; 10],
}

impl Tally {
    pub fn count(&mut self, trace: &Trace) {
        for verdict in &trace.verdicts {
            match verdict {
                Verdict::Pass(_) => self.passes += 1,
                Verdict::Drop(drop) => self.drops[usize::from(drop.number()) - 1] += 1,
            }
        }
        if let End::Refused(refusal) = trace.end {
            // No input can show 11, the table's length.
            self.refusals[usize::from(refusal.number()) - 1] += 1;
        }
    }

    fn entries(&self) -> Vec<(String, u64)> {
        let numbered = |name: &'static str, counts: &[u64]| -> Vec<(String, u64)> {
            let named = counts.iter().enumerate();
            named.map(|(place, &count)| (format!("{name} {}", place + 1), count)).collect()
        };
        let mut entries = vec![("pass".to_string(), self.passes)];
        entries.extend(numbered("drop", &self.drops));
        entries.extend(numbered("refused", &self.refusals));
        entries
    }

    pub fn print(&self) {
        for (name, count) in self.entries() {
            println!("{name}: {count}");
        }
    }

    /// Fails where something occurred too rarely to have been compared.
    pub fn check(&self) -> Result<(), String> {
        match self.entries().into_iter().find(|&(_, count)| count < LEAST) {
            Some((name, count)) => Err(format!("{name} occurred {count} times, not {LEAST}\n")),
            None => Ok(()),
        }
    }
}
