// The proved stage as Rust calls it: the declarations of include/transomrib.h, wrapped so that a caller can do no harm.
use second::bridge::{Outcome, Verdict};
use second::filter::Filter;

// The lengths of include/transomrib.h; .ci/sizes holds both to the code.
pub const ROWS: usize = 64;
pub const BANK_WORDS: usize = 1480;
pub const LISTS_OCTETS: usize = 1408;

type Bank = [u64; BANK_WORDS];
type Lists = [u8; LISTS_OCTETS];

#[repr(C)]
#[derive(Clone, Copy, Debug, Default, PartialEq, Eq)]
pub struct Row {
    pub handle: u32,
    pub max_sdu: u16,
    pub used: u8,
    pub any_handle: u8,
    pub priority: u8,
    pub gate: u8,
    pub oversize_block: u8,
    pub meter: u8,
    pub scheduler: u8,
}

impl Row {
    /// What the second program has for it: a row that isn't used is an empty place there.
    pub fn filter(&self) -> Filter {
        if self.used != 1 {
            return Filter::EMPTY;
        }
        Filter {
            any_handle: self.any_handle,
            handle: self.handle,
            priority: self.priority,
            gate: self.gate,
            max_sdu: self.max_sdu,
            oversize_block: self.oversize_block,
            meter: self.meter,
            scheduler: self.scheduler,
        }
    }
}

#[repr(C)]
#[derive(Clone, Copy, Debug)]
pub struct Reply {
    pub eligible: u64,
    pub used: u64,
    pub verdict: u8,
    pub number: u8,
    pub priority: u8,
    pub class: u8,
    pub drop_mark: u8,
    pub timed: u8,
}

impl Reply {
    /// Verdict, number, priority, class, drop mark, timed, eligibility time, octets used.
    pub fn numbers(&self) -> [u64; 8] {
        [
            self.verdict.into(),
            self.number.into(),
            self.priority.into(),
            self.class.into(),
            self.drop_mark.into(),
            self.timed.into(),
            self.eligible,
            self.used,
        ]
    }
}

/// The same numbers for an answer of the second program's engine.
pub fn numbers(outcome: Outcome, used: usize) -> [u64; 8] {
    let used = used as u64;
    match outcome {
        Outcome::Refused(refusal) => [0, refusal.number().into(), 0, 0, 0, 0, 0, used],
        Outcome::Taken => [1, 0, 0, 0, 0, 0, 0, used],
        Outcome::Arrival(Verdict::Drop(drop)) => [3, drop.number().into(), 0, 0, 0, 0, 0, used],
        Outcome::Arrival(Verdict::Pass(pass)) => [
            2,
            0,
            pass.priority.into(),
            pass.class.into(),
            pass.drop_eligible.into(),
            pass.eligibility.is_some().into(),
            pass.eligibility.unwrap_or(0),
            used,
        ],
    }
}

extern "C" {
    fn transomrib_take(
        table: *mut Row,
        rows: usize,
        bank: *mut Bank,
        lists: *mut Lists,
        input: *const u8,
        length: usize,
    ) -> Reply;
    #[allow(dead_code)]
    fn transomrib_read(bank: *const Bank, what: u32, index: u32) -> u64;
}

#[derive(Clone, PartialEq, Eq)]
pub struct Proved {
    pub table: Vec<Row>,
    bank: Box<Bank>,
    lists: Box<Lists>,
}

impl Proved {
    pub fn fresh() -> Proved {
        Proved { table: vec![Row::default(); ROWS], bank: Box::new([0; BANK_WORDS]), lists: Box::new([0; LISTS_OCTETS]) }
    }

    #[inline]
    pub fn take(&mut self, input: &[u8]) -> Reply {
        // Safety: the three buffers are this struct's own, initialised and aligned, and no two overlap.
        unsafe {
            transomrib_take(
                self.table.as_mut_ptr(),
                self.table.len(),
                &mut *self.bank,
                &mut *self.lists,
                input.as_ptr(),
                input.len(),
            )
        }
    }

    #[allow(dead_code)]
    pub fn read(&self, what: u32, index: u32) -> u64 {
        // Safety: the bank is this struct's own.
        unsafe { transomrib_read(&*self.bank, what, index) }
    }
}
