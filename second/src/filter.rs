//! Rows of the lent filter table, and what is kept beside it for each filter.

use crate::fields::{self, FILTERS, KIND_FILTER, NONE, NO_PRIORITY};

/// One place of the lent table. The fields are as wide as the record's, so a
/// row that somebody spoiled can hold any value; such a row counts as empty.
#[derive(Clone, Copy, Debug, PartialEq, Eq)]
pub struct Filter {
    pub any_handle: u8,
    pub handle: u32,
    pub priority: u8,
    pub gate: u8,
    pub max_sdu: u16,
    pub oversize_block: u8,
    pub meter: u8,
    pub scheduler: u8,
}

impl Filter {
    /// An empty place: its fields are outside their ranges.
    pub const EMPTY: Filter = Filter {
        any_handle: u8::MAX,
        handle: 0,
        priority: u8::MAX,
        gate: u8::MAX,
        max_sdu: u16::MAX,
        oversize_block: u8::MAX,
        meter: NONE,
        scheduler: NONE,
    };

    /// A table with every place empty.
    pub fn table() -> [Filter; FILTERS] {
        [Filter::EMPTY; FILTERS]
    }

    pub fn in_range(&self) -> bool {
        let kind = fields::kind(KIND_FILTER).expect("the filter's kind");
        // The row has no identifier of its own, its place is that: 0 stands in.
        let values = [
            0,
            self.any_handle.into(),
            self.handle.into(),
            self.priority.into(),
            self.gate.into(),
            self.max_sdu.into(),
            self.oversize_block.into(),
            self.meter.into(),
            self.scheduler.into(),
        ];
        fields::in_range(kind, &values)
    }

    /// Whether handle and priority both match, for a row that is in range.
    pub fn matches(&self, handle: u32, priority: u8) -> bool {
        let handle_matches = self.any_handle == 1 || self.handle == handle;
        let priority_matches = self.priority == NO_PRIORITY || self.priority == priority;
        handle_matches && priority_matches
    }

    pub fn max_sdu(&self) -> Option<u16> {
        (self.max_sdu != 0).then_some(self.max_sdu)
    }

    pub fn meter(&self) -> Option<usize> {
        (self.meter != NONE).then_some(self.meter.into())
    }

    pub fn scheduler(&self) -> Option<usize> {
        (self.scheduler != NONE).then_some(self.scheduler.into())
    }
}

/// A filter's counters; each goes from 2^64 - 1 to 0.
#[derive(Clone, Copy, Debug, Default, PartialEq, Eq)]
pub struct Counters {
    pub matching_frames: u64,
    pub passing_sdu: u64,
    pub not_passing_sdu: u64,
    pub passing_frames: u64,
    pub not_passing_frames: u64,
    pub red_frames: u64,
}

/// What is kept by the filter's number, beside the lent table, so that a
/// spoiled row loses neither counters nor flag.
#[derive(Clone, Copy, Debug, Default, PartialEq, Eq)]
pub struct FilterState {
    pub counters: Counters,
    pub oversize: bool,
}

/// Counts one more, wrapping.
pub fn count(counter: &mut u64) {
    *counter = counter.wrapping_add(1);
}
