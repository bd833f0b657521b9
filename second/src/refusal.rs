//! The refusal numbers of document 01.

/// Why a record isn't taken. The discriminant is document 01's number.
#[derive(Clone, Copy, Debug, PartialEq, Eq)]
#[repr(u8)]
pub enum Refusal {
    /// No octet is there, or the body is cut short.
    CutShort = 1,
    /// Kind 0 or above 10.
    UnknownKind = 2,
    /// A field outside its range.
    OutOfRange = 3,
    /// Setup after a taken start, or an arrival or clear before it.
    WrongPhase = 4,
    /// The port, filter, gate, meter, group or scheduler is set up already.
    SetUpAlready = 5,
    /// A ninth entry for one gate.
    NinthEntry = 6,
    /// Start: something that is named isn't set up.
    Missing = 7,
    /// Start: a filter's scheduler couldn't hold its largest frame.
    BurstTooSmall = 8,
    /// An arrival before the last taken one.
    TimeGoesBack = 9,
    /// Clear: that filter, gate or meter isn't set up.
    NotSetUp = 10,
    /// The lent filter table hasn't exactly 64 places.
    TableSize = 11,
}

impl Refusal {
    pub fn number(self) -> u8 {
        self as u8
    }
}
