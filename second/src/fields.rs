//! Document 01's table of records: each kind's name and its fields in order,
//! with widths and ranges. The reader and the text form both go by it.

/// The latest time, in nanoseconds.
pub const TIME_MAX: u64 = 1 << 62;
/// The longest interval or residence, in nanoseconds.
pub const SPAN_MAX: u64 = 1_000_000_000;
/// The latest eligibility time.
pub const ELIGIBILITY_MAX: u64 = TIME_MAX + SPAN_MAX;
/// The highest rate, in bits per second.
pub const RATE_MAX: u64 = 10_000_000_000;
/// The largest burst, in octets.
pub const BURST_MAX: u64 = 1_000_000;
/// The largest frame or maximum SDU, in octets.
pub const SDU_MAX: u64 = 2000;
/// The largest overhead of a port, in octets.
pub const OVERHEAD_MAX: u64 = 64;

pub const PORTS: usize = 8;
pub const FILTERS: usize = 64;
pub const GATES: usize = 16;
pub const ENTRIES: usize = 8;
pub const METERS: usize = 16;
pub const GROUPS: usize = 16;
pub const SCHEDULERS: usize = 32;

/// "Any" as a filter's priority, "null" as a gate's IPV.
pub const NO_PRIORITY: u8 = 8;
/// "None" as a filter's meter or scheduler.
pub const NONE: u8 = 255;
/// "None" as an entry's octet maximum.
pub const NO_OCTET_MAXIMUM: u32 = u32::MAX;

pub const KIND_PORT: u8 = 1;
pub const KIND_FILTER: u8 = 2;
pub const KIND_GATE: u8 = 3;
pub const KIND_GATE_ENTRY: u8 = 4;
pub const KIND_METER: u8 = 5;
pub const KIND_GROUP: u8 = 6;
pub const KIND_SCHEDULER: u8 = 7;
pub const KIND_START: u8 = 8;
pub const KIND_ARRIVAL: u8 = 9;
pub const KIND_CLEAR: u8 = 10;

/// The field that the text form folds into the next one, `handle`.
pub const ANY_HANDLE: &str = "any-handle";

/// A value with a name of its own, such as 255 for no meter.
pub struct Word {
    pub text: &'static str,
    pub value: u64,
}

/// One field: its values are `low` to `high` and the one the word stands for.
pub struct Field {
    pub name: &'static str,
    pub octets: usize,
    pub low: u64,
    pub high: u64,
    pub word: Option<Word>,
}

impl Field {
    pub fn holds(&self, value: u64) -> bool {
        self.in_numbers(value) || self.is_word(value)
    }

    /// Whether the value is one that the text form writes as a number.
    pub fn in_numbers(&self, value: u64) -> bool {
        (self.low..=self.high).contains(&value)
    }

    pub fn is_word(&self, value: u64) -> bool {
        matches!(&self.word, Some(word) if word.value == value)
    }
}

/// One kind of record.
pub struct Kind {
    pub number: u8,
    pub name: &'static str,
    pub fields: &'static [Field],
}

impl Kind {
    pub fn body_octets(&self) -> usize {
        self.fields.iter().map(|field| field.octets).sum()
    }

    /// The place of the named field among this kind's fields.
    pub fn place(&self, name: &str) -> usize {
        self.fields.iter().position(|field| field.name == name).expect("a field of this kind")
    }
}

/// The kind with this number, if there is one.
pub fn kind(number: u8) -> Option<&'static Kind> {
    KINDS.iter().find(|kind| kind.number == number)
}

const fn field(name: &'static str, octets: usize, low: u64, high: u64) -> Field {
    let word = None;
    Field { name, octets, low, high, word }
}

const fn worded(field: Field, text: &'static str, value: u64) -> Field {
    let Field { name, octets, low, high, .. } = field;
    let word = Some(Word { text, value });
    Field { name, octets, low, high, word }
}

const fn flag(name: &'static str) -> Field {
    field(name, 1, 0, 1)
}

const fn ipv() -> Field {
    worded(field("ipv", 1, 0, 7), "null", NO_PRIORITY as u64)
}

pub static KINDS: [Kind; 10] = [
    Kind {
        number: KIND_PORT,
        name: "port",
        fields: &[field("port", 1, 0, 7), field("overhead", 1, 0, OVERHEAD_MAX)],
    },
    Kind {
        number: KIND_FILTER,
        name: "filter",
        fields: &[
            field("id", 1, 0, 63),
            flag(ANY_HANDLE),
            field("handle", 4, 0, u32::MAX as u64),
            worded(field("priority", 1, 0, 7), "any", NO_PRIORITY as u64),
            field("gate", 1, 0, 15),
            worded(field("max-sdu", 2, 1, SDU_MAX), "none", 0),
            flag("oversize-block"),
            worded(field("meter", 1, 0, 15), "none", NONE as u64),
            worded(field("scheduler", 1, 0, 31), "none", NONE as u64),
        ],
    },
    Kind {
        number: KIND_GATE,
        name: "gate",
        fields: &[
            field("id", 1, 0, 15),
            flag("state"),
            ipv(),
            flag("invalid-receive-block"),
            flag("octets-block"),
            field("base-time", 8, 0, TIME_MAX),
        ],
    },
    Kind {
        number: KIND_GATE_ENTRY,
        name: "gate-entry",
        fields: &[
            field("gate", 1, 0, 15),
            flag("state"),
            ipv(),
            field("interval", 4, 1, SPAN_MAX),
            worded(
                field("octet-maximum", 4, 0, NO_OCTET_MAXIMUM as u64 - 1),
                "none",
                NO_OCTET_MAXIMUM as u64,
            ),
        ],
    },
    Kind {
        number: KIND_METER,
        name: "meter",
        fields: &[
            field("id", 1, 0, 15),
            field("cir", 8, 0, RATE_MAX),
            field("cbs", 4, 0, BURST_MAX),
            field("eir", 8, 0, RATE_MAX),
            field("ebs", 4, 0, BURST_MAX),
            flag("coupling"),
            flag("colour-aware"),
            flag("drop-on-yellow"),
            flag("red-block"),
        ],
    },
    Kind {
        number: KIND_GROUP,
        name: "group",
        fields: &[field("id", 1, 0, 15), field("residence", 4, 1, SPAN_MAX)],
    },
    Kind {
        number: KIND_SCHEDULER,
        name: "scheduler",
        fields: &[
            field("id", 1, 0, 31),
            field("group", 1, 0, 15),
            field("cir", 8, 1, RATE_MAX),
            field("cbs", 4, 1, BURST_MAX),
        ],
    },
    Kind { number: KIND_START, name: "start", fields: &[field("classes", 1, 1, 8)] },
    Kind {
        number: KIND_ARRIVAL,
        name: "arrival",
        fields: &[
            field("port", 1, 0, 7),
            field("time", 8, 0, TIME_MAX),
            field("handle", 4, 0, u32::MAX as u64),
            field("priority", 1, 0, 7),
            flag("drop-eligible"),
            field("msdu", 2, 0, SDU_MAX),
        ],
    },
    Kind {
        number: KIND_CLEAR,
        name: "clear",
        fields: &[field("flag", 1, 1, 4), field("id", 1, 0, 63)],
    },
];

/// The highest id that a clear record may name with this flag.
pub fn clear_id_max(flag: u64) -> u64 {
    if flag == 1 {
        FILTERS as u64 - 1
    } else {
        GATES as u64 - 1
    }
}

/// Whether every value is in its field's range, those included whose range
/// depends on the field before: a filter's handle and a clear's id.
pub fn in_range(kind: &Kind, values: &[u64]) -> bool {
    let each = kind.fields.iter().zip(values).all(|(field, &value)| field.holds(value));
    each && match kind.number {
        KIND_FILTER => values[1] == 0 || values[2] == 0,
        KIND_CLEAR => values[1] <= clear_id_max(values[0]),
        _ => true,
    }
}
