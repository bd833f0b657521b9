//! The recommended mapping of priorities to traffic classes.

/// Rows are priorities 0 to 7, columns 1 to 8 classes.
const TRAFFIC_CLASS: [[u8; 8]; 8] = [
    [0, 0, 0, 0, 0, 1, 1, 1],
    [0, 0, 0, 0, 0, 0, 0, 0],
    [0, 0, 0, 1, 1, 2, 2, 2],
    [0, 0, 0, 1, 1, 2, 3, 3],
    [0, 1, 1, 2, 2, 3, 4, 4],
    [0, 1, 1, 2, 2, 3, 4, 5],
    [0, 1, 2, 3, 3, 4, 5, 6],
    [0, 1, 2, 3, 4, 5, 6, 7],
];

/// The class of a priority 0..7 with 1..8 classes.
pub fn traffic_class(priority: u8, classes: u8) -> u8 {
    TRAFFIC_CLASS[usize::from(priority)][usize::from(classes) - 1]
}
