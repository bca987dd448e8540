//! The questions that a call may answer with no.

/// A question answered no; the value of a case is the paper's number.
#[derive(Clone, Copy, Debug, PartialEq, Eq)]
pub enum Refusal {
    NodeCount = 1,
    Costs = 2,
    Allowances = 3,
    Show = 4,
    Size = 5,
    Deadline = 6,
    QueueFull = 7,
    NotBookable = 8,
    Time = 9,
    TimetableFull = 10,
    Unreadable = 11,
    NotWaiting = 12,
}

impl Refusal {
    pub fn number(self) -> u64 {
        self as u64
    }
}
