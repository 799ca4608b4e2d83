//! The numbers given back: 0 for done, and a name for every refusal.

/// Why an operation was refused. The value of each is its number.
#[derive(Clone, Copy, PartialEq, Eq, Debug)]
pub enum Refusal {
    SetupNotAdmitted = 1,
    MalformedState = 2,
    FieldOutOfRange = 3,
    NoSuchPlace = 4,
    ChannelFull = 5,
    WindowClosed = 6,
    ShareSpent = 7,
    RowTooShort = 8,
    Stale = 9,
    Behind = 10,
    Beyond = 11,
    AlreadyStored = 12,
    WindowAlreadyRw = 13,
}

/// What an event gives back: how many units were delivered, or a refusal.
pub type Answer = Result<usize, Refusal>;

/// The number of an answer.
pub fn number(answer: Answer) -> u32 {
    match answer {
        Ok(_) => 0,
        Err(refusal) => refusal as u32,
    }
}

/// How many units an answer delivers; none in a refusal.
pub fn delivered(answer: Answer) -> usize {
    answer.unwrap_or(0)
}
