//! Why a call is refused, by number.

#[derive(Clone, Copy, Debug, PartialEq, Eq, PartialOrd, Ord)]
pub enum Refusal {
    ServersOutOfBounds = 1,
    ObjectsOutOfBounds = 2,
    CellsOutOfBounds = 3,
    NoTable = 4,
    ObjectNotRecovered = 5,
    NoMemory = 6,
    NoSuchServer = 7,
    NoSuchObject = 8,
    WrongLength = 9,
    NoSuchRead = 10,
    NoElement = 11,
    EqualEnds = 12,
    LaneEmpty = 13,
    NumbersUsedUp = 14,
    HistoryFull = 15,
    ReadsFull = 16,
    LaneFull = 17,
    WaitingFull = 18,
    OutOfRange = 23,
}

impl Refusal {
    pub fn number(self) -> u8 {
        self as u8
    }

    /// This refusal where the condition does not hold.
    pub fn unless(self, condition: bool) -> Result<(), Refusal> {
        if condition {
            Ok(())
        } else {
            Err(self)
        }
    }
}
