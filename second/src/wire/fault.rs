//! What can be wrong with bytes.

#[derive(Clone, Copy, Debug, PartialEq, Eq)]
pub enum Wrong {
    MarkShort,
    NotLast,
    FieldShort,
    BadLength,
    UnknownKind,
    OutOfRange,
    Leftover,
}

/// What is wrong with bytes, and where the field starts in which it is.
#[derive(Clone, Copy, Debug, PartialEq, Eq)]
pub struct Fault {
    pub wrong: Wrong,
    pub at: usize,
}

impl Fault {
    pub fn number(self) -> u8 {
        match self.wrong {
            Wrong::MarkShort | Wrong::FieldShort => 19,
            Wrong::NotLast => 20,
            Wrong::BadLength => 21,
            Wrong::UnknownKind => 22,
            Wrong::OutOfRange => 23,
            Wrong::Leftover => 24,
        }
    }

    pub fn layer(self) -> u8 {
        match self.wrong {
            Wrong::MarkShort | Wrong::NotLast => 1,
            Wrong::FieldShort | Wrong::BadLength => 2,
            Wrong::UnknownKind | Wrong::OutOfRange | Wrong::Leftover => 3,
        }
    }
}
