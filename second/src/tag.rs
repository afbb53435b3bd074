//! Tags name writes.

/// Ordered by height, then by server: the order of the fields is that order.
#[derive(Clone, Copy, Debug, PartialEq, Eq, PartialOrd, Ord)]
pub struct Tag {
    pub height: u32,
    pub server: u32,
}

impl Tag {
    /// Comes before every write and stands for the zero record.
    pub const ZERO: Tag = Tag { height: 0, server: 0 };

    pub fn new(height: u32, server: usize) -> Tag {
        Tag { height, server: server as u32 }
    }
}
