//! The generator of the workload.

/// Never needs more than 64 bits, so that it is easy where overflow is an error.
pub struct Draws {
    state: u64,
}

impl Draws {
    pub fn new() -> Draws {
        Draws { state: 1 }
    }

    pub fn below(&mut self, limit: u64) -> usize {
        self.state = (self.state * 1_103_515_245 + 12_345) % 2_147_483_648;
        (self.state / 65_536 % limit) as usize
    }
}
