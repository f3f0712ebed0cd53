//! Stand-in for a stamp: a clock reading taken together with whether that clock judged.

use tally_wire::clocks::Judged;

pub const CHARGE_FLOOR: usize = usize::MAX;

#[derive(Clone, Copy)]
pub struct Stamp {
    pub judged: Judged,
    pub judging: bool,
}

impl Stamp {
    pub fn judged(&self) -> Judged {
        self.judged
    }

    pub fn judging(&self) -> bool {
        self.judging
    }
}
