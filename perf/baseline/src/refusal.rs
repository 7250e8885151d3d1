/// Why something is turned down; each with its number.
#[derive(Clone, Copy, Debug, PartialEq, Eq)]
pub enum Refusal {
    OutsideLimits = 1,
    BadOrder = 2,
    NoSuchParty = 4,
    NoSuchSlot = 5,
    ShortList = 6,
    DataDoesNotFit = 7,
    BadSituation = 8,
    Busy = 11,
    NothingToTurn = 12,
    SlotEmpty = 13,
    SlotFilled = 14,
    NoTrail = 15,
    TrailStands = 16,
    NoKid = 17,
    InboxFull = 18,
    InboxEmpty = 19,
}

impl Refusal {
    pub fn number(self) -> i32 {
        self as i32
    }
}
