//! The numbers of refusal, in checking order.

/// Why a call was refused; `number` gives the number of documents 01 and 02.
#[derive(Clone, Copy, Debug, PartialEq, Eq, PartialOrd, Ord)]
pub enum Refusal {
    Layout = 1,
    Form = 2,
    Pool = 3,
    Spare = 4,
    Volume = 5,
    Retention = 6,
    Day = 7,
    List = 8,
    SlotsFull = 9,
    JournalFull = 10,
    OtherBytes = 11,
    NoFreeBlock = 12,
    BeforeUncounted = 13,
    CountFull = 14,
    Number = 15,
    NotKept = 16,
    LbnAbove = 17,
    Unmapped = 18,
    Input = 19,
    ShortOutput = 20,
    Run = 21,
    CountWide = 22,
}

impl Refusal {
    pub fn number(self) -> u16 {
        self as u16
    }
}

/// `Ok` if the check holds, else the refusal.
pub fn require(holds: bool, refusal: Refusal) -> Result<(), Refusal> {
    if holds {
        Ok(())
    } else {
        Err(refusal)
    }
}
