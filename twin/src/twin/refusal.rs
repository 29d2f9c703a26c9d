/// Why a call is refused. The values are the numbers of the refusal sheet.
#[derive(Clone, Copy, Debug, PartialEq, Eq)]
#[repr(u32)]
pub enum Refusal {
    Board = 1,
    Budget = 2,
    Register = 3,
    FrameOver = 4,
    PlanCut = 5,
    NoBand = 6,
    Kind = 7,
    Length = 8,
    Field = 9,
    First = 10,
    Lines = 11,
    Room = 13,
    Address = 14,
    State = 15,
    ShortLine = 17,
}

impl Refusal {
    /// The refusal sheet.
    pub const SHEET: [Refusal; 15] = [
        Refusal::Board,
        Refusal::Budget,
        Refusal::Register,
        Refusal::FrameOver,
        Refusal::PlanCut,
        Refusal::NoBand,
        Refusal::Kind,
        Refusal::Length,
        Refusal::Field,
        Refusal::First,
        Refusal::Lines,
        Refusal::Room,
        Refusal::Address,
        Refusal::State,
        Refusal::ShortLine,
    ];

    pub fn number(self) -> u32 {
        self as u32
    }

    /// The refusal of one item of a plan.
    pub fn at(self, item: u32) -> Refused {
        Refused {
            refusal: self,
            item,
        }
    }
}

/// A refused call: why, and at which item of a plan.
#[derive(Clone, Copy, Debug, PartialEq, Eq)]
pub struct Refused {
    pub refusal: Refusal,
    pub item: u32,
}

impl From<Refusal> for Refused {
    /// A refusal of no single item comes with item 0.
    fn from(refusal: Refusal) -> Refused {
        refusal.at(0)
    }
}

impl Refused {
    /// The number that a call answers with.
    pub fn answer(self) -> u32 {
        self.refusal.number() + 256 * self.item
    }
}
