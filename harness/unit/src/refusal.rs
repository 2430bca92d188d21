//! The refusal numbers, and what they mean.

/// Why a unit is refused, by the numbers of documents 01 and 02.
#[derive(Clone, Copy, Debug, Eq, PartialEq)]
#[repr(u32)]
pub enum Refusal {
    NoUnit = 1,
    ShortBuffer = 2,
    MetadataCount = 3,
    TypeCount = 4,
    Invalid = 5,
    Effect = 6,
    Slot = 7,
    Branch = 8,
    LoopHint = 9,
    LoopMoved = 10,
    LinePlaces = 11,
    Frame = 12,
    SelectCases = 13,
    Tariff = 15,
}

impl Refusal {
    pub const ALL: [Self; 13] = [
        Self::NoUnit,
        Self::ShortBuffer,
        Self::MetadataCount,
        Self::TypeCount,
        Self::Invalid,
        Self::Effect,
        Self::Slot,
        Self::Branch,
        Self::LoopHint,
        Self::LoopMoved,
        Self::LinePlaces,
        Self::Frame,
        Self::SelectCases,
    ];

    /// Of a charged run alone, beside those.
    pub const OF_CHARGE: [Self; 1] = [Self::Tariff];

    pub fn from_number(number: u32) -> Option<Self> {
        Self::ALL.into_iter().chain(Self::OF_CHARGE).find(|refusal| *refusal as u32 == number)
    }

    /// In words, for people who write laws.
    pub fn meaning(self) -> &'static str {
        match self {
            Self::NoUnit => "the bytes are no unit",
            Self::ShortBuffer => "a lent buffer is too short",
            Self::MetadataCount => "there is not one metadata entry for each instruction",
            Self::TypeCount => "there is not one type for each local slot",
            Self::Invalid => "there is no such opcode",
            Self::Effect => {
                "what it reads and writes cannot be told: its metadata is of another kind, its function or \
                 extern is missing, or it names slots past 65,535"
            }
            Self::Slot => "it reads or writes a slot that the function does not have",
            Self::Branch => "the branch leaves the function",
            Self::LoopHint => "the loop has no end inside the function",
            Self::LoopMoved => "the loop's end was removed, or its exit lies past the function's end",
            Self::LinePlaces => "the places of the lines do not rise, or one lies past the function's end",
            Self::Frame => "the frame has not one word for each local slot",
            Self::SelectCases => "a select has more than 24 cases",
            Self::Tariff => "the tariff has not one price for each of the 256 opcode bytes",
        }
    }

    /// Whether the place is that of an instruction or of its metadata; it is 0 otherwise.
    pub fn has_place(self) -> bool {
        !matches!(
            self,
            Self::NoUnit
                | Self::ShortBuffer
                | Self::MetadataCount
                | Self::TypeCount
                | Self::LinePlaces
                | Self::Frame
                | Self::Tariff
        )
    }
}
