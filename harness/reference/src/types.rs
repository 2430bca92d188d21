//! Stand-in for volang's types.rs: what the four files use of it.

#[derive(Clone, Copy, Debug, Eq, PartialEq)]
#[repr(u8)]
pub enum SlotType {
    Value = 0,
    GcBase = 1,
    GcRef = 2,
    Interface0 = 3,
    Interface1 = 4,
    Float = 5,
}

impl SlotType {
    const ALL: [Self; 6] =
        [Self::Value, Self::GcBase, Self::GcRef, Self::Interface0, Self::Interface1, Self::Float];

    pub fn from_u8(tag: u8) -> Self {
        Self::ALL[usize::from(tag)]
    }
}
