//! The opcodes.

use Opcode::*;

/// One list makes the enum and the table of all.
macro_rules! opcodes {
    ($($name:ident)*) => {
        /// "The opcode's number is its place in `Opcode`, from 0"; the names are the Rust's.
        #[derive(Clone, Copy, Debug, Eq, PartialEq)]
        #[repr(u8)]
        pub enum Opcode {
            $($name),*
        }

        const ALL: [(Opcode, &str); 136] = [$((Opcode::$name, stringify!($name))),*];
    };
}

opcodes! {
    Hint LoadInt LoadConst Copy CopyN SlotGet SlotSet SlotGetN SlotSetN GlobalGet GlobalGetN GlobalSet
    GlobalSetN PtrNew PtrGet PtrSet PtrGetN PtrSetN PtrAdd AddI SubI MulI DivI DivU ModI ModU NegI AddF
    SubF MulF DivF NegF EqI NeI LtI LtU LeI LeU GtI GtU GeI GeU EqF NeF LtF LeF GtF GeF And Or Xor
    AndNot Not Shl ShrS ShrU BoolNot Jump JumpIf JumpIfNot Call CallExtern CallClosure CallIface Return
    StrNew StrLen StrIndex StrConcat StrSlice StrEq StrNe StrLt StrLe StrGt StrGe StrDecodeRune ArrayNew
    ArrayGet ArraySet ArrayAddr SliceNew SliceGet SliceSet SliceLen SliceCap SliceSlice SliceAppend
    SliceAddr MapNew MapGet MapSet MapDelete MapLen MapIterInit MapIterNext QueueNew QueueSend QueueRecv
    QueueClose QueueLen QueueCap SelectBegin SelectSend SelectRecv SelectExec ClosureNew ClosureGet
    GoStart DeferPush ErrDeferPush Panic Recover IfaceAssign IfaceAssert IfaceEq ConvI2F ConvF2I
    ConvF64F32 ConvF32F64 Trunc IndexCheck IslandNew GoIsland ForLoop AddF32 SubF32 MulF32 DivF32 NegF32
    EqF32 NeF32 LtF32 LeF32 GtF32 GeF32
}

/// "The 10 in `unary`"
pub const UNARY: [Opcode; 10] =
    [NegI, Not, BoolNot, Trunc, NegF, NegF32, ConvI2F, ConvF2I, ConvF64F32, ConvF32F64];

/// "The 37 in `binary`"
pub const BINARY: [Opcode; 37] = [
    AddI, SubI, MulI, And, Or, Xor, AndNot, EqI, NeI, LtI, LtU, LeI, LeU, GtI, GtU, GeI, GeU, AddF, AddF32,
    SubF, SubF32, MulF, MulF32, DivF, DivF32, EqF, EqF32, NeF, NeF32, LtF, LtF32, LeF, LeF32, GtF, GtF32,
    GeF, GeF32,
];

impl Opcode {
    pub fn all() -> impl Iterator<Item = Self> {
        ALL.into_iter().map(|(opcode, _)| opcode)
    }

    /// `None` for bytes that are Invalid.
    pub fn from_u8(op: u8) -> Option<Self> {
        ALL.get(usize::from(op)).map(|(opcode, _)| *opcode)
    }

    pub fn from_name(name: &str) -> Option<Self> {
        ALL.iter().find(|(_, known)| *known == name).map(|(opcode, _)| *opcode)
    }

    pub fn name(self) -> &'static str {
        ALL[self as usize].1
    }
}
