//! Opcodes by what the generator does with them.

use reference::Opcode::{self, *};
use unit::Kind;

/// "The 17 integer binary opcodes"
pub const INTEGER_BINARY: [Opcode; 17] =
    [AddI, SubI, MulI, And, Or, Xor, AndNot, EqI, NeI, LtI, LtU, LeI, LeU, GtI, GtU, GeI, GeU];

pub const FLOAT_BINARY: [Opcode; 20] = [
    AddF, AddF32, SubF, SubF32, MulF, MulF32, DivF, DivF32, EqF, EqF32, NeF, NeF32, LtF, LtF32, LeF, LeF32,
    GtF, GtF32, GeF, GeF32,
];

pub const INTEGER_UNARY: [Opcode; 4] = [NegI, Not, BoolNot, Trunc];

pub const FLOAT_UNARY: [Opcode; 6] = [NegF, NegF32, ConvI2F, ConvF2I, ConvF64F32, ConvF32F64];

/// Impure opcodes that need no metadata and whose ranges are single slots: they fit any frame with a slot.
pub const SINGLE_SLOTS: [Opcode; 28] = [
    GlobalGet, GlobalSet, PtrNew, PtrGet, PtrSet, PtrAdd, DivI, DivU, ModI, ModU, Shl, ShrS, ShrU, StrNew,
    StrLen, StrIndex, StrConcat, StrEq, StrLt, SliceLen, SliceCap, MapLen, QueueLen, QueueCap, QueueClose,
    IndexCheck, IslandNew, SelectBegin,
];

/// Opcodes with a range of several slots.
pub const RANGES: [Opcode; 42] = [
    CopyN, SlotGet, SlotSet, SlotGetN, SlotSetN, GlobalGetN, GlobalSetN, PtrGetN, PtrSetN, Call, CallExtern,
    CallClosure, CallIface, Return, StrSlice, StrDecodeRune, ArrayGet, ArraySet, SliceNew, SliceGet,
    SliceSet, SliceSlice, SliceAppend, MapNew, MapGet, MapSet, MapDelete, MapIterInit, MapIterNext,
    QueueSend, QueueRecv, SelectSend, SelectExec, GoStart, DeferPush, ErrDeferPush, Panic, Recover,
    IfaceAssign, IfaceAssert, IfaceEq, GoIsland,
];

/// The kind of metadata that belongs to an opcode. Static calls, starts and defers need none.
pub fn matching(opcode: Opcode) -> Kind {
    match opcode {
        SlotGet | SlotSet | SlotGetN | SlotSetN => Kind::SlotLayout,
        PtrGetN | PtrSetN => Kind::PtrLayout,
        ArrayNew | ArrayGet | ArraySet | ArrayAddr | SliceNew | SliceGet | SliceSet | SliceAppend
        | SliceAddr => Kind::ElemLayout,
        MapNew => Kind::MapNew,
        MapGet => Kind::MapGet,
        MapSet => Kind::MapSet,
        MapDelete => Kind::MapDelete,
        MapIterNext => Kind::MapIterNext,
        CallClosure | GoStart | DeferPush | ErrDeferPush | GoIsland => Kind::CallLayout,
        CallIface => Kind::CallIfaceLayout,
        CallExtern => Kind::CallExternLayout,
        QueueNew | QueueSend | QueueRecv | SelectSend | SelectRecv => Kind::QueueLayout,
        SelectExec => Kind::SelectExecLayout,
        IfaceAssert => Kind::IfaceAssertLayout,
        _ => Kind::None,
    }
}
