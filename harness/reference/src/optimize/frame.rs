//! Stand-in for volang's optimize/frame.rs. Document 01 leaves `frame::compact` out.

use vo_common_core::bytecode::Module;

pub(super) fn compact(_module: &mut Module, _function_id: usize) -> Result<(), String> {
    unreachable!("the frame stays as it is")
}
