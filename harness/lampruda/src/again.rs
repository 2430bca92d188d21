//! A result as a unit again.

use crate::sys;

/// The library's own answer, with the unit at the front of `out` where there is one.
pub fn lay_out(unit: &[u8], result: &[u8], out: &mut [u8]) -> sys::Laid {
    // SAFETY: the pointers and lengths are those of three slices that do not overlap. The library reads the first two,
    // writes the third, and touches nothing else.
    unsafe {
        sys::lampruda_lay_out(
            unit.as_ptr(),
            unit.len(),
            result.as_ptr(),
            result.len(),
            out.as_mut_ptr(),
            out.len(),
        )
    }
}

/// The code, metadata and lines of a result of one pass or of the cleaning, with the given unit's other sections.
/// `None` where the given bytes are refused, or the others do not begin with a result of them.
///
/// ```no_run
/// # fn main() -> std::io::Result<()> {
/// let unit = std::fs::read("law.unit")?;
/// if let lampruda::Answer::Rewritten(result) = lampruda::Workspace::default().pass(&unit) {
///     std::fs::write("shorter.unit", lampruda::as_unit(&unit, result).unwrap())?;
/// }
/// # Ok(())
/// # }
/// ```
pub fn as_unit(unit: &[u8], result: &[u8]) -> Option<Vec<u8>> {
    // It is no longer than the given unit.
    let mut out = vec![0; unit.len()];
    let laid = lay_out(unit, result, &mut out);
    out.truncate(laid.length as usize);
    (laid.kind == sys::LAID_UNIT).then_some(out)
}

#[cfg(test)]
mod tests {
    use super::as_unit;
    use crate::{short_unit, Answer, Workspace, SHORT_COUNT};
    use unit::{Rewritten, Unit};

    /// Beside the one that was written apart from it.
    #[test]
    fn every_short_result() {
        let mut workspace = Workspace::default();
        for number in 0..SHORT_COUNT {
            let unit = short_unit(number).unwrap();
            if let Answer::Rewritten(result) = workspace.pass(&unit) {
                let apart = Rewritten::decode(result).unwrap().as_unit(&Unit::check(&unit).unwrap());
                assert_eq!(as_unit(&unit, result), Some(apart), "{number}");
            }
        }
    }

    #[test]
    fn what_is_no_unit_or_no_result() {
        let unit = short_unit(0).unwrap();
        let result = Rewritten::default().encode();
        assert!(as_unit(&unit, &result).is_some());
        assert_eq!(as_unit(&unit[1..], &result), None);
        assert_eq!(as_unit(&unit, &result[1..]), None);
        assert_eq!(as_unit(&[], &[]), None);
    }
}
