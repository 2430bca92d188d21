//! Running a law at the desk.

use crate::sys;

/// How a run stops.
#[derive(Clone, Copy, Debug, Eq, PartialEq)]
pub enum Stop {
    /// By Return, which read so many slots, from the first on.
    Returned { first: u32, count: u32 },
    /// By Panic, which read two.
    Panicked { first: u32, count: u32 },
    /// At the end of the code.
    Ended,
    /// Before an instruction that the desk does not execute.
    Other { place: u32 },
    /// After as many steps as were allowed.
    Limit,
    /// The unit, or a frame that has not one word for each local slot.
    Refused { number: u32, place: u32 },
}

impl Stop {
    /// "Return and Panic are steps; the end of the code and another instruction are not."
    pub fn is_step(self) -> bool {
        matches!(self, Self::Returned { .. } | Self::Panicked { .. })
    }
}

/// What is due after one step.
#[derive(Clone, Copy, Debug, Eq, PartialEq)]
pub enum Next {
    /// The run goes on at this place.
    Goes {
        place: u32,
    },
    Stops(Stop),
}

/// Runs a unit's function from its first instruction on, for at most `limit` steps, over a frame of one word for
/// each local slot. The frame is left with the words of the slots; a refusal leaves it as it was.
///
/// ```no_run
/// # fn main() -> std::io::Result<()> {
/// let unit = std::fs::read("examples/increment.unit")?;
/// let mut frame = [4, 1, 2, 0, 0, 0, 0, 0, 0, 0];
/// match lampruda::run(&unit, &mut frame, 1_000_000) {
///     lampruda::Stop::Returned { first, count } => println!("{:?}", &frame[first as usize..][..count as usize]),
///     stop => println!("{stop:?}"),
/// }
/// # Ok(())
/// # }
/// ```
pub fn run(unit: &[u8], frame: &mut [u64], limit: u32) -> Stop {
    stopped(run_in_numbers(unit, frame, limit))
}

/// The same, in the numbers that the library returns.
pub fn run_in_numbers(unit: &[u8], frame: &mut [u64], limit: u32) -> sys::Stop {
    // SAFETY: the pointers and lengths are those of two slices that do not overlap. The library reads the unit, reads
    // and writes the frame, and touches nothing else.
    unsafe { sys::lampruda_run(unit.as_ptr(), unit.len(), frame.as_mut_ptr(), frame.len(), limit) }
}

/// How a charged run stops, and what it costs.
#[derive(Clone, Copy, Debug, Eq, PartialEq)]
pub struct Charged {
    pub stop: Stop,
    /// 0 where it is refused.
    pub cents: u64,
}

/// How many prices a tariff has: one for each opcode byte.
pub const PRICES: usize = 256;

/// The same run with a price for each step, by its opcode byte: the sum of the prices, divided by 1,000 and rounded up
/// to a whole cent. A tariff that has not 256 prices is refused.
///
/// ```no_run
/// # let (unit, mut frame) = ([], []);
/// let tariff = [12; lampruda::PRICES];
/// let charged = lampruda::charge(&unit, &mut frame, 1_000_000, &tariff);
/// println!("{:?} for {} cents", charged.stop, charged.cents);
/// ```
pub fn charge(unit: &[u8], frame: &mut [u64], limit: u32, tariff: &[u16]) -> Charged {
    let charged = charge_in_numbers(unit, frame, limit, tariff);
    Charged { stop: stopped(charged.stop()), cents: charged.cents }
}

/// The same, in the numbers that the library returns.
pub fn charge_in_numbers(unit: &[u8], frame: &mut [u64], limit: u32, tariff: &[u16]) -> sys::Charged {
    // SAFETY: as for a run; the tariff is read too.
    unsafe {
        sys::lampruda_charge(
            unit.as_ptr(),
            unit.len(),
            frame.as_mut_ptr(),
            frame.len(),
            limit,
            tariff.as_ptr(),
            tariff.len(),
        )
    }
}

/// One step of such a run, from any place. A place behind the last instruction is the end of the code.
///
/// ```no_run
/// use lampruda::Next;
/// # let (unit, mut frame) = ([], []);
/// let mut next = Next::Goes { place: 0 };
/// while let Next::Goes { place } = next {
///     println!("place {place}: {frame:?}");
///     next = lampruda::step(&unit, &mut frame, place);
/// }
/// ```
pub fn step(unit: &[u8], frame: &mut [u64], place: u32) -> Next {
    // SAFETY: as for a run.
    next(unsafe { sys::lampruda_step(unit.as_ptr(), unit.len(), frame.as_mut_ptr(), frame.len(), place) })
}

fn stopped(stop: sys::Stop) -> Stop {
    match next(stop) {
        Next::Stops(stop) => stop,
        Next::Goes { .. } => unreachable!("a run goes on until it stops"),
    }
}

fn next(stop: sys::Stop) -> Next {
    let sys::Stop { kind, first, second } = stop;
    Next::Stops(match kind {
        sys::RETURNED => Stop::Returned { first, count: second },
        sys::REFUSED => Stop::Refused { number: first, place: second },
        sys::PANICKED => Stop::Panicked { first, count: second },
        sys::ENDED => Stop::Ended,
        sys::OTHER => Stop::Other { place: first },
        sys::LIMIT => Stop::Limit,
        sys::GOES => return Next::Goes { place: first },
        _ => unreachable!("the library returns kinds 0 to 6"),
    })
}

#[cfg(test)]
mod tests {
    use super::{run, Stop};
    use crate::{as_unit, short_unit, Answer, Workspace, SHORT_COUNT};

    /// Where a run ended: in which way, and the words that it read.
    fn ended(unit: &[u8], limit: u32) -> Option<(&'static str, Vec<u64>)> {
        let mut frame = [1, 0];
        let (way, first, count) = match run(unit, &mut frame, limit) {
            Stop::Returned { first, count } => ("returned", first, count),
            Stop::Panicked { first, count } => ("panicked", first, count),
            Stop::Ended => ("ended", 0, 0),
            _ => return None,
        };
        Some((way, frame[first as usize..][..count as usize].to_vec()))
    }

    /// "Whenever a given function returns, panics or runs out at its end in k steps, the rewritten one, from the same
    /// frame, ends likewise, with the same words read, in at most k."
    #[test]
    fn rewritten_functions_end_likewise() {
        let mut workspace = Workspace::default();
        for number in 0..SHORT_COUNT {
            let unit = short_unit(number).unwrap();
            let Answer::Rewritten(result) = workspace.pass(&unit) else { continue };
            let rewritten = as_unit(&unit, result).unwrap();
            for limit in 0..7 {
                if let Some(end) = ended(&unit, limit) {
                    assert_eq!(ended(&rewritten, limit), Some(end), "{number} within {limit}");
                }
            }
        }
    }
}
