//! An access outside the lent memory ends the process, and says which call it was.

use std::cell::Cell;
use std::process;
use std::sync::atomic::{AtomicU64, Ordering};
use std::sync::OnceLock;

/// A thread without a call.
pub const IDLE: u64 = u64::MAX;

thread_local! {
    /// The call under way.
    static CALL: Cell<u64> = const { Cell::new(IDLE) };
}

static COMMAND: OnceLock<&str> = OnceLock::new();
static SEED: AtomicU64 = AtomicU64::new(0);

const SIGBUS: i32 = 7;
const SIGSEGV: i32 = 11;

extern "C" {
    fn signal(number: i32, handler: extern "C" fn(i32)) -> usize;
}

/// From now on, faults are reported as those of this subcommand.
pub fn report(command: &'static str, seed: u64) {
    COMMAND.get_or_init(|| command);
    SEED.store(seed, Ordering::Relaxed);
    for number in [SIGSEGV, SIGBUS] {
        // SAFETY: the handler ends the process.
        unsafe { signal(number, fault) };
    }
}

/// Names this thread's call under way.
pub fn under_way(call: u64) {
    CALL.set(call);
}

/// How a call is made again.
pub fn again(call: u64) -> String {
    let command = COMMAND.get().copied().unwrap_or_default();
    format!("again: beside {command} --seed {} --from {call} --count 1", SEED.load(Ordering::Relaxed))
}

/// The library holds no lock of ours, so the handler may print.
extern "C" fn fault(_number: i32) {
    let call = CALL.get();
    eprintln!("call {call} touched memory that it was not lent; {}", again(call));
    process::abort();
}
