//! The target of libFuzzer: on whatever bytes it comes to, the library must answer as the paper
//! asks.

use std::process::abort;
use std::slice;

use govorun_tests::fuzz::{rng, Input};

/// Tries one input of libFuzzer's; a difference ends the run.
///
/// # Safety
/// `data` points to `size` bytes, unless `size` is 0.
#[no_mangle]
pub unsafe extern "C" fn LLVMFuzzerTestOneInput(data: *const u8, size: usize) -> i32 {
    let data = match size {
        0 => &[],
        // SAFETY: as above.
        _ => unsafe { slice::from_raw_parts(data, size) },
    };
    if let Err(difference) = Input::of(data).compare(&mut rng(data)) {
        eprintln!("{difference}");
        abort();
    }
    0
}
