//! What is timed, and counted: the call of `timed`, and nothing else.

use std::ffi::c_void;
use std::hint::black_box;
use std::time::Instant;

unsafe extern "C" {
    safe fn thread_seconds() -> f64;
    fn stack_used(run: extern "C" fn(*mut c_void), with: *mut c_void) -> usize;
}

/// The timed part. A function by its name, for callgrind counts in it alone.
#[unsafe(no_mangle)]
#[inline(never)]
fn timed(run: &mut dyn FnMut()) {
    run();
    black_box(()); // so that it is still there when the run ends
}

/// Seconds of processor time that a run takes, the system's for its memory with them.
pub fn seconds(mut run: impl FnMut()) -> f64 {
    let from = thread_seconds();
    timed(&mut run);
    thread_seconds() - from
}

/// Rounds of a line: 5 at least, then on for 4 seconds, and no more than some number.
pub fn rounds(most: usize, mut round: impl FnMut()) {
    let start = Instant::now();
    for n in 0..most {
        if 5 <= n && 4 <= start.elapsed().as_secs() {
            break;
        }
        round();
    }
}

/// The best time of each side; they run in turn.
pub fn best<S: Copy, const N: usize>(most: usize, sides: [S; N], mut run: impl FnMut(S) -> f64) -> [f64; N] {
    let mut best = [f64::MAX; N];
    rounds(most, || {
        for (best, side) in best.iter_mut().zip(sides) {
            *best = best.min(run(side));
        }
    });
    best
}

/// Bytes of stack that a run uses, without those that a thread uses anyway.
pub fn stack(mut run: impl FnMut()) -> usize {
    extern "C" fn call(run: *mut c_void) {
        let run = unsafe { &mut *run.cast::<&mut dyn FnMut()>() };
        run();
    }
    let used = |run: &mut dyn FnMut()| {
        let mut run = run;
        unsafe { stack_used(call, (&raw mut run).cast()) }
    };
    used(&mut run) - used(&mut || ())
}
