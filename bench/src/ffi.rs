//! The functions of the static library, made safe: see include/jigsorrel.h for what they promise.
use crate::seeded::Run;

extern "C" {
    fn jigsorrel_verdict(job: *const u8, job_len: usize) -> u64;
    fn jigsorrel_run_job(job: *const u8, job_len: usize, text: *mut u8, text_len: usize) -> u64;
    fn jigsorrel_calls_on_tree(seed: u64, size: u16, mix: u8, count: u32) -> u64;
    fn jigsorrel_calls_on_list(seed: u64, size: u16, mix: u8, count: u32) -> u64;
    fn jigsorrel_depth_after(seed: u64, size: u16, mix: u8, count: u32) -> u8;
}

/// What `run_job` answers where the buffer is too short.
pub const TOO_SHORT: u64 = u64::MAX;

/// The shortest buffer for the text of a job.
pub fn text_room(job_len: usize) -> usize {
    (16 * job_len).max(64)
}

pub fn verdict(job: &[u8]) -> u64 {
    // SAFETY: pointer and length are those of one slice, which is only read and only during the call.
    unsafe { jigsorrel_verdict(job.as_ptr(), job.len()) }
}

pub fn run_job(job: &[u8], text: &mut [u8]) -> u64 {
    // SAFETY: as for `verdict`; `text` is borrowed mutably, so the two slices lie apart.
    unsafe { jigsorrel_run_job(job.as_ptr(), job.len(), text.as_mut_ptr(), text.len()) }
}

pub fn calls_on_tree(run: &Run) -> u64 {
    // SAFETY: numbers only.
    unsafe { jigsorrel_calls_on_tree(run.seed, run.size, run.mix, run.count) }
}

pub fn calls_on_list(run: &Run) -> u64 {
    // SAFETY: numbers only.
    unsafe { jigsorrel_calls_on_list(run.seed, run.size, run.mix, run.count) }
}

pub fn depth_after(run: &Run) -> u8 {
    // SAFETY: numbers only.
    unsafe { jigsorrel_depth_after(run.seed, run.size, run.mix, run.count) }
}
