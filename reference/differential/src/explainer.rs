//! The proved tool that explains a run, over its C interface. It stands apart
//! from the others, which the measurements use too.

/// How an explained run ended, and why a test on labels stopped it.
#[repr(C)]
#[derive(Clone, Copy, Debug, PartialEq, Eq)]
pub struct Explained {
    pub number: u32,
    pub at: u32,
    pub cost: u32,
    pub bytes: u32,
    /// `NO_PLACE` where there is none.
    pub place: u32,
    pub count: u32,
}

pub const NO_PLACE: u32 = 512;

extern "C" {
    fn kagyurma_explain(
        file: *const u8,
        file_len: usize,
        budget: u32,
        amounts: *mut i32,
        amounts_len: usize,
        presence: *mut u64,
        presence_len: usize,
        labels: *mut u64,
        labels_len: usize,
        trace: *mut u8,
        trace_len: usize,
    ) -> Explained;
}

pub fn explain(
    file: &[u8],
    budget: u32,
    amounts: &mut [i32],
    presence: &mut [u64],
    labels: &mut [u64],
    trace: &mut [u8],
) -> Explained {
    // SAFETY: each pointer and length are those of a slice, and the slices that
    // are written do not overlap.
    unsafe {
        kagyurma_explain(
            file.as_ptr(),
            file.len(),
            budget,
            amounts.as_mut_ptr(),
            amounts.len(),
            presence.as_mut_ptr(),
            presence.len(),
            labels.as_mut_ptr(),
            labels.len(),
            trace.as_mut_ptr(),
            trace.len(),
        )
    }
}
