//! The proved runner, loader and writer, over their C interface
//! (`crates/capi/include/kagyurma.h`).

/// How a run ended.
#[repr(C)]
#[derive(Clone, Copy, Debug, PartialEq, Eq)]
pub struct Ran {
    pub number: u32,
    pub at: u32,
    pub cost: u32,
    pub bytes: u32,
}

/// How loading or writing ended.
#[repr(C)]
#[derive(Clone, Copy, Debug, PartialEq, Eq)]
pub struct Answered {
    pub number: u32,
    pub at: u32,
    pub length: u32,
}

extern "C" {
    fn kagyurma_run(
        file: *const u8,
        file_len: usize,
        budget: u32,
        amounts: *mut i32,
        amounts_len: usize,
        presence: *mut u64,
        presence_len: usize,
        labels: *mut u64,
        labels_len: usize,
        trace: *mut u8,
        trace_len: usize,
    ) -> Ran;
    fn kagyurma_load(
        file: *const u8,
        file_len: usize,
        amounts: *mut i32,
        amounts_len: usize,
        presence: *mut u64,
        presence_len: usize,
        labels: *mut u64,
        labels_len: usize,
    ) -> Answered;
    fn kagyurma_write(
        file: *const u8,
        file_len: usize,
        amounts: *const i32,
        amounts_len: usize,
        presence: *const u64,
        presence_len: usize,
        labels: *const u64,
        labels_len: usize,
        out: *mut u8,
        out_len: usize,
    ) -> Answered;
}

pub fn run(
    file: &[u8],
    budget: u32,
    amounts: &mut [i32],
    presence: &mut [u64],
    labels: &mut [u64],
    trace: &mut [u8],
) -> Ran {
    // SAFETY: each pointer and length are those of a slice, and the slices that
    // are written do not overlap.
    unsafe {
        kagyurma_run(
            file.as_ptr(),
            file.len(),
            budget,
            amounts.as_mut_ptr(),
            amounts.len(),
            presence.as_mut_ptr(),
            presence.len(),
            labels.as_mut_ptr(),
            labels.len(),
            trace.as_mut_ptr(),
            trace.len(),
        )
    }
}

pub fn load(
    file: &[u8],
    amounts: &mut [i32],
    presence: &mut [u64],
    labels: &mut [u64],
) -> Answered {
    // SAFETY: as for `run`.
    unsafe {
        kagyurma_load(
            file.as_ptr(),
            file.len(),
            amounts.as_mut_ptr(),
            amounts.len(),
            presence.as_mut_ptr(),
            presence.len(),
            labels.as_mut_ptr(),
            labels.len(),
        )
    }
}

pub fn write(
    file: &[u8],
    amounts: &[i32],
    presence: &[u64],
    labels: &[u64],
    out: &mut [u8],
) -> Answered {
    // SAFETY: as for `run`.
    unsafe {
        kagyurma_write(
            file.as_ptr(),
            file.len(),
            amounts.as_ptr(),
            amounts.len(),
            presence.as_ptr(),
            presence.len(),
            labels.as_ptr(),
            labels.len(),
            out.as_mut_ptr(),
            out.len(),
        )
    }
}
