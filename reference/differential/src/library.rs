//! The C functions of the static library, with slices in place of pointers.
//! Structs and fields have the names that include/walsh.h gives them.

/// What a call with a lent buffer gives back: number 0 and place 0 when it is
/// done, else the refusal and its place.
#[repr(C)]
#[derive(Clone, Copy, Debug, PartialEq, Eq)]
pub struct Reply {
    pub number: u32,
    pub place: usize,
}

/// What the call for one coefficient gives back; value 0 with a refusal.
#[repr(C)]
#[derive(Clone, Copy, Debug, PartialEq, Eq)]
pub struct Sum {
    pub number: u32,
    pub value: i32,
    pub place: usize,
}

/// What the field call gives back: a part of the text.
#[repr(C)]
#[derive(Clone, Copy, Debug, PartialEq, Eq)]
pub struct Part {
    pub start: usize,
    pub length: usize,
}

/// What the plan call gives back: number 0, the set's size and its labels, with
/// 0 past the size; else the refusal and its place, and 0 in all the rest.
#[repr(C)]
#[derive(Clone, Copy, Debug, PartialEq, Eq)]
pub struct Signature {
    pub number: u32,
    pub place: usize,
    pub size: usize,
    pub labels: [u32; 4],
}

/// What the report call gives back: number 0 and how many bytes it wrote, or
/// number 8 and 0.
#[repr(C)]
#[derive(Clone, Copy, Debug, PartialEq, Eq)]
pub struct Written {
    pub number: u32,
    pub bytes: usize,
}

/// What the reading call gives back: the case (1 plain syndrome, 2 weighted sum,
/// 3 constrained), the number of fixed inputs and the reading; else the refusal
/// and its place, and 0 in all the rest. Readings are compared by their bits.
#[repr(C)]
#[derive(Clone, Copy, Debug)]
pub struct Measured {
    pub number: u32,
    pub kind: u32,
    pub fixed: u32,
    pub place: usize,
    pub value: f64,
}

/// What the pair call gives back: three readings, all 0 with a refusal.
#[repr(C)]
#[derive(Clone, Copy, Debug)]
pub struct Comparison {
    pub number: u32,
    pub place: usize,
    pub sound: f64,
    pub faulty: f64,
    pub difference: f64,
}

/// The C functions themselves.
mod exported {
    use super::{Comparison, Measured, Part, Reply, Signature, Sum, Written};

    extern "C" {
        pub fn walsh_coefficient(rows: *const i32, rows_len: usize, label: u32) -> Sum;
        pub fn walsh_spectrum(
            rows: *const i32,
            rows_len: usize,
            out: *mut i32,
            out_len: usize,
        ) -> Reply;
        pub fn walsh_rows(
            coefficients: *const i32,
            len: usize,
            out: *mut i32,
            out_len: usize,
        ) -> Reply;
        pub fn walsh_stuck(
            coefficients: *const i32,
            len: usize,
            inputs: *const u32,
            inputs_len: usize,
            values: *const u32,
            values_len: usize,
            out: *mut i32,
            out_len: usize,
        ) -> Reply;
        pub fn walsh_opened(
            coefficients: *const i32,
            len: usize,
            values: *const u32,
            values_len: usize,
            out: *mut i32,
            out_len: usize,
        ) -> Reply;
        pub fn walsh_bridged(
            coefficients: *const i32,
            len: usize,
            first: u32,
            second: u32,
            out: *mut i32,
            out_len: usize,
        ) -> Reply;
        pub fn walsh_circuit(
            text: *const u8,
            text_len: usize,
            fault: u32,
            out: *mut i32,
            out_len: usize,
        ) -> Reply;
        pub fn walsh_field(text: *const u8, text_len: usize, number: usize) -> Part;
        pub fn walsh_plan(
            text: *const u8,
            text_len: usize,
            work: *mut u32,
            work_len: usize,
        ) -> Signature;
        pub fn walsh_report(
            text: *const u8,
            text_len: usize,
            out: *mut u8,
            out_len: usize,
            work: *mut u32,
            work_len: usize,
        ) -> Written;
        pub fn walsh_reading(text: *const u8, text_len: usize, mask: u32, values: u32) -> Measured;
        pub fn walsh_pair(
            text: *const u8,
            text_len: usize,
            fault: u32,
            mask: u32,
            values: u32,
        ) -> Comparison;
    }
}

pub fn coefficient(rows: &[i32], label: u32) -> Sum {
    // SAFETY: pointer and length are those of one live slice.
    unsafe { exported::walsh_coefficient(rows.as_ptr(), rows.len(), label) }
}

pub fn spectrum(rows: &[i32], out: &mut [i32]) -> Reply {
    // SAFETY: each pointer and length are those of one live slice, and only
    // `out`, which overlaps no other, is written.
    unsafe { exported::walsh_spectrum(rows.as_ptr(), rows.len(), out.as_mut_ptr(), out.len()) }
}

pub fn rows(coefficients: &[i32], out: &mut [i32]) -> Reply {
    // SAFETY: as for `spectrum`.
    unsafe {
        exported::walsh_rows(
            coefficients.as_ptr(),
            coefficients.len(),
            out.as_mut_ptr(),
            out.len(),
        )
    }
}

pub fn stuck(coefficients: &[i32], inputs: &[u32], values: &[u32], out: &mut [i32]) -> Reply {
    // SAFETY: as for `spectrum`.
    unsafe {
        exported::walsh_stuck(
            coefficients.as_ptr(),
            coefficients.len(),
            inputs.as_ptr(),
            inputs.len(),
            values.as_ptr(),
            values.len(),
            out.as_mut_ptr(),
            out.len(),
        )
    }
}

pub fn opened(coefficients: &[i32], values: &[u32], out: &mut [i32]) -> Reply {
    // SAFETY: as for `spectrum`.
    unsafe {
        exported::walsh_opened(
            coefficients.as_ptr(),
            coefficients.len(),
            values.as_ptr(),
            values.len(),
            out.as_mut_ptr(),
            out.len(),
        )
    }
}

pub fn bridged(coefficients: &[i32], first: u32, second: u32, out: &mut [i32]) -> Reply {
    // SAFETY: as for `spectrum`.
    unsafe {
        exported::walsh_bridged(
            coefficients.as_ptr(),
            coefficients.len(),
            first,
            second,
            out.as_mut_ptr(),
            out.len(),
        )
    }
}

pub fn circuit(text: &[u8], fault: u32, out: &mut [i32]) -> Reply {
    // SAFETY: as for `spectrum`.
    unsafe {
        exported::walsh_circuit(
            text.as_ptr(),
            text.len(),
            fault,
            out.as_mut_ptr(),
            out.len(),
        )
    }
}

pub fn field(text: &[u8], number: usize) -> Part {
    // SAFETY: pointer and length are those of one live slice.
    unsafe { exported::walsh_field(text.as_ptr(), text.len(), number) }
}

pub fn plan(text: &[u8], work: &mut [u32]) -> Signature {
    // SAFETY: each pointer and length are those of one live slice, and only
    // `work`, which overlaps no other, is written.
    unsafe { exported::walsh_plan(text.as_ptr(), text.len(), work.as_mut_ptr(), work.len()) }
}

pub fn report(text: &[u8], out: &mut [u8], work: &mut [u32]) -> Written {
    // SAFETY: each pointer and length are those of one live slice, and only
    // `out` and `work`, which overlap no other, are written.
    unsafe {
        exported::walsh_report(
            text.as_ptr(),
            text.len(),
            out.as_mut_ptr(),
            out.len(),
            work.as_mut_ptr(),
            work.len(),
        )
    }
}

pub fn reading(text: &[u8], mask: u32, values: u32) -> Measured {
    // SAFETY: pointer and length are those of one live slice.
    unsafe { exported::walsh_reading(text.as_ptr(), text.len(), mask, values) }
}

pub fn pair(text: &[u8], fault: u32, mask: u32, values: u32) -> Comparison {
    // SAFETY: pointer and length are those of one live slice.
    unsafe { exported::walsh_pair(text.as_ptr(), text.len(), fault, mask, values) }
}
