//! The product's static library, linked with the feature `product`. Both functions take bytes and write bytes; see README.md.

#[cfg(feature = "product")]
mod linked {
    extern "C" {
        pub fn fabric_run(input: *const u8, input_len: usize, out: *mut u8, out_len: usize) -> usize;
        pub fn sheet_run(input: *const u8, input_len: usize, out: *mut u8, out_len: usize) -> usize;
    }
}

pub const LINKED: bool = cfg!(feature = "product");

/// Runs a call script, as `script::run` does.
#[cfg(feature = "product")]
pub fn fabric_run(input: &[u8], out: &mut [u8]) -> usize {
    // Both slices are valid for their lengths during the call.
    unsafe { linked::fabric_run(input.as_ptr(), input.len(), out.as_mut_ptr(), out.len()) }
}

/// Serves a sheet; the answer lines stand at the front of `out`.
#[cfg(feature = "product")]
pub fn sheet_run(input: &[u8], out: &mut [u8]) -> usize {
    // Both slices are valid for their lengths during the call.
    unsafe { linked::sheet_run(input.as_ptr(), input.len(), out.as_mut_ptr(), out.len()) }
}

#[cfg(not(feature = "product"))]
pub fn fabric_run(_input: &[u8], _out: &mut [u8]) -> usize {
    panic!("built without the feature product")
}

#[cfg(not(feature = "product"))]
pub fn sheet_run(_input: &[u8], _out: &mut [u8]) -> usize {
    panic!("built without the feature product")
}
