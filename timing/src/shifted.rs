//! Moves the code that is linked behind it, so that the second build has it at other addresses.

core::arch::global_asm!(
    ".pushsection .text.timing_shift, \"ax\"",
    ".global timing_shift",
    "timing_shift:",
    ".skip 2080",
    ".popsection"
);

extern "C" {
    static timing_shift: u8;
}

/// Keeps the linker from leaving it out.
pub fn keep() {
    // Its address alone is looked at.
    std::hint::black_box(std::ptr::addr_of!(timing_shift));
}
