//! Bytes put before the code of the library and the reference, so that it lies at another place
//! in memory: a short loop can take half as long again by where it happens to lie.
use std::arch::global_asm;
use std::hint::black_box;

/// BENCH_SHIFT at compile time, in bytes.
const SHIFT: usize = match option_env!("BENCH_SHIFT") {
    Some(digits) => match usize::from_str_radix(digits, 10) {
        Ok(shift) => shift,
        Err(_) => panic!("BENCH_SHIFT isn't a number of bytes"),
    },
    None => 0,
};

global_asm!(
    ".pushsection .text.bench_shift, \"ax\", @progbits",
    ".balign 64",
    ".globl bench_shift",
    "bench_shift: ret",
    ".skip 63 + {shift}",
    ".popsection",
    shift = const SHIFT,
);

extern "C" {
    fn bench_shift();
}

/// The linker leaves out what nothing speaks of.
pub fn keep() {
    black_box(bench_shift as *const ());
}
