//! Instructions of one call, counted by valgrind's callgrind; see `bench/instructions`.

use std::ffi::CString;

/// What callgrind is asked for: the words of its requests, on x86-64.
const REQUESTS: u64 = (b'C' as u64) << 24 | (b'T' as u64) << 16;
const ZERO: u64 = REQUESTS + 1;
const TOGGLE: u64 = REQUESTS + 2;
const DUMP: u64 = REQUESTS + 3;

/// Whether this run counts instructions and takes no times.
pub fn counting() -> bool {
    std::env::var_os("BENCH_COUNT").is_some()
}

/// Valgrind's own sequence, which does nothing outside of it.
#[cfg(target_arch = "x86_64")]
fn request(code: u64, argument: u64) {
    let words = [code, argument, 0, 0, 0, 0];
    unsafe {
        std::arch::asm!(
            "rol rdi, 3",
            "rol rdi, 13",
            "rol rdi, 61",
            "rol rdi, 51",
            "xchg rbx, rbx",
            in("rax") words.as_ptr(),
            inout("rdx") 0u64 => _,
            options(nostack),
        );
    }
}

#[cfg(not(target_arch = "x86_64"))]
fn request(_: u64, _: u64) {}

/// One call, the second: the first finds what is loaded only once.
pub fn count(row: &str, side: &str, call: &mut dyn FnMut()) {
    call();
    let label = CString::new(format!("{row}|{side}")).expect("a label");
    request(ZERO, 0);
    request(TOGGLE, 0);
    call();
    request(TOGGLE, 0);
    request(DUMP, label.as_ptr() as u64);
}
