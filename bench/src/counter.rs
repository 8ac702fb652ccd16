//! Counting: callgrind's client requests, which do nothing outside valgrind.

use std::ffi::CString;

const TOGGLE_COLLECT: u64 = 0x4354_0002;
const DUMP_STATS_AT: u64 = 0x4354_0003;

/// Valgrind's marked sequence for x86-64: turns that change nothing, then `xchg rbx, rbx`.
fn request(number: u64, argument: u64) {
    let words = [number, argument, 0, 0, 0, 0];
    // SAFETY: outside valgrind the sequence leaves every register as it was; inside, valgrind reads
    // `words` and sets rdx.
    unsafe {
        core::arch::asm!(
            "rol rdi, 3",
            "rol rdi, 13",
            "rol rdi, 61",
            "rol rdi, 51",
            "xchg rbx, rbx",
            in("rax") words.as_ptr(),
            inout("rdx") 0u64 => _,
            out("rdi") _,
        );
    }
}

/// Counts what `f` does.
#[inline(never)]
pub fn counted<T>(f: impl FnOnce() -> T) -> T {
    request(TOGGLE_COLLECT, 0);
    let result = f();
    request(TOGGLE_COLLECT, 0);
    result
}

/// Writes what was counted since the last dump, under a name.
pub fn dump(name: &str) {
    let name = CString::new(name).expect("no zero byte");
    request(DUMP_STATS_AT, name.as_ptr() as u64);
}
