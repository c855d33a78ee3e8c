//! `memcpy` and `memset` in place of the C library's, which count the bytes that a call of the static library copies
//! and clears. A program that measures has this file as a module of its own, so that no other program gets them.

use std::arch::asm;
use std::sync::atomic::{AtomicBool, AtomicUsize, Ordering::Relaxed};

/// Of so many bytes a copy is called large: the books have 9.5 KB.
pub const LARGE: usize = 7_000;

static COUNTING: AtomicBool = AtomicBool::new(false);
static BYTES: AtomicUsize = AtomicUsize::new(0);
static LARGE_ONES: AtomicUsize = AtomicUsize::new(0);

#[inline(always)]
fn count(bytes: usize) {
    if COUNTING.load(Relaxed) {
        BYTES.fetch_add(bytes, Relaxed);
        LARGE_ONES.fetch_add(usize::from(bytes >= LARGE), Relaxed);
    }
}

/// What `run` answers, how many bytes it copied and cleared, and how many of the copies are large.
pub fn counted<T>(run: impl FnOnce() -> T) -> (T, usize, usize) {
    BYTES.store(0, Relaxed);
    LARGE_ONES.store(0, Relaxed);
    COUNTING.store(true, Relaxed);
    let answer = run();
    COUNTING.store(false, Relaxed);
    (answer, BYTES.load(Relaxed), LARGE_ONES.load(Relaxed))
}

/// # Safety
/// As C has it: `n` bytes may be read at `from` and written at `to`, and the two do not overlap.
#[no_mangle]
pub unsafe extern "C" fn memcpy(to: *mut u8, from: *const u8, n: usize) -> *mut u8 {
    count(n);
    asm!("rep movsb", inout("rdi") to => _, inout("rsi") from => _, inout("rcx") n => _, options(nostack));
    to
}

/// # Safety
/// As C has it: `n` bytes may be written at `to`.
#[no_mangle]
pub unsafe extern "C" fn memset(to: *mut u8, byte: i32, n: usize) -> *mut u8 {
    count(n);
    asm!("rep stosb", inout("rdi") to => _, in("al") byte as u8, inout("rcx") n => _, options(nostack));
    to
}
