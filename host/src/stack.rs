//! How much stack a call takes: the stack below it is painted, and afterwards searched for what the call has written over.
#![allow(unsafe_code)]

use std::arch::asm;

/// How many words are painted: far more than a call takes.
const WORDS: usize = 4_096;
const WORD_BYTES: usize = 8;
/// A word that no call leaves behind.
const PAINT: u64 = 0x5AC3_96E1_0F2D_B478;

/// The bytes below its caller's frame that a call takes, from its return address down to the lowest word that it has written.
#[inline(never)]
pub fn taken(call: impl FnOnce()) -> usize {
    let bytes = WORD_BYTES * WORDS;
    // SAFETY: assembly may push, so that nobody keeps anything below the stack pointer while it runs. It leaves the pointer as it is.
    unsafe {
        asm!("mov rdi, rsp", "sub rdi, {bytes}", "rep stosq",
            bytes = in(reg) bytes, in("rax") PAINT, inout("rcx") WORDS => _, out("rdi") _);
    }
    call();
    // The words above the lowest one that is no longer painted.
    let above: usize;
    // SAFETY: the same.
    unsafe {
        asm!("mov rdi, rsp", "sub rdi, {bytes}", "repe scasq",
            bytes = in(reg) bytes, in("rax") PAINT, inout("rcx") WORDS => above, out("rdi") _);
    }
    assert!(above + 1 < WORDS, "the call takes more stack than is painted");
    WORD_BYTES * (above + 1)
}
