//! How much stack a call needs: it runs on a stack filled with a pattern, and what it wrote shows.
use std::arch::asm;

const SIZE: usize = 1 << 20;
const PATTERN: u8 = 0xA5;

/// Bytes from the top of the stack to the lowest byte that the call changed, its own arguments included.
pub fn stack_of<F: FnMut()>(mut call: F) -> usize {
    let mut stack = vec![PATTERN; SIZE];
    let top = (stack.as_mut_ptr() as usize + SIZE) & !15;
    let argument: *mut F = &mut call;
    let run: extern "C" fn(*mut F) = run::<F>;
    // SAFETY: the stack is aligned and large enough, and the old one is taken back after the call.
    unsafe {
        asm!(
            "mov r12, rsp",
            "mov rsp, {top}",
            "call {run}",
            "mov rsp, r12",
            top = in(reg) top,
            run = in(reg) run,
            in("rdi") argument,
            out("r12") _,
            clobber_abi("C"),
        );
    }
    let untouched = stack.iter().take_while(|byte| **byte == PATTERN).count();
    assert!(untouched > 0, "the call needs more stack than it was given");
    SIZE - untouched
}

extern "C" fn run<F: FnMut()>(call: *mut F) {
    // SAFETY: the pointer is to the caller's closure, which outlives the call.
    unsafe { (*call)() }
}
