//! How deep a call goes on the stack: it runs on one of its own, painted before and looked at after.

use std::{arch::asm, ffi::c_void};

const PAINT: u8 = 0xa5;
const SIZE: usize = 4 << 20;

extern "C" fn run(call: *mut c_void) {
    // SAFETY: `used` passes the closure that it was lent.
    let call = unsafe { &mut *call.cast::<&mut dyn FnMut()>() };
    call();
}

/// The bytes between the top and the deepest one that was written.
fn used(mut call: &mut dyn FnMut()) -> usize {
    let mut stack = vec![PAINT; SIZE];
    let top = stack.as_mut_ptr_range().end as usize / 16 * 16;
    // SAFETY: the stack is large enough for every call here, and nothing unwinds through it.
    unsafe {
        asm!(
            "xchg rsp, r12",
            "call {run}",
            "mov rsp, r12",
            run = sym run,
            inout("r12") top => _,
            in("rdi") (&raw mut call).cast::<c_void>(),
            clobber_abi("C"),
        );
    }
    let deepest = stack.iter().position(|byte| *byte != PAINT).unwrap_or(SIZE);
    SIZE - deepest
}

/// Without what it takes to call nothing.
pub fn depth(call: &mut dyn FnMut()) -> usize {
    used(call).saturating_sub(used(&mut || {}))
}
