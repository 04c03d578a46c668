//! The working memory of the library's operations: the stack below a call.
//!
//! A call runs on a stack of its own that was painted before. The lowest byte that
//! lost its paint tells how deep the call went, with all that it calls in turn.

use crate::library::Function;
use std::arch::asm;

/// Working memory that the specification allows, beside the lent job and out buffer.
pub const MOST_BYTES: usize = 64 * 1024;

/// Much more than is allowed, so that a call that takes too much is still measured.
const STACK_BYTES: usize = 1024 * 1024;

/// A byte may be overwritten by its own value. Two paints see every byte.
const PAINTS: [u8; 2] = [0xa5, 0x5a];

/// Two painted stacks.
pub struct Stacks([Stack; PAINTS.len()]);

impl Default for Stacks {
    fn default() -> Self {
        Self(PAINTS.map(Stack::new))
    }
}

impl Stacks {
    /// The bytes of stack that a call takes, its return address included.
    ///
    /// # Safety
    ///
    /// The operation takes a job and an out buffer, and needs less stack than there is here.
    pub unsafe fn measure(&mut self, operation: Function, job: &[u8], out: &mut [u8]) -> usize {
        // SAFETY: as the caller promises.
        let taken = self.0.each_mut().map(|stack| unsafe { stack.measure(operation, job, out) });
        taken.into_iter().max().unwrap_or(0)
    }
}

/// A stack of 16-byte units, since calls start at an address divisible by 16.
struct Stack {
    units: Vec<u128>,
    paint: u8,
}

impl Stack {
    fn new(paint: u8) -> Self {
        Self { units: vec![u128::from_ne_bytes([paint; 16]); STACK_BYTES / 16], paint }
    }

    /// Calls the operation, looks for the lowest byte without paint, and paints anew.
    unsafe fn measure(&mut self, operation: Function, job: &[u8], out: &mut [u8]) -> usize {
        // SAFETY: as the caller promises.
        unsafe { self.call(operation, job, out) };
        let painted = u128::from_ne_bytes([self.paint; 16]);
        let kept = self.units.iter().take_while(|&&unit| unit == painted).count();
        let Some(lowest) = self.units.get(kept) else { return 0 };
        let above = lowest.to_ne_bytes().iter().take_while(|&&byte| byte == self.paint).count();
        let taken = STACK_BYTES - 16 * kept - above;
        self.units[kept..].fill(painted);
        taken
    }

    /// Calls the operation with the stack pointer at the end of this stack.
    unsafe fn call(&mut self, operation: Function, job: &[u8], out: &mut [u8]) -> i64 {
        let top = self.units.as_mut_ptr_range().end;
        let returned: i64;
        // SAFETY: the call follows the C calling convention: four arguments in registers and
        // an aligned stack. A callee keeps r12, which brings the old stack back.
        unsafe {
            asm!(
                "xchg rsp, r12",
                "call {operation}",
                "mov rsp, r12",
                operation = in(reg) operation,
                inout("r12") top => _,
                in("rdi") job.as_ptr(),
                in("rsi") job.len(),
                in("rdx") out.as_mut_ptr(),
                in("rcx") out.len(),
                lateout("rax") returned,
                clobber_abi("C"),
            );
        }
        returned
    }
}

#[cfg(test)]
mod tests {
    use super::*;
    use std::hint::black_box;

    /// Takes an array of 32 KiB for a job that is not empty, and nearly nothing for an empty one.
    unsafe extern "C" fn takes(_: *const u8, job_len: usize, _: *mut u8, _: usize) -> i64 {
        if job_len == 0 { 0 } else { array() }
    }

    #[inline(never)]
    fn array() -> i64 {
        black_box([1u8; 32_768])[32_767].into()
    }

    #[test]
    fn the_stack_of_a_call_is_measured_each_time() {
        let mut stacks = Stacks::default();
        // SAFETY: `takes` needs little more than its array.
        let mut measure = |job: &[u8]| unsafe { stacks.measure(takes, job, &mut []) };
        for _ in 0..2 {
            let large = measure(&[0]);
            assert!((32_768..200_000).contains(&large), "{large}");
            assert!(measure(&[]) < 1000);
        }
    }
}
