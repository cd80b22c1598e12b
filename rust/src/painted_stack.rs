//! A stack for one call, painted before it, so that it shows how deep the call went. For x86-64.

use std::arch::asm;

use crate::pages::Pages;

/// An exported function, whatever its parameters.
pub type Function = unsafe extern "C" fn();

/// More than any call may take; below it lies a closed page.
const LEN: usize = 1 << 18;
/// A place of the stack that begins a call is a multiple of this.
const ALIGNED: usize = 16;
/// How many arguments stand in registers, and how long each other one is.
const IN_REGISTERS: usize = 6;
const WORD: usize = 8;

pub struct PaintedStack(Pages);

impl Default for PaintedStack {
    fn default() -> PaintedStack {
        PaintedStack(Pages::new(LEN))
    }
}

impl PaintedStack {
    /// Calls a function on this stack. Gives its answer, and how many bytes of the stack it took: the arguments that
    /// do not stand in registers, the return address, and all down to the deepest byte stored to.
    ///
    /// # Safety
    ///
    /// The function takes these numbers and pointers, in this order, and may be called with them. It does not unwind.
    pub unsafe fn call(&mut self, function: Function, arguments: &[u64]) -> (u64, usize) {
        let stack = self.0.bytes_mut();
        stack.iter_mut().enumerate().for_each(|(at, byte)| *byte = paint(at));
        let (first, others) = arguments.split_at(arguments.len().min(IN_REGISTERS));
        let mut registers = [0; IN_REGISTERS];
        registers[..first.len()].copy_from_slice(first);
        let top = stack.len() - (others.len() * WORD).next_multiple_of(ALIGNED);
        for (argument, place) in others.iter().zip(stack[top..].chunks_exact_mut(WORD)) {
            place.copy_from_slice(&argument.to_le_bytes());
        }
        let answer: u64;
        // SAFETY: r12 keeps this function's own stack pointer during the call, which preserves it.
        unsafe {
            asm!(
                "xchg rsp, r12",
                "call rax",
                "mov rsp, r12",
                inout("r12") stack[top..].as_mut_ptr() => _,
                inout("rax") function => answer,
                in("rdi") registers[0],
                in("rsi") registers[1],
                in("rdx") registers[2],
                in("rcx") registers[3],
                in("r8") registers[4],
                in("r9") registers[5],
                clobber_abi("C"),
            );
        }
        let deepest = stack.iter().enumerate().position(|(at, byte)| *byte != paint(at)).expect("a return address");
        (answer, stack.len() - deepest)
    }
}

/// Never 0, which is what is stored most often.
fn paint(at: usize) -> u8 {
    (at % 251) as u8 + 1
}

#[cfg(test)]
mod tests {
    use super::*;
    use std::hint::black_box;
    use std::mem::transmute;

    extern "C" fn ninth(_: u64, _: u64, _: u64, _: u64, _: u64, _: u64, _: u64, _: u64, ninth: u64) -> u64 {
        ninth
    }

    extern "C" fn sum(first: u64, second: u64) -> u64 {
        black_box([first; 5_000])[black_box(4_999)] + second
    }

    #[test]
    fn a_call_is_handed_its_arguments() {
        // SAFETY: functions of nine and of two numbers.
        let (answer, depth) = unsafe {
            let function: Function = transmute(ninth as *const ());
            PaintedStack::default().call(function, &[1, 2, 3, 4, 5, 6, 7, 8, 9])
        };
        assert_eq!(answer, 9);
        assert!((40..200).contains(&depth), "{depth}");
    }

    #[test]
    fn the_depth_is_that_of_the_frame() {
        // SAFETY: a function of two numbers.
        let (answer, depth) = unsafe {
            let function: Function = transmute(sum as *const ());
            PaintedStack::default().call(function, &[70, 7])
        };
        assert_eq!(answer, 77);
        assert!((40_000..81_000).contains(&depth), "{depth}");
    }
}
