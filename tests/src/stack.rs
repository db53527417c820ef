//! How much stack a C function takes: it is called on memory of our own that was painted before, and the lowest byte that it left changed is
//! looked for. For x86-64, which the archives are for.

use std::arch::asm;

/// The memory lent as a stack, in words.
const WORDS: usize = 8192;

/// Painted twice: a byte that happens to be written as it was painted once is not so the other time.
const PAINTS: [u64; 2] = [0xA5A5_A5A5_A5A5_A5A5, 0x5A5A_5A5A_5A5A_5A5A];

/// The answer of a C function that takes at most 64-bit numbers and pointers, and the bytes of stack that the call took at most: arguments
/// from the seventh on, return address, and whatever it and those it called wrote. It is called once for each paint.
///
/// # Safety
/// The address is that of such a function, and the arguments are what it may be given, twice.
pub unsafe fn measured(function: usize, arguments: &[u64]) -> (u64, usize) {
    let calls = PAINTS.map(|paint| {
        let mut stack = vec![paint; WORDS + 1];
        let odd = stack.as_ptr() as usize / 8 % 2;
        let painted = &mut stack[odd..][..WORDS];
        let answer = on_stack(painted, function, arguments);
        let untouched = painted.iter().take_while(|word| **word == paint).count();
        assert!(untouched > 0, "the call took the whole stack");
        (answer, 8 * (WORDS - untouched))
    });
    assert_eq!(calls[0].0, calls[1].0);
    (calls[0].0, calls[0].1.max(calls[1].1))
}

/// Calls on a stack that is a multiple of 16 bytes and begins and ends at one.
unsafe fn on_stack(stack: &mut [u64], function: usize, arguments: &[u64]) -> u64 {
    let in_registers = arguments.len().min(6);
    let mut registers = [0; 6];
    registers[..in_registers].copy_from_slice(&arguments[..in_registers]);
    let rest = &arguments[in_registers..];
    // At the call the stack pointer is a multiple of 16.
    let top = stack.len() - rest.len().next_multiple_of(2);
    stack[top..][..rest.len()].copy_from_slice(rest);
    let answer;
    asm!(
        "mov r12, rsp",
        "mov rsp, r13",
        "call r14",
        "mov rsp, r12",
        out("r12") _,
        in("r13") stack.as_mut_ptr().add(top),
        in("r14") function,
        in("rdi") registers[0],
        in("rsi") registers[1],
        in("rdx") registers[2],
        in("rcx") registers[3],
        in("r8") registers[4],
        in("r9") registers[5],
        lateout("rax") answer,
        clobber_abi("C"),
    );
    answer
}
