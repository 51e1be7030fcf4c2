//! The step in C (`c/step.c`), lent what the proved one is lent but for the sets of pairs, which it leaves as they are.

use crate::inputs::Step;
use wiforekun::State;

extern "C" {
    fn c_judge(
        edges: *const u8,
        edges_length: usize,
        local: u32,
        sets: *mut u8,
        possible: *mut u8,
        created: *mut u32,
        unclosed: *mut u8,
        order: *mut u8,
        numbers: *mut u64,
        kind: u32,
        a: u32,
        b: u32,
    ) -> u32;
}

pub fn judge(edges: &[u8], local: u32, state: &mut State, [kind, a, b]: Step) -> u32 {
    let State { sets, pairs: _, possible, created, unclosed, order, numbers } = state;
    // sound: a slice and exclusive references to arrays of the lengths that the C program has for them
    unsafe {
        c_judge(
            edges.as_ptr(),
            edges.len(),
            local,
            sets.as_mut_ptr(),
            possible.as_mut_ptr(),
            created.as_mut_ptr(),
            unclosed.as_mut_ptr(),
            order.as_mut_ptr(),
            numbers.as_mut_ptr(),
            kind,
            a,
            b,
        )
    }
}
