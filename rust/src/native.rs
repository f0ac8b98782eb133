//! The five calls of the static library, declared as include/hestovane.h has them, and all the
//! unsafe code of this crate. Each function here hands its slices over as pointer and length, and
//! hands back the number that came.

#![allow(unsafe_code)]

extern "C" {
    fn hestovane_condense(
        level: u16,
        neighbour_cap: u16,
        class_cap: u16,
        reg: *const u8,
        reg_len: usize,
        out: *mut u8,
        out_len: usize,
    ) -> i32;

    fn hestovane_check(reg: *const u8, reg_len: usize, sum: *const u8, sum_len: usize) -> i32;

    fn hestovane_ask_register(
        reg: *const u8,
        reg_len: usize,
        q: *const u8,
        q_len: usize,
        item: u16,
    ) -> i32;

    fn hestovane_ask_summary(
        sum: *const u8,
        sum_len: usize,
        q: *const u8,
        q_len: usize,
        item: u16,
    ) -> i32;

    fn hestovane_list(
        sum: *const u8,
        sum_len: usize,
        q: *const u8,
        q_len: usize,
        out: *mut u8,
        out_len: usize,
    ) -> i32;
}

// What is proved of the library, and what the SAFETY comments rest on: for any bytes, a call reads
// within the lengths that it is handed, writes within `out` and nowhere else, keeps no pointer and
// returns. Any numbers may be handed over. An empty slice's pointer is not null, and nothing is
// read or written there.

pub fn condense(
    level: u16,
    neighbour_cap: u16,
    class_cap: u16,
    register: &[u8],
    out: &mut [u8],
) -> i32 {
    let (reg, reg_len) = (register.as_ptr(), register.len());
    let (to, to_len) = (out.as_mut_ptr(), out.len());
    // SAFETY: each pointer is handed over with its own slice's length. Both slices live through the
    // call, and `out` is borrowed for writing, so that it cannot overlap `register`.
    unsafe { hestovane_condense(level, neighbour_cap, class_cap, reg, reg_len, to, to_len) }
}

pub fn check(register: &[u8], summary: &[u8]) -> i32 {
    let (reg, reg_len) = (register.as_ptr(), register.len());
    let (sum, sum_len) = (summary.as_ptr(), summary.len());
    // SAFETY: each pointer is handed over with its own slice's length, and both slices live through
    // the call, which only reads.
    unsafe { hestovane_check(reg, reg_len, sum, sum_len) }
}

pub fn ask_register(register: &[u8], question: &[u8], item: u16) -> i32 {
    let (reg, reg_len) = (register.as_ptr(), register.len());
    let (q, q_len) = (question.as_ptr(), question.len());
    // SAFETY: each pointer is handed over with its own slice's length, and both slices live through
    // the call, which only reads.
    unsafe { hestovane_ask_register(reg, reg_len, q, q_len, item) }
}

pub fn ask_summary(summary: &[u8], question: &[u8], item: u16) -> i32 {
    let (sum, sum_len) = (summary.as_ptr(), summary.len());
    let (q, q_len) = (question.as_ptr(), question.len());
    // SAFETY: each pointer is handed over with its own slice's length, and both slices live through
    // the call, which only reads.
    unsafe { hestovane_ask_summary(sum, sum_len, q, q_len, item) }
}

pub fn list(summary: &[u8], question: &[u8], out: &mut [u8]) -> i32 {
    let (sum, sum_len) = (summary.as_ptr(), summary.len());
    let (q, q_len) = (question.as_ptr(), question.len());
    let (to, to_len) = (out.as_mut_ptr(), out.len());
    // SAFETY: each pointer is handed over with its own slice's length. All three slices live
    // through the call, and `out` is borrowed for writing, so that it overlaps neither of the
    // others.
    unsafe { hestovane_list(sum, sum_len, q, q_len, to, to_len) }
}

#[cfg(test)]
mod tests {
    use super::*;

    const NO_ITEMS: [u8; 12] = [0, 0, 0, 0, 0, 12, 0, 12, 0, 12, 0, 0];

    /// Through the crate's types 4 cannot come; of the library itself it does, and after 1.
    #[test]
    fn a_level_or_cap_out_of_range_is_4() {
        let mut out = [7; 24];
        let levels = [[0, 1, 1], [5, 1, 1], [257, 1, 1]];
        let caps = [[1, 0, 1], [1, 8, 1], [1, 1, 0], [1, 1, 16]];
        for [level, near, class] in levels.into_iter().chain(caps) {
            assert_eq!(condense(level, near, class, &NO_ITEMS, &mut out), -4);
            assert_eq!(condense(level, near, class, &[], &mut out), -1);
        }
        assert_eq!(out, [7; 24]);
        assert_eq!(condense(4, 7, 15, &NO_ITEMS, &mut out), 24);
    }

    #[test]
    fn empty_slices_may_be_handed_over() {
        assert_eq!(condense(1, 1, 1, &[], &mut []), -1);
        assert_eq!(condense(1, 1, 1, &NO_ITEMS, &mut []), -9);
        assert_eq!(check(&[], &[]), -1);
        assert_eq!(check(&NO_ITEMS, &[]), -6);
        assert_eq!(ask_register(&NO_ITEMS, &[], 0), -5);
        assert_eq!(ask_summary(&[], &[], 0), -6);
        assert_eq!(list(&[], &[], &mut []), -6);
    }
}
