//! The proved library's five calls over slices.

extern "C" {
    fn hestovane_condense(
        level: u16,
        neighbour_cap: u16,
        class_cap: u16,
        reg: *const u8,
        reg_len: usize,
        out: *mut u8,
        out_len: usize,
    ) -> i32;
    fn hestovane_check(reg: *const u8, reg_len: usize, sum: *const u8, sum_len: usize) -> i32;
    fn hestovane_ask_register(
        reg: *const u8,
        reg_len: usize,
        q: *const u8,
        q_len: usize,
        item: u16,
    ) -> i32;
    fn hestovane_ask_summary(
        sum: *const u8,
        sum_len: usize,
        q: *const u8,
        q_len: usize,
        item: u16,
    ) -> i32;
    fn hestovane_list(
        sum: *const u8,
        sum_len: usize,
        q: *const u8,
        q_len: usize,
        out: *mut u8,
        out_len: usize,
    ) -> i32;
}

// SAFETY, of all five: each pointer is handed over with its own slice's length, and what is written
// to overlaps nothing else.

pub fn condense(i: u16, mu: u16, nu: u16, reg: &[u8], out: &mut [u8]) -> i32 {
    let (to, room) = (out.as_mut_ptr(), out.len());
    unsafe { hestovane_condense(i, mu, nu, reg.as_ptr(), reg.len(), to, room) }
}

pub fn check(reg: &[u8], sum: &[u8]) -> i32 {
    unsafe { hestovane_check(reg.as_ptr(), reg.len(), sum.as_ptr(), sum.len()) }
}

pub fn ask_register(reg: &[u8], q: &[u8], item: u16) -> i32 {
    unsafe { hestovane_ask_register(reg.as_ptr(), reg.len(), q.as_ptr(), q.len(), item) }
}

pub fn ask_summary(sum: &[u8], q: &[u8], item: u16) -> i32 {
    unsafe { hestovane_ask_summary(sum.as_ptr(), sum.len(), q.as_ptr(), q.len(), item) }
}

pub fn list(sum: &[u8], q: &[u8], out: &mut [u8]) -> i32 {
    let (to, room) = (out.as_mut_ptr(), out.len());
    unsafe { hestovane_list(sum.as_ptr(), sum.len(), q.as_ptr(), q.len(), to, room) }
}
