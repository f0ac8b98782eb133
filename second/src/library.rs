//! The five calls of the proved library, through its C boundary. Each returns what the library
//! returns: a length, 1 for yes or 0 for no, or minus the number of the refusal.

mod c {
    extern "C" {
        pub fn hestovane_condense(
            level: u16,
            neighbour_cap: u16,
            class_cap: u16,
            reg: *const u8,
            reg_len: usize,
            out: *mut u8,
            out_len: usize,
        ) -> i32;

        pub fn hestovane_check(
            reg: *const u8,
            reg_len: usize,
            sum: *const u8,
            sum_len: usize,
        ) -> i32;

        pub fn hestovane_ask_register(
            reg: *const u8,
            reg_len: usize,
            q: *const u8,
            q_len: usize,
            item: u16,
        ) -> i32;

        pub fn hestovane_ask_summary(
            sum: *const u8,
            sum_len: usize,
            q: *const u8,
            q_len: usize,
            item: u16,
        ) -> i32;

        pub fn hestovane_list(
            sum: *const u8,
            sum_len: usize,
            q: *const u8,
            q_len: usize,
            out: *mut u8,
            out_len: usize,
        ) -> i32;
    }
}

pub fn condense(level_and_caps: [u16; 3], register: &[u8], lent: &mut [u8]) -> i32 {
    let [level, neighbour_cap, class_cap] = level_and_caps;
    let (reg, reg_len) = (register.as_ptr(), register.len());
    let (out, out_len) = (lent.as_mut_ptr(), lent.len());
    unsafe { c::hestovane_condense(level, neighbour_cap, class_cap, reg, reg_len, out, out_len) }
}

pub fn check(register: &[u8], summary: &[u8]) -> i32 {
    let (reg, reg_len) = (register.as_ptr(), register.len());
    let (sum, sum_len) = (summary.as_ptr(), summary.len());
    unsafe { c::hestovane_check(reg, reg_len, sum, sum_len) }
}

pub fn ask_register(register: &[u8], question: &[u8], item: u16) -> i32 {
    let (reg, reg_len) = (register.as_ptr(), register.len());
    let (q, q_len) = (question.as_ptr(), question.len());
    unsafe { c::hestovane_ask_register(reg, reg_len, q, q_len, item) }
}

pub fn ask_summary(summary: &[u8], question: &[u8], item: u16) -> i32 {
    let (sum, sum_len) = (summary.as_ptr(), summary.len());
    let (q, q_len) = (question.as_ptr(), question.len());
    unsafe { c::hestovane_ask_summary(sum, sum_len, q, q_len, item) }
}

pub fn list(summary: &[u8], question: &[u8], lent: &mut [u8]) -> i32 {
    let (sum, sum_len) = (summary.as_ptr(), summary.len());
    let (q, q_len) = (question.as_ptr(), question.len());
    let (out, out_len) = (lent.as_mut_ptr(), lent.len());
    unsafe { c::hestovane_list(sum, sum_len, q, q_len, out, out_len) }
}
