//! The proved library, target/staticlib/libhost.a. A slice goes as pointer and length; include/beaconcrumb.h says what each call does.
//! Built with `--cfg nolib` there is none: `PRESENT` is false, and nothing may be called.

pub const PRESENT: bool = cfg!(not(nolib));

#[cfg(not(nolib))]
mod calls {
    extern "C" {
        pub fn beaconcrumb_decide(
            log: *const u8,
            log_len: usize,
            encoding: u8,
            pruning: u8,
            order: *mut u8,
            order_len: usize,
            table: *mut u8,
            table_len: usize,
        ) -> u32;
        pub fn beaconcrumb_decide_from(
            log: *const u8,
            log_len: usize,
            start: *const u8,
            start_len: usize,
            encoding: u8,
            pruning: u8,
            order: *mut u8,
            order_len: usize,
            table: *mut u8,
            table_len: usize,
        ) -> u32;
        pub fn beaconcrumb_encode(log: *const u8, log_len: usize, encoding: u8, pruning: u8, out: *mut u8, out_len: usize) -> u32;
        pub fn beaconcrumb_check(log: *const u8, log_len: usize, order: *const u8, order_len: usize) -> u32;
    }
}

#[cfg(nolib)]
mod calls {
    pub unsafe fn beaconcrumb_decide(_: *const u8, _: usize, _: u8, _: u8, _: *mut u8, _: usize, _: *mut u8, _: usize) -> u32 {
        unreachable!()
    }
    pub unsafe fn beaconcrumb_decide_from(_: *const u8, _: usize, _: *const u8, _: usize, _: u8, _: u8, _: *mut u8, _: usize, _: *mut u8, _: usize) -> u32 {
        unreachable!()
    }
    pub unsafe fn beaconcrumb_encode(_: *const u8, _: usize, _: u8, _: u8, _: *mut u8, _: usize) -> u32 {
        unreachable!()
    }
    pub unsafe fn beaconcrumb_check(_: *const u8, _: usize, _: *const u8, _: usize) -> u32 {
        unreachable!()
    }
}

pub fn decide(log: &[u8], encoding: u8, pruning: u8, order: &mut [u8], table: &mut [u8]) -> u32 {
    unsafe { calls::beaconcrumb_decide(log.as_ptr(), log.len(), encoding, pruning, order.as_mut_ptr(), order.len(), table.as_mut_ptr(), table.len()) }
}

pub fn decide_from(log: &[u8], start: &[u8], encoding: u8, pruning: u8, order: &mut [u8], table: &mut [u8]) -> u32 {
    unsafe {
        calls::beaconcrumb_decide_from(
            log.as_ptr(),
            log.len(),
            start.as_ptr(),
            start.len(),
            encoding,
            pruning,
            order.as_mut_ptr(),
            order.len(),
            table.as_mut_ptr(),
            table.len(),
        )
    }
}

pub fn encode(log: &[u8], encoding: u8, pruning: u8, out: &mut [u8]) -> u32 {
    unsafe { calls::beaconcrumb_encode(log.as_ptr(), log.len(), encoding, pruning, out.as_mut_ptr(), out.len()) }
}

pub fn check(log: &[u8], order: &[u8]) -> u32 {
    unsafe { calls::beaconcrumb_check(log.as_ptr(), log.len(), order.as_ptr(), order.len()) }
}
