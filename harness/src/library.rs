//! The functions of the static library, declared as include/escarpoll.h has
//! them, each behind a safe function. None of them has a precondition, so all
//! that a wrapper owes is that its slices are there.

mod declared {
    extern "C" {
        pub fn escarpoll_listing(
            script: *const u8,
            script_len: usize,
            out: *mut u8,
            out_len: usize,
            whole: *mut bool,
        ) -> usize;
        pub fn escarpoll_soak_checked(seed: u64, events: u64) -> u64;
        pub fn escarpoll_soak_unchecked(seed: u64, events: u64) -> u64;
    }
}

/// How many bytes of a listing were written, and whether that is all of it.
pub struct Listed {
    pub len: usize,
    pub whole: bool,
}

/// The listing of a script, into `out` from its start.
pub fn listing(script: &[u8], out: &mut [u8]) -> Listed {
    let mut whole = false;
    let len = unsafe {
        declared::escarpoll_listing(
            script.as_ptr(),
            script.len(),
            out.as_mut_ptr(),
            out.len(),
            &mut whole,
        )
    };
    Listed { len, whole }
}

/// The checksum of a long run, with the test of the state at each event.
pub fn soak_checked(seed: u64, events: u64) -> u64 {
    unsafe { declared::escarpoll_soak_checked(seed, events) }
}

/// The same number by the run without the test.
pub fn soak_unchecked(seed: u64, events: u64) -> u64 {
    unsafe { declared::escarpoll_soak_unchecked(seed, events) }
}
