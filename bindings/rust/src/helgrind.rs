//! What valgrind's tool helgrind has to be told: it does not see that an atomic store and
//! the load that finds it put two threads in order. In a build without the flag
//! `--cfg sourcemap_helgrind`, these functions do nothing.

/// What this thread wrote so far is there for a thread that acquires `at`.
#[inline]
pub(crate) fn released<T>(at: &T) {
    request(RELEASED, at);
}

/// What other threads wrote before they released `at` is there for this thread.
#[inline]
pub(crate) fn acquired<T>(at: &T) {
    request(ACQUIRED, at);
}

// `_VG_USERREQ__HG_USERSO_SEND_PRE` and `.._RECV_POST` of `valgrind/helgrind.h`.
const RELEASED: usize = 0x4847_0121;
const ACQUIRED: usize = 0x4847_0122;

#[cfg(not(sourcemap_helgrind))]
#[inline]
fn request<T>(_what: usize, _at: &T) {}

#[cfg(sourcemap_helgrind)]
fn request<T>(what: usize, at: &T) {
    let words = [what, at as *const T as usize, 0, 0, 0, 0];
    // SAFETY: outside of valgrind these instructions change nothing.
    unsafe {
        std::arch::asm!(
            "rol rdi, 3", "rol rdi, 13", "rol rdi, 61", "rol rdi, 51", "xchg rbx, rbx",
            in("rax") words.as_ptr(),
            inout("rdx") 0_usize => _,
        );
    }
}
