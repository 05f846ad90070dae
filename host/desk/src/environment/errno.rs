//! The errors that a program is told, by the numbers of newlib, Linux and semihosting, which agree on these.

pub const NO_ENTRY: u64 = 2; // ENOENT
pub const BAD_HANDLE: u64 = 9; // EBADF
pub const BAD_ADDRESS: u64 = 14; // EFAULT
pub const INVALID: u64 = 22; // EINVAL
pub const NO_SUCH_CALL: u64 = 38; // ENOSYS

/// An error as a system call answers it.
pub fn negative(error: u64) -> u64 {
    error.wrapping_neg()
}
