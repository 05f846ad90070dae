//! System calls by the numbers of newlib and of the proxy kernel: number in a7, arguments from a0 on, answer in a0, where an
//! error is its negative number.

use super::caller::{Caller, Fault};
use super::console::Console;
use super::errno::{negative, BAD_ADDRESS, BAD_HANDLE, NO_SUCH_CALL};
use super::Reply;
use crate::failure::Failure;
use crate::names::SP;

const A0: usize = 10;
pub const A7: usize = 17;

const CLOSE: u64 = 57;
const READ: u64 = 63;
const WRITE: u64 = 64;
const FSTAT: u64 = 80;
const EXIT: u64 = 93;
const EXIT_GROUP: u64 = 94;
const BRK: u64 = 214;

/// Names of those that are served.
const SERVED: [(u64, &str); 7] = [
    (CLOSE, "close"),
    (READ, "read"),
    (WRITE, "write"),
    (FSTAT, "fstat"),
    (EXIT, "exit"),
    (EXIT_GROUP, "exit_group"),
    (BRK, "brk"),
];

/// Names of calls that programs make and that are not served.
const OTHERS: [(u64, &str); 28] = [
    (17, "getcwd"),
    (25, "fcntl"),
    (29, "ioctl"),
    (35, "unlinkat"),
    (46, "ftruncate"),
    (48, "faccessat"),
    (49, "chdir"),
    (56, "openat"),
    (62, "lseek"),
    (65, "readv"),
    (66, "writev"),
    (78, "readlinkat"),
    (79, "fstatat"),
    (96, "set_tid_address"),
    (113, "clock_gettime"),
    (129, "kill"),
    (134, "rt_sigaction"),
    (153, "times"),
    (160, "uname"),
    (169, "gettimeofday"),
    (172, "getpid"),
    (215, "munmap"),
    (222, "mmap"),
    (226, "mprotect"),
    (1024, "open"),
    (1026, "unlink"),
    (1038, "stat"),
    (1062, "time"),
];

/// The name of a call that is served.
pub fn served(number: u64) -> Option<&'static str> {
    let known = SERVED.iter().find(|(known, _)| *known == number);
    known.map(|(_, name)| *name)
}

/// A call's name, for the report. brk is not served where there is no heap.
pub fn name(number: u64) -> Option<&'static str> {
    let other = OTHERS.iter().find(|(known, _)| *known == number);
    served(number).or(other.map(|(_, name)| *name))
}

/// What the calls change.
pub struct Syscalls {
    /// Whether standard input, output and error are open.
    open: [bool; 3],
    /// The first break and the break, where the program's end is known.
    heap: Option<(u64, u64)>,
}

impl Syscalls {
    /// `end` is the address behind the program's data, where its heap may begin.
    pub fn new(end: Option<u64>) -> Syscalls {
        Syscalls {
            open: [true; 3],
            heap: end.map(|end| (end, end)),
        }
    }

    pub fn serve(&mut self, caller: &mut Caller, console: &mut Console) -> Result<Reply, Failure> {
        let number = caller.x(A7);
        let [first, second, third] = [caller.x(A0), caller.x(A0 + 1), caller.x(A0 + 2)];
        let answer = match number {
            EXIT | EXIT_GROUP => return Ok(Reply::Exit(first)),
            WRITE => self.write(caller, console, first, second, third)?,
            READ => self.read(caller, console, first, second, third)?,
            CLOSE => self.close(first),
            FSTAT => self.fstat(caller, first, second),
            BRK if self.heap.is_some() => self.set_break(caller, first),
            _ => {
                caller.answer(negative(NO_SUCH_CALL));
                return Ok(Reply::Unknown(number));
            }
        };
        caller.answer(answer.unwrap_or_else(negative));
        Ok(Reply::Answer)
    }

    fn is_open(&self, handle: u64) -> bool {
        handle < 3 && self.open[handle as usize]
    }

    fn write(
        &self,
        caller: &Caller,
        console: &mut Console,
        to: u64,
        buffer: u64,
        length: u64,
    ) -> Result<Answer, Failure> {
        if to == 0 || !self.is_open(to) {
            return Ok(Err(BAD_HANDLE));
        }
        let Ok(bytes) = caller.read(buffer, length) else {
            return Ok(Err(BAD_ADDRESS));
        };
        match to {
            1 => console.write(&bytes)?,
            _ => console.write_error(&bytes)?,
        }
        Ok(Ok(length))
    }

    fn read(
        &self,
        caller: &mut Caller,
        console: &mut Console,
        from: u64,
        buffer: u64,
        length: u64,
    ) -> Result<Answer, Failure> {
        if from != 0 || !self.is_open(from) {
            return Ok(Err(BAD_HANDLE));
        }
        // Before anything is taken from the input, which would be lost.
        if !caller.writable(buffer, length) {
            return Ok(Err(BAD_ADDRESS));
        }
        let bytes = console.read(length)?;
        let written = caller.write(buffer, &bytes).map(|()| bytes.len() as u64);
        Ok(written.map_err(|Fault| BAD_ADDRESS))
    }

    fn close(&mut self, handle: u64) -> Answer {
        if !self.is_open(handle) {
            return Err(BAD_HANDLE);
        }
        self.open[handle as usize] = false;
        Ok(0)
    }

    fn fstat(&self, caller: &mut Caller, handle: u64, buffer: u64) -> Answer {
        if !self.is_open(handle) {
            return Err(BAD_HANDLE);
        }
        caller
            .write(buffer, &console_stat())
            .map_err(|Fault| BAD_ADDRESS)?;
        Ok(0)
    }

    /// Answers with the break as it then is: the one asked for, or the old one where that cannot be.
    fn set_break(&mut self, caller: &mut Caller, wanted: u64) -> Answer {
        let Some((first, now)) = self.heap else {
            return Err(NO_SUCH_CALL);
        };
        let stack = caller.x(SP);
        let meets_stack = first <= stack && wanted > stack;
        if wanted < first || meets_stack {
            return Ok(now);
        }
        // What is new is 0, as allocators take it to be.
        let new = wanted.saturating_sub(now);
        if !caller.writable(now, new) || caller.write(now, &vec![0; new as usize]).is_err() {
            return Ok(now);
        }
        self.heap = Some((first, wanted));
        Ok(wanted)
    }
}

/// The answer of a call: a value, or the number of an error.
type Answer = Result<u64, u64>;

/// The 128 bytes of newlib's `kernel_stat` (Linux has the same): a character device.
fn console_stat() -> [u8; 128] {
    const MODE: u32 = 0o020_620; // S_IFCHR, rw--w----
    const BLOCK: u32 = 1024;
    let mut stat = [0; 128];
    stat[16..20].copy_from_slice(&MODE.to_le_bytes());
    stat[20..24].copy_from_slice(&1u32.to_le_bytes()); // st_nlink
    stat[56..60].copy_from_slice(&BLOCK.to_le_bytes()); // st_blksize
    stat
}
