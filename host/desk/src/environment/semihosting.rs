//! RISC-V semihosting, as QEMU and OpenOCD have it: an EBREAK between two shifts of register zero, the operation in a0, its
//! argument or the address of its arguments (words of eight bytes) in a1, the answer in a0. Console and exit; there are no files
//! and there is no clock.

use super::caller::{Caller, Fault};
use super::console::Console;
use super::errno::{BAD_ADDRESS, BAD_HANDLE, INVALID, NO_ENTRY, NO_SUCH_CALL};
use super::Reply;
use crate::failure::Failure;

const A0: usize = 10;
const A1: usize = 11;

/// `slli zero,zero,0x1f` before the EBREAK, and `srai zero,zero,7` behind it.
const BEFORE: u32 = 0x01f0_1013;
const BEHIND: u32 = 0x4070_5013;

const OPEN: u64 = 0x01;
const CLOSE: u64 = 0x02;
const WRITEC: u64 = 0x03;
const WRITE0: u64 = 0x04;
const WRITE: u64 = 0x05;
const READ: u64 = 0x06;
const READC: u64 = 0x07;
const ISERROR: u64 = 0x08;
const ISTTY: u64 = 0x09;
const SEEK: u64 = 0x0a;
const FLEN: u64 = 0x0c;
const ERRNO: u64 = 0x13;
const EXIT: u64 = 0x18;
const EXIT_EXTENDED: u64 = 0x20;

/// Operations that programs may ask for and that are not served.
const OTHERS: [(u64, &str); 11] = [
    (0x0d, "SYS_TMPNAM"),
    (0x0e, "SYS_REMOVE"),
    (0x0f, "SYS_RENAME"),
    (0x10, "SYS_CLOCK"),
    (0x11, "SYS_TIME"),
    (0x12, "SYS_SYSTEM"),
    (0x15, "SYS_GET_CMDLINE"),
    (0x16, "SYS_HEAPINFO"),
    (0x30, "SYS_ELAPSED"),
    (0x31, "SYS_TICKFREQ"),
    (0x1e, "angel_SWIreason_ReportException"),
];

/// An operation's name, for the report.
pub fn name(number: u64) -> Option<&'static str> {
    let other = OTHERS.iter().find(|(known, _)| *known == number);
    other.map(|(_, name)| *name)
}

/// The reason of an exit that has a value; every other reason is an error, value 1.
const APPLICATION_EXIT: u64 = 0x2_0026;

/// What `:semihosting-features` holds: its magic, then EXIT_EXTENDED and STDOUT_STDERR.
const FEATURES: [u8; 5] = [0x53, 0x48, 0x46, 0x42, 0b11];

/// Whether an EBREAK is a semihosting call, by the words before it and behind it.
pub fn is_call(before: Option<u32>, behind: Option<u32>) -> bool {
    (before, behind) == (Some(BEFORE), Some(BEHIND))
}

/// What a handle is open on.
#[derive(Clone, Copy)]
enum File {
    Input,
    Output,
    Error,
    /// `:semihosting-features`, and where in it the next read begins.
    Features(u64),
}

/// An error that an operation answers: what a0 becomes, and the error's number for SYS_ERRNO.
struct Wrong(u64, u64);

impl From<Fault> for Wrong {
    fn from(_: Fault) -> Wrong {
        Wrong(u64::MAX, BAD_ADDRESS)
    }
}

impl From<Failure> for Ended {
    fn from(failure: Failure) -> Ended {
        Ended::Failure(failure)
    }
}

impl<T: Into<Wrong>> From<T> for Ended {
    fn from(wrong: T) -> Ended {
        Ended::Wrong(wrong.into())
    }
}

/// Why an operation did not go through: the program is told, or the desk fails.
enum Ended {
    Wrong(Wrong),
    Failure(Failure),
}

type Answer = Result<u64, Ended>;

#[derive(Default)]
pub struct Semihosting {
    /// By handle, from 1 on; closed ones are none.
    files: Vec<Option<File>>,
    error: u64,
}

impl Semihosting {
    pub fn serve(&mut self, caller: &mut Caller, console: &mut Console) -> Result<Reply, Failure> {
        let (number, argument) = (caller.x(A0), caller.x(A1));
        let answer = match number {
            EXIT | EXIT_EXTENDED => match exit(caller, argument) {
                Ok(value) => return Ok(Reply::Exit(value)),
                Err(fault) => Err(fault.into()),
            },
            OPEN => self.open(caller, argument),
            CLOSE => self.close(caller, argument),
            WRITEC => write_c(caller, console, argument),
            WRITE0 => write_0(caller, console, argument),
            WRITE => self.write(caller, console, argument),
            READ => self.read(caller, console, argument),
            READC => read_c(console),
            ISERROR => is_error(caller, argument),
            ISTTY => self.is_tty(caller, console, argument),
            SEEK => self.seek(caller, argument),
            FLEN => self.length(caller, argument),
            ERRNO => Ok(self.error),
            _ => {
                self.error = NO_SUCH_CALL;
                caller.answer(u64::MAX);
                return Ok(Reply::Unknown(number));
            }
        };
        let value = match answer {
            Ok(value) => value,
            Err(Ended::Wrong(Wrong(value, error))) => {
                self.error = error;
                value
            }
            Err(Ended::Failure(failure)) => return Err(failure),
        };
        caller.answer(value);
        Ok(Reply::Answer)
    }

    fn file(&mut self, handle: u64) -> Option<&mut File> {
        let at = usize::try_from(handle).ok()?.checked_sub(1)?;
        self.files.get_mut(at)?.as_mut()
    }

    /// Handles are given from 1 on, a closed one again.
    fn open(&mut self, caller: &Caller, block: u64) -> Answer {
        let [name, mode, length] = arguments(caller, block)?;
        let file = match (caller.read(name, length)?.as_slice(), mode) {
            (b":tt", 0..=3) => File::Input,
            (b":tt", 4..=7) => File::Output,
            (b":tt", 8..=11) => File::Error,
            (b":semihosting-features", 0 | 1) => File::Features(0),
            (_, 0..=11) => return Err(Wrong(u64::MAX, NO_ENTRY).into()),
            _ => return Err(Wrong(u64::MAX, INVALID).into()),
        };
        let at = self.files.iter().position(Option::is_none);
        let at = at.unwrap_or_else(|| {
            self.files.push(None);
            self.files.len() - 1
        });
        self.files[at] = Some(file);
        Ok(at as u64 + 1)
    }

    fn close(&mut self, caller: &Caller, block: u64) -> Answer {
        let [handle] = arguments(caller, block)?;
        if self.file(handle).is_none() {
            return Err(BAD.into());
        }
        self.files[handle as usize - 1] = None;
        Ok(0)
    }

    /// Answers how many bytes were not written.
    fn write(&mut self, caller: &Caller, console: &mut Console, block: u64) -> Answer {
        let [handle, buffer, length] = arguments(caller, block)?;
        let not_written = |error| Ended::from(Wrong(length, error));
        let file = self.file(handle).copied();
        let bytes = caller.read(buffer, length);
        match file {
            Some(File::Output) => {
                console.write(&bytes.map_err(|Fault| not_written(BAD_ADDRESS))?)?
            }
            Some(File::Error) => {
                console.write_error(&bytes.map_err(|Fault| not_written(BAD_ADDRESS))?)?
            }
            _ => return Err(not_written(BAD_HANDLE)),
        }
        Ok(0)
    }

    /// Answers how many bytes were not read.
    fn read(&mut self, caller: &mut Caller, console: &mut Console, block: u64) -> Answer {
        let [handle, buffer, length] = arguments(caller, block)?;
        let not_read = |error| Ended::from(Wrong(length, error));
        // Before anything is taken from the input, which would be lost.
        if !caller.writable(buffer, length) {
            return Err(not_read(BAD_ADDRESS));
        }
        let bytes = match self.file(handle) {
            Some(File::Input) => console.read(length)?,
            Some(File::Features(at)) => {
                let left = FEATURES[*at as usize..].iter().copied();
                let bytes: Vec<u8> = left.take(length.min(5) as usize).collect();
                *at += bytes.len() as u64;
                bytes
            }
            _ => return Err(not_read(BAD_HANDLE)),
        };
        caller.write(buffer, &bytes)?;
        Ok(length - bytes.len() as u64)
    }

    fn is_tty(&mut self, caller: &Caller, console: &Console, block: u64) -> Answer {
        let [handle] = arguments(caller, block)?;
        let [input, output, error] = console.terminals();
        let terminal = match self.file(handle) {
            Some(File::Input) => input,
            Some(File::Output) => output,
            Some(File::Error) => error,
            Some(File::Features(_)) => false,
            None => return Err(BAD.into()),
        };
        Ok(terminal.into())
    }

    fn seek(&mut self, caller: &Caller, block: u64) -> Answer {
        let [handle, place] = arguments(caller, block)?;
        match self.file(handle) {
            Some(File::Features(at)) if place <= FEATURES.len() as u64 => *at = place,
            Some(_) => return Err(Wrong(u64::MAX, INVALID).into()),
            None => return Err(BAD.into()),
        }
        Ok(0)
    }

    fn length(&mut self, caller: &Caller, block: u64) -> Answer {
        let [handle] = arguments(caller, block)?;
        match self.file(handle) {
            Some(File::Features(_)) => Ok(FEATURES.len() as u64),
            Some(_) => Ok(0),
            None => Err(BAD.into()),
        }
    }
}

const BAD: Wrong = Wrong(u64::MAX, BAD_HANDLE);

/// The words of an argument block.
fn arguments<const COUNT: usize>(caller: &Caller, block: u64) -> Result<[u64; COUNT], Fault> {
    let mut words = [0; COUNT];
    for (place, word) in (0..).zip(&mut words) {
        *word = caller.word(block.checked_add(8 * place).ok_or(Fault)?)?;
    }
    Ok(words)
}

fn exit(caller: &Caller, block: u64) -> Result<u64, Fault> {
    let [reason, value] = arguments(caller, block)?;
    Ok(if reason == APPLICATION_EXIT { value } else { 1 })
}

fn write_c(caller: &Caller, console: &mut Console, address: u64) -> Answer {
    console.write(&caller.read(address, 1)?)?;
    Ok(caller.x(A0))
}

/// Up to the first 0: nothing is written where none comes in bytes that the caller can read.
fn write_0(caller: &Caller, console: &mut Console, address: u64) -> Answer {
    let mut text = Vec::new();
    let mut at = address;
    loop {
        match caller.read(at, 1)?[0] {
            0 => break,
            byte => text.push(byte),
        }
        at = at.checked_add(1).ok_or(Fault)?;
    }
    console.write(&text)?;
    Ok(caller.x(A0))
}

fn read_c(console: &mut Console) -> Answer {
    let byte = console.read(1)?.first().copied();
    Ok(byte.map_or(u64::MAX, u64::from))
}

fn is_error(caller: &Caller, block: u64) -> Answer {
    let [status] = arguments(caller, block)?;
    Ok(((status as i64) < 0).into())
}
