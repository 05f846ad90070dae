//! QEMU's riscv64 system emulator, one instruction at a time: how it is started, and what its log
//! says before each instruction.
//!
//! It is told to have RV64I, M, Zbb, Zicsr and S and U modes, and none of the extensions of which
//! the hart has nothing. PMP is off: with it on and no entry set, S and U could reach no memory.

use sporhulma::word::*;
use sporhulma::REST;
use std::io::{BufRead, BufReader};
use std::path::Path;
use std::process::{Child, ChildStderr, Command, Stdio};
use std::sync::mpsc::{channel, Sender};
use std::sync::{Arc, Mutex};
use std::time::Duration;

const QEMU: &str = "qemu-system-riscv64";

const CPU: &str =
    "rv64,m=true,a=false,f=false,d=false,c=false,h=false,zba=false,zbb=true,zbc=false,zbs=false,\
                   Zifencei=false,Zihintpause=false,pmp=false,sstc=false,priv_spec=v1.12.0";

/// A program takes a few seconds; when this much time has passed, QEMU hangs and is stopped.
const PATIENCE: Duration = Duration::from_secs(120);

/// The words of `rest` that the log has; the others have no counterpart in QEMU 7.2.
pub const LOGGED: [usize; 15] = [
    PC, MODE, STVEC, SSCRATCH, SEPC, SCAUSE, STVAL, SATP, MSTATUS, MEDELEG, MTVEC, MSCRATCH, MEPC,
    MCAUSE, MTVAL,
];

/// The state before an instruction. Of `rest`, only the words in `LOGGED` mean something.
#[derive(Clone, Debug, PartialEq)]
pub struct Entry {
    pub x: [u64; 32],
    pub rest: [u64; 20],
}

/// QEMU's version, as it says it itself.
pub fn version() -> Result<String, String> {
    let said = Command::new(QEMU)
        .arg("--version")
        .output()
        .map_err(cannot_run)?;
    Ok(String::from_utf8_lossy(&said.stdout)
        .lines()
        .next()
        .unwrap_or("no version")
        .to_string())
}

fn cannot_run(error: std::io::Error) -> String {
    format!("{QEMU}: cannot be run: {error}; tools/outside installs it")
}

pub struct Qemu {
    child: Arc<Mutex<Child>>,
    done: Sender<()>,
    log: Log<BufReader<ChildStderr>>,
}

impl Qemu {
    /// Starts QEMU with `image` at 0x80000000.
    pub fn start(image: &Path) -> Result<Qemu, String> {
        let loader = format!(
            "loader,file={},addr=0x80000000,force-raw=on",
            image.display()
        );
        let mut child = Command::new(QEMU)
            .args([
                "-machine", "virt", "-m", "16M", "-bios", "none", "-cpu", CPU, "-device", &loader,
            ])
            .args([
                "-display",
                "none",
                "-serial",
                "none",
                "-monitor",
                "none",
                "-singlestep",
                "-d",
                "exec,cpu,nochain",
            ])
            .stdin(Stdio::null())
            .stdout(Stdio::null())
            .stderr(Stdio::piped())
            .spawn()
            .map_err(cannot_run)?;
        let log = Log {
            reader: BufReader::new(child.stderr.take().expect("stderr is piped")),
            last_message: String::new(),
        };
        let child = Arc::new(Mutex::new(child));
        Ok(Qemu {
            done: watched(child.clone()),
            child,
            log,
        })
    }

    /// The state before the next instruction.
    pub fn entry(&mut self) -> Result<Entry, String> {
        self.log.entry()
    }
}

impl Drop for Qemu {
    /// Stops QEMU: its programs end in a loop.
    fn drop(&mut self) {
        // The watcher may have gone, and QEMU may have ended by itself: then there is nothing left
        // to do.
        let _ = self.done.send(());
        let mut child = self
            .child
            .lock()
            .expect("nothing panics with the lock held");
        let _ = child.kill();
        let _ = child.wait();
    }
}

/// Stops `child` when `PATIENCE` is over and nothing was sent.
fn watched(child: Arc<Mutex<Child>>) -> Sender<()> {
    let (done, wait) = channel();
    std::thread::spawn(move || {
        if wait.recv_timeout(PATIENCE).is_err() {
            // That it has ended already is as good.
            let _ = child
                .lock()
                .expect("nothing panics with the lock held")
                .kill();
        }
    });
    done
}

/// The log of `-d exec,cpu`: a line `Trace ..`, then lines of names and values.
struct Log<R> {
    reader: R,
    last_message: String,
}

impl<R: BufRead> Log<R> {
    fn entry(&mut self) -> Result<Entry, String> {
        let mut entry = Entry {
            x: [0; 32],
            rest: [0; 20],
        };
        let mut seen = Vec::with_capacity(LOGGED.len());
        let mut line = String::new();
        loop {
            line.clear();
            if self
                .reader
                .read_line(&mut line)
                .map_err(|error| format!("QEMU's log cannot be read: {error}"))?
                == 0
            {
                return Err(format!(
                    "QEMU's log ends before the program does; last message: {:?}",
                    self.last_message.trim()
                ));
            }
            if line.starts_with("Trace ") {
                entry.rest[MODE] =
                    mode(&line).ok_or_else(|| format!("QEMU's log: no mode in {line:?}"))?;
                seen = vec![MODE];
            } else if line.starts_with(' ') {
                let last = values(&line, &mut entry, &mut seen)
                    .ok_or_else(|| format!("QEMU's log: no names and values in {line:?}"))?;
                if last {
                    return complete(entry, &seen);
                }
            } else {
                self.last_message.clone_from(&line);
            }
        }
    }
}

/// The mode, from a line such as `Trace 0: 0x7f6dc8000100
/// [0000000000000000/0000000080000000/00201003/ff000201]`: bits 1:0 of the third number in
/// brackets.
fn mode(line: &str) -> Option<u64> {
    let flags = line.split_once('[')?.1.split('/').nth(2)?;
    Some(u64::from_str_radix(flags, 16).ok()? & 3)
}

/// Takes over the names and values of a line, such as ` mepc     0000000080000014`; true if the
/// last register was among them.
fn values(line: &str, entry: &mut Entry, seen: &mut Vec<usize>) -> Option<bool> {
    let mut parts = line.split_ascii_whitespace();
    let mut last = false;
    while let Some(name) = parts.next() {
        let value = u64::from_str_radix(parts.next()?, 16).ok()?;
        if let Some((register, _)) = name.split_once('/') {
            let register: usize = register.strip_prefix('x')?.parse().ok()?;
            *entry.x.get_mut(register)? = value;
            last = register == 31;
        } else if let Some(at) = REST.iter().position(|rest| *rest == name) {
            // Of satp the hart keeps MODE alone: its pages are in a map.
            entry.rest[at] = if at == SATP { value >> 60 << 60 } else { value };
            seen.push(at);
        }
    }
    Some(last)
}

fn complete(entry: Entry, seen: &[usize]) -> Result<Entry, String> {
    match LOGGED.iter().find(|word| !seen.contains(word)) {
        Some(&missing) => Err(format!(
            "QEMU's log has no {} at pc {:#x}",
            REST[missing], entry.rest[PC]
        )),
        None => Ok(entry),
    }
}

#[cfg(test)]
pub mod tests {
    use super::*;

    /// The log of `hart`, as QEMU 7.2 writes it.
    fn logged(entry: &Entry) -> String {
        let mut text = format!(
            "Trace 0: 0x7f6dc8000100 [0000000000000000/0000000080000000/0020100{}/ff000201] \n",
            entry.rest[MODE]
        );
        text.push_str(" mhartid  0000000000000000\n");
        for word in LOGGED.into_iter().filter(|&word| word != MODE) {
            let root = if word == SATP { 0x8_000d } else { 0 };
            let value = entry.rest[word] | root;
            text.push_str(&format!(" {:8} {value:016x}\n", REST[word]));
        }
        for first in (0..32).step_by(4) {
            let row: Vec<_> = (first..first + 4)
                .map(|n| format!(" x{n}/{:6} {:016x}", disasm::register(n), entry.x[n]))
                .collect();
            text.push_str(&(row.concat() + "\n"));
        }
        text
    }

    /// An entry in which each word has a value of its own.
    pub fn distinct() -> Entry {
        let mut entry = Entry {
            x: std::array::from_fn(|n| n as u64 * 0x0123_4567_89ab),
            rest: [0; 20],
        };
        LOGGED
            .iter()
            .for_each(|&word| entry.rest[word] = 0xfedc_0000 + word as u64);
        entry.rest[MODE] = 1;
        entry.rest[SATP] = formats::csr::field::SV39;
        entry
    }

    #[test]
    fn an_entry_is_read_back() {
        let text = "qemu: a message\n".to_string() + &logged(&distinct()) + &logged(&distinct());
        let mut log = Log {
            reader: text.as_bytes(),
            last_message: String::new(),
        };
        assert_eq!(log.entry(), Ok(distinct()));
        assert_eq!(log.entry(), Ok(distinct()));
        assert!(log.entry().unwrap_err().contains("a message"));
    }

    #[test]
    fn a_log_that_lacks_a_word_is_an_error() {
        let text: String = logged(&distinct())
            .lines()
            .filter(|line| !line.starts_with(" mepc"))
            .map(|line| format!("{line}\n"))
            .collect();
        let mut log = Log {
            reader: text.as_bytes(),
            last_message: String::new(),
        };
        assert!(log
            .entry()
            .unwrap_err()
            .starts_with("QEMU's log has no mepc"));
    }
}
