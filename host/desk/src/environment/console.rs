//! The console of a program: the desk's own input and outputs.

use crate::failure::Failure;
use std::io::{self, IsTerminal, Read, Write};

/// Where the program's standard output goes.
#[derive(Clone, Copy, PartialEq)]
pub enum Output {
    Stdout,
    /// Where stdout is taken by a trace or a JSON object.
    Stderr,
}

pub struct Console {
    output: Output,
    /// Whether the last byte that was written ended a line, or none was written yet.
    pub line_begins: bool,
}

impl Console {
    pub fn new(output: Output) -> Console {
        Console {
            output,
            line_begins: true,
        }
    }

    /// Writes to the program's standard output.
    pub fn write(&mut self, bytes: &[u8]) -> Result<(), Failure> {
        if self.output == Output::Stderr {
            return self.write_error(bytes);
        }
        let mut stdout = io::stdout().lock();
        stdout.write_all(bytes)?;
        if stdout.is_terminal() {
            stdout.flush()?;
        }
        if let Some(last) = bytes.last() {
            self.line_begins = *last == b'\n';
        }
        Ok(())
    }

    /// Writes to the program's standard error.
    pub fn write_error(&mut self, bytes: &[u8]) -> Result<(), Failure> {
        Ok(io::stderr().write_all(bytes)?)
    }

    /// Up to so many bytes of input; none at its end.
    pub fn read(&mut self, most: u64) -> Result<Vec<u8>, Failure> {
        // What the program asked for must stand there before it waits.
        io::stdout().flush()?;
        let mut bytes = vec![0; most as usize];
        let wrong = |error| Failure::Tool(format!("the input could not be read: {error}"));
        let length = io::stdin().read(&mut bytes).map_err(wrong)?;
        bytes.truncate(length);
        Ok(bytes)
    }

    /// Whether the program's input, output and error are a terminal, in this order.
    pub fn terminals(&self) -> [bool; 3] {
        let error = io::stderr().is_terminal();
        let output = match self.output {
            Output::Stdout => io::stdout().is_terminal(),
            Output::Stderr => error,
        };
        [io::stdin().is_terminal(), output, error]
    }
}
