//! Files that are written.

use crate::failure::Failure;
use std::fs::{self, File, Metadata, OpenOptions};
use std::io::{self, Write};
use std::os::unix::fs::MetadataExt;

/// The file that an option names, open for writing; it must be none of the others, which would be lost by that.
pub fn asked(
    option: &str,
    path: Option<&str>,
    others: &[(&str, Option<&str>)],
) -> Result<Option<Output>, Failure> {
    let Some(path) = path else { return Ok(None) };
    let output = Output::open(path).map_err(|wrong| Failure::at(option, wrong))?;
    let lost = |other: &&(&str, Option<&str>)| other.1.is_some_and(|other| output.is(other));
    match others.iter().find(lost) {
        Some((what, _)) => {
            let wrong = format!("'{path}' is {what}, which would be lost; give another file");
            Err(Failure::at(option, wrong))
        }
        None => Ok(Some(output)),
    }
}

/// A file that is open for writing, with its name for errors.
pub struct Output {
    name: String,
    file: File,
    /// Whether this made the file and nothing was written to it yet: then it goes again.
    unused: bool,
}

impl Output {
    /// Opens a file before the run, so that a wrong name costs no long run. What it held stays for now.
    pub fn open(name: &str) -> Result<Output, String> {
        let wrong = |error| {
            format!(
                "'{name}' cannot be written ({error}); give a file in a folder where you may write"
            )
        };
        let mut options = OpenOptions::new();
        let (file, unused) = match options.write(true).create_new(true).open(name) {
            Err(error) if error.kind() == io::ErrorKind::AlreadyExists => {
                let there = options.create_new(false).create(true).truncate(false);
                (there.open(name), false)
            }
            made => (made, true),
        };
        Ok(Output {
            name: name.into(),
            file: file.map_err(wrong)?,
            unused,
        })
    }

    /// Whether `path` is this very file, perhaps by another name. Devices and pipes are never one.
    pub fn is(&self, path: &str) -> bool {
        let identity = |about: Metadata| about.is_file().then(|| (about.dev(), about.ino()));
        let own = self.file.metadata().ok().and_then(identity);
        own.is_some() && own == fs::metadata(path).ok().and_then(identity)
    }

    /// Replaces what the file holds by what `write` writes.
    pub fn replace<T>(
        mut self,
        write: impl FnOnce(&mut dyn Write) -> Result<T, Failure>,
    ) -> Result<T, Failure> {
        self.unused = false;
        // A terminal or a pipe has no length to set.
        if self.file.metadata().is_ok_and(|about| about.is_file()) {
            self.file.set_len(0).map_err(|error| self.named(error))?;
        }
        let mut file = io::BufWriter::new(Named(&self));
        let answer = write(&mut file)?;
        file.flush()?;
        Ok(answer)
    }

    /// An error of the file, with the file's name.
    fn named(&self, error: io::Error) -> io::Error {
        io::Error::new(error.kind(), format!("{}: {error}", self.name))
    }
}

/// Where the input turned out to be wrong, no empty file stays.
impl Drop for Output {
    fn drop(&mut self) {
        if self.unused {
            // Whatever keeps it from going is no reason to say something else than what was wrong.
            let _ = fs::remove_file(&self.name);
        }
    }
}

/// Writes to an output's file, with errors that name it.
struct Named<'a>(&'a Output);

impl Write for Named<'_> {
    fn write(&mut self, bytes: &[u8]) -> io::Result<usize> {
        let written = (&self.0.file).write(bytes);
        written.map_err(|error| self.0.named(error))
    }

    fn flush(&mut self) -> io::Result<()> {
        (&self.0.file).flush()
    }
}
