//! A file written whole or not at all: first beside its place, then moved there.

use crate::Failure;
use std::fs;
use std::io::ErrorKind;
use std::path::{Path, PathBuf};

/// Writes `text` to `path`. On an error nothing new is left, and what stood there is as before.
pub fn whole(path: &Path, text: &str) -> Result<(), Failure> {
    let failed = |why: String| format!("cannot write {}: {why}", path.display());
    let (target, part) = places(path).map_err(|why| Failure::Place(failed(why)))?;
    let done = fs::write(&part, text).and_then(|()| fs::rename(&part, &target));
    done.map_err(|error| {
        // The error that counts is the first one; the part may not even be there.
        let _ = fs::remove_file(&part);
        match error.kind() {
            ErrorKind::PermissionDenied | ErrorKind::ReadOnlyFilesystem => Failure::Place(failed(
                "you may not write there; give a file in a folder where you may".into(),
            )),
            _ => Failure::Own(failed(error.to_string())),
        }
    })
}

/// Where the file is to stand, and where it is written first: in the same folder, so that the move is one act.
fn places(path: &Path) -> Result<(PathBuf, PathBuf), String> {
    // A move would replace a link and not the file it names, and a device such as /dev/null altogether.
    let target = fs::canonicalize(path).unwrap_or_else(|_| path.to_path_buf());
    if target.is_dir() {
        return Err("that is a folder; give a file such as torque.svg in it".into());
    }
    if target.exists() && !target.is_file() {
        return Err("that is no ordinary file; give a file such as torque.svg".into());
    }
    let Some(name) = target.file_name() else {
        return Err("that names no file; give a file such as torque.svg".into());
    };
    let folder = match target.parent() {
        Some(folder) if !folder.as_os_str().is_empty() => folder,
        _ => Path::new("."),
    };
    if !folder.is_dir() {
        return Err(format!(
            "there is no folder {}; make it first",
            folder.display()
        ));
    }
    let part = format!(".{}.{}.part", name.to_string_lossy(), std::process::id());
    let part = folder.join(part);
    Ok((target, part))
}
