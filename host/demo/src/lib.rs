//! The incident: a sixteen-bit product wraps, becomes a table index, and a store runs over a saved return
//! address. The controller of examples/torque runs on the proved hart with the shadow stack off and on, and mended
//! with it on; [`run`] says what happened in a dozen lines and draws it.

pub mod image;
pub mod incident;
pub mod layout;
pub mod outcome;
pub mod stray;

mod chart;
mod picture;
mod story;
mod write;

use incident::Incident;
use std::io::Write;
use std::path::Path;

/// Why there is no demo, in one line.
#[derive(Debug, PartialEq)]
pub enum Failure {
    /// The picture cannot stand where the caller wants it; another place may do.
    Place(String),
    /// Anything else, for instance a full disk.
    Own(String),
}

impl From<String> for Failure {
    fn from(line: String) -> Failure {
        Failure::Own(line)
    }
}

/// Runs the controller each way, writes the picture to the file `svg` and then the story to `out`.
/// After a failure the picture is either whole or not there.
pub fn run(out: &mut dyn Write, svg: &Path) -> Result<(), Failure> {
    let incident = Incident::happen()?;
    let (picture, mut story) = (picture::of(&incident)?, story::of(&incident)?);
    write::whole(svg, &picture)?;
    story.push_str(&format!("\nThe picture is in {}.\n", svg.display()));
    out.write_all(story.as_bytes())
        .and_then(|()| out.flush())
        .map_err(|e| Failure::Own(format!("cannot write the story: {e}")))
}
