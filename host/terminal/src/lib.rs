//! How the programs of host/ speak with who started them: `options` reads a command line of words and numbers, `progress` shows on a
//! terminal where work stands, and `say!` prints a line. (The desk's own command line is clap's.)

pub mod options;
pub mod progress;

/// Prints a line. A reader that has gone away (a closed pipe) must not change the exit status.
#[macro_export]
macro_rules! say {
    ($($text:tt)*) => {{
        use std::io::Write;
        let _ = writeln!(std::io::stdout(), $($text)*);
    }};
}
