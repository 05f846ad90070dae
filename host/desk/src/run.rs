//! `desk run`: runs an image and says where and why it stopped.

use crate::drive::{Drive, End};
use crate::environment::{Environment, Output as Console};
use crate::facts;
use crate::failure::Failure;
use crate::output::Output;
use crate::profile;
use crate::progress::Progress;
use crate::report::{tables, Report};
use crate::run_options::RunOptions;
use crate::setup::Job;
use crate::steps::Shown;
use crate::trace::{served, Trace};
use crate::window::Window;
use std::io::{stderr, Write};

/// Runs what the options ask for; the answer is the exit status.
pub fn run(options: &RunOptions, out: &mut dyn Write) -> Result<u8, Failure> {
    let mut job = Job::new(options)?;
    let (trace_to, save) = (job.trace_to.take(), job.save.take());
    let picture = job.profile_svg.take();
    let end = drive(&job, trace_to, out)?;
    let report = Report::new(&end, &job);
    if let Some(output) = save {
        output.replace(|file| Ok(file.write_all(&end.after.mem)?))?;
    }
    if let (Some(output), Some(counts)) = (picture, &end.profile) {
        let svg = profile::draw(counts, &job.image.path);
        output.replace(|file| Ok(file.write_all(svg.as_bytes())?))?;
    }
    let text = match job.json {
        true => facts::text(&report.json(&end, &job)),
        false => report.text() + &tables(&end, &job),
    };
    // What the program wrote stands before the report, and where its exit value is the status, it stands alone.
    match (
        job.exit_status && !job.json,
        end.environment.ended_in_line(),
    ) {
        (true, _) => write!(stderr(), "{text}")?,
        (false, true) => write!(out, "\n{text}")?,
        (false, false) => write!(out, "{text}")?,
    }
    Ok(report.status)
}

/// The run itself, traced or not.
fn drive(job: &Job, trace_to: Option<Output>, out: &mut dyn Write) -> Result<End, Failure> {
    let environment = environment(job, trace_to.is_some());
    let drive = Drive::start(job.state.clone(), &job.map, job.limits, environment)?;
    let drive = match job.profile {
        true => drive.profiled(&job.symbols),
        false => drive,
    };
    let progress = Progress::start(job.limits.steps, &job.symbols)?;
    let mut trace = Trace::new(&job.map, &job.symbols);
    let mut show = |shown: Shown, to: &mut dyn Write| -> Result<(), Failure> {
        let lines = match shown {
            Shown::Step(step) => trace.lines(&step),
            Shown::Served(state) => served(state, &job.symbols),
        };
        Ok(to.write_all(lines.as_bytes())?)
    };
    let go = |to: &mut dyn Write| drive.run(&job.window, &progress, &mut |shown| show(shown, to));
    match trace_to {
        None => go(out),
        Some(output) => output.replace(go),
    }
}

/// What serves the program's calls. What it writes goes to the output, where that is not taken by a trace or an object.
fn environment(job: &Job, traced_apart: bool) -> Environment {
    let taken = job.json || (job.window != Window::None && !traced_apart);
    let console = if taken {
        Console::Stderr
    } else {
        Console::Stdout
    };
    Environment::new(job.services, job.state.mode(), job.symbols.end, console)
}
