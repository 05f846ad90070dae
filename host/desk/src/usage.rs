//! What is wrong with a command line, in one line: clap finds it, and this says it as the desk says everything else.

use crate::failure::Failure;
use crate::help;
use clap::error::{ContextKind, ContextValue, ErrorKind};
use clap::Error;
use std::error::Error as _;

/// The line for what clap found wrong; `command` is the name that was given first.
pub fn failure(error: &Error, command: &str) -> Failure {
    let argument = named(error, ContextKind::InvalidArg);
    let usage = help::usage(command);
    match error.kind() {
        ErrorKind::MissingSubcommand | ErrorKind::DisplayHelpOnMissingArgumentOrSubcommand => {
            let commands = help::commands("or");
            Failure::Input(format!("no command is given; write desk {commands}"))
        }
        ErrorKind::InvalidSubcommand => no_command(error, command),
        ErrorKind::UnknownArgument if argument.starts_with('-') => {
            no_option(error, command, &argument)
        }
        ErrorKind::UnknownArgument => {
            let wrong = format!("'{argument}' is not needed; write {usage}");
            Failure::at(command, wrong)
        }
        ErrorKind::MissingRequiredArgument => {
            let missing = missing(&argument);
            Failure::at(command, format!("{missing} is missing; write {usage}"))
        }
        _ => wrong_option(error, &argument),
    }
}

/// The line for an option that is there and is not right. clap writes it with its value, as --memory <SIZE>.
fn wrong_option(error: &Error, argument: &str) -> Failure {
    let (option, value) = argument.split_once(' ').unwrap_or((argument, ""));
    let value = value.trim_matches(&['<', '>'][..]);
    let prior = named(error, ContextKind::PriorArg);
    let wrong = match error.kind() {
        ErrorKind::InvalidValue | ErrorKind::ValueValidation => wrong_value(error, option, value),
        ErrorKind::TooManyValues => "it takes no value; write it alone".into(),
        ErrorKind::ArgumentConflict if prior.is_empty() || prior == argument => {
            "it is given twice; give it once".into()
        }
        ErrorKind::ArgumentConflict => {
            let prior = prior.split(' ').next().unwrap_or_default();
            format!("it does not go with {prior}; leave one out")
        }
        _ => {
            // What the desk's options cannot lead to; clap's own words are better than none.
            let said = error.to_string();
            let line = said.lines().next().unwrap_or_default();
            return Failure::Input(line.trim_start_matches("error: ").into());
        }
    };
    Failure::at(option, wrong)
}

/// What the error has of this kind, as text.
fn named(error: &Error, kind: ContextKind) -> String {
    match error.get(kind) {
        Some(ContextValue::String(text)) => text.clone(),
        Some(ContextValue::Strings(texts)) => texts.join(", "),
        _ => String::new(),
    }
}

fn no_command(error: &Error, first: &str) -> Failure {
    let command = named(error, ContextKind::InvalidSubcommand);
    if first == "help" && help::is_command(&command) {
        let wrong = format!("'{command}' is not needed; name one command");
        return Failure::at(first, wrong);
    }
    let right = match error.get(ContextKind::SuggestedSubcommand) {
        Some(_) => {
            let near = named(error, ContextKind::SuggestedSubcommand);
            format!("did you mean {near}?")
        }
        None => format!("the commands are {}", help::commands("and")),
    };
    Failure::at(&command, format!("the desk has no such command; {right}"))
}

fn no_option(error: &Error, command: &str, option: &str) -> Failure {
    if command.starts_with('-') {
        let wrong = "the desk has no such option; 'desk help' lists its commands";
        return Failure::at(option, wrong);
    }
    let right = match named(error, ContextKind::SuggestedArg) {
        near if near.is_empty() => format!("'desk help {command}' lists them"),
        near => format!("did you mean {near}?"),
    };
    let wrong = format!("'desk {command}' has no such option; {right}");
    Failure::at(option, wrong)
}

/// What is missing: an option as it is written, a place by its name.
fn missing(argument: &str) -> String {
    let plain = argument.replace(['<', '>'], "");
    match plain.starts_with('-') {
        true => plain,
        false => format!("the {}", plain.trim_end_matches("...").to_lowercase()),
    }
}

fn wrong_value(error: &Error, option: &str, value: &str) -> String {
    match (named(error, ContextKind::InvalidValue), error.source()) {
        (given, _) if given.is_empty() => {
            format!("its {value} is missing; write {option} {value}")
        }
        (_, Some(wrong)) => wrong.to_string(),
        (given, None) => {
            let right = named(error, ContextKind::ValidValue);
            format!("'{given}' is not one of {right}")
        }
    }
}
