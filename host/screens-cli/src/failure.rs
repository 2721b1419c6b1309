//! What a command ends with if it is not done.
use crate::commands::Command;
use screens::Refusal;
use std::fmt;
use std::path::Path;
use std::process::ExitCode;

/// Why a command is not done.
#[derive(Debug)]
pub(crate) enum Failure {
    /// The library's refusal, and of what.
    Refused(String, Refusal),
    /// The command was not called as its help says.
    Usage(String),
    /// A file or its contents.
    Trouble(String),
}

impl Failure {
    pub(crate) fn usage(text: impl Into<String>) -> Self {
        Failure::Usage(text.into())
    }

    /// Something about a file.
    pub(crate) fn file(path: &Path, what: impl fmt::Display) -> Self {
        Failure::Trouble(format!("{}: {what}", path.display()))
    }

    /// A refusal of what is in a file.
    pub(crate) fn refused(path: &Path, refusal: Refusal) -> Self {
        Failure::Refused(path.display().to_string(), refusal)
    }

    /// The exit status.
    pub(crate) fn status(&self) -> ExitCode {
        match self {
            Failure::Refused(..) => ExitCode::from(1),
            Failure::Usage(_) | Failure::Trouble(_) => ExitCode::from(2),
        }
    }

    /// Bad usage with the first line of the command's help behind it.
    pub(crate) fn with_usage(self, command: &Command) -> Self {
        match self {
            Failure::Usage(text) => {
                let line = command.help.lines().next().unwrap_or_default();
                Failure::Usage(format!("{text}\n{line}\n`screens help {}` says more", command.name))
            }
            other => other,
        }
    }
}

impl fmt::Display for Failure {
    fn fmt(&self, f: &mut fmt::Formatter<'_>) -> fmt::Result {
        match self {
            Failure::Refused(what, refusal) => write!(f, "{what}: refused, number {refusal}"),
            Failure::Usage(text) | Failure::Trouble(text) => f.write_str(text),
        }
    }
}
