//! Programs that read an input and are timed.

use std::fs::File;
use std::path::{Path, PathBuf};
use std::process::{Command, Stdio};
use std::time::{Duration, Instant};

pub type Fallible<T> = Result<T, String>;

/// A program: its file, and the folder that it is run in.
pub struct Program {
    pub path: PathBuf,
    pub folder: PathBuf,
}

impl Program {
    /// The command, with its input.
    fn command(&self, input: &Path) -> Fallible<Command> {
        let file = File::open(input).map_err(|e| format!("{}: {}", input.display(), e))?;
        let mut command = Command::new(&self.path);
        command.current_dir(&self.folder).stdin(file);
        Ok(command)
    }

    /// A message about the program.
    fn said(&self, text: impl std::fmt::Display) -> String {
        format!("{}: {}", self.path.display(), text)
    }

    /// Runs it, with its output thrown away, and tells how long that took.
    pub fn time(&self, input: &Path) -> Fallible<Duration> {
        let mut command = self.command(input)?;
        command.stdout(Stdio::null());
        let began = Instant::now();
        let status = command.status();
        let took = began.elapsed();
        let status = status.map_err(|e| self.said(e))?;
        Some(took)
            .filter(|_| status.success())
            .ok_or_else(|| self.said(status))
    }

    /// Runs it, and tells what it printed.
    pub fn output(&self, input: &Path) -> Fallible<String> {
        let mut command = self.command(input)?;
        let output = command.stderr(Stdio::inherit()).output();
        let output = output.map_err(|e| self.said(e))?;
        if !output.status.success() {
            return Err(self.said(output.status));
        }
        String::from_utf8(output.stdout).map_err(|e| self.said(e))
    }
}
