//! The cases run in a process of their own, which notes each one before it
//! begins. So a case that brings the process down is known by its number.

use std::io::{self, BufRead, BufReader};
use std::process::{Command, Stdio};

/// What a note begins with; the case's number follows.
const NOTE: &str = "case ";

/// Notes a case for the process that watches this one.
pub fn note(case: u64) {
    println!("{NOTE}{case}");
}

/// How a watched process ended.
#[derive(Debug, PartialEq, Eq)]
pub enum End {
    Passed,
    /// It has said itself what differs.
    Failed,
    /// By a signal or a panic, and at the last case that it noted.
    Crashed(String, Option<u64>),
}

/// Runs a command to its end and hands on the lines it prints, but no notes.
pub fn watch(command: &mut Command, mut print: impl FnMut(&str)) -> io::Result<End> {
    let mut process = command.stdout(Stdio::piped()).spawn()?;
    let output = process.stdout.take().expect("it is piped");
    let mut case = None;
    for line in BufReader::new(output).lines() {
        let line = line?;
        match line.strip_prefix(NOTE).map(str::parse) {
            Some(Ok(number)) => case = Some(number),
            _ => print(&line),
        }
    }
    let status = process.wait()?;
    Ok(match status.code() {
        Some(0) => End::Passed,
        Some(1) => End::Failed,
        _ => End::Crashed(status.to_string(), case),
    })
}

#[cfg(test)]
mod tests {
    use super::*;

    /// How a shell's commands end, and what is handed on.
    fn watched(commands: &str) -> (End, Vec<String>) {
        let mut printed = Vec::new();
        let mut shell = Command::new("sh");
        let end = watch(shell.args(["-c", commands]), |line| {
            printed.push(line.into())
        });
        (end.unwrap(), printed)
    }

    #[test]
    fn a_signal_is_told_with_its_case() {
        let (end, printed) = watched("echo case 6; echo said; echo case 7; kill -KILL $$");
        assert_eq!(end, End::Crashed("signal: 9 (SIGKILL)".into(), Some(7)));
        assert_eq!(printed, ["said"]);
    }

    #[test]
    fn a_panic_is_told_with_its_case() {
        let (end, _) = watched("echo case 3; exit 101");
        assert_eq!(end, End::Crashed("exit status: 101".into(), Some(3)));
    }

    #[test]
    fn a_crash_before_the_first_case_has_none() {
        let (end, _) = watched("kill -KILL $$");
        assert_eq!(end, End::Crashed("signal: 9 (SIGKILL)".into(), None));
    }

    #[test]
    fn an_end_is_no_crash() {
        assert_eq!(watched("echo case 1").0, End::Passed);
        assert_eq!(watched("echo case 1; exit 1").0, End::Failed);
    }
}
