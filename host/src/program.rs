//! The proved program that answers requests, started by the script that SLOT_PROGRAM names (`run.sh` sets it).

use std::fs::{self, File};
use std::io::{self, BufReader, Read};
use std::process::{self, ChildStdout, Command, Stdio};

const NAME: &str = "requests";

/// One run on this input. `hear` is given what the program writes, and has to take it all.
pub fn run<T>(input: &[u8], hear: impl FnOnce(&mut BufReader<ChildStdout>) -> Result<T, String>) -> Result<T, String> {
    let starter = std::env::var_os("SLOT_PROGRAM").ok_or("SLOT_PROGRAM names no script that starts the program")?;
    let told = |what: io::Error| format!("the program {NAME} could not be run: {what}");
    let (mut command, input) = (Command::new(starter), file_of(input).map_err(told)?);
    let mut child = command.arg(NAME).stdin(input).stdout(Stdio::piped()).spawn().map_err(told)?;
    let output = child.stdout.take().ok_or_else(|| format!("the program {NAME} has no output"))?;
    let heard = hear_all(BufReader::new(output), hear);
    let status = child.wait().map_err(told)?;
    if heard.is_ok() && !status.success() {
        return Err(format!("the program {NAME} ended with {status}"));
    }
    heard
}

/// A file with this content and no name. A thread that hands the input over while the answers are heard would do, but an emulator is
/// many times slower from the first thread on.
fn file_of(input: &[u8]) -> io::Result<File> {
    let path = std::env::temp_dir().join(format!("slot-{NAME}-{}", process::id()));
    fs::write(&path, input)?;
    let file = File::open(&path);
    fs::remove_file(&path)?;
    file
}

/// What is heard, up to the end of the output. It is closed then: a program that goes on is not kept waiting.
fn hear_all<T>(
    mut output: BufReader<ChildStdout>,
    hear: impl FnOnce(&mut BufReader<ChildStdout>) -> Result<T, String>,
) -> Result<T, String> {
    let heard = hear(&mut output)?;
    match output.read(&mut [0]) {
        Ok(0) => Ok(heard),
        _ => Err(format!("the program {NAME} wrote more than its answers")),
    }
}
