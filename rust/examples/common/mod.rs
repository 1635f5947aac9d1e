//! What the example programs share: errors behind the name of what they are about, and the end of a program.

use std::error::Error;
use std::fmt;
use std::fs;
use std::io;
use std::path::Path;
use std::process::ExitCode;

/// A file's bytes, or what is wrong, behind the file's name.
pub fn read(path: impl AsRef<Path>) -> Result<Vec<u8>, String> {
    let path = path.as_ref();
    of_file(path, fs::read(path))
}

/// What was done with a file, or why not, behind the file's name.
pub fn of_file<T>(path: &Path, done: io::Result<T>) -> Result<T, String> {
    named(
        &path.display().to_string(),
        done.map_err(|error| reason(&error)),
    )
}

/// What was done, or why not, behind the name of what it was done with: a file, an animation, a frame.
pub fn named<T>(name: &str, done: Result<T, impl fmt::Display>) -> Result<T, String> {
    done.map_err(|error| format!("{name}: {error}"))
}

/// The system's words without its number.
fn reason(error: &io::Error) -> String {
    let mut words = error.to_string();
    if let Some(number) = words.find(" (os error ") {
        words.truncate(number);
    }
    words
}

/// Ends a program: an error goes to standard error behind the program's name, and the exit status is then not 0.
pub fn ended(program: &str, done: Result<(), Box<dyn Error>>) -> ExitCode {
    match done {
        Ok(()) => ExitCode::SUCCESS,
        Err(error) => {
            eprintln!("{program}: {error}");
            ExitCode::FAILURE
        }
    }
}
