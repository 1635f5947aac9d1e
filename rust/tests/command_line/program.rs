//! Runs the program, and has the files that it is run on.

use std::ffi::OsStr;
use std::io::Write;
use std::path::{Path, PathBuf};
use std::process::{Command, Output, Stdio};
use std::{fs, thread};

use crate::json::{self, Object};

/// The repository's folder.
pub fn root() -> PathBuf {
    let package = Path::new(env!("CARGO_MANIFEST_DIR"));
    package.parent().expect("the package is in a folder").into()
}

pub fn sample(name: &str) -> PathBuf {
    root().join("samples").join(name)
}

/// The bytes of a sample.
pub fn sample_bytes(name: &str) -> Vec<u8> {
    let path = sample(name);
    fs::read(&path).unwrap_or_else(|e| panic!("{}: {e}", path.display()))
}

/// The program that the starter starts. A test of a program that isn't there fails, since it would try nothing.
pub fn program() -> PathBuf {
    let program = root().join("crates/menu_cli/out/menu_cli");
    assert!(
        program.is_file(),
        "{} is not built: run `(cd crates/menu_cli && rt run -- version)` in the repository's root",
        program.display()
    );
    program
}

/// The starter of a program that is built.
pub fn starter() -> PathBuf {
    program();
    root().join("menu_cli")
}

/// An empty folder of a test's own.
pub fn folder(name: &str) -> PathBuf {
    let folder = Path::new(env!("CARGO_TARGET_TMPDIR")).join(format!("command_line_{name}"));
    if folder.exists() {
        fs::remove_dir_all(&folder).unwrap();
    }
    fs::create_dir_all(&folder).unwrap();
    folder
}

/// A file in a folder.
pub fn file(folder: &Path, name: &str, bytes: impl AsRef<[u8]>) -> PathBuf {
    let path = folder.join(name);
    fs::write(&path, bytes).unwrap();
    path
}

/// What a run came to.
#[derive(Debug)]
pub struct Ran {
    pub status: i32,
    pub out: Vec<u8>,
    pub err: String,
}

impl Ran {
    fn of(output: Output) -> Ran {
        Ran {
            status: output.status.code().expect("the starter was killed"),
            out: output.stdout,
            err: String::from_utf8(output.stderr).expect("standard error is UTF-8"),
        }
    }

    /// Standard output, which is UTF-8 whatever went in.
    pub fn text(&self) -> &str {
        std::str::from_utf8(&self.out).expect("standard output is UTF-8")
    }

    pub fn lines(&self) -> Vec<&str> {
        self.text().lines().collect()
    }

    /// Standard output as a JSON object a line.
    pub fn objects(&self) -> Vec<Object> {
        let object =
            |line: &&str| json::object(line).unwrap_or_else(|e| panic!("{e} in the line {line}"));
        self.lines().iter().map(object).collect()
    }
}

pub fn words<W: AsRef<OsStr>>(words: &[W]) -> Command {
    let mut command = Command::new(starter());
    command.args(words);
    command
}

/// Runs a command with nothing on standard input.
pub fn run_command(command: &mut Command) -> Ran {
    let output = command.stdin(Stdio::null()).output();
    Ran::of(output.unwrap_or_else(|e| panic!("{command:?} can't be run: {e}")))
}

pub fn run<W: AsRef<OsStr>>(list: &[W]) -> Ran {
    run_command(&mut words(list))
}

/// Runs a command with these bytes on standard input.
pub fn run_on(command: &mut Command, input: &[u8]) -> Ran {
    command.stdin(Stdio::piped());
    command.stdout(Stdio::piped()).stderr(Stdio::piped());
    let mut child = command.spawn().unwrap();
    let mut pipe = child.stdin.take().unwrap();
    let input = input.to_vec();
    // A program that ends before it has read all closes the pipe, which is no failure of the test.
    let writer = thread::spawn(move || pipe.write_all(&input).ok());
    let output = child.wait_with_output().unwrap();
    writer.join().unwrap();
    Ran::of(output)
}

/// Replays calls on the sample menu.
pub fn replay(calls: impl AsRef<[u8]>) -> Ran {
    replay_of(&sample("title.sheet"), &sample("title.book"), calls, &[])
}

pub fn replay_json(calls: impl AsRef<[u8]>) -> Ran {
    let options = ["--json"];
    replay_of(
        &sample("title.sheet"),
        &sample("title.book"),
        calls,
        &options,
    )
}

pub fn replay_of(sheet: &Path, book: &Path, calls: impl AsRef<[u8]>, options: &[&str]) -> Ran {
    let mut command = words(&[OsStr::new("replay"), sheet.as_ref(), book.as_ref()]);
    run_on(command.args(options), calls.as_ref())
}
