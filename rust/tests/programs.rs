//! The example programs, run on the example menu; `pictures` looks at what `filmstrip` draws, of the sample menu too.

#[path = "common/markup.rs"]
mod markup;
mod pictures;

use std::path::{Path, PathBuf};
use std::process::Command;
use std::{env, fs};

use dovebolt::example;

/// An example is built beside this test: target/PROFILE/examples.
fn program(name: &str) -> Command {
    let test = env::current_exe().unwrap();
    Command::new(test.ancestors().nth(2).unwrap().join("examples").join(name))
}

/// A folder of its own with the example menu.
fn menu(name: &str) -> PathBuf {
    let folder = Path::new(env!("CARGO_TARGET_TMPDIR")).join(name);
    fs::create_dir_all(&folder).unwrap();
    fs::write(folder.join("small.sheet"), example::sheet()).unwrap();
    fs::write(folder.join("small.book"), example::book()).unwrap();
    folder
}

fn run(program: &mut Command) -> String {
    let output = program
        .output()
        .unwrap_or_else(|e| panic!("{program:?} can't be run: {e}"));
    assert!(
        output.status.success(),
        "{program:?}: {}",
        String::from_utf8_lossy(&output.stderr)
    );
    String::from_utf8(output.stdout).unwrap()
}

#[test]
fn play() {
    let folder = menu("play");
    let files = [folder.join("small.sheet"), folder.join("small.book")];
    let text = run(program("play").args(&files).arg("0"));
    let lines: Vec<&str> = text.lines().collect();
    assert_eq!(lines[0], "frame 0: Running");
    assert!(lines.contains(&"frame 4: Running"));
    assert!(lines.contains(&"    pane 1 translate_x: 8"));
    assert!(lines.contains(&"    material 0 black_red: 200"));
    assert_eq!(lines.last(), Some(&"next: Idle"));

    let declined = program("play").args(&files).arg("2").output().unwrap();
    assert!(!declined.status.success());
}

#[test]
fn filmstrip_failures() {
    let folder = menu("failures");
    let [sheet, book, none, broken] =
        ["small.sheet", "small.book", "none", "broken"].map(|name| folder.join(name));
    fs::write(&broken, "neither").unwrap();
    let fails = |words: [&Path; 4], expected: String| {
        let output = program("filmstrip").args(words).output().unwrap();
        assert!(!output.status.success());
        let text = String::from_utf8(output.stderr).unwrap();
        assert!(
            text.starts_with(&format!("filmstrip: {expected}")),
            "{text}"
        );
        assert_eq!(text.lines().count(), 1);
    };
    let shown = |path: &Path| path.display().to_string();
    let missing = |path: &Path| format!("{}: No such file or directory\n", shown(path));
    let zero = Path::new("0");
    fails([&none, &book, zero, &folder], missing(&none));
    fails([&sheet, &none, zero, &folder], missing(&none));
    fails(
        [&sheet, &book, zero, &none],
        missing(&none.join("small-0.svg")),
    );
    fails(
        [&broken, &book, zero, &folder],
        shown(&broken) + ": refusal 1: ",
    );
    fails(
        [&sheet, &broken, zero, &folder],
        shown(&broken) + ": refusal 2: ",
    );
    for number in ["2", "65535"] {
        let expected = format!("{}: animation {number}: refusal 6: ", shown(&sheet));
        fails([&sheet, &book, Path::new(number), &folder], expected);
    }
    for word in ["first", "65536", ""] {
        let expected = format!("animation {word:?}: ");
        fails([&sheet, &book, Path::new(word), &folder], expected);
    }
}
