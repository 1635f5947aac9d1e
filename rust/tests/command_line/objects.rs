//! `--json`: every line is an object, and where the text has words for the same, the object has them too.

use std::path::PathBuf;

use dovebolt::Refusal;

use crate::program::{Ran, file, folder, replay, replay_json, run, sample, sample_bytes};

/// Runs with `--json` in front and at the end, which must be the same, and once as text.
fn both(list: &[&str]) -> (Ran, Ran) {
    let first = run(&[&["--json"], list].concat());
    let last = run(&[list, &["--json"]].concat());
    assert_eq!((&first.out, first.status), (&last.out, last.status));
    (run(list), first)
}

/// An object for each line of the text, and both with the same status.
fn line_by_line(list: &[&str]) -> (Ran, Ran) {
    let (text, objects) = both(list);
    assert_eq!(text.status, objects.status, "{list:?}");
    let lines = text.lines().len() + text.err.lines().count();
    assert_eq!(lines, objects.objects().len(), "{list:?}");
    assert!(objects.objects().iter().all(|object| !object.0.is_empty()));
    (text, objects)
}

fn path(path: PathBuf) -> String {
    path.into_os_string().into_string().unwrap()
}

#[test]
fn of_every_command() {
    let folder = folder("objects");
    let mut damaged = sample_bytes("title.sheet");
    damaged[14] = 7;
    let damaged = path(file(&folder, "damaged.sheet", damaged));
    let (sheet, book) = (path(sample("title.sheet")), path(sample("title.book")));
    let none = path(folder.join("none"));
    line_by_line(&["check", &sheet, &book, &damaged, &none, &book]);
    line_by_line(&["info", &sheet]);
    line_by_line(&["info", &sheet, &book]);
    line_by_line(&["info", &damaged, &book]);
    for animation in ["0", "1", "2"] {
        line_by_line(&["frames", &sheet, &book, animation]);
    }
    line_by_line(&["reach", &sheet, &sheet, &book]);
    line_by_line(&["reach", &sheet, &damaged, &book]);
    line_by_line(&["help"]);
    line_by_line(&["version"]);
}

/// The sample's content 12 is the pane ButtonCredits, which the sample's book hasn't. A warning doesn't change the status.
#[test]
fn warnings() {
    let (sheet, book) = (path(sample("title.sheet")), path(sample("title.book")));
    let (text, objects) = line_by_line(&["check", &sheet, &book]);
    let warning = format!(
        "warning: {sheet}: content 12 pane ButtonCredits: the book has nothing of that name"
    );
    let expected = [
        format!("{sheet}: ok, a sheet"),
        format!("{book}: ok, a book"),
        warning,
    ];
    assert_eq!(
        (text.status, text.lines()),
        (0, expected.iter().map(String::as_str).collect())
    );
    let objects = objects.objects();
    let warning = &objects[2];
    assert_eq!(
        (warning.text("file"), warning.count("content")),
        (&sheet[..], 12)
    );
    assert_eq!(
        (warning.text("type"), warning.text("name")),
        ("pane", "ButtonCredits")
    );
    assert_eq!(warning.text("warning"), "the book has nothing of that name");
    // The other way round there is no sheet before the book.
    let (text, _) = line_by_line(&["check", &book, &sheet]);
    assert_eq!(text.lines().len(), 2);
}

/// What a file is taken for: its name's end says, and else its bytes.
#[test]
fn sheets_and_books() {
    let folder = folder("kinds");
    let (sheet, book) = (sample_bytes("title.sheet"), sample_bytes("title.book"));
    let kind = |name: &str, bytes: &[u8]| {
        let name = path(file(&folder, name, bytes));
        let (_, objects) = line_by_line(&["check", &name]);
        let object = &objects.objects()[0];
        match object.text("answer") {
            "ok" => object.text("is").to_owned(),
            _ => Refusal::from_number(object.count("refusal") as u8)
                .unwrap()
                .to_string(),
        }
    };
    let hint = |name: &str| {
        let (text, objects) = line_by_line(&["check", &path(folder.join(name))]);
        let hint = objects.objects()[0].text("hint").to_owned();
        assert!(text.lines()[0].ends_with(&format!("; {hint}")));
        hint
    };
    assert_eq!(kind("a", &sheet), "sheet");
    assert_eq!(kind("b", &book), "book");
    assert_eq!(kind("a.sheet", &sheet), "sheet");
    assert_eq!(kind("b.book", &book), "book");
    assert_eq!(kind("a.book", &sheet), Refusal::Book.to_string());
    assert_eq!(kind("b.sheet", &book), Refusal::Sheet.to_string());
    assert_eq!(kind("c", b"neither"), Refusal::Sheet.to_string());
    assert_eq!(hint("a.book"), "it is a sheet");
    assert_eq!(hint("b.sheet"), "it is a book");
}

#[test]
fn of_the_sample_list_of_calls() {
    let calls = sample_bytes("edits.calls");
    let (text, objects) = (replay(&calls), replay_json(&calls));
    assert_eq!((text.status, objects.status), (1, 1));
    assert_eq!((text.err.as_str(), objects.err.as_str()), ("", ""));
    let (lines, objects) = (text.lines(), objects.objects());
    assert_eq!(lines.len(), objects.len());
    for (line, object) in lines.iter().zip(&objects) {
        if object.has("call") {
            let begin = format!("{} {}:", object.count("line"), object.text("call"));
            assert!(
                line.starts_with(&begin),
                "{line} doesn't begin with {begin}"
            );
        } else {
            assert!(
                line.starts_with("  ") && object.has("line"),
                "{line}: {object:?}"
            );
        }
    }
    // Each call is answered once, in order, and echoed by its words without the comment.
    let list = String::from_utf8(calls).unwrap();
    let call = |line: &str| {
        let before = line.split('#').next().unwrap();
        Vec::from_iter(before.split_whitespace()).join(" ")
    };
    let asked = list.lines().map(call).zip(1..);
    let asked = asked.filter(|(call, _)| !call.is_empty());
    let answered = objects.iter().filter(|object| object.has("call"));
    let answered = answered.map(|object| (object.text("call").to_owned(), object.count("line")));
    assert_eq!(Vec::from_iter(asked), Vec::from_iter(answered));
}

/// The program has the package's version, and `--quiet` takes nothing from the output.
#[test]
fn version_and_quiet() {
    let (text, objects) = line_by_line(&["version"]);
    let version = env!("CARGO_PKG_VERSION");
    assert_eq!(text.lines(), [format!("menu_cli {version}")]);
    assert_eq!(objects.objects()[0].text("version"), version);
    assert_eq!(run(&["--version"]).text(), text.text());
    let (sheet, book) = (path(sample("title.sheet")), path(sample("title.book")));
    let list = ["frames", &sheet, &book, "0"];
    let quiet = run(&[&list[..], &["--quiet"]].concat());
    assert_eq!(quiet.text(), run(&list).text());
    assert_eq!(run(&["check", "--help"]).text(), run(&["help"]).text());
}

/// `help refusals` has this package's words.
#[test]
fn of_the_refusals() {
    let (text, objects) = line_by_line(&["help", "refusals"]);
    let expected = Vec::from_iter(Refusal::ALL.iter().map(Refusal::to_string));
    assert_eq!(text.lines(), expected);
    for (object, refusal) in objects.objects().iter().zip(Refusal::ALL) {
        assert_eq!(object.count("refusal"), refusal.number().into());
        assert_eq!(object.text("words"), refusal.words());
    }
}
