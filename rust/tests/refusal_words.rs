//! A refusal has the same words here, in the C header and on the command line.

use std::fs;
use std::path::Path;

use dovebolt::Refusal;

fn file(name: &str) -> String {
    let path = Path::new(env!("CARGO_MANIFEST_DIR")).join("..").join(name);
    fs::read_to_string(&path).unwrap_or_else(|e| panic!("{}: {e}", path.display()))
}

/// A line for each refusal, as it is displayed.
fn displayed() -> Vec<String> {
    Refusal::ALL.iter().map(Refusal::to_string).collect()
}

/// The entries `MENU_SHEET = 1, /* WORDS */` of the header's enum. A comment may go on in the next lines.
#[test]
fn as_the_header_has_them() {
    let header = file("include/menu.h");
    let (_, from) = header.split_once("enum menu_refusal {").unwrap();
    let (body, _) = from.split_once("};").unwrap();
    let entries = body.split_once("MENU_OK = 0,").unwrap().1.split("*/");
    let declared = entries.filter_map(|entry| {
        let (constant, comment) = entry.split_once("/*")?;
        let (_, number) = constant.split_once(" = ")?;
        let words = comment.split_whitespace().filter(|word| *word != "*");
        let words = words.collect::<Vec<_>>().join(" ");
        let number = number.trim().trim_end_matches(',');
        Some(format!("refusal {number}: {words}"))
    });
    assert_eq!(declared.collect::<Vec<_>>(), displayed());
}

/// The lines `refusal 1: WORDS` of `menu_cli help refusals`, in the stored output of the program that tries it.
#[test]
fn as_the_command_line_prints_them() {
    let output = file("crates/cli_cases/stdout");
    let heading = "== menu_cli help refusals\n";
    let (_, from) = output
        .split_once(heading)
        .expect("crates/cli_cases/stdout has no `menu_cli help refusals`");
    let own = from.lines().take_while(|line| !line.starts_with("== "));
    let printed = own
        .map(str::trim)
        .filter(|line| line.starts_with("refusal "));
    assert_eq!(printed.collect::<Vec<_>>(), displayed());
}
