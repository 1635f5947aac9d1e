//! Counts what was compared, and keeps the first difference.

use std::fmt::Debug;

#[derive(Default)]
pub struct Tally {
    pub compared: u64,
    pub differ: u64,
    first: Option<String>,
}

impl Tally {
    /// One case: `case` says what was asked, where the answers differ.
    pub fn add<A: PartialEq + Debug>(&mut self, rust: A, ours: A, case: impl FnOnce() -> String) {
        self.compared += 1;
        if rust != ours {
            self.differ += 1;
            self.first
                .get_or_insert_with(|| format!("{}\n  Rust {rust:?}\n  here {ours:?}", case()));
        }
    }

    /// What was asked and both answers, where they first differed.
    pub fn first(&self) -> Option<&str> {
        self.first.as_deref()
    }

    /// Prints one line, and the first difference if there is one. A run with a
    /// difference fails.
    pub fn report(&self, family: &str) {
        println!(
            "{family}: {} compared, {} differ",
            self.compared, self.differ
        );
        if let Some(first) = &self.first {
            println!("first difference: {first}");
            std::process::exit(1);
        }
    }
}
