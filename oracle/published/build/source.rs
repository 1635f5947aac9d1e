//! A published file, of which items are cut out by the head of their first line.

use std::path::Path;

pub struct Source {
    name: String,
    text: String,
}

impl Source {
    pub fn read(path: &Path) -> Self {
        let name = path.display().to_string();
        let text = std::fs::read_to_string(path).unwrap_or_else(|e| panic!("{name}: {e}"));
        Self { name, text }
    }

    pub fn whole(&self) -> String {
        self.text.clone()
    }

    /// The item that a line opens with `head`, to its closing brace. Braces are
    /// only counted: none of the kept items has one in a string or a comment.
    pub fn block(&self, head: &str) -> String {
        let (first, body) = self.find(head);
        let mut depth = 0;
        for (at, c) in self.text[body..].char_indices() {
            match c {
                '{' => depth += 1,
                '}' if depth == 1 => return self.text[first..=body + at].to_string(),
                '}' => depth -= 1,
                _ => {}
            }
        }
        panic!("{}: {head} is not closed", self.name);
    }

    /// The item that a line opens with `head`, to its semicolon outside of
    /// brackets.
    pub fn statement(&self, head: &str) -> String {
        let (first, body) = self.find(head);
        let mut depth = 0;
        for (at, c) in self.text[body..].char_indices() {
            match c {
                '[' => depth += 1,
                ']' => depth -= 1,
                ';' if depth == 0 => return self.text[first..=body + at].to_string(),
                _ => {}
            }
        }
        panic!("{}: {head} is not closed", self.name);
    }

    /// Some methods of a type, in an `impl` of their own.
    pub fn methods(&self, of: &str, heads: &[&str]) -> String {
        let methods: Vec<String> = heads.iter().map(|head| self.block(head)).collect();
        format!("impl {of} {{\n{}\n}}", methods.join("\n\n"))
    }

    /// Where the item begins, its attributes included, and where its own line
    /// does. A head that two lines open with is refused.
    fn find(&self, head: &str) -> (usize, usize) {
        let mut found = None;
        let mut attributes = None;
        let mut at = 0;
        for line in self.text.split_inclusive('\n') {
            let code = line.trim_start();
            if code.starts_with(head) {
                assert!(found.is_none(), "{}: {head} stands twice", self.name);
                found = Some((attributes.unwrap_or(at), at));
            }
            attributes = code.starts_with("#[").then(|| attributes.unwrap_or(at));
            at += line.len();
        }
        found.unwrap_or_else(|| panic!("{}: no {head}", self.name))
    }
}
