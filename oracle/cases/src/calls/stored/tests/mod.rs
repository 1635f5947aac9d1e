//! What the stored lists reach, and that their answers have the form of `replay`'s.

mod form;
mod reached;
mod refusals;

use super::*;

/// An answer: the line's number and words, what stands behind them, and the further
/// lines.
struct Answered {
    number: usize,
    call: String,
    answer: String,
    rows: Vec<String>,
}

impl Answered {
    fn read(line: &str) -> Self {
        let (number, line) = line.split_once(' ').expect("a number and words");
        let (call, answer) = line.split_once(':').expect("words and an answer");
        let answer = match answer.strip_prefix(' ') {
            Some(answer) => answer,
            None => {
                assert_eq!(answer, "", "{call}");
                ""
            }
        };
        Self {
            number: number.parse().expect("a number"),
            call: call.to_string(),
            answer: answer.to_string(),
            rows: Vec::new(),
        }
    }

    fn words(&self) -> Vec<&str> {
        self.call.split(' ').collect()
    }
}

fn answered(list: &List) -> Vec<Answered> {
    let mut all: Vec<Answered> = Vec::new();
    for line in String::from_utf8_lossy(&list.answers).lines() {
        match line.strip_prefix("  ") {
            Some(row) => {
                let last = all.last_mut().expect("an answer before its rows");
                last.rows.push(row.to_string());
            }
            None => all.push(Answered::read(line)),
        }
    }
    all
}

/// The answers of all lists.
fn all_answered() -> Vec<Answered> {
    lists(1).flat_map(|list| answered(&list)).collect()
}

/// Asserts that each of these is met often enough.
fn each_occurs<T>(words: &[&str], least: usize, of: &[T], met: fn(&T, &str) -> bool) {
    for word in words {
        let count = of.iter().filter(|one| met(one, word)).count();
        println!("{word}: {count}");
        assert!(count >= least, "{word}: {count}");
    }
}
