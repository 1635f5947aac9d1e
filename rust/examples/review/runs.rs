//! Rising numbers as runs, however many they are.

/// Runs that are told in words; more are counted.
const MOST: usize = 8;

/// The first and the last number of each run.
#[derive(Default)]
pub struct Runs(Vec<(usize, usize)>);

impl Runs {
    /// Adds a number that is above all others.
    pub fn push(&mut self, number: usize) {
        match self.0.last_mut() {
            Some((_, last)) if *last + 1 == number => *last = number,
            _ => self.0.push((number, number)),
        }
    }

    pub fn count(&self) -> usize {
        self.0.iter().map(|(first, last)| last - first + 1).sum()
    }

    pub fn iter(&self) -> impl Iterator<Item = usize> {
        self.0.iter().flat_map(|(first, last)| *first..=*last)
    }

    /// As `1 to 3, 7`.
    pub fn words(&self) -> String {
        let run = |(first, last): &(usize, usize)| match last - first {
            0 => format!("{first}"),
            _ => format!("{first} to {last}"),
        };
        let mut words: Vec<String> = self.0.iter().take(MOST).map(run).collect();
        if self.0.len() > MOST {
            words.push(format!("and {} more runs", self.0.len() - MOST));
        }
        words.join(", ")
    }
}
