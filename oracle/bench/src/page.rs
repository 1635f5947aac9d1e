//! How a table is written.

use crate::timing::Figure;

#[derive(Clone, Copy)]
pub struct Page {
    /// Whether a cell also has, in brackets, the tenth part of the rounds below
    /// and above.
    pub spread: bool,
}

impl Page {
    pub fn head(self, title: &str, columns: &[&str]) {
        println!("\n### {title}\n");
        println!("| {} |", columns.join(" | "));
        println!("|{}", "---|".repeat(columns.len()));
    }

    pub fn row(self, cells: &[String]) {
        println!("| {} |", cells.join(" | "));
    }

    /// The least and the median.
    pub fn cell(self, figure: Figure) -> String {
        let [least, median, low, high] =
            [figure.least, figure.median, figure.low, figure.high].map(number);
        if self.spread {
            format!("{least} / {median} ({low} to {high})")
        } else {
            format!("{least} / {median}")
        }
    }

    pub fn ratio(self, figure: Figure) -> String {
        format!("{} ×", self.cell(figure))
    }
}

/// Two places, and a third where two would leave one digit or none.
fn number(x: f64) -> String {
    let places = if x < 0.1 { 3 } else { 2 };
    format!("{x:.places$}")
}

#[cfg(test)]
mod tests {
    use super::*;

    #[test]
    fn cells_with_and_without_the_spread() {
        let figure = Figure {
            least: 0.0424,
            median: 0.126,
            low: 0.05,
            high: 12.345,
        };
        let [plain, full] = [false, true].map(|spread| Page { spread });
        assert_eq!(plain.cell(figure), "0.042 / 0.13");
        assert_eq!(plain.ratio(figure), "0.042 / 0.13 ×");
        assert_eq!(full.cell(figure), "0.042 / 0.13 (0.050 to 12.35)");
    }
}
