//! Text of HTML, and words for counts and lists.

use dovebolt::Name;

pub use crate::drawing::svg::escaped;

/// A name, kept apart from the words around it whatever letters it has.
pub fn name(name: &Name) -> String {
    if name.is_empty() {
        return "(no name)".to_string();
    }
    format!("<bdi>{}</bdi>", escaped(&name.text()))
}

/// A count with its word.
pub fn count(n: usize, one: &str, many: &str) -> String {
    format!("{n} {}", if n == 1 { one } else { many })
}

/// `is` or `are`.
pub fn are(n: usize) -> &'static str {
    if n == 1 { "is" } else { "are" }
}

/// Words one after the other, the last behind "and".
pub fn list(words: &[String]) -> String {
    match words {
        [] => String::new(),
        [one] => one.clone(),
        [start @ .., last] => format!("{} and {last}", start.join(", ")),
    }
}

/// A picture in the page, with a name and a description for those who can't see it. `id` is its own in the page.
pub fn picture(id: &str, size: (f64, f64), title: &str, description: &str, body: &str) -> String {
    let (width, height) = size;
    format!(
        "<svg viewBox=\"0 0 {width:.0} {height:.0}\" role=\"img\" aria-labelledby=\"{id}-title {id}-desc\">\n\
         <title id=\"{id}-title\">{}</title>\n<desc id=\"{id}-desc\">{}</desc>\n{body}</svg>\n",
        escaped(title),
        escaped(description)
    )
}

/// What may be wider than a window, to be moved by keys too.
pub fn scrolled(label: &str, body: &str) -> String {
    format!(
        "<div class=\"scrolled\" role=\"region\" tabindex=\"0\" aria-label=\"{}\">\n{body}</div>\n",
        escaped(label)
    )
}
