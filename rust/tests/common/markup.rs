//! Marked up text: what stands in it, and whether it is well-formed.

/// What stands between each `start` and the `end` that follows it.
pub fn after_each<'a>(text: &'a str, start: &str, end: char) -> Vec<&'a str> {
    let parts = text.split(start).skip(1);
    parts.map(|part| part.split(end).next().unwrap()).collect()
}

/// Tags that close in order, no character that XML forbids, and no mark that isn't escaped.
pub fn well_formed(text: &str) {
    const ESCAPES: [&str; 5] = ["amp;", "lt;", "gt;", "quot;", "apos;"];
    assert!(!text.contains(|c: char| c.is_control() && c != '\n'));
    for part in text.split('&').skip(1) {
        assert!(ESCAPES.iter().any(|e| part.starts_with(e)), "&{part}");
    }
    let mut open = vec![];
    for part in text.split('<').skip(1) {
        let (tag, words) = part.split_once('>').expect("a tag ends");
        assert!(!words.contains('>'), "{part}");
        assert!(tag.matches('"').count() % 2 == 0, "{tag}");
        let name = tag.split(' ').next().unwrap();
        match name.strip_prefix('/') {
            Some(name) => assert_eq!(open.pop(), Some(name)),
            None if tag.ends_with('/') => {}
            None => open.push(name),
        }
    }
    assert!(open.is_empty(), "{open:?}");
}
