//! Writes the sample menu: `title.sheet` and `title.book`, into the folder that the argument names.
mod title;

use std::error::Error;
use std::path::Path;

fn main() -> Result<(), Box<dyn Error>> {
    let folder = std::env::args().nth(1).unwrap_or_else(|| "..".into());
    let folder = Path::new(&folder);
    std::fs::write(folder.join("title.sheet"), title::sheet()?)?;
    std::fs::write(folder.join("title.book"), title::book()?)?;
    Ok(())
}

/// The stored files are what this program writes.
#[test]
fn stored() {
    let folder = Path::new(env!("CARGO_MANIFEST_DIR")).join("..");
    let stored = |name| std::fs::read(folder.join(name)).unwrap();
    assert_eq!(title::sheet().unwrap(), stored("title.sheet"));
    assert_eq!(title::book().unwrap(), stored("title.book"));
}
