//! `store CRATES`: writes every file of `cases::stored`:
//! `cargo run --release -p cases --bin store -- ../crates`.

use std::path::PathBuf;

fn main() {
    let crates = PathBuf::from(std::env::args().nth(1).expect("store CRATES"));
    for (name, bytes) in cases::stored::files() {
        let path = crates.join(&name);
        std::fs::create_dir_all(path.parent().unwrap()).unwrap();
        std::fs::write(path, &bytes).unwrap();
        println!("{name}: {} bytes", bytes.len());
    }
}
