//! Prepares the published text for compiling. Files that compile as they are
//! are included by src/ from where they lie; here are only those of which a
//! part is kept, or whose sine and cosine are replaced.

#[path = "build/source.rs"]
mod source;

use source::Source;
use std::path::Path;

const DOCS: &str = "../../../shared/docs";

fn main() {
    if !Path::new(DOCS).is_dir() {
        println!(
            "cargo::error=the published Rust is missing: expected the folder shared/docs beside this repository"
        );
        return;
    }
    println!("cargo::rerun-if-changed={DOCS}");
    println!("cargo::rerun-if-changed=build");

    write(
        "anim_state.rs",
        with_stand_in(&read("src--nnbfl-preview--src--anim_state.rs.txt").whole()),
    );
    write("pane_tree.rs", with_stand_in(&pane_tree()));
    write("list.rs", list());
    write("timeline.rs", timeline());
}

/// Document 01, "UVs and corners": the Rust is built with a stand-in for sine
/// and cosine. Only these three calls change; `sine.rs` has the trait.
fn with_stand_in(text: &str) -> String {
    text.replace(".sin()", ".stand_in_sin()")
        .replace(".cos()", ".stand_in_cos()")
        .replace(".sin_cos()", ".stand_in_sin_cos()")
}

/// The corners, the UVs and the cascade, with the methods that they call.
fn pane_tree() -> String {
    let text = read("src--nnbfl-preview--src--pane_tree.rs.txt");
    let node = [
        "pub fn all_children(&self)",
        "pub fn all_children_mut(&mut self)",
        "pub fn mark_transform_dirty(&mut self)",
        "fn walk_mut<F>(&mut self, f: &mut F)",
        "pub fn compute_uvs(",
        "pub fn apply_srt_to_uvs(",
    ];
    let tree = [
        "pub fn set_animation(&mut self",
        "pub fn update_animation_visuals(&mut self)",
        "pub fn for_each_mut<F>(&mut self",
        "pub fn label_to_idx(&self)",
    ];
    [
        text.statement("pub type UvMatrix4x3x2"),
        text.statement("pub struct PaneId("),
        text.block("pub struct Corners {"),
        text.block("impl Corners {"),
        text.methods("PaneNode", &node),
        text.methods("PaneTree", &tree),
    ]
    .join("\n\n")
}

/// The texture's scale, rotation and translation.
fn list() -> String {
    let text = read("src--nnbfl--src--bflyt--list.rs.txt");
    [
        text.block("pub struct MaterialTextureSrt {"),
        text.block("impl Default for MaterialTextureSrt {"),
    ]
    .join("\n\n")
}

/// What an edit of a key says.
fn timeline() -> String {
    let text = read("src--nnbfl-preview--src--ui--timeline.rs.txt");
    [
        text.block("pub struct TimelineTrack {"),
        text.block("pub struct PendingKeyEdit {"),
        text.block("pub struct PendingSlopeEdit {"),
    ]
    .join("\n\n")
}

fn read(name: &str) -> Source {
    Source::read(&Path::new(DOCS).join(name))
}

fn write(name: &str, text: String) {
    let dir = std::env::var("OUT_DIR").unwrap();
    std::fs::write(Path::new(&dir).join(name), text).unwrap();
}
