//! Copies docs/src and puts in the lines of insertions.txt; nothing is taken out or changed.

use std::path::Path;

const ROOT: &str = "\
#[allow(dead_code)]
mod angle;
#[allow(dead_code)]
mod circuit;
#[allow(dead_code, unused_imports)]
pub mod pbc;
#[allow(dead_code)]
mod qasm;
";

fn main() {
    let insertions = sources::Edits::insertions(Path::new("insertions.txt"));
    let layout = sources::Layout::from_env();
    layout.root(ROOT);
    layout.circuit();
    layout.pbc("", &[&insertions]);
}
